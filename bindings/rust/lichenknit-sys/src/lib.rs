//! The functions, structs and numbers of lichenknit.h, by their names there; the header says what each does. The crate `lichenknit` over it
//! is safe.
//!
//! It links `liblichenknit.a` of the folder `$LICHENKNIT_LIB_DIR`, or the `liblichenknit.so` that the system has.

#![no_std]
#![allow(non_camel_case_types)]

mod numbers;

use core::ffi::{c_char, c_void};

pub use numbers::*;

/// What a call answers: a number like `SCI_OK`.
pub type sci_status = u32;

/// An operation on a word of a line. An operand that the act doesn't have isn't looked at.
#[repr(C)]
#[derive(Clone, Copy, Debug, Default, PartialEq, Eq)]
pub struct sci_op {
    pub act: u8,
    pub line: u8,
    pub word: u8,
    pub reserved: u8,
    pub arg: u64,
    pub datum: u64,
}

/// An event of a machine. A field that the kind doesn't have isn't looked at.
#[repr(C)]
#[derive(Clone, Copy, Debug, Default, PartialEq, Eq)]
pub struct sci_event {
    pub kind: u8,
    pub node: u8,
    pub from: u8,
    pub line: u8,
    pub ask: u8,
    pub op: sci_op,
}

/// A packet. has_contents is 1 if it carries version and words, and else 0.
#[repr(C)]
#[derive(Clone, Copy, Debug, Default, PartialEq, Eq)]
pub struct sci_packet {
    pub target: u16,
    pub command: u16,
    pub source: u16,
    pub control: u16,
    pub line: u64,
    pub identifier: u16,
    pub has_contents: u16,
    pub reserved: u32,
    pub version: u64,
    pub words: [u64; 8],
}

/// The contents of a line, and the number of their version.
#[repr(C)]
#[derive(Clone, Copy, Debug, Default, PartialEq, Eq)]
pub struct sci_stamped {
    pub version: u64,
    pub words: [u64; 8],
}

/// An entry of a log. has_word is 1 if the operation answered word, and 0 for a store.
#[repr(C)]
#[derive(Clone, Copy, Debug, Default, PartialEq, Eq)]
pub struct sci_entry {
    pub node: u8,
    pub has_word: u8,
    pub reserved: u16,
    pub serial: u32,
    pub op: sci_op,
    pub word: u64,
    pub version: u64,
}

/// What a node's cache has of a line.
#[repr(C)]
#[derive(Clone, Copy, Debug, Default, PartialEq, Eq)]
pub struct sci_held {
    pub state: u8,
    pub waits: u8,
    pub has_contents: u8,
    pub reserved: u8,
    pub forward: u16,
    pub backward: u16,
    pub contents: sci_stamped,
}

/// What the home of a line knows.
#[repr(C)]
#[derive(Clone, Copy, Debug, Default, PartialEq, Eq)]
pub struct sci_home {
    pub state: u8,
    pub has_contents: u8,
    pub head: u16,
    pub reserved: u32,
    pub contents: sci_stamped,
}

/// What a step did: the packet that it sent or took, and the entry that it logged. What there is not is 0.
#[repr(C)]
#[derive(Clone, Copy, Debug, Default, PartialEq, Eq)]
pub struct sci_seen {
    pub has_packet: u32,
    pub has_entry: u32,
    pub packet: sci_packet,
    pub entry: sci_entry,
}

/// What a node does next. A field that the kind doesn't have is 0.
#[repr(C)]
#[derive(Clone, Copy, Debug, Default, PartialEq, Eq)]
pub struct sci_want {
    pub kind: u8,
    pub line: u8,
    pub ask: u8,
    pub reserved: u8,
}

/// The events of a schedule that weren't enabled when they came, and so changed nothing. All is 0 if there are none.
#[repr(C)]
#[derive(Clone, Copy, Debug, Default, PartialEq, Eq)]
pub struct sci_dead {
    pub count: u32,
    pub place: u32,
    pub obstacle: u32,
}

/// What an audit finds: on which line, and the entry where the rule fails, if has_entry is 1.
#[repr(C)]
#[derive(Clone, Copy, Debug, Default, PartialEq, Eq)]
pub struct sci_verdict {
    pub kind: u32,
    pub line: u32,
    pub has_entry: u32,
    pub node: u32,
    pub serial: u32,
}

/// The first fault of a text. line counts from 1.
#[repr(C)]
#[derive(Clone, Copy, Debug, Default, PartialEq, Eq)]
pub struct sci_text_fault {
    pub line: u64,
    pub kind: u32,
    pub reserved: u32,
}

/// An operation of a trace without versions. A word that its kind doesn't have isn't looked at.
#[repr(C)]
#[derive(Clone, Copy, Debug, Default, PartialEq, Eq)]
pub struct sci_access {
    pub processor: u8,
    pub kind: u8,
    pub reserved: u16,
    pub reserved2: u32,
    pub address: u64,
    pub read: u64,
    pub wrote: u64,
    pub begin: u64,
    pub end: u64,
    pub id: u64,
}

/// The last word at an address.
#[repr(C)]
#[derive(Clone, Copy, Debug, Default, PartialEq, Eq)]
pub struct sci_last_word {
    pub address: u64,
    pub word: u64,
}

/// How a trace is judged.
#[repr(C)]
#[derive(Clone, Copy, Debug, Default, PartialEq, Eq)]
pub struct sci_trace_way {
    pub timed: u32,
    pub ordered: u32,
    pub limit: u64,
}

/// What the judge says of a trace. What the kind doesn't have is 0.
#[repr(C)]
#[derive(Clone, Copy, Debug, Default, PartialEq, Eq)]
pub struct sci_judgement {
    pub kind: u32,
    pub freedom: u32,
    pub consistency: u32,
    pub witness: u32,
    pub address: u64,
    pub named: u64,
}

/// A machine, in the caller's memory. All zero it is empty.
#[repr(C)]
#[derive(Debug)]
pub struct sci_machine {
    pub at: *mut c_void,
    pub live: u32,
}

/// A node, in the caller's memory.
#[repr(C)]
#[derive(Debug)]
pub struct sci_node {
    pub at: *mut c_void,
    pub live: u32,
}

/// Logs, in the caller's memory.
#[repr(C)]
#[derive(Debug)]
pub struct sci_logs {
    pub at: *mut c_void,
    pub live: u32,
}

/// A scoreboard, in the caller's memory.
#[repr(C)]
#[derive(Debug)]
pub struct sci_scoreboard {
    pub at: *mut c_void,
    pub live: u32,
}

unsafe extern "C" {
    pub fn sci_version() -> u32;
    pub fn sci_layout(sizes: *mut [u64; 8]);
    pub fn sci_layout_more(sizes: *mut [u64; 9]);
    pub fn sci_status_text(status: sci_status) -> *const c_char;
    pub fn sci_status_name(status: sci_status) -> *const c_char;
    pub fn sci_command_name(command: u32) -> *const c_char;
    pub fn sci_state_name(state: u32) -> *const c_char;
    pub fn sci_home_state_name(state: u32) -> *const c_char;
    pub fn sci_obstacle_name(obstacle: u32) -> *const c_char;
    pub fn sci_verdict_name(kind: u32) -> *const c_char;
    pub fn sci_packet_decode(
        bytes: *const u8,
        length: usize,
        packet: *mut sci_packet,
        used: *mut usize,
    ) -> sci_status;
    pub fn sci_packet_encode(
        packet: *const sci_packet,
        bytes: *mut [u8; 88],
        used: *mut usize,
    ) -> sci_status;
    pub fn sci_packet_from_words(
        words: *const u64,
        length: usize,
        packet: *mut sci_packet,
        used: *mut usize,
    ) -> sci_status;
    pub fn sci_packet_to_words(
        packet: *const sci_packet,
        words: *mut [u64; 11],
        used: *mut usize,
    ) -> sci_status;
    pub fn sci_packet_write(
        packet: *const sci_packet,
        text: *mut u8,
        room: usize,
        used: *mut usize,
    ) -> sci_status;
    pub fn sci_event_write(
        event: *const sci_event,
        text: *mut u8,
        room: usize,
        used: *mut usize,
    ) -> sci_status;
    pub fn sci_size_write(
        nodes: u8,
        lines: u8,
        slots: u8,
        text: *mut u8,
        room: usize,
        used: *mut usize,
    ) -> sci_status;
    pub fn sci_entry_write(
        entry: *const sci_entry,
        text: *mut u8,
        room: usize,
        used: *mut usize,
    ) -> sci_status;
    pub fn sci_machine_open(
        machine: *mut sci_machine,
        nodes: u8,
        lines: u8,
        slots: u8,
        limit: u32,
    ) -> sci_status;
    pub fn sci_machine_close(machine: *mut sci_machine) -> sci_status;
    pub fn sci_machine_step(machine: *mut sci_machine, event: *const sci_event) -> sci_status;
    pub fn sci_machine_step_seen(
        machine: *mut sci_machine,
        event: *const sci_event,
        seen: *mut sci_seen,
    ) -> sci_status;
    pub fn sci_machine_obstacle(
        machine: *const sci_machine,
        event: *const sci_event,
        obstacle: *mut u32,
    ) -> sci_status;
    pub fn sci_machine_replay(
        machine: *mut sci_machine,
        text: *const u8,
        length: usize,
        limit: u32,
        dead: *mut sci_dead,
        fault: *mut sci_text_fault,
    ) -> sci_status;
    pub fn sci_machine_clone(machine: *const sci_machine, copy: *mut sci_machine) -> sci_status;
    pub fn sci_machine_held(
        machine: *const sci_machine,
        node: u8,
        line: u8,
        held: *mut sci_held,
    ) -> sci_status;
    pub fn sci_machine_home(
        machine: *const sci_machine,
        node: u8,
        line: u8,
        home: *mut sci_home,
    ) -> sci_status;
    pub fn sci_machine_pending(
        machine: *const sci_machine,
        node: u8,
        line: u8,
        op: *mut sci_op,
        serial: *mut u32,
    ) -> sci_status;
    pub fn sci_machine_answer(
        machine: *const sci_machine,
        node: u8,
        packet: *mut sci_packet,
    ) -> sci_status;
    pub fn sci_machine_packet(
        machine: *const sci_machine,
        lane: u32,
        from: u8,
        to: u8,
        place: usize,
        packet: *mut sci_packet,
    ) -> sci_status;
    pub fn sci_machine_sharing(
        machine: *const sci_machine,
        line: u8,
        nodes: *mut u8,
        room: usize,
        used: *mut usize,
    ) -> sci_status;
    pub fn sci_machine_settle(machine: *mut sci_machine, events: *mut u32) -> sci_status;
    pub fn sci_machine_last(
        machine: *const sci_machine,
        line: u8,
        contents: *mut sci_stamped,
    ) -> sci_status;
    pub fn sci_machine_authority(
        machine: *const sci_machine,
        line: u8,
        node: *mut u8,
    ) -> sci_status;
    pub fn sci_machine_logs(machine: *const sci_machine, logs: *mut sci_logs) -> sci_status;
    pub fn sci_node_open(
        node: *mut sci_node,
        me: u8,
        nodes: u8,
        lines: u8,
        slots: u8,
        limit: u32,
    ) -> sci_status;
    pub fn sci_node_close(node: *mut sci_node) -> sci_status;
    pub fn sci_node_clone(node: *const sci_node, copy: *mut sci_node) -> sci_status;
    pub fn sci_node_start_log(node: *mut sci_node, limit: u32) -> sci_status;
    pub fn sci_node_issue(node: *mut sci_node, op: *const sci_op, serial: *mut u32) -> sci_status;
    pub fn sci_node_perform(node: *mut sci_node, line: u8, entry: *mut sci_entry) -> sci_status;
    pub fn sci_node_ask(
        node: *mut sci_node,
        line: u8,
        ask: u8,
        packet: *mut [u8; 88],
        used: *mut usize,
    ) -> sci_status;
    pub fn sci_node_take_answer(
        node: *mut sci_node,
        packet: *mut [u8; 88],
        used: *mut usize,
    ) -> sci_status;
    pub fn sci_node_serve(node: *mut sci_node, packet: *const u8, length: usize) -> sci_status;
    pub fn sci_node_refuse(node: *mut sci_node, packet: *const u8, length: usize) -> sci_status;
    pub fn sci_node_accept(node: *mut sci_node, packet: *const u8, length: usize) -> sci_status;
    pub fn sci_node_turn(
        node: *mut sci_node,
        came: *const sci_packet,
        count: usize,
        taken: *mut u8,
        marks: usize,
        sent: *mut sci_packet,
        room: usize,
        used: *mut usize,
        want: *mut sci_want,
    ) -> sci_status;
    pub fn sci_node_begin_turn(node: *mut sci_node) -> sci_status;
    pub fn sci_node_next(node: *mut sci_node, want: *mut sci_want) -> sci_status;
    pub fn sci_node_decide(
        node: *const sci_node,
        packet: *const u8,
        length: usize,
        decision: *mut u32,
    ) -> sci_status;
    pub fn sci_node_first_sender(node: *const sci_node, from: *mut u8) -> sci_status;
    pub fn sci_node_held(node: *const sci_node, line: u8, held: *mut sci_held) -> sci_status;
    pub fn sci_node_home_state(node: *const sci_node, line: u8, home: *mut sci_home) -> sci_status;
    pub fn sci_node_answer(node: *const sci_node, packet: *mut sci_packet) -> sci_status;
    pub fn sci_node_pending(
        node: *const sci_node,
        line: u8,
        op: *mut sci_op,
        serial: *mut u32,
    ) -> sci_status;
    pub fn sci_node_home(node: *const sci_node, line: u8, contents: *mut sci_stamped)
    -> sci_status;
    pub fn sci_node_is_at_rest(node: *const sci_node, at_rest: *mut u32) -> sci_status;
    pub fn sci_logs_open(logs: *mut sci_logs, nodes: u8, lines: u8) -> sci_status;
    pub fn sci_logs_close(logs: *mut sci_logs) -> sci_status;
    pub fn sci_logs_push(logs: *mut sci_logs, entry: *const sci_entry) -> sci_status;
    pub fn sci_logs_set_last(
        logs: *mut sci_logs,
        line: u8,
        contents: *const sci_stamped,
    ) -> sci_status;
    pub fn sci_logs_last(logs: *const sci_logs, line: u8, contents: *mut sci_stamped)
    -> sci_status;
    pub fn sci_logs_set_first(
        logs: *mut sci_logs,
        line: u8,
        contents: *const sci_stamped,
    ) -> sci_status;
    pub fn sci_logs_first(
        logs: *const sci_logs,
        line: u8,
        contents: *mut sci_stamped,
    ) -> sci_status;
    pub fn sci_logs_go_on(logs: *mut sci_logs) -> sci_status;
    pub fn sci_logs_size(logs: *const sci_logs, nodes: *mut u8, lines: *mut u8) -> sci_status;
    pub fn sci_logs_count(logs: *const sci_logs, node: u8, count: *mut usize) -> sci_status;
    pub fn sci_logs_entry(
        logs: *const sci_logs,
        node: u8,
        place: usize,
        entry: *mut sci_entry,
    ) -> sci_status;
    pub fn sci_logs_audit(logs: *const sci_logs, verdict: *mut sci_verdict) -> sci_status;
    pub fn sci_logs_audit_cut_off(logs: *const sci_logs, verdict: *mut sci_verdict) -> sci_status;
    pub fn sci_logs_explain(
        logs: *const sci_logs,
        text: *mut u8,
        room: usize,
        used: *mut usize,
    ) -> sci_status;
    pub fn sci_logs_wanted(
        logs: *const sci_logs,
        word: *mut u64,
        has_maker: *mut u32,
        maker: *mut sci_entry,
    ) -> sci_status;
    pub fn sci_logs_order(
        logs: *const sci_logs,
        kind: *mut u32,
        entries: *mut sci_entry,
        room: usize,
        used: *mut usize,
    ) -> sci_status;
    pub fn sci_logs_order_kind(logs: *const sci_logs, kind: *mut u32) -> sci_status;
    pub fn sci_logs_read(
        logs: *mut sci_logs,
        text: *const u8,
        length: usize,
        fault: *mut sci_text_fault,
    ) -> sci_status;
    pub fn sci_logs_write(
        logs: *const sci_logs,
        text: *mut u8,
        room: usize,
        used: *mut usize,
    ) -> sci_status;
    pub fn sci_scoreboard_open(scoreboard: *mut sci_scoreboard, nodes: u8, lines: u8)
    -> sci_status;
    pub fn sci_scoreboard_close(scoreboard: *mut sci_scoreboard) -> sci_status;
    pub fn sci_scoreboard_begin(
        scoreboard: *mut sci_scoreboard,
        line: u8,
        contents: *const sci_stamped,
    ) -> sci_status;
    pub fn sci_scoreboard_contents(
        scoreboard: *const sci_scoreboard,
        line: u8,
        contents: *mut sci_stamped,
    ) -> sci_status;
    pub fn sci_scoreboard_tell(
        scoreboard: *mut sci_scoreboard,
        entry: *const sci_entry,
        verdict: *mut sci_verdict,
    ) -> sci_status;
    pub fn sci_trace_judge(
        accesses: *const sci_access,
        count: usize,
        last: *const sci_last_word,
        last_count: usize,
        way: *const sci_trace_way,
        judgement: *mut sci_judgement,
        ids: *mut u64,
        room: usize,
    ) -> sci_status;
}
