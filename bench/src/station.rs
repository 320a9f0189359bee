//! Stations: each has a node, and shares the lanes with the others through a table of atomic words.

use crate::memory::{Contents, Logs, Op};
use crate::node::{Node, last_contents};
use crate::packet::{LONG_WORDS, NodeId, Packet};
use crate::policy::{Decision, Policy, Want};
use crate::text::Size;
use std::sync::atomic::{AtomicU64, Ordering::SeqCst};

/// The cells of a lane.
const CELLS: usize = 4;
/// The kinds of lanes.
const REQUESTS: usize = 0;
const ANSWERS: usize = 1;
/// How many operations of a node are pending at most.
const WINDOW: usize = 4;

/// The words of a packet. A cell is empty if its first word is 0.
type Cell = [AtomicU64; LONG_WORDS];
type Lane = [Cell; CELLS];

/// The lanes of each kind, by sender and then by receiver.
pub struct Table {
    size: Size,
    lanes: [Vec<Lane>; 2],
}

impl Table {
    pub fn new(size: Size) -> Table {
        let lanes = || (0..size.nodes * size.nodes).map(|_| Lane::default()).collect();
        Table { size, lanes: [lanes(), lanes()] }
    }

    fn cell(&self, kind: usize, from: usize, to: usize, number: u8) -> &Cell {
        &self.lanes[kind][from * self.size.nodes + to][usize::from(number) % CELLS]
    }
}

/// The packet in a cell, or None if it is empty.
fn read(cell: &Cell) -> Option<Packet> {
    let first = cell[0].load(SeqCst);
    if first == 0 {
        return None;
    }
    let packet = Packet::read(first, cell[1].load(SeqCst), || {
        Some(Contents {
            version: cell[2].load(SeqCst),
            words: std::array::from_fn(|index| cell[3 + index].load(SeqCst)),
        })
    });
    packet.ok()
}

/// What a round did.
pub struct Round {
    pub answered: bool,
    pub moved: bool,
}

pub struct Station<'a> {
    table: &'a Table,
    node: Node,
    policy: Policy,
    script: Vec<Op>,
    next: usize,
    /// The lines with an operation pending, by serial.
    pending: Vec<u8>,
    /// For each kind and node the next cell to send into, and to take from.
    sending: [Vec<u8>; 2],
    taking: [Vec<u8>; 2],
    /// How many requests each node has still to answer.
    unanswered: Vec<u8>,
    /// The request of each node that is kept.
    kept: Vec<Option<Packet>>,
    moved: bool,
}

impl<'a> Station<'a> {
    pub fn new(table: &'a Table, me: usize, script: Vec<Op>) -> Station<'a> {
        let nodes = table.size.nodes;
        Station {
            table,
            node: Node::new(me as NodeId, table.size),
            policy: Policy::default(),
            script,
            next: 0,
            pending: Vec::with_capacity(WINDOW),
            sending: [vec![0; nodes], vec![0; nodes]],
            taking: [vec![0; nodes], vec![0; nodes]],
            unanswered: vec![0; nodes],
            kept: vec![None; nodes],
            moved: false,
        }
    }

    fn me(&self) -> usize {
        usize::from(self.node.me)
    }

    /// Whether the whole script is answered.
    pub fn is_answered(&self) -> bool {
        self.next == self.script.len() && self.pending.is_empty()
    }

    /// Submits an operation if it may, performs what can be performed, and takes a turn.
    pub fn round(&mut self) -> Round {
        if self.pending.len() < WINDOW
            && let Some(op) = self.script.get(self.next)
            && self.node.issue(*op)
        {
            self.pending.push(op.line);
            self.next += 1;
        }
        let before = self.pending.len();
        let node = &mut self.node;
        self.pending.retain(|line| !node.perform(*line));
        let answered = self.pending.len() < before;
        self.moved = false;
        self.turn();
        Round { answered, moved: self.moved }
    }

    fn turn(&mut self) {
        self.policy.begin_turn();
        self.reply();
        self.accept_all();
        let nodes = self.table.size.nodes;
        let first = self.policy.first_sender(nodes);
        for from in (first..nodes).chain(0..first) {
            for _ in 0..CELLS {
                if !self.take(from) {
                    break;
                }
            }
        }
        self.ask_some();
    }

    /// Whether the next cell of a lane is empty.
    fn has_room(&self, kind: usize, to: usize) -> bool {
        let cell = self.table.cell(kind, self.me(), to, self.sending[kind][to]);
        cell[0].load(SeqCst) == 0
    }

    fn send(&mut self, kind: usize, packet: &Packet) {
        let to = usize::from(packet.target);
        let cell = self.table.cell(kind, self.me(), to, self.sending[kind][to]);
        let mut words = [0; LONG_WORDS];
        let count = packet.spell(&mut words);
        for index in 1..count {
            cell[index].store(words[index], SeqCst);
        }
        cell[0].store(words[0], SeqCst);
        self.sending[kind][to] = (self.sending[kind][to] + 1) % CELLS as u8;
        self.moved = true;
    }

    fn next_cell(&self, kind: usize, from: usize) -> &'a Cell {
        self.table.cell(kind, from, self.me(), self.taking[kind][from])
    }

    fn free(&mut self, kind: usize, from: usize) {
        self.next_cell(kind, from)[0].store(0, SeqCst);
        self.taking[kind][from] = (self.taking[kind][from] + 1) % CELLS as u8;
        self.moved = true;
    }

    fn reply(&mut self) {
        if let Some(answer) = self.node.waiting
            && self.has_room(ANSWERS, usize::from(answer.target))
        {
            self.node.waiting = None;
            self.send(ANSWERS, &answer);
        }
    }

    fn accept_all(&mut self) {
        for from in 0..self.table.size.nodes {
            if self.unanswered[from] == 0 && from != self.me() {
                continue;
            }
            for _ in 0..CELLS {
                let Some(answer) = read(self.next_cell(ANSWERS, from)) else {
                    break;
                };
                self.node.accept(&answer);
                self.free(ANSWERS, from);
                self.unanswered[from] -= 1;
            }
        }
    }

    /// Serves or refuses the oldest request of a node. False if none has come, or it is kept.
    fn take(&mut self, from: usize) -> bool {
        if self.node.waiting.is_some() {
            return false;
        }
        let cell = self.next_cell(REQUESTS, from);
        if cell[0].load(SeqCst) == 0 {
            return false;
        }
        if let Some(request) = &self.kept[from]
            && self.policy.keeps(&self.node, request)
        {
            return false;
        }
        let Some(request) = read(cell) else {
            return false;
        };
        match self.policy.decide(&self.node, &request) {
            Decision::Keep => {
                self.kept[from] = Some(request);
                return false;
            }
            Decision::Refuse => {
                self.node.refuse(&request);
            }
            Decision::Serve => self.node.serve(&request),
        }
        self.free(REQUESTS, from);
        self.kept[from] = None;
        self.policy.served(from as NodeId);
        self.reply();
        true
    }

    fn ask_some(&mut self) {
        for _ in 0..CELLS {
            let Some(Want::Ask(line, kind)) = self.policy.next(&mut self.node) else {
                return;
            };
            let target = usize::from(self.node.target_of(line, kind));
            if !self.has_room(REQUESTS, target) {
                return;
            }
            if let Some(request) = self.node.ask(line, kind) {
                self.send(REQUESTS, &request);
                self.unanswered[target] += 1;
            }
        }
    }
}

/// The logs of all stations, and the last contents of each line.
pub fn gather(stations: Vec<Station>) -> Logs {
    let mut answers = Vec::new();
    for to in &stations {
        for from in 0..stations.len() {
            for number in 0..CELLS as u8 {
                answers.extend(read(to.table.cell(ANSWERS, from, to.me(), number)));
            }
        }
        answers.extend(to.node.waiting);
    }
    let nodes: Vec<Node> = stations.into_iter().map(|it| it.node).collect();
    let lines = nodes[0].size.lines;
    let last = (0..lines).map(|line| last_contents(&nodes, &answers, line)).collect();
    Logs { nodes: nodes.into_iter().map(|it| it.log).collect(), last }
}
