//! The numbers of lichenknit.h.

/// The version of the header that this crate was written for.
pub const SCI_VERSION_MAJOR: u32 = 0;
pub const SCI_VERSION_MINOR: u32 = 1;

// sci_status_number: What a call answers.
pub const SCI_OK: u32 = 0;
pub const SCI_NO_MEMORY: u32 = 1;
pub const SCI_NOT_ENABLED: u32 = 2;
pub const SCI_RANGE: u32 = 3;
pub const SCI_MISUSE: u32 = 4;
pub const SCI_FULL: u32 = 5;
pub const SCI_SHORT: u32 = 6;
pub const SCI_UNKNOWN_COMMAND: u32 = 7;
pub const SCI_BAD_OFFSET: u32 = 8;
pub const SCI_BAD_IDENTIFIER: u32 = 9;
pub const SCI_TEXT: u32 = 10;

// sci_limit: Limits.
pub const SCI_MAX_NODES: u32 = 16;
pub const SCI_MAX_LINES: u32 = 64;
pub const SCI_MAX_SLOTS: u32 = 8;
pub const SCI_MAX_OPERATIONS: u32 = 65536;
pub const SCI_LINE_WORDS: u32 = 8;
pub const SCI_PACKET_BYTES: u32 = 88;
pub const SCI_PACKET_WORDS: u32 = 11;
pub const SCI_TURN_ROOM: u32 = 5;
pub const SCI_NO_NODE: u32 = 0xFFFF;

// sci_act: What an operation does, in sci_op.act.
pub const SCI_LOAD: u32 = 0;
pub const SCI_STORE: u32 = 1;
pub const SCI_MASK_SWAP: u32 = 2;
pub const SCI_COMPARE_SWAP: u32 = 3;
pub const SCI_FETCH_ADD: u32 = 4;
pub const SCI_BOUNDED_ADD: u32 = 5;
pub const SCI_WRAP_ADD: u32 = 6;

// sci_event_kind: What an event is, in sci_event.kind.
pub const SCI_ISSUE: u32 = 0;
pub const SCI_PERFORM: u32 = 1;
pub const SCI_ASK: u32 = 2;
pub const SCI_SERVE: u32 = 3;
pub const SCI_REFUSE: u32 = 4;
pub const SCI_REPLY: u32 = 5;
pub const SCI_ACCEPT: u32 = 6;

// sci_ask_kind: The kinds of requests, in sci_event.ask.
pub const SCI_MREAD: u32 = 0;
pub const SCI_FREAD: u32 = 1;
pub const SCI_CREAD: u32 = 2;
pub const SCI_CLAIM: u32 = 3;
pub const SCI_CLEAR: u32 = 4;
pub const SCI_PURGE: u32 = 5;
pub const SCI_ROLL: u32 = 6;
pub const SCI_WBACK: u32 = 7;
pub const SCI_SETBACK: u32 = 8;

// sci_command: The commands of packets, in sci_packet.command. The requests are below 0x100, the answers above.
pub const SCI_CMD_MREAD: u32 = 0x001;
pub const SCI_CMD_CREAD: u32 = 0x002;
pub const SCI_CMD_PURGE: u32 = 0x003;
pub const SCI_CMD_ROLL: u32 = 0x004;
pub const SCI_CMD_WBACK: u32 = 0x005;
pub const SCI_CMD_SETBACK: u32 = 0x006;
pub const SCI_CMD_FREAD: u32 = 0x007;
pub const SCI_CMD_CLAIM: u32 = 0x008;
pub const SCI_CMD_CLEAR: u32 = 0x009;
pub const SCI_CMD_MDATA: u32 = 0x101;
pub const SCI_CMD_MGONE: u32 = 0x102;
pub const SCI_CMD_CDATA: u32 = 0x103;
pub const SCI_CMD_PURGED: u32 = 0x104;
pub const SCI_CMD_ROLLED: u32 = 0x105;
pub const SCI_CMD_WBOK: u32 = 0x106;
pub const SCI_CMD_WBNO: u32 = 0x107;
pub const SCI_CMD_TOLD: u32 = 0x108;
pub const SCI_CMD_BUSY: u32 = 0x109;
pub const SCI_CMD_FDATA: u32 = 0x10A;

// sci_state: The states of a line in a node's cache, in sci_held.state (docs/PROTOCOL.md).
pub const SCI_OUT: u32 = 0;
pub const SCI_ASKING: u32 = 1;
pub const SCI_JOINING: u32 = 2;
pub const SCI_FRESH_JOINING: u32 = 3;
pub const SCI_HEAD: u32 = 4;
pub const SCI_FRESH_HEAD: u32 = 5;
pub const SCI_BELOW: u32 = 6;
pub const SCI_PURGING: u32 = 7;
pub const SCI_CLAIMING: u32 = 8;
pub const SCI_CLEARING: u32 = 9;
pub const SCI_RETURNING: u32 = 10;
pub const SCI_ROLLING: u32 = 11;
pub const SCI_TELLING: u32 = 12;
pub const SCI_FADING: u32 = 13;

// sci_home_state: The states of a line's home, in sci_home.state.
pub const SCI_HOME: u32 = 0;
pub const SCI_FRESH: u32 = 1;
pub const SCI_GONE: u32 = 2;

// sci_lane: The lanes from one node to another.
pub const SCI_REQUESTS: u32 = 0;
pub const SCI_ANSWERS: u32 = 1;

// sci_obstacle: Why an event is not enabled: the first of these, in the order in which they are looked for.
pub const SCI_NO_OBSTACLE: u32 = 0;
pub const SCI_NO_SUCH_NODE: u32 = 1;
pub const SCI_NO_SUCH_SENDER: u32 = 2;
pub const SCI_NO_SUCH_LINE: u32 = 3;
pub const SCI_NO_SUCH_WORD: u32 = 4;
pub const SCI_ALREADY_PENDING: u32 = 5;
pub const SCI_NO_ISSUE_LEFT: u32 = 6;
pub const SCI_NOTHING_PENDING: u32 = 7;
pub const SCI_NOT_ALLOWED: u32 = 8;
pub const SCI_NOT_ASKED: u32 = 9;
pub const SCI_NO_SLOT: u32 = 10;
pub const SCI_NOTHING_UNDER_WAY: u32 = 11;
pub const SCI_ANSWER_WAITS: u32 = 12;
pub const SCI_SETBACK_COMES: u32 = 13;
pub const SCI_NO_ANSWER_WAITS: u32 = 14;

// sci_want_kind: What a node does next, in sci_want.kind.
pub const SCI_WANT_NOTHING: u32 = 0;
pub const SCI_WANT_PERFORM: u32 = 1;
pub const SCI_WANT_ASK: u32 = 2;

// sci_decision: What a node does with a request that has come.
pub const SCI_KEEP: u32 = 0;
pub const SCI_TO_REFUSE: u32 = 1;
pub const SCI_TO_SERVE: u32 = 2;

// sci_verdict_kind: The kinds of verdicts, in sci_verdict.kind.
pub const SCI_LAWFUL: u32 = 0;
pub const SCI_VERSION_TWICE: u32 = 1;
pub const SCI_VERSION_MISSING: u32 = 2;
pub const SCI_WRONG_REPLY: u32 = 3;
pub const SCI_OUT_OF_ORDER: u32 = 4;
pub const SCI_LAST_DIFFERS: u32 = 5;

// sci_order_kind: What a look for one order finds.
pub const SCI_ORDER: u32 = 0;
pub const SCI_CYCLE: u32 = 1;
pub const SCI_UNLAWFUL: u32 = 2;

// sci_access_kind: What an operation of a trace did, in sci_access.kind.
pub const SCI_ACCESS_LOAD: u32 = 0;
pub const SCI_ACCESS_STORE: u32 = 1;
pub const SCI_ACCESS_ATOMIC: u32 = 2;

// sci_judgement_kind: What is found of a trace, in sci_judgement.kind.
pub const SCI_COHERENT: u32 = 0;
pub const SCI_NOT_COHERENT: u32 = 1;
pub const SCI_UNDECIDED: u32 = 2;

// sci_freedom: Whether other versions explain a coherent trace as well, in sci_judgement.freedom.
pub const SCI_VERSIONS_FORCED: u32 = 0;
pub const SCI_VERSIONS_FREE: u32 = 1;
pub const SCI_VERSIONS_UNKNOWN: u32 = 2;

// sci_consistency: Whether one order of all operations explains a coherent trace, in sci_judgement.consistency.
pub const SCI_CONSISTENCY_UNASKED: u32 = 0;
pub const SCI_CONSISTENCY_SEQUENTIAL: u32 = 1;
pub const SCI_CONSISTENCY_CYCLE: u32 = 2;
pub const SCI_CONSISTENCY_NOT_SEQUENTIAL: u32 = 3;
pub const SCI_CONSISTENCY_UNKNOWN: u32 = 4;

// sci_witness: What shows that operations at an address aren't coherent, in sci_judgement.witness.
pub const SCI_WITNESS_NONE: u32 = 0;
pub const SCI_WITNESS_UNWRITTEN: u32 = 1;
pub const SCI_WITNESS_UNWRITTEN_LAST: u32 = 2;
pub const SCI_WITNESS_EARLY: u32 = 3;
pub const SCI_WITNESS_CIRCLE: u32 = 4;
pub const SCI_WITNESS_ROUND: u32 = 5;

// sci_text_kind: The kinds of faults of a text, in sci_text_fault.kind.
pub const SCI_TEXT_SYNTAX: u32 = 1;
pub const SCI_TEXT_RANGE: u32 = 2;
pub const SCI_TEXT_TOO_MANY: u32 = 3;
