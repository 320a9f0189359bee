//! Operations, events, entries of logs, and what calls answer.

use std::fmt;

use lichenknit_sys as sys;

use crate::calls::text_of;
use crate::error::Result;
use crate::kinds::{AskKind, HomeState, Obstacle, State, VerdictKind};
use crate::packet::Packet;

/// The node that an identifier names, if it names one.
fn node_of(identifier: u16) -> Option<u16> {
    (u32::from(identifier) != sys::SCI_NO_NODE).then_some(identifier)
}

/// How large a machine is: 1 to 16 nodes, 1 to 64 lines, and 1 to 8 version slots a node.
#[derive(Clone, Copy, Debug, PartialEq, Eq, Hash)]
pub struct Size {
    pub nodes: u8,
    pub lines: u8,
    pub slots: u8,
}

impl Size {
    /// The line of the size, with which a schedule begins.
    pub fn text(self) -> Result<String> {
        let Size { nodes, lines, slots } = self;
        // SAFETY: the pointers lead to the room and to a number.
        text_of(|text, room, used| unsafe {
            sys::sci_size_write(nodes, lines, slots, text, room, used)
        })
    }
}

/// What an operation does to its word.
#[derive(Clone, Copy, Debug, PartialEq, Eq, Hash)]
pub enum Act {
    Load,
    Store(u64),
    /// Takes the bits of datum where the mask has a one.
    MaskSwap {
        mask: u64,
        datum: u64,
    },
    /// Becomes datum if the word is the expected one.
    CompareSwap {
        expected: u64,
        datum: u64,
    },
    FetchAdd(u64),
    /// Adds datum if the word isn't the bound.
    BoundedAdd {
        bound: u64,
        datum: u64,
    },
    /// Adds datum if the word isn't the bound, and else becomes datum.
    WrapAdd {
        bound: u64,
        datum: u64,
    },
}

/// An operation on a word of a line.
#[derive(Clone, Copy, Debug, PartialEq, Eq, Hash)]
pub struct Op {
    pub line: u8,
    pub word: u8,
    pub act: Act,
}

impl Op {
    pub(crate) fn raw(self) -> sys::sci_op {
        let (act, arg, datum) = match self.act {
            Act::Load => (sys::SCI_LOAD, 0, 0),
            Act::Store(datum) => (sys::SCI_STORE, 0, datum),
            Act::MaskSwap { mask, datum } => (sys::SCI_MASK_SWAP, mask, datum),
            Act::CompareSwap { expected, datum } => (sys::SCI_COMPARE_SWAP, expected, datum),
            Act::FetchAdd(datum) => (sys::SCI_FETCH_ADD, 0, datum),
            Act::BoundedAdd { bound, datum } => (sys::SCI_BOUNDED_ADD, bound, datum),
            Act::WrapAdd { bound, datum } => (sys::SCI_WRAP_ADD, bound, datum),
        };
        sys::sci_op { act: act as u8, line: self.line, word: self.word, reserved: 0, arg, datum }
    }

    pub(crate) fn of(raw: &sys::sci_op) -> Self {
        let (arg, datum) = (raw.arg, raw.datum);
        let act = match u32::from(raw.act) {
            sys::SCI_STORE => Act::Store(datum),
            sys::SCI_MASK_SWAP => Act::MaskSwap { mask: arg, datum },
            sys::SCI_COMPARE_SWAP => Act::CompareSwap { expected: arg, datum },
            sys::SCI_FETCH_ADD => Act::FetchAdd(datum),
            sys::SCI_BOUNDED_ADD => Act::BoundedAdd { bound: arg, datum },
            sys::SCI_WRAP_ADD => Act::WrapAdd { bound: arg, datum },
            _ => Act::Load,
        };
        Op { line: raw.line, word: raw.word, act }
    }
}

/// An event of a machine.
#[derive(Clone, Copy, Debug, PartialEq, Eq, Hash)]
pub enum Event {
    /// The processor of a node issues an operation.
    Issue { node: u8, op: Op },
    /// The pending operation of a node on a line is performed.
    Perform { node: u8, line: u8 },
    /// A node sends a request about a line.
    Ask { node: u8, line: u8, kind: AskKind },
    /// A node serves the oldest request that came from another.
    Serve { from: u8, node: u8 },
    /// A node answers that request as busy.
    Refuse { from: u8, node: u8 },
    /// A node sends the answer that waits.
    Reply { node: u8 },
    /// A node accepts the oldest answer that came from another.
    Accept { from: u8, node: u8 },
}

impl Event {
    /// The line of the event in a schedule.
    pub fn text(self) -> Result<String> {
        let raw = self.raw();
        // SAFETY: the pointers lead to an event, to the room and to a number.
        text_of(|text, room, used| unsafe { sys::sci_event_write(&raw, text, room, used) })
    }

    pub(crate) fn raw(self) -> sys::sci_event {
        let raw = |kind: u32, node| sys::sci_event { kind: kind as u8, node, ..Default::default() };
        match self {
            Event::Issue { node, op } => {
                sys::sci_event { op: op.raw(), ..raw(sys::SCI_ISSUE, node) }
            }
            Event::Perform { node, line } => sys::sci_event { line, ..raw(sys::SCI_PERFORM, node) },
            Event::Ask { node, line, kind } => {
                sys::sci_event { line, ask: kind.number() as u8, ..raw(sys::SCI_ASK, node) }
            }
            Event::Serve { from, node } => sys::sci_event { from, ..raw(sys::SCI_SERVE, node) },
            Event::Refuse { from, node } => sys::sci_event { from, ..raw(sys::SCI_REFUSE, node) },
            Event::Reply { node } => raw(sys::SCI_REPLY, node),
            Event::Accept { from, node } => sys::sci_event { from, ..raw(sys::SCI_ACCEPT, node) },
        }
    }
}

/// The contents of a line, and the number of their version.
#[derive(Clone, Copy, Debug, Default, PartialEq, Eq, Hash)]
pub struct Contents {
    pub version: u64,
    pub words: [u64; 8],
}

impl Contents {
    pub(crate) fn raw(self) -> sys::sci_stamped {
        sys::sci_stamped { version: self.version, words: self.words }
    }

    pub(crate) fn of(raw: &sys::sci_stamped) -> Self {
        Contents { version: raw.version, words: raw.words }
    }
}

/// An entry of a log. A store answers no word.
#[derive(Clone, Copy, Debug, PartialEq, Eq, Hash)]
pub struct Entry {
    pub node: u8,
    pub serial: u32,
    pub op: Op,
    pub word: Option<u64>,
    /// The version that a load read, or that the operation made.
    pub version: u64,
}

impl Entry {
    /// The line of the entry in a log.
    pub fn text(&self) -> Result<String> {
        let raw = self.raw();
        // SAFETY: the pointers lead to an entry, to the room and to a number.
        text_of(|text, room, used| unsafe { sys::sci_entry_write(&raw, text, room, used) })
    }

    pub(crate) fn raw(&self) -> sys::sci_entry {
        sys::sci_entry {
            node: self.node,
            has_word: self.word.is_some().into(),
            reserved: 0,
            serial: self.serial,
            op: self.op.raw(),
            word: self.word.unwrap_or(0),
            version: self.version,
        }
    }

    pub(crate) fn of(raw: &sys::sci_entry) -> Self {
        let word = (raw.has_word != 0).then_some(raw.word);
        Entry {
            node: raw.node,
            serial: raw.serial,
            op: Op::of(&raw.op),
            word,
            version: raw.version,
        }
    }
}

/// What a node's cache has of a line.
#[derive(Clone, Copy, Debug, PartialEq, Eq)]
pub struct Held {
    pub state: State,
    /// Whether a request about the line is under way, and its answer is awaited.
    pub waits: bool,
    pub contents: Option<Contents>,
    pub forward: Option<u16>,
    pub backward: Option<u16>,
}

impl Held {
    pub(crate) fn of(raw: &sys::sci_held) -> Self {
        Held {
            state: State::of(raw.state.into()).unwrap_or(State::Out),
            waits: raw.waits != 0,
            contents: (raw.has_contents != 0).then(|| Contents::of(&raw.contents)),
            forward: node_of(raw.forward),
            backward: node_of(raw.backward),
        }
    }
}

/// What the home of a line knows.
#[derive(Clone, Copy, Debug, PartialEq, Eq)]
pub struct Home {
    pub state: HomeState,
    /// The head of the list.
    pub head: Option<u16>,
    /// The contents, if nobody may have written since.
    pub contents: Option<Contents>,
}

impl Home {
    pub(crate) fn of(raw: &sys::sci_home) -> Self {
        Home {
            state: HomeState::of(raw.state.into()).unwrap_or(HomeState::Home),
            head: node_of(raw.head),
            contents: (raw.has_contents != 0).then(|| Contents::of(&raw.contents)),
        }
    }
}

/// What a step did: the packet that it sent or took, and the entry that it logged.
#[derive(Clone, Copy, Debug, PartialEq, Eq)]
pub struct Seen {
    pub packet: Option<Packet>,
    pub entry: Option<Entry>,
}

impl Seen {
    pub(crate) fn of(raw: &sys::sci_seen) -> Self {
        Seen {
            packet: if raw.has_packet != 0 { Packet::of(&raw.packet) } else { None },
            entry: (raw.has_entry != 0).then(|| Entry::of(&raw.entry)),
        }
    }
}

/// What a turn of a node did with the packets that had come.
#[derive(Clone, Debug, PartialEq, Eq)]
pub struct Turn {
    /// Those that it left. The next turn is to be given them again.
    pub left: Vec<Packet>,
    /// Those that it sends, in their order.
    pub sent: Vec<Packet>,
    /// What the node wants then.
    pub want: Option<Want>,
}

/// The events of a schedule that weren't enabled when they came.
#[derive(Clone, Copy, Debug, PartialEq, Eq)]
pub struct Dead {
    pub count: u32,
    /// How many events of the schedule stand before the first of them.
    pub place: u32,
    /// What stood in the way of the first.
    pub obstacle: Obstacle,
}

impl Dead {
    pub(crate) fn of(raw: &sys::sci_dead) -> Option<Self> {
        let obstacle = Obstacle::of(raw.obstacle)?;
        Some(Dead { count: raw.count, place: raw.place, obstacle })
    }
}

/// What a node does next.
#[derive(Clone, Copy, Debug, PartialEq, Eq)]
pub enum Want {
    /// Perform the operation that is pending on a line.
    Perform { line: u8 },
    /// Ask something about a line.
    Ask { line: u8, kind: AskKind },
}

impl Want {
    pub(crate) fn of(raw: &sys::sci_want) -> Option<Self> {
        match u32::from(raw.kind) {
            sys::SCI_WANT_PERFORM => Some(Want::Perform { line: raw.line }),
            sys::SCI_WANT_ASK => {
                AskKind::of(raw.ask.into()).map(|kind| Want::Ask { line: raw.line, kind })
            }
            _ => None,
        }
    }
}

/// What an audit finds: on which line, and the node and the serial of the entry where the rule fails, if there is one.
#[derive(Clone, Copy, Debug, PartialEq, Eq)]
pub struct Verdict {
    pub kind: VerdictKind,
    pub line: u32,
    pub entry: Option<(u32, u32)>,
}

impl Verdict {
    pub fn is_lawful(&self) -> bool {
        self.kind == VerdictKind::Lawful
    }

    /// What the library's numbers say, if there is such a kind.
    pub(crate) fn of(raw: &sys::sci_verdict) -> Option<Self> {
        let entry = (raw.has_entry != 0).then_some((raw.node, raw.serial));
        VerdictKind::of(raw.kind).map(|kind| Verdict { kind, line: raw.line, entry })
    }
}

impl fmt::Display for Verdict {
    fn fmt(&self, f: &mut fmt::Formatter<'_>) -> fmt::Result {
        write!(f, "{}", self.kind)?;
        if !self.is_lawful() {
            write!(f, " line {}", self.line)?;
        }
        match self.entry {
            Some((node, serial)) => write!(f, " node {node} serial {serial}"),
            None => Ok(()),
        }
    }
}

/// The word that one memory has where a reply is wrong, and the entry that made it. None: it is the zero that was there at first.
#[derive(Clone, Copy, Debug, PartialEq, Eq)]
pub struct Wanted {
    pub word: u64,
    pub maker: Option<Entry>,
}

/// What a look for one order finds.
#[derive(Clone, Debug, PartialEq, Eq)]
pub enum Order {
    /// All entries in one order that keeps each node's log and that one memory explains.
    Order(Vec<Entry>),
    /// There is none: each of these entries would have to come after the next, and the last after the first.
    Cycle(Vec<Entry>),
    /// The logs aren't lawful.
    Unlawful,
}
