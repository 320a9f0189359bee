//! Lichenknit: a proved model of machines with coherent caches, and a checker of their logs.
//!
//! ```
//! use lichenknit::{Act, Error, Event, Machine, Op, Size};
//!
//! let mut machine = Machine::new(Size { nodes: 2, lines: 4, slots: 2 }, 16)?;
//! machine.step(Event::Issue { node: 1, op: Op { line: 0, word: 3, act: Act::Store(42) } })?;
//! machine.settle()?;
//! assert_eq!(machine.last(0)?.words[3], 42);
//! assert!(machine.logs()?.audit()?.is_lawful());
//! # Ok::<(), Error>(())
//! ```
//!
//! Each method is a function of lichenknit.h, which says what it does. A status that isn't `SCI_OK` is an [`Error`], and what isn't there is
//! `None`. The objects may go from thread to thread, and one thread at a time uses one.

mod calls;
mod error;
mod kinds;
mod logs;
mod machine;
mod node;
mod packet;
mod scoreboard;
mod traces;
mod values;

pub use error::{Error, Result, TextFault};
pub use kinds::{
    AskKind, Command, Consistency, Decision, Freedom, HomeState, Lane, Obstacle, State, TextKind,
    VerdictKind, Witness,
};
pub use logs::{Entries, Logs};
pub use machine::{LanePackets, Machine};
pub use node::Node;
pub use packet::{Packet, PacketBytes, Packets};
pub use scoreboard::Scoreboard;
pub use traces::{Access, AccessKind, TraceVerdict, TraceWay, judge};
pub use values::{
    Act, Contents, Dead, Entry, Event, Held, Home, Op, Order, Seen, Size, Turn, Verdict, Want,
    Wanted,
};

/// The version of the library: its first two numbers.
pub fn library_version() -> (u32, u32) {
    // SAFETY: the function takes nothing and gives a number.
    let version = unsafe { lichenknit_sys::sci_version() };
    (version >> 16, version & 0xFFFF)
}
