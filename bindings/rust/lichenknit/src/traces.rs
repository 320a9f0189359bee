use lichenknit_sys as sys;

use crate::calls::checked;
use crate::error::{Error, Result};
use crate::kinds::{Consistency, Freedom, Witness};

/// What an operation of a trace did with its word.
#[derive(Clone, Copy, Debug, PartialEq, Eq, Hash)]
pub enum AccessKind {
    /// It read this word.
    Load(u64),
    /// It wrote this word.
    Store(u64),
    /// It read a word and wrote one, with nothing between the two.
    Atomic { read: u64, wrote: u64 },
}

/// An operation of a trace without versions.
#[derive(Clone, Copy, Debug, PartialEq, Eq, Hash)]
pub struct Access {
    /// Below 16.
    pub processor: u8,
    /// Each one is a word of memory.
    pub address: u64,
    pub kind: AccessKind,
    /// When it began and when it had ended, if that is known.
    pub begin: Option<u64>,
    pub end: Option<u64>,
}

impl Access {
    /// An operation without times.
    pub fn new(processor: u8, address: u64, kind: AccessKind) -> Self {
        Access { processor, address, kind, begin: None, end: None }
    }

    fn raw(self, id: u64) -> sys::sci_access {
        let (kind, read, wrote) = match self.kind {
            AccessKind::Load(read) => (sys::SCI_ACCESS_LOAD, read, 0),
            AccessKind::Store(wrote) => (sys::SCI_ACCESS_STORE, 0, wrote),
            AccessKind::Atomic { read, wrote } => (sys::SCI_ACCESS_ATOMIC, read, wrote),
        };
        sys::sci_access {
            processor: self.processor,
            kind: kind as u8,
            address: self.address,
            read,
            wrote,
            begin: self.begin.unwrap_or(0),
            end: self.end.unwrap_or(u64::MAX),
            id,
            ..Default::default()
        }
    }
}

/// How a trace is judged.
#[derive(Clone, Copy, Debug, PartialEq, Eq, Hash)]
pub struct TraceWay {
    /// Whether what ended before another operation at its address began has to stand before it.
    pub timed: bool,
    /// Whether one order of all operations is looked for.
    pub ordered: bool,
    /// How many choices a search makes at most.
    pub limit: u64,
}

impl Default for TraceWay {
    /// Without times and without an order, and 1,000,000 choices.
    fn default() -> Self {
        TraceWay { timed: false, ordered: false, limit: 1_000_000 }
    }
}

/// What the judge says of a trace. Operations are named by their places among those that were given.
#[derive(Clone, Debug, PartialEq, Eq)]
pub enum TraceVerdict {
    /// Some versions explain the operations at each address.
    Coherent {
        freedom: Freedom,
        consistency: Consistency,
        /// Those of the cycle, if there is one.
        cycle: Vec<usize>,
    },
    /// None explain those at this address.
    NotCoherent { address: u64, witness: Witness, places: Vec<usize> },
    /// Neither was found of those at this address.
    Undecided { address: u64 },
}

/// Judges a trace: operations, those of each processor in its order, and the last words that are known, each with its address.
pub fn judge(accesses: &[Access], last: &[(u64, u64)], way: TraceWay) -> Result<TraceVerdict> {
    let given: Vec<_> =
        accesses.iter().enumerate().map(|(place, access)| access.raw(place as u64)).collect();
    let words: Vec<_> =
        last.iter().map(|&(address, word)| sys::sci_last_word { address, word }).collect();
    let raw = sys::sci_trace_way {
        timed: way.timed.into(),
        ordered: way.ordered.into(),
        limit: way.limit,
    };
    let (mut found, mut ids) = (sys::sci_judgement::default(), vec![0; 16]);
    loop {
        // SAFETY: the pointers lead to the arrays, of these lengths, and to structs of their types.
        checked(unsafe {
            sys::sci_trace_judge(
                given.as_ptr(),
                given.len(),
                words.as_ptr(),
                words.len(),
                &raw,
                &mut found,
                ids.as_mut_ptr(),
                ids.len(),
            )
        })?;
        if found.named as usize <= ids.len() {
            break;
        }
        ids.resize(found.named as usize, 0);
    }
    ids.truncate(found.named as usize);
    verdict_of(&found, ids.into_iter().map(|id| id as usize).collect()).ok_or(Error::OutOfRange)
}

fn verdict_of(found: &sys::sci_judgement, places: Vec<usize>) -> Option<TraceVerdict> {
    let address = found.address;
    Some(match found.kind {
        sys::SCI_COHERENT => TraceVerdict::Coherent {
            freedom: Freedom::of(found.freedom)?,
            consistency: Consistency::of(found.consistency)?,
            cycle: places,
        },
        sys::SCI_NOT_COHERENT => {
            TraceVerdict::NotCoherent { address, witness: Witness::of(found.witness)?, places }
        }
        _ => TraceVerdict::Undecided { address },
    })
}
