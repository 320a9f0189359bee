use std::fmt;

use lichenknit_sys as sys;

use crate::calls::text;
use crate::kinds::TextKind;

pub type Result<T> = std::result::Result<T, Error>;

/// The first fault of a text.
#[derive(Clone, Copy, Debug, PartialEq, Eq)]
pub struct TextFault {
    /// From 1.
    pub line: u64,
    pub kind: TextKind,
}

/// Why a call was refused. It has changed nothing, unless lichenknit.h says otherwise.
#[derive(Clone, Copy, Debug, PartialEq, Eq)]
pub enum Error {
    /// Memory was refused. The call can be made again.
    NoMemory,
    /// The event isn't enabled, or what was asked for isn't there.
    NotEnabled,
    /// A number is outside its limits.
    OutOfRange,
    /// The object keeps nothing. The types of this crate rule that out.
    Misuse,
    /// A log has 65,536 entries, or a node has issued all operations that it may.
    Full,
    /// There are fewer bytes or words than the packet has.
    Short,
    /// No packet has this command.
    UnknownCommand,
    /// The offset of the packet is no multiple of 64.
    BadOffset,
    /// The target, the source or the identifier is one that the packet can't have.
    BadIdentifier,
    /// The text is no log, or no schedule.
    Text(TextFault),
}

impl Error {
    /// The error of a status, which is not `SCI_OK` and not `SCI_TEXT`.
    pub(crate) fn of(status: sys::sci_status) -> Self {
        match status {
            sys::SCI_NO_MEMORY => Error::NoMemory,
            sys::SCI_NOT_ENABLED => Error::NotEnabled,
            sys::SCI_RANGE => Error::OutOfRange,
            sys::SCI_FULL => Error::Full,
            sys::SCI_SHORT => Error::Short,
            sys::SCI_UNKNOWN_COMMAND => Error::UnknownCommand,
            sys::SCI_BAD_OFFSET => Error::BadOffset,
            sys::SCI_BAD_IDENTIFIER => Error::BadIdentifier,
            _ => Error::Misuse,
        }
    }

    /// The status of the library that this is.
    pub fn status(self) -> u32 {
        match self {
            Error::NoMemory => sys::SCI_NO_MEMORY,
            Error::NotEnabled => sys::SCI_NOT_ENABLED,
            Error::OutOfRange => sys::SCI_RANGE,
            Error::Misuse => sys::SCI_MISUSE,
            Error::Full => sys::SCI_FULL,
            Error::Short => sys::SCI_SHORT,
            Error::UnknownCommand => sys::SCI_UNKNOWN_COMMAND,
            Error::BadOffset => sys::SCI_BAD_OFFSET,
            Error::BadIdentifier => sys::SCI_BAD_IDENTIFIER,
            Error::Text(_) => sys::SCI_TEXT,
        }
    }
}

impl fmt::Display for Error {
    fn fmt(&self, f: &mut fmt::Formatter<'_>) -> fmt::Result {
        // SAFETY: the functions take any number.
        let (name, words) = unsafe {
            (text(sys::sci_status_name(self.status())), text(sys::sci_status_text(self.status())))
        };
        match self {
            Error::Text(fault) => {
                write!(f, "{name}: {words}: line {}: {:?}", fault.line, fault.kind)
            }
            _ => write!(f, "{name}: {words}"),
        }
    }
}

impl std::error::Error for Error {}
