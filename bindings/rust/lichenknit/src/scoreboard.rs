use lichenknit_sys as sys;

use crate::calls::{checked, found, written};
use crate::error::{Error, Result};
use crate::values::{Contents, Entry, Verdict};

/// An audit entry by entry: what the lines have after the operations that were told, each when it took effect. It keeps no entries.
#[derive(Debug)]
pub struct Scoreboard {
    raw: sys::sci_scoreboard,
}

// SAFETY: an object of the library belongs to no thread.
unsafe impl Send for Scoreboard {}

// SAFETY, for each call below: the object is the library's, it is open, and the other pointers lead to values of their types.
impl Scoreboard {
    /// Nothing was told, and each line begins with zero words at version 0.
    pub fn new(nodes: u8, lines: u8) -> Result<Self> {
        let mut made =
            Scoreboard { raw: sys::sci_scoreboard { at: std::ptr::null_mut(), live: 0 } };
        checked(unsafe { sys::sci_scoreboard_open(&mut made.raw, nodes, lines) })?;
        Ok(made)
    }

    /// Begins a line with these contents, and forgets what was told of it.
    pub fn begin(&mut self, line: u8, contents: Contents) -> Result<()> {
        checked(unsafe { sys::sci_scoreboard_begin(&mut self.raw, line, &contents.raw()) })
    }

    /// The contents that a line has after what was told.
    pub fn contents(&self, line: u8) -> Result<Contents> {
        written(|contents| unsafe { sys::sci_scoreboard_contents(&self.raw, line, contents) })
            .map(|contents| Contents::of(&contents))
    }

    /// Takes the entry if it is lawful after what was told; else the verdict names it, and the scoreboard stays as it was. None, and it
    /// stays too, if nothing can be said now: the version is ahead of its line, or it is a load of a version that the line has left.
    pub fn tell(&mut self, entry: &Entry) -> Result<Option<Verdict>> {
        let told = found(|verdict| unsafe {
            sys::sci_scoreboard_tell(&mut self.raw, &entry.raw(), verdict)
        })?;
        told.map(|verdict| Verdict::of(&verdict).ok_or(Error::OutOfRange)).transpose()
    }
}

impl Drop for Scoreboard {
    fn drop(&mut self) {
        unsafe { sys::sci_scoreboard_close(&mut self.raw) };
    }
}
