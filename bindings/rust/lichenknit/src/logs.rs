use std::str::FromStr;

use lichenknit_sys as sys;

use crate::calls::{checked, found, read, read_text, text_of, written};
use crate::error::{Error, Result};
use crate::values::{Contents, Entry, Order, Verdict, Wanted};

/// The logs of all nodes, with the last contents of each line.
#[derive(Debug)]
pub struct Logs {
    raw: sys::sci_logs,
}

// SAFETY: an object of the library belongs to no thread.
unsafe impl Send for Logs {}

// SAFETY, for each call below: the object is the library's, it is open, and the other pointers lead to values of their types.
impl Logs {
    /// Logs without entries. Each line's last contents are zero words at version 0.
    pub fn new(nodes: u8, lines: u8) -> Result<Self> {
        Logs::filled(|logs| unsafe { sys::sci_logs_open(logs, nodes, lines) })
    }

    /// The logs that a call puts into an empty object.
    pub(crate) fn filled(call: impl FnOnce(*mut sys::sci_logs) -> sys::sci_status) -> Result<Self> {
        let mut made = Logs { raw: sys::sci_logs { at: std::ptr::null_mut(), live: 0 } };
        checked(call(&mut made.raw))?;
        Ok(made)
    }

    /// The logs of a text, in the format of `scimem replay`.
    pub fn read(text: &[u8]) -> Result<Self> {
        let mut fault = sys::sci_text_fault::default();
        let mut made = Logs { raw: sys::sci_logs { at: std::ptr::null_mut(), live: 0 } };
        let status =
            unsafe { sys::sci_logs_read(&mut made.raw, text.as_ptr(), text.len(), &mut fault) };
        read_text(status, fault).map(|()| made)
    }

    /// The text of the logs.
    pub fn text(&self) -> Result<String> {
        text_of(|text, room, used| unsafe { sys::sci_logs_write(&self.raw, text, room, used) })
    }

    /// What is wrong with the logs, line by line, and what would be right, as `sciview explain` says it.
    pub fn explain(&self) -> Result<String> {
        text_of(|text, room, used| unsafe { sys::sci_logs_explain(&self.raw, text, room, used) })
    }

    /// Ends the log of the entry's node with the entry.
    pub fn push(&mut self, entry: &Entry) -> Result<()> {
        checked(unsafe { sys::sci_logs_push(&mut self.raw, &entry.raw()) })
    }

    /// Replaces the last contents of a line.
    pub fn set_last(&mut self, line: u8, contents: Contents) -> Result<()> {
        checked(unsafe { sys::sci_logs_set_last(&mut self.raw, line, &contents.raw()) })
    }

    /// The last contents of a line.
    pub fn last(&self, line: u8) -> Result<Contents> {
        written(|contents| unsafe { sys::sci_logs_last(&self.raw, line, contents) })
            .map(|contents| Contents::of(&contents))
    }

    /// Replaces the contents with which a line begins, which are zero words at version 0 if they were not given. So these are the logs
    /// of a window of a longer run.
    pub fn set_first(&mut self, line: u8, contents: Contents) -> Result<()> {
        checked(unsafe { sys::sci_logs_set_first(&mut self.raw, line, &contents.raw()) })
    }

    /// The contents with which a line begins.
    pub fn first(&self, line: u8) -> Result<Contents> {
        written(|contents| unsafe { sys::sci_logs_first(&self.raw, line, contents) })
            .map(|contents| Contents::of(&contents))
    }

    /// Begins the next window: it drops all entries, and each line begins with its last contents.
    pub fn go_on(&mut self) -> Result<()> {
        checked(unsafe { sys::sci_logs_go_on(&mut self.raw) })
    }

    /// How many nodes and lines there are.
    pub fn size(&self) -> (u8, u8) {
        let mut lines = 0;
        let nodes = read(|nodes| unsafe { sys::sci_logs_size(&self.raw, nodes, &mut lines) });
        (nodes, lines)
    }

    /// How many entries a node has.
    pub fn count(&self, node: u8) -> Result<usize> {
        written(|count| unsafe { sys::sci_logs_count(&self.raw, node, count) })
    }

    /// The entry at a place of a node's log, from 0.
    pub fn entry(&self, node: u8, place: usize) -> Option<Entry> {
        written(|entry| unsafe { sys::sci_logs_entry(&self.raw, node, place, entry) })
            .ok()
            .map(|entry| Entry::of(&entry))
    }

    /// The entries of a node, in the order of its log.
    pub fn of(&self, node: u8) -> impl Iterator<Item = Entry> + '_ {
        (0..).map_while(move |place| self.entry(node, place))
    }

    /// All entries, node after node.
    pub fn iter(&self) -> Entries<'_> {
        Entries { logs: self, node: 0, place: 0 }
    }

    /// Whether on each line one memory of one thread explains the logs and the last contents, or the first fault of the lowest line that has
    /// one.
    pub fn audit(&self) -> Result<Verdict> {
        let verdict = written(|verdict| unsafe { sys::sci_logs_audit(&self.raw, verdict) })?;
        Verdict::of(&verdict).ok_or(Error::OutOfRange)
    }

    /// The same whatever the last contents are, as of a simulation that was cut off: lawful if the logs are with some last contents.
    pub fn audit_cut_off(&self) -> Result<Verdict> {
        let verdict =
            written(|verdict| unsafe { sys::sci_logs_audit_cut_off(&self.raw, verdict) })?;
        Verdict::of(&verdict).ok_or(Error::OutOfRange)
    }

    /// Where the verdict of `audit` is a wrong reply, the word that one memory has there, and the entry that made it; None where it is
    /// another one.
    pub fn wanted(&self) -> Result<Option<Wanted>> {
        let (mut has_maker, mut maker) = (0, sys::sci_entry::default());
        let word = found(|word| unsafe {
            sys::sci_logs_wanted(&self.raw, word, &mut has_maker, &mut maker)
        })?;
        let maker = (has_maker != 0).then(|| Entry::of(&maker));
        Ok(word.map(|word| Wanted { word, maker }))
    }

    /// One order of all entries that keeps each node's log and that one memory explains, or a cycle that shows that none does.
    pub fn order(&self) -> Result<Order> {
        let room = self.iter().count();
        let (mut kind, mut entries, mut used) = (0, vec![sys::sci_entry::default(); room], 0);
        checked(unsafe {
            sys::sci_logs_order(&self.raw, &mut kind, entries.as_mut_ptr(), room, &mut used)
        })?;
        let found = entries[..used].iter().map(Entry::of).collect();
        Ok(match kind {
            sys::SCI_ORDER => Order::Order(found),
            sys::SCI_CYCLE => Order::Cycle(found),
            _ => Order::Unlawful,
        })
    }

    /// Whether there is one order of all entries. It needs less memory than `order`.
    pub fn has_order(&self) -> Result<bool> {
        written(|kind| unsafe { sys::sci_logs_order_kind(&self.raw, kind) })
            .map(|kind| kind == sys::SCI_ORDER)
    }
}

impl Drop for Logs {
    fn drop(&mut self) {
        unsafe { sys::sci_logs_close(&mut self.raw) };
    }
}

impl FromStr for Logs {
    type Err = Error;

    fn from_str(text: &str) -> Result<Self> {
        Logs::read(text.as_bytes())
    }
}

impl<'a> IntoIterator for &'a Logs {
    type Item = Entry;
    type IntoIter = Entries<'a>;

    fn into_iter(self) -> Entries<'a> {
        self.iter()
    }
}

/// The entries of logs, node after node.
#[derive(Clone, Debug)]
pub struct Entries<'a> {
    logs: &'a Logs,
    node: u8,
    place: usize,
}

impl Iterator for Entries<'_> {
    type Item = Entry;

    fn next(&mut self) -> Option<Entry> {
        while u32::from(self.node) < sys::SCI_MAX_NODES {
            if let Some(entry) = self.logs.entry(self.node, self.place) {
                self.place += 1;
                return Some(entry);
            }
            (self.node, self.place) = (self.node + 1, 0);
        }
        None
    }
}
