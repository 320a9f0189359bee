//! The audit of a log.

use crate::memory::{Contents, Entry, Logs};
use std::collections::HashSet;
use std::fmt;

/// The first fault of a log.
pub struct Fault {
    kind: u8,
    line: usize,
    /// The node and the serial of the entry where the rule fails.
    entry: Option<(usize, u32)>,
}

const NAMES: [&str; 5] =
    ["version-twice", "version-missing", "wrong-reply", "out-of-order", "last-differs"];

impl fmt::Display for Fault {
    fn fmt(&self, f: &mut fmt::Formatter) -> fmt::Result {
        let name = NAMES[usize::from(self.kind) - 1];
        write!(f, "fault {} {name} line {}", self.kind, self.line)?;
        match self.entry {
            Some((node, serial)) => write!(f, " node {node} serial {serial}"),
            None => Ok(()),
        }
    }
}

/// An entry with its node. The entries of a line are pages apart in the logs, and many passes go over them, so they are copied.
type Placed = (usize, Entry);

pub fn audit(logs: &Logs) -> Option<Fault> {
    let mut lines: Vec<Vec<(usize, &Entry)>> = vec![Vec::new(); logs.last.len()];
    for (node, log) in logs.nodes.iter().enumerate() {
        for entry in log {
            lines[usize::from(entry.op.line)].push((node, entry));
        }
    }
    let mut entries = Vec::new();
    for (line, (of_line, last)) in lines.iter().zip(&logs.last).enumerate() {
        entries.clear();
        entries.extend(of_line.iter().map(|(node, entry)| (*node, **entry)));
        if let Err((kind, entry)) = judge(&entries, last) {
            let entry = entry.map(|(node, entry)| (node, entry.serial));
            return Some(Fault { kind, line, entry });
        }
    }
    None
}

/// Judges the entries of a line, which stand in reading order.
fn judge(entries: &[Placed], last: &Contents) -> Result<(), (u8, Option<Placed>)> {
    let makers = entries.iter().filter(|(_, it)| it.op.is_maker());
    let count = makers.clone().count() as u64;

    let mut seen = vec![false; count as usize + 1];
    let mut beyond = HashSet::new();
    for maker in makers {
        let version = maker.1.version;
        let is_new = match seen.get_mut(version as usize) {
            Some(seen) => !std::mem::replace(seen, true),
            None => beyond.insert(version),
        };
        if !is_new {
            return Err((1, Some(*maker)));
        }
    }
    let is_missing = |it: &Entry| it.version > count || (it.op.is_maker() && it.version == 0);
    if let Some(entry) = entries.iter().find(|(_, it)| is_missing(it)) {
        return Err((2, Some(*entry)));
    }

    let mut contents = Contents::default();
    for place in placed(entries, count as usize) {
        let (node, entry) = entries[place as usize];
        if contents.apply(&entry.op) != entry.reply {
            return Err((3, Some((node, entry))));
        }
    }

    // Entries of a node stand in the order of its log, so the place in reading order breaks ties.
    let key = |place: usize| {
        let (_, it) = entries[place];
        (it.version, !it.op.is_maker(), it.serial, place)
    };
    for (place, pair) in entries.windows(2).enumerate() {
        let [(earlier_node, earlier), (node, entry)] = pair else {
            continue;
        };
        if earlier_node == node && (entry.serial <= earlier.serial || key(place + 1) <= key(place))
        {
            return Err((4, Some(pair[1])));
        }
    }
    if contents != *last {
        return Err((5, None));
    }
    Ok(())
}

/// The places of the entries by version, of which none is above the number of makers: for each first its maker, and then its
/// loads by node and serial.
fn placed(entries: &[Placed], makers: usize) -> Vec<u32> {
    let mut ends = vec![0u32; makers + 2];
    for (_, entry) in entries {
        ends[entry.version as usize + 1] += 1;
    }
    for version in 1..ends.len() {
        ends[version] += ends[version - 1];
    }
    let mut placed = vec![0; entries.len()];
    for is_making in [true, false] {
        for (place, (_, entry)) in entries.iter().enumerate() {
            if entry.op.is_maker() == is_making {
                let end = &mut ends[entry.version as usize];
                placed[*end as usize] = place as u32;
                *end += 1;
            }
        }
    }
    let key = |place: &u32| {
        let (node, entry) = &entries[*place as usize];
        (!entry.op.is_maker(), *node, entry.serial)
    };
    let mut start = 0;
    for end in &ends[..=makers] {
        let of_version = &mut placed[start..*end as usize];
        if !of_version.is_sorted_by_key(key) {
            of_version.sort_by_key(key);
        }
        start = *end as usize;
    }
    placed
}
