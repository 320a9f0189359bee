use lichenknit_sys as sys;

use crate::calls::{checked, found, read, read_text, written};
use crate::error::{Error, Result};
use crate::kinds::{Lane, Obstacle};
use crate::logs::Logs;
use crate::packet::Packet;
use crate::values::{Contents, Dead, Event, Held, Home, Op, Seen, Size};

/// All nodes, and the packets between them. A machine is coherent after every call.
#[derive(Debug)]
pub struct Machine {
    raw: sys::sci_machine,
}

// SAFETY: an object of the library belongs to no thread.
unsafe impl Send for Machine {}

// SAFETY, for each call below: the object is the library's, it is open, and the other pointers lead to values of their types.
impl Machine {
    /// A machine of this size. Each node may issue `limit` operations, 1 to 65,536.
    pub fn new(size: Size, limit: u32) -> Result<Self> {
        let mut made = Machine::empty();
        checked(unsafe {
            sys::sci_machine_open(&mut made.raw, size.nodes, size.lines, size.slots, limit)
        })?;
        Ok(made)
    }

    fn empty() -> Self {
        Machine { raw: sys::sci_machine { at: std::ptr::null_mut(), live: 0 } }
    }

    /// The machine where the schedule of this text leads, each node of which may issue `limit` operations, 1 to 65,536, and the events that
    /// weren't enabled, if there are any: they change nothing.
    pub fn replay(text: &[u8], limit: u32) -> Result<(Self, Option<Dead>)> {
        let (mut dead, mut fault) = (sys::sci_dead::default(), sys::sci_text_fault::default());
        let mut made = Machine::empty();
        let status = unsafe {
            sys::sci_machine_replay(
                &mut made.raw,
                text.as_ptr(),
                text.len(),
                limit,
                &mut dead,
                &mut fault,
            )
        };
        read_text(status, fault).map(|()| (made, Dead::of(&dead)))
    }

    /// Applies an event, and gives the packet that it sent or took and the entry that it logged.
    pub fn step(&mut self, event: Event) -> Result<Seen> {
        let raw = event.raw();
        written(|seen| unsafe { sys::sci_machine_step_seen(&mut self.raw, &raw, seen) })
            .map(|seen| Seen::of(&seen))
    }

    /// Applies an event if it is enabled, and says whether it was.
    pub fn try_step(&mut self, event: Event) -> Result<bool> {
        match checked(unsafe { sys::sci_machine_step(&mut self.raw, &event.raw()) }) {
            Err(Error::NotEnabled) => Ok(false),
            other => other.map(|()| true),
        }
    }

    /// Why an event isn't enabled, or None if it is.
    pub fn obstacle(&self, event: Event) -> Option<Obstacle> {
        let raw = event.raw();
        Obstacle::of(read(|obstacle| unsafe {
            sys::sci_machine_obstacle(&self.raw, &raw, obstacle)
        }))
    }

    /// A copy of the machine. The two share nothing.
    pub fn try_clone(&self) -> Result<Self> {
        let mut copy = Machine::empty();
        checked(unsafe { sys::sci_machine_clone(&self.raw, &mut copy.raw) })?;
        Ok(copy)
    }

    /// What the cache of a node has of a line.
    pub fn held(&self, node: u8, line: u8) -> Result<Held> {
        written(|held| unsafe { sys::sci_machine_held(&self.raw, node, line, held) })
            .map(|held| Held::of(&held))
    }

    /// What the home of a line knows, or None if it is at another node. The home of a line is at node `line % nodes`.
    pub fn home(&self, node: u8, line: u8) -> Result<Option<Home>> {
        Ok(found(|home| unsafe { sys::sci_machine_home(&self.raw, node, line, home) })?
            .map(|home| Home::of(&home)))
    }

    /// The operation that is pending on a line at a node, and its serial.
    pub fn pending(&self, node: u8, line: u8) -> Result<Option<(Op, u32)>> {
        let mut serial = 0;
        let op = found(|op| unsafe {
            sys::sci_machine_pending(&self.raw, node, line, op, &mut serial)
        })?;
        Ok(op.map(|op| (Op::of(&op), serial)))
    }

    /// The answer that waits at a node to be sent.
    pub fn answer(&self, node: u8) -> Result<Option<Packet>> {
        Ok(found(|packet| unsafe { sys::sci_machine_answer(&self.raw, node, packet) })?
            .and_then(|packet| Packet::of(&packet)))
    }

    /// The packets of a lane from a node to a node, oldest first.
    pub fn packets(&self, lane: Lane, from: u8, to: u8) -> LanePackets<'_> {
        LanePackets { machine: self, lane, from, to, place: 0 }
    }

    /// The nodes of a line's sharing list, from its head.
    pub fn sharing(&self, line: u8) -> Result<Vec<u8>> {
        let (mut nodes, mut used) = ([0; sys::SCI_MAX_NODES as usize], 0);
        checked(unsafe {
            sys::sci_machine_sharing(&self.raw, line, nodes.as_mut_ptr(), nodes.len(), &mut used)
        })?;
        Ok(nodes[..used].to_vec())
    }

    /// Brings the machine to rest: all pending operations are performed, and each line is back at its home. Gives the number of events. If
    /// memory is refused, the machine stands where the events made so far lead.
    pub fn settle(&mut self) -> Result<u32> {
        written(|events| unsafe { sys::sci_machine_settle(&mut self.raw, events) })
    }

    /// The last contents of a line.
    pub fn last(&self, line: u8) -> Result<Contents> {
        written(|contents| unsafe { sys::sci_machine_last(&self.raw, line, contents) })
            .map(|contents| Contents::of(&contents))
    }

    /// The one node that may change a line or is about to.
    pub fn authority(&self, line: u8) -> Result<Option<u8>> {
        found(|node| unsafe { sys::sci_machine_authority(&self.raw, line, node) })
    }

    /// The machine's logs and last contents.
    pub fn logs(&self) -> Result<Logs> {
        Logs::filled(|logs| unsafe { sys::sci_machine_logs(&self.raw, logs) })
    }
}

impl Drop for Machine {
    fn drop(&mut self) {
        unsafe { sys::sci_machine_close(&mut self.raw) };
    }
}

/// The packets of a lane.
#[derive(Clone, Debug)]
pub struct LanePackets<'a> {
    machine: &'a Machine,
    lane: Lane,
    from: u8,
    to: u8,
    place: usize,
}

impl Iterator for LanePackets<'_> {
    type Item = Packet;

    fn next(&mut self) -> Option<Packet> {
        let (raw, lane, place) = (&self.machine.raw, self.lane.number(), self.place);
        let packet = written(|packet| unsafe {
            sys::sci_machine_packet(raw, lane, self.from, self.to, place, packet)
        })
        .ok()?;
        self.place += 1;
        Packet::of(&packet)
    }
}
