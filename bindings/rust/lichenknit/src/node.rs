use lichenknit_sys as sys;

use crate::calls::{checked, found, read, written};
use crate::error::{Error, Result};
use crate::kinds::{AskKind, Decision};
use crate::packet::{Packet, PacketBytes};
use crate::values::{Contents, Entry, Held, Home, Op, Size, Turn, Want};

/// The controller of one node. The caller carries the packets, and gives each to its target at most once: a request by `serve` or `refuse`, an
/// answer by `accept`.
#[derive(Debug)]
pub struct Node {
    raw: sys::sci_node,
}

// SAFETY: an object of the library belongs to no thread.
unsafe impl Send for Node {}

// SAFETY, for each call below: the object is the library's, it is open, and the other pointers lead to values of their types.
impl Node {
    /// The controller of node `me` in a machine of this size. Its processor may issue `limit` operations, 1 to 65,536.
    pub fn new(me: u8, size: Size, limit: u32) -> Result<Self> {
        let mut made = Node::empty();
        checked(unsafe {
            sys::sci_node_open(&mut made.raw, me, size.nodes, size.lines, size.slots, limit)
        })?;
        Ok(made)
    }

    fn empty() -> Self {
        Node { raw: sys::sci_node { at: std::ptr::null_mut(), live: 0 } }
    }

    /// A copy of the node, with what its policy remembers. The two share nothing.
    pub fn try_clone(&self) -> Result<Self> {
        let mut copy = Node::empty();
        checked(unsafe { sys::sci_node_clone(&self.raw, &mut copy.raw) })?;
        Ok(copy)
    }

    /// Begins again with an empty log, at rest: serials go on from 0, and the node may issue `limit` operations. Its homes know what they
    /// knew. [`Error::NotEnabled`] if the node isn't at rest.
    pub fn start_log(&mut self, limit: u32) -> Result<()> {
        checked(unsafe { sys::sci_node_start_log(&mut self.raw, limit) })
    }

    /// Issues an operation, and gives its serial. [`Error::Full`] if the node has issued all that it may.
    pub fn issue(&mut self, op: Op) -> Result<u32> {
        let raw = op.raw();
        written(|serial| unsafe { sys::sci_node_issue(&mut self.raw, &raw, serial) })
    }

    /// Performs the operation that is pending on a line, and gives its entry.
    pub fn perform(&mut self, line: u8) -> Result<Entry> {
        written(|entry| unsafe { sys::sci_node_perform(&mut self.raw, line, entry) })
            .map(|entry| Entry::of(&entry))
    }

    /// Makes a request about a line, which is to be carried to its target.
    pub fn ask(&mut self, line: u8, kind: AskKind) -> Result<PacketBytes> {
        PacketBytes::written(|bytes, used| unsafe {
            sys::sci_node_ask(&mut self.raw, line, kind.number() as u8, bytes, used)
        })
    }

    /// The answer that waits, which is to be carried to its target.
    pub fn take_answer(&mut self) -> Result<Option<PacketBytes>> {
        match PacketBytes::written(|bytes, used| unsafe {
            sys::sci_node_take_answer(&mut self.raw, bytes, used)
        }) {
            Err(Error::NotEnabled) => Ok(None),
            other => other.map(Some),
        }
    }

    /// Serves a request: its answer waits then.
    pub fn serve(&mut self, packet: &[u8]) -> Result<()> {
        checked(unsafe { sys::sci_node_serve(&mut self.raw, packet.as_ptr(), packet.len()) })
    }

    /// Answers a request as busy: the answer waits then.
    pub fn refuse(&mut self, packet: &[u8]) -> Result<()> {
        checked(unsafe { sys::sci_node_refuse(&mut self.raw, packet.as_ptr(), packet.len()) })
    }

    /// Accepts an answer.
    pub fn accept(&mut self, packet: &[u8]) -> Result<()> {
        checked(unsafe { sys::sci_node_accept(&mut self.raw, packet.as_ptr(), packet.len()) })
    }

    /// Takes a turn by the node's policy, with the packets that have come to it: it sends the answer that waits, accepts answers, serves or
    /// refuses requests, and asks up to four times for what it wants.
    pub fn turn(&mut self, came: &[Packet]) -> Result<Turn> {
        let packets: Vec<_> = came.iter().map(Packet::raw).collect();
        let mut taken = vec![0; came.len()];
        let mut sent = vec![sys::sci_packet::default(); came.len() + sys::SCI_TURN_ROOM as usize];
        let (mut used, mut want) = (0, sys::sci_want::default());
        checked(unsafe {
            sys::sci_node_turn(
                &mut self.raw,
                packets.as_ptr(),
                packets.len(),
                taken.as_mut_ptr(),
                taken.len(),
                sent.as_mut_ptr(),
                sent.len(),
                &mut used,
                &mut want,
            )
        })?;
        let left = came.iter().zip(&taken).filter(|(_, mark)| **mark == 0).map(|(it, _)| *it);
        let sent = sent[..used].iter().filter_map(Packet::of);
        Ok(Turn { left: left.collect(), sent: sent.collect(), want: Want::of(&want) })
    }

    /// Counts a turn of the node.
    pub fn begin_turn(&mut self) {
        unsafe { sys::sci_node_begin_turn(&mut self.raw) };
    }

    /// What the node does next by its policy.
    pub fn next_want(&mut self) -> Option<Want> {
        Want::of(&read(|want| unsafe { sys::sci_node_next(&mut self.raw, want) }))
    }

    /// What the node does with a request by its policy.
    pub fn decide(&self, packet: &[u8]) -> Result<Decision> {
        let decision = written(|decision| unsafe {
            sys::sci_node_decide(&self.raw, packet.as_ptr(), packet.len(), decision)
        })?;
        Ok(Decision::of(decision).unwrap_or(Decision::Keep))
    }

    /// The node whose requests are looked at first in a turn.
    pub fn first_sender(&self) -> u8 {
        read(|from| unsafe { sys::sci_node_first_sender(&self.raw, from) })
    }

    /// What the node's cache has of a line.
    pub fn held(&self, line: u8) -> Result<Held> {
        written(|held| unsafe { sys::sci_node_held(&self.raw, line, held) })
            .map(|held| Held::of(&held))
    }

    /// What the home of a line knows, or None if it is at another node.
    pub fn home_state(&self, line: u8) -> Result<Option<Home>> {
        Ok(found(|home| unsafe { sys::sci_node_home_state(&self.raw, line, home) })?
            .map(|home| Home::of(&home)))
    }

    /// The answer that waits, which stays there.
    pub fn answer(&self) -> Option<Packet> {
        let packet = found(|packet| unsafe { sys::sci_node_answer(&self.raw, packet) });
        packet.ok().flatten().and_then(|packet| Packet::of(&packet))
    }

    /// The operation that is pending on a line, and its serial.
    pub fn pending(&self, line: u8) -> Option<(Op, u32)> {
        let mut serial = 0;
        let op = found(|op| unsafe { sys::sci_node_pending(&self.raw, line, op, &mut serial) });
        op.ok().flatten().map(|op| (Op::of(&op), serial))
    }

    /// The contents of a line whose home is here, if no other node may have written.
    pub fn home(&self, line: u8) -> Result<Option<Contents>> {
        Ok(found(|contents| unsafe { sys::sci_node_home(&self.raw, line, contents) })?
            .map(|contents| Contents::of(&contents)))
    }

    /// Whether no operation is pending and no line has an entry.
    pub fn is_at_rest(&self) -> bool {
        read::<u32>(|at_rest| unsafe { sys::sci_node_is_at_rest(&self.raw, at_rest) }) != 0
    }
}

impl Drop for Node {
    fn drop(&mut self) {
        unsafe { sys::sci_node_close(&mut self.raw) };
    }
}
