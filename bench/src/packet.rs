//! Packets, their spelling, and the lines that `decode` prints.

use crate::memory::Contents;
use crate::text::{push_contents, push_field};

pub type NodeId = u16;

const NOBODY: NodeId = 0xFFFF;
pub const SHORT_WORDS: usize = 2;
pub const LONG_WORDS: usize = 11;

/// What a node asks for itself.
#[derive(Clone, Copy, PartialEq, Eq)]
pub enum AskKind {
    Mread,
    Fread,
    Cread,
    Claim,
    Clear,
    Purge,
    Roll,
    Wback,
    Setback,
}

impl AskKind {
    pub fn named(name: &[u8]) -> Option<AskKind> {
        Some(match name {
            b"mread" => AskKind::Mread,
            b"fread" => AskKind::Fread,
            b"cread" => AskKind::Cread,
            b"claim" => AskKind::Claim,
            b"clear" => AskKind::Clear,
            b"purge" => AskKind::Purge,
            b"roll" => AskKind::Roll,
            b"wback" => AskKind::Wback,
            b"setback" => AskKind::Setback,
            _ => return None,
        })
    }
}

#[derive(Clone, Copy, PartialEq, Eq)]
pub enum Body {
    Mread,
    Cread,
    Purge,
    Roll { forward: Option<NodeId> },
    Wback(Contents),
    Setback { back: NodeId },
    Fread,
    Claim,
    Clear,
    Mdata(Contents),
    Mgone { head: NodeId },
    Cdata(Contents),
    Purged { forward: Option<NodeId> },
    Rolled,
    Wbok,
    Wbno,
    Told,
    Busy,
    Fdata { head: Option<NodeId>, contents: Contents },
}

/// What the identifier of a command is.
enum Identifier {
    Unused,
    Node(NodeId),
    Maybe(Option<NodeId>),
}

impl Body {
    fn name(&self) -> &'static str {
        match self {
            Body::Mread => "mread",
            Body::Cread => "cread",
            Body::Purge => "purge",
            Body::Roll { .. } => "roll",
            Body::Wback(_) => "wback",
            Body::Setback { .. } => "setback",
            Body::Fread => "fread",
            Body::Claim => "claim",
            Body::Clear => "clear",
            Body::Mdata(_) => "mdata",
            Body::Mgone { .. } => "mgone",
            Body::Cdata(_) => "cdata",
            Body::Purged { .. } => "purged",
            Body::Rolled => "rolled",
            Body::Wbok => "wbok",
            Body::Wbno => "wbno",
            Body::Told => "told",
            Body::Busy => "busy",
            Body::Fdata { .. } => "fdata",
        }
    }

    fn command(&self) -> u16 {
        match self {
            Body::Mread => 0x0001,
            Body::Cread => 0x0002,
            Body::Purge => 0x0003,
            Body::Roll { .. } => 0x0004,
            Body::Wback(_) => 0x0005,
            Body::Setback { .. } => 0x0006,
            Body::Fread => 0x0007,
            Body::Claim => 0x0008,
            Body::Clear => 0x0009,
            Body::Mdata(_) => 0x0101,
            Body::Mgone { .. } => 0x0102,
            Body::Cdata(_) => 0x0103,
            Body::Purged { .. } => 0x0104,
            Body::Rolled => 0x0105,
            Body::Wbok => 0x0106,
            Body::Wbno => 0x0107,
            Body::Told => 0x0108,
            Body::Busy => 0x0109,
            Body::Fdata { .. } => 0x010A,
        }
    }

    fn identifier(&self) -> Identifier {
        match *self {
            Body::Roll { forward } | Body::Purged { forward } => Identifier::Maybe(forward),
            Body::Fdata { head, .. } => Identifier::Maybe(head),
            Body::Setback { back } => Identifier::Node(back),
            Body::Mgone { head } => Identifier::Node(head),
            _ => Identifier::Unused,
        }
    }

    pub fn contents(&self) -> Option<&Contents> {
        match self {
            Body::Wback(contents) | Body::Mdata(contents) | Body::Cdata(contents) => Some(contents),
            Body::Fdata { contents, .. } => Some(contents),
            _ => None,
        }
    }
}

#[derive(Clone, Copy)]
pub struct Packet {
    pub target: NodeId,
    pub source: NodeId,
    pub control: u16,
    pub line: u64,
    pub body: Body,
}

/// What is wrong with bytes that begin with no packet.
#[derive(Clone, Copy, PartialEq, Eq)]
pub enum Fault {
    Short,
    UnknownCommand,
    BadOffset,
    BadIdentifier,
}

impl Fault {
    pub fn name(self) -> &'static str {
        match self {
            Fault::Short => "short",
            Fault::UnknownCommand => "unknown-command",
            Fault::BadOffset => "bad-offset",
            Fault::BadIdentifier => "bad-identifier",
        }
    }
}

impl Packet {
    /// Spells the packet in words, and returns how many there are.
    pub fn spell(&self, words: &mut [u64; LONG_WORDS]) -> usize {
        let identifier = match self.body.identifier() {
            Identifier::Unused | Identifier::Maybe(None) => NOBODY,
            Identifier::Node(node) | Identifier::Maybe(Some(node)) => node,
        };
        words[0] = u64::from(self.target) << 48
            | u64::from(self.body.command()) << 32
            | u64::from(self.source) << 16
            | u64::from(self.control);
        words[1] = self.line << 22 | u64::from(identifier);
        match self.body.contents() {
            Some(contents) => {
                words[2] = contents.version;
                words[3..].copy_from_slice(&contents.words);
                LONG_WORDS
            }
            None => SHORT_WORDS,
        }
    }

    /// The packet that words spell. The contents are asked for only if the command has some.
    pub fn read(
        first: u64,
        second: u64,
        contents: impl FnOnce() -> Option<Contents>,
    ) -> Result<Packet, Fault> {
        let [target, command, source, control] =
            [48, 32, 16, 0].map(|shift| (first >> shift) as u16);
        if !matches!(command, 0x0001..=0x0009 | 0x0101..=0x010A) {
            return Err(Fault::UnknownCommand);
        }
        let identifier = second as u16;
        if second >> 16 & 63 != 0 {
            return Err(Fault::BadOffset);
        }
        let named = (identifier != NOBODY).then_some(identifier);
        let is_used = matches!(command, 0x0004 | 0x0006 | 0x0102 | 0x0104 | 0x010A);
        let is_needed = matches!(command, 0x0006 | 0x0102);
        if target == NOBODY
            || source == NOBODY
            || (!is_used && named.is_some())
            || (is_needed && named.is_none())
        {
            return Err(Fault::BadIdentifier);
        }
        let filled = || contents().ok_or(Fault::Short);
        let body = match command {
            0x0001 => Body::Mread,
            0x0002 => Body::Cread,
            0x0003 => Body::Purge,
            0x0004 => Body::Roll { forward: named },
            0x0005 => Body::Wback(filled()?),
            0x0006 => Body::Setback { back: identifier },
            0x0007 => Body::Fread,
            0x0008 => Body::Claim,
            0x0009 => Body::Clear,
            0x0101 => Body::Mdata(filled()?),
            0x0102 => Body::Mgone { head: identifier },
            0x0103 => Body::Cdata(filled()?),
            0x0104 => Body::Purged { forward: named },
            0x0105 => Body::Rolled,
            0x0106 => Body::Wbok,
            0x0107 => Body::Wbno,
            0x0108 => Body::Told,
            0x0109 => Body::Busy,
            _ => Body::Fdata { head: named, contents: filled()? },
        };
        Ok(Packet { target, source, control, line: second >> 22, body })
    }

    /// The packet with which bytes begin, and its length.
    fn decode(bytes: &[u8]) -> Result<(Packet, usize), Fault> {
        let word = |index: usize| {
            let word = bytes.get(8 * index..8 * index + 8)?;
            Some(u64::from_be_bytes(word.try_into().ok()?))
        };
        let (Some(first), Some(second)) = (word(0), word(1)) else {
            return Err(Fault::Short);
        };
        let packet = Packet::read(first, second, || {
            let mut contents = Contents { version: word(2)?, words: [0; 8] };
            for (index, it) in contents.words.iter_mut().enumerate() {
                *it = word(3 + index)?;
            }
            Some(contents)
        })?;
        let words = if packet.body.contents().is_some() { LONG_WORDS } else { SHORT_WORDS };
        Ok((packet, 8 * words))
    }

    fn push_text(&self, out: &mut Vec<u8>) {
        out.extend_from_slice(self.body.name().as_bytes());
        for (name, value) in [
            (" to", u64::from(self.target)),
            (" from", u64::from(self.source)),
            (" control", u64::from(self.control)),
            (" line", self.line),
        ] {
            out.extend_from_slice(name.as_bytes());
            push_field(out, value);
        }
        match self.body.identifier() {
            Identifier::Unused => {}
            Identifier::Node(node) | Identifier::Maybe(Some(node)) => {
                out.extend_from_slice(b" id");
                push_field(out, u64::from(node));
            }
            Identifier::Maybe(None) => out.extend_from_slice(b" id none"),
        }
        if let Some(contents) = self.body.contents() {
            push_contents(out, contents);
        }
        out.push(b'\n');
    }
}

/// A line for each packet, and whether the bytes are a run of packets.
pub fn decode_text(input: &[u8]) -> (Vec<u8>, bool) {
    let mut out = Vec::new();
    let mut rest = input;
    while !rest.is_empty() {
        match Packet::decode(rest) {
            Ok((packet, length)) => {
                packet.push_text(&mut out);
                rest = &rest[length..];
            }
            Err(fault) => {
                let place = input.len() - rest.len();
                out.extend(format!("refused at byte {place}: {}\n", fault.name()).bytes());
                return (out, false);
            }
        }
    }
    (out, true)
}
