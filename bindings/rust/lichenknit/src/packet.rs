use std::ops::Deref;

use lichenknit_sys as sys;

use crate::calls::{checked, text_of};
use crate::error::{Error, Result};
use crate::kinds::Command;
use crate::values::Contents;

/// The bytes of one packet: 16, or 88 with contents.
#[derive(Clone, Copy, Debug, PartialEq, Eq)]
pub struct PacketBytes {
    bytes: [u8; sys::SCI_PACKET_BYTES as usize],
    length: usize,
}

impl PacketBytes {
    /// What a call writes over the first bytes, and how many.
    pub(crate) fn written(
        call: impl FnOnce(*mut [u8; sys::SCI_PACKET_BYTES as usize], *mut usize) -> sys::sci_status,
    ) -> Result<Self> {
        let mut made = PacketBytes { bytes: [0; sys::SCI_PACKET_BYTES as usize], length: 0 };
        checked(call(&mut made.bytes, &mut made.length))?;
        Ok(made)
    }

    /// The node that the packet is for.
    pub fn target(&self) -> u16 {
        u16::from_be_bytes([self.bytes[0], self.bytes[1]])
    }

    /// Whether the packet is a request, and no answer.
    pub fn is_request(&self) -> bool {
        self.bytes[2] == 0
    }
}

impl Deref for PacketBytes {
    type Target = [u8];

    fn deref(&self) -> &[u8] {
        &self.bytes[..self.length]
    }
}

/// A packet. It has contents if its command carries some.
#[derive(Clone, Copy, Debug, PartialEq, Eq, Hash)]
pub struct Packet {
    pub target: u16,
    pub command: Command,
    pub source: u16,
    pub control: u16,
    /// Below 2^42.
    pub line: u64,
    pub identifier: u16,
    pub contents: Option<Contents>,
}

impl Packet {
    /// The packet that the bytes begin with, and how many bytes it has.
    pub fn decode(bytes: &[u8]) -> Result<(Self, usize)> {
        let (mut raw, mut used) = (sys::sci_packet::default(), 0);
        // SAFETY: the pointers lead to the bytes, to a packet and to a number.
        checked(unsafe {
            sys::sci_packet_decode(bytes.as_ptr(), bytes.len(), &mut raw, &mut used)
        })?;
        Ok((Packet::of(&raw).ok_or(Error::UnknownCommand)?, used))
    }

    /// The bytes of the packet.
    pub fn encode(&self) -> Result<PacketBytes> {
        let raw = self.raw();
        // SAFETY: the pointers lead to a packet, to 88 bytes and to a number.
        PacketBytes::written(|bytes, used| unsafe { sys::sci_packet_encode(&raw, bytes, used) })
    }

    /// The packet that the words begin with, and how many words it has.
    pub fn from_words(words: &[u64]) -> Result<(Self, usize)> {
        let (mut raw, mut used) = (sys::sci_packet::default(), 0);
        // SAFETY: the pointers lead to the words, to a packet and to a number.
        checked(unsafe {
            sys::sci_packet_from_words(words.as_ptr(), words.len(), &mut raw, &mut used)
        })?;
        Ok((Packet::of(&raw).ok_or(Error::UnknownCommand)?, used))
    }

    /// The words of the packet: 2, or 11 with contents.
    pub fn to_words(&self) -> Result<Vec<u64>> {
        let (raw, mut words, mut used) = (self.raw(), [0; sys::SCI_PACKET_WORDS as usize], 0);
        // SAFETY: the pointers lead to a packet, to 11 words and to a number.
        checked(unsafe { sys::sci_packet_to_words(&raw, &mut words, &mut used) })?;
        Ok(words[..used].to_vec())
    }

    /// The line of the packet, as `scimem decode` prints it.
    pub fn text(&self) -> Result<String> {
        let raw = self.raw();
        // SAFETY: the pointers lead to a packet, to the room and to a number.
        text_of(|text, room, used| unsafe { sys::sci_packet_write(&raw, text, room, used) })
    }

    pub(crate) fn raw(&self) -> sys::sci_packet {
        let Contents { version, words } = self.contents.unwrap_or_default();
        sys::sci_packet {
            target: self.target,
            command: self.command.number() as u16,
            source: self.source,
            control: self.control,
            line: self.line,
            identifier: self.identifier,
            has_contents: self.contents.is_some().into(),
            reserved: 0,
            version,
            words,
        }
    }

    /// What a struct of the library says, if its command is one.
    pub(crate) fn of(raw: &sys::sci_packet) -> Option<Self> {
        Some(Packet {
            target: raw.target,
            command: Command::of(raw.command.into())?,
            source: raw.source,
            control: raw.control,
            line: raw.line,
            identifier: raw.identifier,
            contents: (raw.has_contents != 0)
                .then_some(Contents { version: raw.version, words: raw.words }),
        })
    }
}

/// The packets that stand one after another in bytes. It ends behind the first that is none.
#[derive(Clone, Debug)]
pub struct Packets<'a> {
    rest: &'a [u8],
}

impl<'a> Packets<'a> {
    pub fn new(bytes: &'a [u8]) -> Self {
        Packets { rest: bytes }
    }
}

impl Iterator for Packets<'_> {
    type Item = Result<Packet>;

    fn next(&mut self) -> Option<Self::Item> {
        if self.rest.is_empty() {
            return None;
        }
        let read = Packet::decode(self.rest);
        self.rest = read.ok().and_then(|(_, used)| self.rest.get(used..)).unwrap_or_default();
        Some(read.map(|(packet, _)| packet))
    }
}
