"""Operations, events, packets, entries of logs, and what calls answer, as tuples with names."""

from __future__ import annotations

from collections.abc import Iterator, Sequence
from ctypes import byref, c_size_t
from typing import NamedTuple

from . import _native
from ._library import buffer, call, filled, text_of, words_of
from .numbers import (LINE_WORDS, NO_NODE, PACKET_BYTES, Act, AskKind, Command, EventKind, HomeState, Obstacle, OrderKind, State, VerdictKind,
                      WantKind)

__all__ = ["Contents", "Dead", "Entry", "Event", "Held", "Home", "Op", "Order", "Packet", "Seen", "Turn", "Verdict", "Want", "packets", "size_text"]


def node_of(number: int) -> int | None:
    """The node that an identifier names, if it names one."""
    return None if number == NO_NODE else number


class Op(NamedTuple):
    """An operation on a word of a line."""

    act: Act
    line: int
    word: int
    arg: int = 0
    datum: int = 0

    @classmethod
    def load(cls, line: int, word: int) -> Op:
        return cls(Act.LOAD, line, word)

    @classmethod
    def store(cls, line: int, word: int, datum: int) -> Op:
        return cls(Act.STORE, line, word, 0, datum)

    @classmethod
    def mask_swap(cls, line: int, word: int, mask: int, datum: int) -> Op:
        """Takes the bits of datum where the mask has a one."""
        return cls(Act.MASK_SWAP, line, word, mask, datum)

    @classmethod
    def compare_swap(cls, line: int, word: int, expected: int, datum: int) -> Op:
        """The word becomes datum if it is the expected one."""
        return cls(Act.COMPARE_SWAP, line, word, expected, datum)

    @classmethod
    def fetch_add(cls, line: int, word: int, datum: int) -> Op:
        return cls(Act.FETCH_ADD, line, word, 0, datum)

    @classmethod
    def bounded_add(cls, line: int, word: int, bound: int, datum: int) -> Op:
        """Adds datum if the word isn't the bound."""
        return cls(Act.BOUNDED_ADD, line, word, bound, datum)

    @classmethod
    def wrap_add(cls, line: int, word: int, bound: int, datum: int) -> Op:
        """Adds datum if the word isn't the bound; else the word becomes datum."""
        return cls(Act.WRAP_ADD, line, word, bound, datum)

    def _as_c(self) -> _native.sci_op:
        return filled(_native.sci_op, self.act, self.line, self.word, 0, self.arg, self.datum)

    @classmethod
    def _of(cls, it: _native.sci_op) -> Op:
        return cls(Act(it.act), it.line, it.word, it.arg, it.datum)


class Event(NamedTuple):
    """An event of a machine. What the kind doesn't have isn't looked at."""

    kind: EventKind
    node: int
    source: int = 0
    line: int = 0
    asks: AskKind = AskKind.MREAD
    op: Op = Op(Act.LOAD, 0, 0)

    @classmethod
    def issue(cls, node: int, op: Op) -> Event:
        """The processor of a node issues an operation."""
        return cls(EventKind.ISSUE, node, op=op)

    @classmethod
    def perform(cls, node: int, line: int) -> Event:
        """The pending operation of a node on a line is performed."""
        return cls(EventKind.PERFORM, node, line=line)

    @classmethod
    def ask(cls, node: int, line: int, asks: AskKind) -> Event:
        """A node sends a request about a line."""
        return cls(EventKind.ASK, node, line=line, asks=asks)

    @classmethod
    def serve(cls, source: int, node: int) -> Event:
        """A node serves the oldest request that came from the source."""
        return cls(EventKind.SERVE, node, source)

    @classmethod
    def refuse(cls, source: int, node: int) -> Event:
        """A node answers that request as busy."""
        return cls(EventKind.REFUSE, node, source)

    @classmethod
    def reply(cls, node: int) -> Event:
        """A node sends the answer that waits."""
        return cls(EventKind.REPLY, node)

    @classmethod
    def accept(cls, source: int, node: int) -> Event:
        """A node accepts the oldest answer that came from the source."""
        return cls(EventKind.ACCEPT, node, source)

    def text(self) -> str:
        """The line of the event in a schedule."""
        return text_of("sci_event_write", self._as_c())

    def _as_c(self) -> _native.sci_event:
        return filled(_native.sci_event, self.kind, self.node, self.source, self.line, self.asks, self.op._as_c())


def size_text(nodes: int, lines: int, slots: int) -> str:
    """The line of a machine's size, with which a schedule begins."""
    return text_of("sci_size_write", nodes, lines, slots)


class Contents(NamedTuple):
    """The words of a line, and the number of their version."""

    version: int
    words: tuple[int, ...]

    def _as_c(self) -> _native.sci_stamped:
        return filled(_native.sci_stamped, self.version, words_of(self.words, LINE_WORDS))

    @classmethod
    def _of(cls, it: _native.sci_stamped | _native.sci_packet) -> Contents:
        return cls(it.version, tuple(it.words))


class Packet(NamedTuple):
    """A packet. Its line is below 2^42, and its contents are None if its command carries none."""

    target: int
    command: Command
    source: int
    control: int
    line: int
    identifier: int
    contents: Contents | None = None

    @property
    def is_request(self) -> bool:
        """Whether it is a request, and no answer."""
        return self.command < 0x100

    @classmethod
    def decode(cls, data: bytes) -> tuple[Packet, int]:
        """The packet that the bytes begin with, and how many bytes it has."""
        packet, used = _native.sci_packet(), c_size_t()
        call("sci_packet_decode", *buffer(data), packet, byref(used))
        return cls._of(packet), used.value

    def encode(self) -> bytes:
        """The bytes of the packet: 16, or 88 with contents."""
        data, used = _native.PACKET_BYTES(), c_size_t()
        call("sci_packet_encode", self._as_c(), data, byref(used))
        return bytes(data[: used.value])

    @classmethod
    def from_words(cls, words: Sequence[int]) -> tuple[Packet, int]:
        """The packet that the words begin with, and how many words it has."""
        packet, used = _native.sci_packet(), c_size_t()
        call("sci_packet_from_words", words_of(words, len(words)), len(words), packet, byref(used))
        return cls._of(packet), used.value

    def to_words(self) -> tuple[int, ...]:
        """The words of the packet: 2, or 11 with contents."""
        words, used = _native.PACKET_WORDS(), c_size_t()
        call("sci_packet_to_words", self._as_c(), words, byref(used))
        return tuple(words[: used.value])

    def text(self) -> str:
        """The line of the packet, as `scimem decode` prints it."""
        return text_of("sci_packet_write", self._as_c())

    def _as_c(self) -> _native.sci_packet:
        version, words = self.contents or (0, (0,) * LINE_WORDS)
        return filled(_native.sci_packet, self.target, self.command, self.source, self.control, self.line, self.identifier,
                      int(self.contents is not None), 0, version, words_of(words, LINE_WORDS))

    @classmethod
    def _of(cls, it: _native.sci_packet) -> Packet:
        contents = Contents._of(it) if it.has_contents else None
        return cls(it.target, Command(it.command), it.source, it.control, it.line, it.identifier, contents)


def packets(data: bytes) -> Iterator[Packet]:
    """The packets that stand one after another in bytes. What is no packet is raised as BadPacket."""
    place = 0
    while place < len(data):
        packet, used = Packet.decode(data[place : place + PACKET_BYTES])
        yield packet
        place += used


class Entry(NamedTuple):
    """An entry of a log. Its word is None for a store."""

    node: int
    serial: int
    op: Op
    word: int | None
    version: int

    def text(self) -> str:
        """The line of the entry in a log."""
        return text_of("sci_entry_write", self._as_c())

    def _as_c(self) -> _native.sci_entry:
        return filled(_native.sci_entry, self.node, int(self.word is not None), 0, self.serial, self.op._as_c(), self.word or 0, self.version)

    @classmethod
    def _of(cls, it: _native.sci_entry) -> Entry:
        return cls(it.node, it.serial, Op._of(it.op), it.word if it.has_word else None, it.version)


class Held(NamedTuple):
    """What a node's cache has of a line, and whether an answer about it is awaited."""

    state: State
    waits: bool
    contents: Contents | None
    forward: int | None
    backward: int | None

    @classmethod
    def _of(cls, it: _native.sci_held) -> Held:
        contents = Contents._of(it.contents) if it.has_contents else None
        return cls(State(it.state), bool(it.waits), contents, node_of(it.forward), node_of(it.backward))


class Home(NamedTuple):
    """What the home of a line knows: the head of its list, and its contents if nobody may have written since."""

    state: HomeState
    head: int | None
    contents: Contents | None

    @classmethod
    def _of(cls, it: _native.sci_home) -> Home:
        return cls(HomeState(it.state), node_of(it.head), Contents._of(it.contents) if it.has_contents else None)


class Seen(NamedTuple):
    """What a step did: the packet that it sent or took, and the entry that it logged."""

    packet: Packet | None
    entry: Entry | None

    @classmethod
    def _of(cls, it: _native.sci_seen) -> Seen:
        return cls(Packet._of(it.packet) if it.has_packet else None, Entry._of(it.entry) if it.has_entry else None)


class Dead(NamedTuple):
    """The events of a schedule that weren't enabled when they came: how many they are, how many events stand before the first of them, and
    what stood in its way."""

    count: int
    place: int
    obstacle: Obstacle

    @classmethod
    def _of(cls, it: _native.sci_dead) -> Dead | None:
        return cls(it.count, it.place, Obstacle(it.obstacle)) if it.count else None


class Want(NamedTuple):
    """What a node does next: perform the operation that is pending on a line, or ask something about it."""

    kind: WantKind
    line: int
    asks: AskKind | None

    @classmethod
    def _of(cls, it: _native.sci_want) -> Want:
        return cls(WantKind(it.kind), it.line, AskKind(it.ask) if it.kind == WantKind.ASK else None)


class Turn(NamedTuple):
    """What a turn of a node did with the packets that had come: those that it left, which the next turn is to be given again, those that it
    sends, in their order, and what the node wants then."""

    left: tuple[Packet, ...]
    sent: tuple[Packet, ...]
    want: Want | None


class Verdict(NamedTuple):
    """What an audit finds: it is true if the logs are lawful, and else has the line, and the entry where the rule fails, if there is one."""

    kind: VerdictKind
    line: int | None = None
    node: int | None = None
    serial: int | None = None

    def __bool__(self) -> bool:
        return self.kind == VerdictKind.LAWFUL

    def __str__(self) -> str:
        at = [("line", self.line), ("node", self.node), ("serial", self.serial)]
        return " ".join([str(self.kind), *(f"{name} {number}" for name, number in at if number is not None)])

    @classmethod
    def _of(cls, it: _native.sci_verdict) -> Verdict:
        entry = (it.node, it.serial) if it.has_entry else ()
        return cls(VerdictKind(it.kind), *(() if it.kind == VerdictKind.LAWFUL else (it.line, *entry)))


class Wanted(NamedTuple):
    """The word that one memory has where a reply is wrong, and the entry that made it. None: it is the zero that was there at first."""

    word: int
    maker: Entry | None


class Order(NamedTuple):
    """What a look for one order finds: it is true if there is one. The entries are in that order, or in a cycle that shows that there is
    none: each would have to come after the next, and the last after the first."""

    kind: OrderKind
    entries: tuple[Entry, ...]

    def __bool__(self) -> bool:
        return self.kind == OrderKind.ORDER
