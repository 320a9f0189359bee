"""The controller of one node."""

from __future__ import annotations

from collections.abc import Iterator, Sequence
from ctypes import byref, c_size_t, c_uint8, c_uint32

from . import _native
from ._library import buffer
from ._owner import Owner
from .numbers import TURN_ROOM, AskKind, Decision, WantKind
from .values import Contents, Entry, Held, Home, Op, Packet, Turn, Want


class Node(Owner):
    """The controller of node `me` in a machine of this size. Packets go in and out as bytes; the second byte is the target. The caller gives
    each packet to its target at most once: a request to `serve` or `refuse`, an answer to `accept`."""

    _kind = "node"
    _struct = _native.sci_node

    def __init__(self, me: int, nodes: int, lines: int, slots: int, limit: int) -> None:
        super().__init__()
        self._call("open", me, nodes, lines, slots, limit)

    def clone(self) -> Node:
        """A copy of the node, with what its policy remembers. The two share nothing."""
        copy = Node.__new__(Node)
        Owner.__init__(copy)
        self._call("clone", copy._object)
        return copy

    __copy__ = clone

    def __deepcopy__(self, memo: object) -> Node:
        return self.clone()

    def start_log(self, limit: int) -> None:
        """Begins again with an empty log, at rest: serials go on from 0, and the node may issue that many operations. Its homes know what
        they knew."""
        self._call("start_log", limit)

    def issue(self, op: Op) -> int:
        """Issues an operation, and gives its serial. It raises Full if the node has issued all that it may."""
        serial = c_uint32()
        self._call("issue", op._as_c(), byref(serial))
        return serial.value

    def perform(self, line: int) -> Entry:
        """Performs the operation that is pending on a line, and gives its entry."""
        entry = _native.sci_entry()
        self._call("perform", line, entry)
        return Entry._of(entry)

    def ask(self, line: int, asks: AskKind) -> bytes:
        """Makes a request about a line, which is to be carried to its target."""
        data, used = _native.PACKET_BYTES(), c_size_t()
        self._call("ask", line, asks, data, byref(used))
        return bytes(data[: used.value])

    def take_answer(self) -> bytes | None:
        """The answer that waits, which is to be carried to its target, or None."""
        data, used = _native.PACKET_BYTES(), c_size_t()
        return bytes(data[: used.value]) if self._is_enabled("take_answer", data, byref(used)) else None

    def serve(self, packet: bytes) -> None:
        """Serves a request: its answer waits then."""
        self._call("serve", *buffer(packet))

    def refuse(self, packet: bytes) -> None:
        """Answers a request as busy: the answer waits then."""
        self._call("refuse", *buffer(packet))

    def accept(self, packet: bytes) -> None:
        """Accepts an answer."""
        self._call("accept", *buffer(packet))

    def turn(self, came: Sequence[Packet]) -> Turn:
        """Takes a turn by the node's policy, with the packets that have come to it: it sends the answer that waits, accepts answers, serves or
        refuses requests, and asks up to four times for what it wants."""
        room = len(came) + TURN_ROOM
        packets = (_native.sci_packet * len(came))(*(it._as_c() for it in came))
        taken, sent, used, want = (c_uint8 * len(came))(), (_native.sci_packet * room)(), c_size_t(), _native.sci_want()
        self._call("turn", packets, len(came), taken, len(came), sent, room, byref(used), want)
        left = tuple(it for it, mark in zip(came, taken, strict=True) if not mark)
        wanted = None if want.kind == WantKind.NOTHING else Want._of(want)
        return Turn(left, tuple(Packet._of(it) for it in sent[: used.value]), wanted)

    def begin_turn(self) -> None:
        """Counts a turn of the node."""
        self._call("begin_turn")

    def next(self) -> Want | None:
        """What the node does next by its policy, or None."""
        want = _native.sci_want()
        self._call("next", want)
        return None if want.kind == WantKind.NOTHING else Want._of(want)

    def wants(self) -> Iterator[Want]:
        """What the node does, one thing after another. The caller does each before it takes the next."""
        while (want := self.next()) is not None:
            yield want

    def decide(self, packet: bytes) -> Decision:
        """What the node does with a request by its policy."""
        decision = c_uint32()
        self._call("decide", *buffer(packet), byref(decision))
        return Decision(decision.value)

    def first_sender(self) -> int:
        """The node whose requests are looked at first in a turn."""
        node = c_uint8()
        self._call("first_sender", byref(node))
        return node.value

    def held(self, line: int) -> Held:
        """What the node's cache has of a line."""
        held = _native.sci_held()
        self._call("held", line, held)
        return Held._of(held)

    def home_state(self, line: int) -> Home | None:
        """What the home of a line knows, or None if it is at another node."""
        home = _native.sci_home()
        return Home._of(home) if self._is_enabled("home_state", line, home) else None

    def answer(self) -> Packet | None:
        """The answer that waits, which stays there, or None."""
        packet = _native.sci_packet()
        return Packet._of(packet) if self._is_enabled("answer", packet) else None

    def pending(self, line: int) -> tuple[Op, int] | None:
        """The operation that is pending on a line and its serial, or None."""
        op, serial = _native.sci_op(), c_uint32()
        return (Op._of(op), serial.value) if self._is_enabled("pending", line, op, byref(serial)) else None

    def home(self, line: int) -> Contents | None:
        """The contents of a line whose home is here, or None if it is elsewhere or another node may have written."""
        contents = _native.sci_stamped()
        return Contents._of(contents) if self._is_enabled("home", line, contents) else None

    @property
    def is_at_rest(self) -> bool:
        """Whether no operation is pending and no line has an entry."""
        at_rest = c_uint32()
        self._call("is_at_rest", byref(at_rest))
        return bool(at_rest.value)
