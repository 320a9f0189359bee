"""A machine: all nodes, and the packets between them."""

from __future__ import annotations

from collections.abc import Iterator
from ctypes import byref, c_size_t, c_uint8, c_uint32

from . import _native
from ._library import buffer, raise_text_fault
from ._owner import Owner
from .logs import Logs
from .numbers import MAX_NODES, Lane, Obstacle
from .values import Contents, Dead, Event, Held, Home, Op, Packet, Seen


class Machine(Owner):
    """A machine of 1 to 16 nodes, 1 to 64 lines and 1 to 8 version slots a node. Each node may issue `limit` operations, at most 65,536. The
    machine is coherent after every call."""

    _kind = "machine"
    _struct = _native.sci_machine

    def __init__(self, nodes: int, lines: int, slots: int, limit: int) -> None:
        super().__init__()
        self._call("open", nodes, lines, slots, limit)

    @classmethod
    def _empty(cls) -> Machine:
        machine = cls.__new__(cls)
        Owner.__init__(machine)
        return machine

    @classmethod
    def replay(cls, text: str | bytes, limit: int) -> tuple[Machine, Dead | None]:
        """The machine where the schedule of this text leads, each node of which may issue `limit` operations, and the events that weren't
        enabled, if there are any: they change nothing. If it is no schedule, BadText has its first fault."""
        machine, dead, fault = cls._empty(), _native.sci_dead(), _native.sci_text_fault()
        status = machine._status("replay", *buffer(text.encode() if isinstance(text, str) else text), limit, dead, fault)
        raise_text_fault("sci_machine_replay", status, fault)
        return machine, Dead._of(dead)

    def step(self, event: Event) -> Seen:
        """Applies an event, and gives the packet that it sent or took and the entry that it logged. It raises NotEnabled if the event isn't
        enabled."""
        seen = _native.sci_seen()
        self._call("step_seen", event._as_c(), seen)
        return Seen._of(seen)

    def try_step(self, event: Event) -> bool:
        """Applies an event if it is enabled, and says whether it was."""
        return self._is_enabled("step", event._as_c())

    def obstacle(self, event: Event) -> Obstacle:
        """Why an event isn't enabled."""
        obstacle = c_uint32()
        self._call("obstacle", event._as_c(), byref(obstacle))
        return Obstacle(obstacle.value)

    def clone(self) -> Machine:
        """A copy of the machine. The two share nothing."""
        copy = Machine._empty()
        self._call("clone", copy._object)
        return copy

    __copy__ = clone

    def __deepcopy__(self, memo: object) -> Machine:
        return self.clone()

    def held(self, node: int, line: int) -> Held:
        """What the cache of a node has of a line."""
        held = _native.sci_held()
        self._call("held", node, line, held)
        return Held._of(held)

    def home(self, node: int, line: int) -> Home | None:
        """What the home of a line knows, or None if it is at another node. The home of a line is at node `line % nodes`."""
        home = _native.sci_home()
        return Home._of(home) if self._is_enabled("home", node, line, home) else None

    def pending(self, node: int, line: int) -> tuple[Op, int] | None:
        """The operation that is pending on a line at a node and its serial, or None."""
        op, serial = _native.sci_op(), c_uint32()
        return (Op._of(op), serial.value) if self._is_enabled("pending", node, line, op, byref(serial)) else None

    def answer(self, node: int) -> Packet | None:
        """The answer that waits at a node to be sent, or None."""
        packet = _native.sci_packet()
        return Packet._of(packet) if self._is_enabled("answer", node, packet) else None

    def packets(self, lane: Lane, source: int, target: int) -> Iterator[Packet]:
        """The packets of a lane, oldest first."""
        packet, place = _native.sci_packet(), 0
        while self._is_enabled("packet", lane, source, target, place, packet):
            yield Packet._of(packet)
            place += 1

    def sharing(self, line: int) -> list[int]:
        """The nodes of a line's sharing list, from its head."""
        nodes, used = (c_uint8 * MAX_NODES)(), c_size_t()
        self._call("sharing", line, nodes, MAX_NODES, byref(used))
        return nodes[: used.value]

    def settle(self) -> int:
        """Brings the machine to rest: all pending operations are performed, and each line is back at its home. Gives the number of
        events."""
        events = c_uint32()
        self._call("settle", byref(events))
        return events.value

    def last(self, line: int) -> Contents:
        """The last contents of a line."""
        contents = _native.sci_stamped()
        self._call("last", line, contents)
        return Contents._of(contents)

    def authority(self, line: int) -> int | None:
        """The one node that may change a line or is about to, or None."""
        node = c_uint8()
        return node.value if self._is_enabled("authority", line, byref(node)) else None

    def logs(self) -> Logs:
        """The machine's logs and last contents."""
        logs = Logs._empty()
        self._call("logs", logs._object)
        return logs
