"""The logs of all nodes, of this machine or of any other."""

from __future__ import annotations

from collections.abc import Iterator, Sequence
from ctypes import byref, c_size_t, c_uint8, c_uint32, c_uint64
from typing import overload

from . import _native
from ._library import buffer, failed, raise_text_fault
from ._owner import Owner
from .numbers import MAX_NODES, OrderKind, Status
from .values import Contents, Entry, Order, Verdict, Wanted


class Log(Sequence[Entry]):
    """The log of one node: its entries in their order."""

    def __init__(self, logs: Logs, node: int) -> None:
        self._logs, self._node = logs, node

    def __len__(self) -> int:
        count = c_size_t()
        self._logs._call("count", self._node, byref(count))
        return count.value

    @overload
    def __getitem__(self, place: int) -> Entry: ...

    @overload
    def __getitem__(self, place: slice) -> list[Entry]: ...

    def __getitem__(self, place: int | slice) -> Entry | list[Entry]:
        if isinstance(place, slice):
            return [self[it] for it in range(*place.indices(len(self)))]
        count = len(self)
        if not -count <= place < count:
            raise IndexError(f"the log has {count} entries")
        return self._entry(place % count)

    def __iter__(self) -> Iterator[Entry]:
        return (self._entry(it) for it in range(len(self)))

    def _entry(self, place: int) -> Entry:
        entry = _native.sci_entry()
        self._logs._call("entry", self._node, place, entry)
        return Entry._of(entry)


class Logs(Owner):
    """The logs of all nodes, with the last contents of each line. New ones have no entries, and zero words at version 0."""

    _kind = "logs"
    _struct = _native.sci_logs

    def __init__(self, nodes: int, lines: int) -> None:
        super().__init__()
        self._call("open", nodes, lines)

    @classmethod
    def _empty(cls) -> Logs:
        logs = cls.__new__(cls)
        Owner.__init__(logs)
        return logs

    @classmethod
    def read(cls, text: str | bytes) -> Logs:
        """The logs of a text, in the format of `scimem replay`. If it is no log, BadText has its first fault."""
        logs, fault = cls._empty(), _native.sci_text_fault()
        status = logs._status("read", *buffer(text.encode() if isinstance(text, str) else text), fault)
        raise_text_fault("sci_logs_read", status, fault)
        return logs

    def text(self) -> str:
        """The text of the logs."""
        return self._text("write")

    def explain(self) -> str:
        """What is wrong with the logs, line by line, and what would be right, as `sciview explain` says it."""
        return self._text("explain")

    def _text(self, name: str) -> str:
        used, room = c_size_t(), 0
        while True:
            data = (c_uint8 * room)()
            status = self._status(name, data, room, byref(used))
            if status == Status.OK:
                return bytes(data[: used.value]).decode()
            if status != Status.FULL:
                raise failed(f"sci_logs_{name}", status)
            room = used.value

    def push(self, entry: Entry) -> None:
        """Ends the log of the entry's node with the entry."""
        self._call("push", entry._as_c())

    def extend(self, entries: Sequence[Entry] | Iterator[Entry]) -> None:
        """Pushes one entry after another."""
        for it in entries:
            self.push(it)

    @property
    def size(self) -> tuple[int, int]:
        """How many nodes and lines there are."""
        nodes, lines = c_uint8(), c_uint8()
        self._call("size", byref(nodes), byref(lines))
        return nodes.value, lines.value

    def last(self, line: int) -> Contents:
        """The last contents of a line."""
        contents = _native.sci_stamped()
        self._call("last", line, contents)
        return Contents._of(contents)

    def set_last(self, line: int, contents: Contents) -> None:
        """Replaces the last contents of a line."""
        self._call("set_last", line, contents._as_c())

    def first(self, line: int) -> Contents:
        """The contents with which a line begins."""
        contents = _native.sci_stamped()
        self._call("first", line, contents)
        return Contents._of(contents)

    def set_first(self, line: int, contents: Contents) -> None:
        """Replaces the contents with which a line begins, which are zero words at version 0 if they were not given. So these are the
        logs of a window of a longer run."""
        self._call("set_first", line, contents._as_c())

    def go_on(self) -> None:
        """Begins the next window: it drops all entries, and each line begins with its last contents."""
        self._call("go_on")

    def of(self, node: int) -> Log:
        """The log of a node."""
        nodes, _ = self.size
        if not 0 <= node < nodes:
            raise IndexError(f"there are {nodes} nodes")
        return Log(self, node)

    def __len__(self) -> int:
        """How many entries there are in all."""
        return sum(len(Log(self, it)) for it in range(MAX_NODES))

    def __iter__(self) -> Iterator[Entry]:
        """All entries, node after node."""
        for node in range(self.size[0]):
            yield from Log(self, node)

    def audit(self) -> Verdict:
        """Whether on each line one memory of one thread explains the logs and the last contents; else the first fault of the lowest
        line that has one."""
        verdict = _native.sci_verdict()
        self._call("audit", verdict)
        return Verdict._of(verdict)

    def audit_cut_off(self) -> Verdict:
        """The same whatever the last contents are, as of a simulation that was cut off: lawful if the logs are with some last contents."""
        verdict = _native.sci_verdict()
        self._call("audit_cut_off", verdict)
        return Verdict._of(verdict)

    def wanted(self) -> Wanted | None:
        """Where the verdict of `audit` is a wrong reply, the word that one memory has there, and the entry that made it; None where it is
        another one."""
        word, has_maker, maker = c_uint64(), c_uint32(), _native.sci_entry()
        if not self._is_enabled("wanted", byref(word), byref(has_maker), maker):
            return None
        return Wanted(word.value, Entry._of(maker) if has_maker.value else None)

    def order(self) -> Order:
        """One order of all entries that keeps each node's log and that one memory explains, or a cycle that shows that none does."""
        kind, used, room = c_uint32(), c_size_t(), len(self)
        entries = (_native.sci_entry * room)()
        self._call("order", byref(kind), entries, room, byref(used))
        return Order(OrderKind(kind.value), tuple(Entry._of(it) for it in entries[: used.value]))

    def order_kind(self) -> OrderKind:
        """What `order` would find."""
        kind = c_uint32()
        self._call("order_kind", byref(kind))
        return OrderKind(kind.value)
