"""Traces without versions, as operations, judged by the library."""

from __future__ import annotations

from collections.abc import Iterable, Mapping
from ctypes import byref, c_uint64
from typing import NamedTuple

from . import _native
from ._library import call, filled
from .numbers import AccessKind, Consistency, Freedom, JudgementKind, Witness

__all__ = ["Access", "TraceVerdict", "judge_accesses"]

NEVER = (1 << 64) - 1


class Access(NamedTuple):
    """What a processor did at an address. A word that the kind doesn't have isn't looked at, and times that aren't known can be left out."""

    kind: AccessKind
    processor: int
    address: int
    read: int = 0
    wrote: int = 0
    begin: int = 0
    end: int = NEVER

    @classmethod
    def load(cls, processor: int, address: int, read: int, begin: int = 0, end: int = NEVER) -> Access:
        """It read a word."""
        return cls(AccessKind.LOAD, processor, address, read, 0, begin, end)

    @classmethod
    def store(cls, processor: int, address: int, wrote: int, begin: int = 0, end: int = NEVER) -> Access:
        """It wrote a word."""
        return cls(AccessKind.STORE, processor, address, 0, wrote, begin, end)

    @classmethod
    def atomic(cls, processor: int, address: int, read: int, wrote: int, begin: int = 0, end: int = NEVER) -> Access:
        """It read a word and wrote one, with nothing between the two."""
        return cls(AccessKind.ATOMIC, processor, address, read, wrote, begin, end)

    def _as_c(self, place: int) -> _native.sci_access:
        return filled(_native.sci_access, self.processor, self.kind, 0, 0, self.address, self.read, self.wrote, self.begin, self.end, place)


class TraceVerdict(NamedTuple):
    """What the judge says of a trace. It is true if the trace is coherent, and sequentially consistent if that was asked."""

    kind: JudgementKind
    address: int | None
    """Where it isn't coherent, or where nothing was found."""
    freedom: Freedom | None
    """Of a coherent trace: whether other versions explain it as well."""
    consistency: Consistency
    witness: Witness
    places: tuple[int, ...]
    """The operations of the witness, or of the cycle, by their places among those that were given."""

    def __bool__(self) -> bool:
        return self.kind == JudgementKind.COHERENT and self.consistency in (Consistency.UNASKED, Consistency.SEQUENTIAL)


def judge_accesses(accesses: Iterable[Access], last: Mapping[int, int] | None = None, *, times: bool = False, order: bool = False,
                   limit: int = 1_000_000) -> TraceVerdict:
    """Whether some versions explain the operations, those of each processor in its order, and the last words by their addresses.

    With `times` what ended before another operation at its address began has to stand before it. With `order` one order of all
    operations is looked for. A search makes at most `limit` choices. A number that is out of range raises OutOfRange."""
    given = [it._as_c(place) for place, it in enumerate(accesses)]
    words = [filled(_native.sci_last_word, address, word) for address, word in (last or {}).items()]
    way, found = filled(_native.sci_trace_way, int(times), int(order), limit), _native.sci_judgement()
    structs, ends = (_native.sci_access * len(given))(*given), (_native.sci_last_word * len(words))(*words)
    room = 16
    while True:
        ids = (c_uint64 * room)()
        call("sci_trace_judge", structs, len(given), ends, len(words), byref(way), byref(found), ids, room)
        if found.named <= room:
            break
        room = found.named
    kind = JudgementKind(found.kind)
    is_coherent = kind == JudgementKind.COHERENT
    return TraceVerdict(kind, None if is_coherent else found.address, Freedom(found.freedom) if is_coherent else None,
                        Consistency(found.consistency), Witness(found.witness), tuple(ids[: found.named]))
