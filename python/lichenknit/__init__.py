"""Lichenknit: a proved model of machines with coherent caches, and a checker of their logs.

    >>> from lichenknit import Event, Machine, Op
    >>> with Machine(nodes=2, lines=4, slots=2, limit=16) as machine:
    ...     _ = machine.step(Event.issue(1, Op.store(line=0, word=3, datum=42)))
    ...     _ = machine.settle()
    ...     print(machine.logs().audit())
    lawful

The package is the C library's interface in Python's manner: each method is a function of lichenknit.h, a status that isn't SCI_OK is an
exception, and what isn't there is None. `judge` alone asks the program sciview."""

from ._library import library
from .errors import BadPacket, BadText, Error, Full, Misuse, NoMemory, NotEnabled, OutOfRange
from .judging import BadTrace, Judgement, judge
from .logs import Log, Logs
from .machine import Machine
from .node import Node
from .numbers import (LINE_WORDS, MAX_LINES, MAX_NODES, MAX_OPERATIONS, MAX_SLOTS, NO_NODE, PACKET_BYTES, PACKET_WORDS, AccessKind, Act, AskKind, Command,
                      Consistency, Decision, EventKind, Freedom, HomeState, JudgementKind, Lane, Obstacle, OrderKind, State, Status, TextKind,
                      VerdictKind, WantKind, Witness)
from .scoreboard import Scoreboard
from .traces import Access, TraceVerdict, judge_accesses
from .values import Contents, Dead, Entry, Event, Held, Home, Op, Order, Packet, Seen, Turn, Verdict, Want, Wanted, packets, size_text

__version__ = "0.1.0"
__all__ = [
    "LINE_WORDS", "MAX_LINES", "MAX_NODES", "MAX_OPERATIONS", "MAX_SLOTS", "NO_NODE", "PACKET_BYTES", "PACKET_WORDS", "Access", "AccessKind", "Act",
    "AskKind",
    "BadPacket", "BadText", "BadTrace", "Command", "Consistency", "Contents", "Dead", "Decision", "Entry", "Error", "Event", "EventKind", "Freedom", "Full", "Held", "Home", "HomeState",
    "Judgement", "JudgementKind", "Lane", "Log", "Logs", "Machine", "Misuse", "NoMemory", "Node", "NotEnabled", "Obstacle", "Op", "Order", "OrderKind", "OutOfRange", "Packet", "Scoreboard", "Seen",
    "State", "Status", "TextKind", "TraceVerdict", "Turn", "Verdict", "VerdictKind", "Want", "WantKind", "Wanted", "Witness", "judge", "judge_accesses", "library_version", "packets", "size_text",
]


def library_version() -> tuple[int, int]:
    """The version of the library: its first two numbers."""
    return divmod(library().sci_version(), 65536)
