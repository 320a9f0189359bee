"""The numbers of lichenknit.h, as enums. The gate compares them with the header. `str` gives what the programs print for one."""

from __future__ import annotations

from enum import IntEnum

MAX_NODES = 16
MAX_LINES = 64
MAX_SLOTS = 8
MAX_OPERATIONS = 65536
LINE_WORDS = 8
PACKET_BYTES = 88
PACKET_WORDS = 11
TURN_ROOM = 5
NO_NODE = 0xFFFF


class Number(IntEnum):
    """A number with a name. Its text is the name in lower case, with dashes."""

    def __str__(self) -> str:
        return self.name.lower().replace("_", "-")


class Status(Number):
    """What a call answers. Its text is the name in the header."""

    OK = 0
    NO_MEMORY = 1
    NOT_ENABLED = 2
    RANGE = 3
    MISUSE = 4
    FULL = 5
    SHORT = 6
    UNKNOWN_COMMAND = 7
    BAD_OFFSET = 8
    BAD_IDENTIFIER = 9
    TEXT = 10

    def __str__(self) -> str:
        return f"SCI_{self.name}"


class Act(Number):
    """What an operation does."""

    LOAD = 0
    STORE = 1
    MASK_SWAP = 2
    COMPARE_SWAP = 3
    FETCH_ADD = 4
    BOUNDED_ADD = 5
    WRAP_ADD = 6


class EventKind(Number):
    """What an event is."""

    ISSUE = 0
    PERFORM = 1
    ASK = 2
    SERVE = 3
    REFUSE = 4
    REPLY = 5
    ACCEPT = 6


class AskKind(Number):
    """What a request asks."""

    MREAD = 0
    FREAD = 1
    CREAD = 2
    CLAIM = 3
    CLEAR = 4
    PURGE = 5
    ROLL = 6
    WBACK = 7
    SETBACK = 8


class Command(Number):
    """The command of a packet. The requests are below 0x100, the answers above."""

    MREAD = 0x001
    CREAD = 0x002
    PURGE = 0x003
    ROLL = 0x004
    WBACK = 0x005
    SETBACK = 0x006
    FREAD = 0x007
    CLAIM = 0x008
    CLEAR = 0x009
    MDATA = 0x101
    MGONE = 0x102
    CDATA = 0x103
    PURGED = 0x104
    ROLLED = 0x105
    WBOK = 0x106
    WBNO = 0x107
    TOLD = 0x108
    BUSY = 0x109
    FDATA = 0x10A


class State(Number):
    """The state of a line in a node's cache."""

    OUT = 0
    ASKING = 1
    JOINING = 2
    FRESH_JOINING = 3
    HEAD = 4
    FRESH_HEAD = 5
    BELOW = 6
    PURGING = 7
    CLAIMING = 8
    CLEARING = 9
    RETURNING = 10
    ROLLING = 11
    TELLING = 12
    FADING = 13

    def __str__(self) -> str:
        return self.name.title().replace("_", "")


class HomeState(Number):
    """The state of a line's home."""

    HOME = 0
    FRESH = 1
    GONE = 2

    def __str__(self) -> str:
        return self.name


class Lane(Number):
    """The lanes from one node to another."""

    REQUESTS = 0
    ANSWERS = 1


class Obstacle(Number):
    """Why an event is not enabled. ENABLED is that it is."""

    ENABLED = 0
    NO_SUCH_NODE = 1
    NO_SUCH_SENDER = 2
    NO_SUCH_LINE = 3
    NO_SUCH_WORD = 4
    ALREADY_PENDING = 5
    NO_ISSUE_LEFT = 6
    NOTHING_PENDING = 7
    NOT_ALLOWED = 8
    NOT_ASKED = 9
    NO_SLOT = 10
    NOTHING_UNDER_WAY = 11
    ANSWER_WAITS = 12
    SETBACK_COMES = 13
    NO_ANSWER_WAITS = 14

    # SCI_NO_OBSTACLE of the header.
    NO_OBSTACLE = 0


class WantKind(Number):
    """What a node does next."""

    NOTHING = 0
    PERFORM = 1
    ASK = 2


class Decision(Number):
    """What a node does with a request that has come."""

    KEEP = 0
    TO_REFUSE = 1
    TO_SERVE = 2


class VerdictKind(Number):
    """What an audit finds."""

    LAWFUL = 0
    VERSION_TWICE = 1
    VERSION_MISSING = 2
    WRONG_REPLY = 3
    OUT_OF_ORDER = 4
    LAST_DIFFERS = 5


class OrderKind(Number):
    """What a look for one order finds."""

    ORDER = 0
    CYCLE = 1
    UNLAWFUL = 2


class AccessKind(Number):
    """What an operation of a trace did."""

    LOAD = 0
    STORE = 1
    ATOMIC = 2


class JudgementKind(Number):
    """What is found of a trace."""

    COHERENT = 0
    NOT_COHERENT = 1
    UNDECIDED = 2


class Freedom(Number):
    """Whether other versions explain a coherent trace as well."""

    FORCED = 0
    FREE = 1
    UNKNOWN = 2


class Consistency(Number):
    """Whether one order of all operations explains a coherent trace."""

    UNASKED = 0
    SEQUENTIAL = 1
    CYCLE = 2
    NOT_SEQUENTIAL = 3
    UNKNOWN = 4


class Witness(Number):
    """What shows that operations at an address aren't coherent."""

    NONE = 0
    UNWRITTEN = 1
    UNWRITTEN_LAST = 2
    EARLY = 3
    CIRCLE = 4
    ROUND = 5


class TextKind(Number):
    """What is wrong with a text."""

    SYNTAX = 1
    RANGE = 2
    TOO_MANY = 3
