"""What is raised where a call of the library answers another status than SCI_OK."""

from __future__ import annotations

from .numbers import Status, TextKind


class Error(Exception):
    """A call was refused. It has changed nothing, unless lichenknit.h says otherwise."""

    def __init__(self, message: str, status: Status) -> None:
        super().__init__(message)
        self.status = status


class NoMemory(Error, MemoryError):
    """Memory was refused. The call can be made again."""


class NotEnabled(Error):
    """The event isn't enabled, or what was asked for isn't there."""


class OutOfRange(Error, ValueError):
    """A number is outside its limits."""


class Misuse(Error, ValueError):
    """The object is closed."""


class Full(Error):
    """A log has 65,536 entries, or a node has issued all operations that it may."""


class BadPacket(Error, ValueError):
    """Bytes or words are no packet."""


class BadText(Error, ValueError):
    """A text is no log, or no schedule: its first fault."""

    def __init__(self, message: str, line: int = 0, kind: TextKind = TextKind.SYNTAX) -> None:
        super().__init__(message, Status.TEXT)
        self.line = line
        self.kind = kind


CLASSES = {
    Status.NO_MEMORY: NoMemory,
    Status.NOT_ENABLED: NotEnabled,
    Status.RANGE: OutOfRange,
    Status.MISUSE: Misuse,
    Status.FULL: Full,
    Status.SHORT: BadPacket,
    Status.UNKNOWN_COMMAND: BadPacket,
    Status.BAD_OFFSET: BadPacket,
    Status.BAD_IDENTIFIER: BadPacket,
}


def error_of(status: Status, message: str) -> Error:
    """The exception of a status."""
    return CLASSES.get(status, Error)(message, status)
