"""An audit entry by entry, so that a simulation stops at the first fault."""

from __future__ import annotations

from . import _native
from ._owner import Owner
from .values import Contents, Entry, Verdict


class Scoreboard(Owner):
    """What the lines have after the operations that were told, each when it took effect. It keeps no entries. A new one was told nothing,
    and each line begins with zero words at version 0."""

    _kind = "scoreboard"
    _struct = _native.sci_scoreboard

    def __init__(self, nodes: int, lines: int) -> None:
        super().__init__()
        self._call("open", nodes, lines)

    def begin(self, line: int, contents: Contents) -> None:
        """Begins a line with these contents, and forgets what was told of it."""
        self._call("begin", line, contents._as_c())

    def contents(self, line: int) -> Contents:
        """The contents that a line has after what was told."""
        contents = _native.sci_stamped()
        self._call("contents", line, contents)
        return Contents._of(contents)

    def tell(self, entry: Entry) -> Verdict | None:
        """Takes the entry if it is lawful after what was told; else the verdict names it, and the scoreboard stays as it was. None, and it
        stays too, if nothing can be said now: the version is ahead of its line, or it is a load of a version that the line has left."""
        verdict = _native.sci_verdict()
        return Verdict._of(verdict) if self._is_enabled("tell", entry._as_c(), verdict) else None
