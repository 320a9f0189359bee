"""The judge of traces without versions. The C library has none, so the program sciview is asked."""

from __future__ import annotations

import os
import re
import shutil
import subprocess
from typing import NamedTuple

from .errors import OutOfRange
from .numbers import Status

__all__ = ["BadTrace", "Judgement", "judge"]

FIRST = re.compile(r"coherent|(not coherent|undecided) at ([0-9]+)")
ORDERS = {"sequentially consistent": True, "not sequentially consistent": False, "order unknown": None}


class BadTrace(ValueError):
    """A text is no trace, or it is too large: the number of the line with the first fault, or 0."""

    def __init__(self, message: str, line: int) -> None:
        super().__init__(message)
        self.line = line


class Judgement(NamedTuple):
    """What the judge says of a trace. It is true if the trace is coherent, and sequentially consistent if that was asked."""

    coherent: bool | None
    """Whether the operations at each address are coherent. None: undecided."""
    address: int | None
    """Where they aren't, or where nothing was found."""
    witness: tuple[str, ...]
    """The operations that show why they aren't, each with its line."""
    versions: str | None
    """Of a coherent trace `forced`, `free` or `undecided`: whether other versions explain it as well."""
    sequential: bool | None
    """Whether one order of all operations explains a coherent trace. None: unknown, or not asked."""
    text: str

    def __bool__(self) -> bool:
        return self.coherent is True and (self.sequential is True or len(self.text.splitlines()) < 3)

    def __str__(self) -> str:
        return self.text.rstrip("\n")


def program() -> str:
    """Where sciview is: $LICHENKNIT_SCIVIEW, or on the path."""
    found = os.environ.get("LICHENKNIT_SCIVIEW") or shutil.which("sciview")
    if not found:
        raise FileNotFoundError("sciview is missing: set LICHENKNIT_SCIVIEW to its path, or install it by make install")
    return found


def judgement_of(text: str) -> Judgement:
    """What the lines of a verdict say."""
    first, *more = text.splitlines()
    found = FIRST.fullmatch(first)
    if not found:
        raise RuntimeError(f"sciview judge wrote {first!r}")
    if found[1]:
        return Judgement(None if found[1] == "undecided" else False, int(found[2]), tuple(more), None, None, text)
    return Judgement(True, None, (), more[0].removeprefix("versions "), ORDERS[more[1]] if len(more) > 1 else None, text)


def judge(trace: str, *, times: bool = False, order: bool = False, limit: int | None = None) -> Judgement:
    """Whether some versions explain a trace of another machine, in the notation of docs/TRACES.md.

    With `times` what ended before another operation at its address began has to stand before it. With `order` one order of all
    operations is looked for. A search makes at most `limit` choices. A text that is no trace raises BadTrace, and a limit that is no
    number from 0 to 2^64 - 1 OutOfRange."""
    if limit is not None and not 0 <= limit < 1 << 64:
        raise OutOfRange(f"the limit is {limit}", Status.RANGE)
    words = [program(), "judge", *(["--times"] if times else []), *(["--order"] if order else [])]
    words += [] if limit is None else ["--limit", str(limit)]
    done = subprocess.run(words, input=trace.encode(), stdout=subprocess.PIPE, stderr=subprocess.PIPE, check=False)
    if done.returncode not in (0, 1):
        message = done.stderr.decode().strip()
        line = re.search(r"line ([0-9]+)", message)
        raise BadTrace(message, int(line[1]) if line else 0)
    return judgement_of(done.stdout.decode())
