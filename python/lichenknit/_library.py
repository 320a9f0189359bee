"""Finds the library, and calls its functions."""

from __future__ import annotations

import ctypes
import os
from collections.abc import Iterable, Sequence
from functools import cache
from operator import index
from typing import Any, NoReturn

from . import _native
from .errors import BadText, OutOfRange, error_of
from .numbers import Status, TextKind

NAME = "liblichenknit.so"


def path() -> str:
    """Where the library is: $LICHENKNIT_LIBRARY, or beside this package, or where the system looks."""
    beside = os.path.join(os.path.dirname(os.path.abspath(__file__)), NAME)
    return os.environ.get("LICHENKNIT_LIBRARY") or (beside if os.path.exists(beside) else f"{NAME}.0")


@cache
def library() -> ctypes.CDLL:
    """The library, which is opened when it is first needed."""
    try:
        return _native.opened(path())
    except (OSError, AttributeError) as error:
        raise ImportError(f"{error}: set LICHENKNIT_LIBRARY to the path of {NAME}, or install it by make install-library") from error


def text(name: str, number: int) -> str:
    """The text that a function has for a number."""
    return getattr(library(), name)(number).decode()


def failed(name: str, status: int) -> Exception:
    """What is raised for a status of a function."""
    return error_of(Status(status), f"{name}: {text('sci_status_name', status)}: {text('sci_status_text', status)}")


LIMITS = {it: 1 << (8 * ctypes.sizeof(it)) for it in (ctypes.c_uint8, ctypes.c_uint16, ctypes.c_uint32, ctypes.c_uint64, ctypes.c_size_t)}


def refuse(what: str, value: Any) -> NoReturn:
    """Raises a number that doesn't fit its type. ctypes would cut it off."""
    raise OutOfRange(f"{failed(what, Status.RANGE)} ({value})", Status.RANGE)


def limits_of(kinds: Iterable[Any]) -> tuple[tuple[int, int], ...]:
    """The places of numbers among these types of C, and how great they may be."""
    return tuple((place, LIMITS[kind]) for place, kind in enumerate(kinds) if kind in LIMITS)


OF_FUNCTION = {name: limits_of(takes) for name, takes in _native.FUNCTIONS.items()}


@cache
def of_struct(struct: Any) -> tuple[tuple[int, int], ...]:
    """The same of a struct's fields."""
    return limits_of(kind for _, kind in struct._fields_)


def filled(struct: Any, *values: Any) -> Any:
    """A struct with these values, each of which has to fit its field."""
    for place, limit in of_struct(struct):
        if not 0 <= index(values[place]) < limit:
            refuse(f"{struct.__name__}.{struct._fields_[place][0]}", values[place])
    return struct(*values)


def buffer(data: bytes) -> tuple[bytes, int]:
    """Bytes and how many they are. What is only like bytes is copied."""
    data = data if isinstance(data, bytes) else memoryview(data).tobytes()
    return data, len(data)


def words_of(words: Sequence[int], count: int) -> Any:
    """As many words, as C has them."""
    if len(words) != count:
        raise ValueError(f"{count} words are wanted, and not {len(words)}")
    for it in words:
        if not 0 <= index(it) < LIMITS[ctypes.c_uint64]:
            refuse("word", it)
    return (ctypes.c_uint64 * count)(*words)


def status_of(name: str, *arguments: Any) -> int:
    """The status that a function answers."""
    for place, limit in OF_FUNCTION[name]:
        if not 0 <= index(arguments[place]) < limit:
            refuse(name, arguments[place])
    return getattr(library(), name)(*arguments)


def call(name: str, *arguments: Any) -> None:
    """Calls a function, and raises what isn't SCI_OK."""
    if status := status_of(name, *arguments):
        raise failed(name, status)


def raise_text_fault(name: str, status: int, fault: _native.sci_text_fault) -> None:
    """Raises what isn't SCI_OK of a function that reads a text, with the fault that it wrote for SCI_TEXT."""
    if status == Status.TEXT:
        kind = TextKind(fault.kind)
        raise BadText(f"{failed(name, status)}: line {fault.line}: {kind}", fault.line, kind)
    if status:
        raise failed(name, status)


def text_of(name: str, *arguments: Any) -> str:
    """The text that a function writes."""
    used, room = ctypes.c_size_t(), 0
    while True:
        data = (ctypes.c_uint8 * room)()
        status = status_of(name, *arguments, data, room, ctypes.byref(used))
        if status == Status.OK:
            return bytes(data[: used.value]).decode()
        if status != Status.FULL:
            raise failed(name, status)
        room = used.value


def is_enabled(name: str, *arguments: Any) -> bool:
    """Calls a function, and says whether what it does was enabled."""
    status = status_of(name, *arguments)
    if status not in (Status.OK, Status.NOT_ENABLED):
        raise failed(name, status)
    return status == Status.OK
