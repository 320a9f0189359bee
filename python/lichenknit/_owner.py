"""What the four kinds of objects have in common."""

from __future__ import annotations

from threading import Lock
from types import TracebackType
from typing import Any, Self

from ._library import call, is_enabled, status_of


class Owner:
    """An object of the library. It is let go at the end of a `with`, by `close`, or with the last reference to it. Several threads may use
    one: a call waits until the one before it has ended."""

    _kind: str
    _struct: type

    def __init__(self) -> None:
        self._object = self._struct()
        self._lock = Lock()

    def close(self) -> None:
        """Lets go what the object keeps. A second time it does nothing, and any other call raises Misuse then."""
        self._call("close")

    def __enter__(self) -> Self:
        return self

    def __exit__(self, kind: type[BaseException] | None, error: BaseException | None, trace: TracebackType | None) -> None:
        self.close()

    def __del__(self) -> None:
        if getattr(self, "_object", None) is not None and self._object.live:
            self.close()

    def _call(self, name: str, *arguments: Any) -> None:
        with self._lock:
            call(f"sci_{self._kind}_{name}", self._object, *arguments)

    def _status(self, name: str, *arguments: Any) -> int:
        with self._lock:
            return status_of(f"sci_{self._kind}_{name}", self._object, *arguments)

    def _is_enabled(self, name: str, *arguments: Any) -> bool:
        with self._lock:
            return is_enabled(f"sci_{self._kind}_{name}", self._object, *arguments)
