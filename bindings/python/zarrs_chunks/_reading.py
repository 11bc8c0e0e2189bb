"""Errors that come while an argument is read."""

from __future__ import annotations

from types import TracebackType


class reading:
    """Says in which argument something is wrong, in a `with` around what reads it. What an object's own methods raise, as its `__array__` or
    `__index__`, becomes a TypeError; ValueError and MemoryError stay what they are, and OverflowError becomes a ValueError."""

    def __init__(self, argument: str) -> None:
        self.argument = argument

    def __enter__(self) -> reading:
        return self

    def __exit__(self, _kind: type[BaseException] | None, error: BaseException | None, _traceback: TracebackType | None) -> None:
        if isinstance(error, MemoryError):
            raise MemoryError(f"{self.argument}: out of memory: {error}") from error
        if isinstance(error, (ValueError, OverflowError)):
            raise ValueError(f"{self.argument}: {error}") from error
        if isinstance(error, RecursionError):
            raise ValueError(f"{self.argument}: lists are nested too deep") from error
        if isinstance(error, Exception):
            raise TypeError(f"{self.argument}: {error}") from error
