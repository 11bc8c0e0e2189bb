"""Resizes: which chunks of an array that gets another shape change."""

from __future__ import annotations

from collections.abc import Mapping
from dataclasses import dataclass
from typing import Any


@dataclass(frozen=True)
class ChangedChunks:
    """How many chunks hold elements of an array before and after a resize, and how many of them stay as they are stored, along each dimension.

    | Chunks that | have numbers |
    |---|---|
    | are kept | below `kept` |
    | are rewritten | below `before` and below `after`, and not below `kept` |
    | are deleted | below `before`, and not below `after` |
    | are created | below `after`, and not below `before` |

    The numbers of a chunk are below a list if each is less than the list's number of that dimension. A list that no chunk is below has only zeros."""

    before: tuple[int, ...]
    """The chunks that hold elements of the array before the resize."""
    after: tuple[int, ...]
    """The chunks that hold elements of the array after it."""
    kept: tuple[int, ...]
    """The chunks that hold the same elements in both, and have the same shape."""


def changed_of(answer: Mapping[str, Any]) -> ChangedChunks:
    """The chunks of an answer to the question `changed_chunks`.

    >>> changed_of({"after": [4], "before": [3], "kept": [2]})
    ChangedChunks(before=(3,), after=(4,), kept=(2,))
    """
    return ChangedChunks(**{numbers: tuple(answer[numbers]) for numbers in ("before", "after", "kept")})
