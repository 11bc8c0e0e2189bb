"""How much the tasks of a copy read and write, as the library answers it without walking over them."""

from __future__ import annotations

import math
from collections.abc import Mapping
from typing import Any, NamedTuple


class TaskCounts(NamedTuple):
    """How much the tasks of a copy read and write, exactly, however much it is."""

    chunks_read: int
    """The chunks of the source that are read. A chunk counts once for each task that reads it."""
    chunks_written: int
    """The chunks of the target that are written. A chunk counts once for each task that writes it."""
    elements_decoded: int | None
    """The elements of the chunks that are read, each chunk whole. None if there are more than 18446744073709551615 along a dimension."""
    elements_moved: int
    """The elements that are copied."""
    largest_task: int
    """The elements of the largest buffer."""
    tasks: int
    """The tasks."""


def counts_of(answer: Mapping[str, Any]) -> TaskCounts:
    """Returns the counts of an answer to the question `task_counts`, which has the factors of each.

    >>> counts = {"chunks_read": [2**60, 3], "chunks_written": [2**60, 2], "elements_moved": [2**62, 6], "largest_task": [4, 3], "tasks": [2**60, 2]}
    >>> counts_of({**counts, "elements_decoded": [None, 6]}).elements_decoded
    >>> counts_of({**counts, "elements_decoded": [2**62, 6]}).elements_decoded
    27670116110564327424
    """
    factors = (answer[name] for name in TaskCounts._fields)
    products: list[Any] = [None if None in numbers else math.prod(numbers) for numbers in factors]
    return TaskCounts(*products)
