"""Copies between arrays as tasks, which fill a buffer from chunks of the source and write it to chunks of the target."""

from __future__ import annotations

import math
from collections.abc import Sequence
from typing import Any, NamedTuple

from ._boxes import Box, as_box
from ._numbers import list_of_numbers, whole_number
from ._reading import reading


class Source(NamedTuple):
    """A chunk of the source that a task reads. Both boxes have one shape, and their elements correspond in order."""

    chunk: tuple[int, ...]
    """The chunk's numbers."""
    key: str
    """Its key."""
    shape: tuple[int, ...]
    """Its shape, as its grid answers it."""
    in_chunk: Box
    """The elements that are read, counted from the chunk's first."""
    in_buffer: Box
    """Their place in the buffer."""


class Destination(NamedTuple):
    """A chunk of the target that a task writes. Both boxes have one shape, and their elements correspond in order."""

    chunk: tuple[int, ...]
    """The chunk's numbers."""
    key: str
    """Its key."""
    shape: tuple[int, ...]
    """Its shape, as its grid answers it."""
    in_chunk: Box
    """The elements that are written, counted from the chunk's first."""
    in_buffer: Box
    """Their place in the buffer."""
    whole: bool
    """Whether these are all elements of the array that the chunk holds. If not, the chunk must be read before it is written."""


class Task(NamedTuple):
    """What one task reads and writes."""

    buffer: tuple[int, ...]
    """The shape of the buffer."""
    sources: list[Source]
    """The chunks of the source that fill it, in row-major order."""
    targets: list[Destination]
    """The chunks of the target that are written from it, in row-major order."""


def task_of(item: Any) -> Task:
    """Returns the task of an item of the answer to the question `tasks`."""
    sources = [Source(*_piece_of(piece)) for piece in item["from"]]
    return Task(tuple(item["buffer"]), sources, [Destination(*_piece_of(piece), piece["whole"]) for piece in item["to"]])


def _piece_of(piece: Any) -> tuple[tuple[int, ...], str, tuple[int, ...], Box, Box]:
    return tuple(piece["chunk"]), piece["key"], tuple(piece["shape"]), as_box(piece["in_chunk"]), as_box(piece["in_buffer"])


def given_chunks(chunks: Any) -> list[int]:
    """Returns how many chunks a task takes along each dimension, as they are given.

    >>> given_chunks([2, 1])
    [2, 1]
    >>> given_chunks([2, 0])
    Traceback (most recent call last):
    ValueError: task_chunks: a task takes 1 chunk or more along each dimension
    """
    numbers: list[int] = list_of_numbers("task_chunks", chunks).tolist()
    if 0 in numbers:
        raise ValueError("task_chunks: a task takes 1 chunk or more along each dimension")
    return numbers


def given_order(order: Any) -> str:
    """Returns whose chunks a task takes, as it is given.

    >>> given_order("rows")
    Traceback (most recent call last):
    ValueError: order: it is `target` or `source`
    """
    if not isinstance(order, str):
        raise TypeError(f"order: a text is wanted, and not a {type(order).__name__}")
    # The text itself, and not one of a derived class that compares otherwise.
    whose = str.__str__(order)
    if whose not in ("target", "source"):
        raise ValueError("order: it is `target` or `source`")
    return whose


def given_share(share: Any) -> tuple[int, int]:
    """Returns a share as it is given: the number of a worker, counted from 0, and how many workers there are.

    >>> given_share([2, 3])
    (2, 3)
    >>> given_share((3, 3))
    Traceback (most recent call last):
    ValueError: share: the number of a worker, counted from 0, is less than how many workers there are
    """
    with reading("share"):
        worker, workers = share
    worker, workers = whole_number("share", worker), whole_number("share", workers)
    if worker >= workers:
        raise ValueError("share: the number of a worker, counted from 0, is less than how many workers there are")
    return worker, workers


def ends_of_share(groups: Box, share: tuple[int, int]) -> tuple[int, int]:
    """Returns the number of the first task of a share, and of the one after its last.

    >>> ends_of_share(Box((0, 1), (2, 5)), (1, 3))
    (3, 6)
    """
    (worker, workers), in_all = share, math.prod(groups.shape)
    return worker * in_all // workers, (worker + 1) * in_all // workers


def groups_of(chunks: Box, each: Sequence[int]) -> Box:
    """Returns the box of the groups that have some chunk of a box. A group is `each` neighbouring chunks along each dimension, and is a task.

    >>> groups_of(Box((3,), (4,)), [2])
    Box(start=(1,), shape=(3,))
    """
    firsts = [first // k for first, k in zip(chunks.start, each)]
    counts = [count and (first + count - 1) // k + 1 - group for first, count, k, group in zip(*chunks, each, firsts)]
    return Box(tuple(firsts), tuple(counts))
