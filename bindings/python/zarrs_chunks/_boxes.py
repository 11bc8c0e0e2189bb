"""Boxes of elements and of chunks, and the box that a selection of numpy's stands for."""

from __future__ import annotations

import operator
from collections.abc import Iterator, Sequence
from typing import Any, NamedTuple

import numpy as np

from ._numbers import GREATEST, index_of, list_of_numbers
from ._reading import reading


class Box(NamedTuple):
    """A box of elements or of chunks: its first one, and how many there are along each dimension."""

    start: tuple[int, ...]
    """The numbers of the first one."""
    shape: tuple[int, ...]
    """How many there are along each dimension."""


def as_box(lists: Sequence[Sequence[int]]) -> Box:
    """A box of two lists of plain numbers.

    >>> as_box([[3, 2], [1, 1]])
    Box(start=(3, 2), shape=(1, 1))
    """
    start, shape = lists
    return Box(tuple(start), tuple(shape))


def given_box(argument: str, value: Any) -> Box:
    """A box as it is given: two lists of whole numbers.

    >>> given_box("chunks", (np.array([3, 2]), [1, 1]))
    Box(start=(3, 2), shape=(1, 1))
    """
    with reading(argument):
        start, shape = value
    return as_box([list_of_numbers(argument, numbers).tolist() for numbers in (start, shape)])


def slabs(box: Box, first: int, most: int) -> Iterator[tuple[Box, int, int]]:
    """Boxes that lie in this one and hold some of its lists of numbers, in row-major order. These are the list with the number `first`, counted from 0,
    and those after it, `most` in all. Each box comes with the number that the first of these lists has in it, and how many of them lie in it. Each box
    has at most 18446744073709551615 lists, so that a question can ask for any of them by its number.

    >>> list(slabs(Box((5, 0), (2, 2**63)), 2**63 + 1, 3))
    [(Box(start=(6, 0), shape=(1, 9223372036854775808)), 1, 3)]
    """
    front, together = len(box.shape), 1
    while front > 0 and together * box.shape[front - 1] <= GREATEST:
        front -= 1
        together *= box.shape[front]
    while most > 0:
        row, within = divmod(first, together)
        numbers: list[int] = []
        for size in reversed(box.shape[:front]):
            row, number = divmod(row, size)
            numbers.insert(0, number)
        start = tuple(map(operator.add, box.start, numbers)) + box.start[front:]
        count = min(most, together - within)
        yield Box(start, (1,) * front + box.shape[front:]), within, count
        first, most = first + count, most - count


def selected_box(selection: Any, shape: tuple[int, ...]) -> Box:
    """The box of elements that a basic selection of numpy's stands for, in an array of this shape.

    >>> selected_box(np.s_[1:3, ..., -1], (5, 7, 4))
    Box(start=(1, 0, 3), shape=(2, 7, 1))
    """
    with reading("selection"):
        items = list(selection) if isinstance(selection, tuple) else [selection]
    for item in items:
        _check_item(item)
    places = [place for place, item in enumerate(items) if item is Ellipsis]
    if len(places) > 1:
        raise IndexError("selection: it has more than one ellipsis")
    given = len(items) - len(places)
    if given > len(shape):
        raise IndexError(f"selection: it has items for {given} dimensions, and the array has {len(shape)}")
    place = places[0] if places else given
    items[place : place + 1] = [slice(None)] * (len(shape) - given)
    ranges = [_range_of(item, dimension, size) for dimension, (item, size) in enumerate(zip(items, shape))]
    return Box(tuple(start for start, _count in ranges), tuple(count for _start, count in ranges))


def _check_item(item: Any) -> None:
    """Refuses what selects no box, or adds a dimension."""
    told = None
    if item is None:
        told = "it adds a dimension by None, or `newaxis`, and a box has those of the array"
    elif isinstance(item, (bool, np.bool_)):
        told = "a truth value selects no box"
    elif isinstance(item, list) or (isinstance(item, np.ndarray) and item.ndim > 0):
        told = f"a {type(item).__name__} selects elements one by one, and no box"
    elif not isinstance(item, slice) and item is not Ellipsis and not hasattr(type(item), "__index__"):
        told = f"ints, slices and an ellipsis are wanted, and not a {type(item).__name__}"
    if told is not None:
        raise TypeError(f"selection: {told}")


def _range_of(item: Any, dimension: int, size: int) -> tuple[int, int]:
    """The first element that an int or a slice selects along a dimension, and how many it does."""
    if not isinstance(item, slice):
        with reading("selection"):
            number = index_of(item)
        if not -size <= number < size:
            raise IndexError(f"selection: the number for dimension {dimension} lies outside of the array, which has {size} elements there")
        return number % size, 1
    with reading("selection"):
        start, stop, step = (None if part is None else index_of(part) for part in (item.start, item.stop, item.step))
    if step not in (None, 1):
        raise ValueError(f"selection: the slice for dimension {dimension} has another step than 1, and so selects no box")
    first, end, _step = slice(start, stop).indices(size)
    return first, max(0, end - first)
