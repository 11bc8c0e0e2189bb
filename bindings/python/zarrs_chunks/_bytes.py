"""Ranges of bytes: which bytes of an uncompressed chunk hold the elements of a box."""

from __future__ import annotations

import math
from collections.abc import Iterator
from typing import Any, NamedTuple, SupportsIndex

import numpy.typing as npt

from ._boxes import given_box
from ._numbers import list_of_numbers, whole_number
from ._questions import ask, plain_text


class ByteRanges(NamedTuple):
    """Ranges of bytes, all of one length. Their number is the product of `counts`. For each list of numbers `k`, with `k[d]` below `counts[d]`, a range
    begins at `first` + `k[0]` * `strides[0]` + `k[1]` * `strides[1]` and so on. If the lists are empty, there is one range."""

    first: int
    """Where the first range begins, counted from the first byte of the chunk's object."""
    length: int
    """How many bytes each range has."""
    counts: tuple[int, ...]
    """How many ranges follow one another along each dimension of ranges, the outermost first."""
    strides: tuple[int, ...]
    """As many numbers as `counts`: the bytes from the beginning of one range to the beginning of the next along each of these dimensions."""

    def ranges(self) -> Iterator[tuple[int, int]]:
        """Each range as its beginning and the end after its last byte, one after another as they are asked for. The ranges ascend, no byte is in two,
        and no two can be joined.

        >>> list(ByteRanges(first=5, length=2, counts=(2, 2), strides=(12, 4)).ranges())
        [(5, 7), (9, 11), (17, 19), (21, 23)]
        """
        begin, numbers = self.first, [0] * len(self.counts)
        for _ in range(math.prod(self.counts)):
            yield begin, begin + self.length
            dimension = len(numbers) - 1
            while dimension >= 0 and numbers[dimension] + 1 == self.counts[dimension]:
                begin -= numbers[dimension] * self.strides[dimension]
                numbers[dimension] = 0
                dimension -= 1
            if dimension >= 0:
                begin += self.strides[dimension]
                numbers[dimension] += 1


def byte_ranges(chunk_shape: npt.ArrayLike, box: Any, item_size: SupportsIndex, order: str = "C") -> ByteRanges | None:
    """Which bytes of a chunk's object hold the elements of a box of the chunk. The box is a start, counted from the chunk's first element, and a shape.
    The object is the chunk's elements, stored in `order`, each in `item_size` bytes, and nothing else: it isn't compressed. `C` is row-major, as the
    codec `bytes` writes a chunk. `F` is column-major, as `bytes` after `transpose` with all dimensions reversed writes it, and format 2 if `order` is
    `F`.

    The bytes of the ranges, one range after another, are the box's elements in the same order. An empty box has no range. None if the box ends
    past the chunk, or if it isn't empty and the object would be longer than 18446744073709551615 bytes. Raises ValueError if the box has another number
    of dimensions than the chunk.

    >>> found = byte_ranges([2, 3, 4], ([0, 1, 1], [2, 2, 2]), item_size=1)
    >>> found
    ByteRanges(first=5, length=2, counts=(2, 2), strides=(12, 4))
    >>> chunk = bytes(range(24))
    >>> [list(chunk[begin:end]) for begin, end in found.ranges()]
    [[5, 6], [9, 10], [17, 18], [21, 22]]
    """
    edges, (start, shape) = list_of_numbers("chunk_shape", chunk_shape).tolist(), given_box("box", box)
    size = whole_number("item_size", item_size)
    if size == 0:
        raise ValueError("item_size: an element has one byte or more")
    if not isinstance(order, str):
        raise TypeError(f"order: a text is wanted, and not a {type(order).__name__}")
    # The text itself, and not one of a derived class that compares otherwise.
    memory_order = str.__str__(order)
    if memory_order not in ("C", "F"):
        raise ValueError("order: it is `C` or `F`")
    members = {"chunk_shape": edges, "of": [start, shape], "item_size": size, "memory_order": memory_order}
    found = ask("byte_ranges", **{name: plain_text(value) for name, value in members.items()})
    return None if found is None else ByteRanges(found["first"], found["length"], tuple(found["counts"]), tuple(found["strides"]))
