"""Grids and encodings as numbers, by which the library answers without reading their metadata again.

The calls of a grid are made in as few steps as Python takes for them. Most of the time of a call with one list is spent on passing its arguments.
"""

from __future__ import annotations

import ctypes
import functools
import math
from typing import Any, Literal, NoReturn, overload

import numpy as np

from . import _library
from ._answer import refuse, text_of
from ._numbers import Marks, Numbers

_NUMBER: Any = ctypes.c_uint64
_MARK: Any = ctypes.c_uint8
_SIZE: Any = ctypes.c_size_t
_array: Any = np.ndarray
_UINT64, _BOOL = np.dtype(np.uint64), np.dtype(np.bool_)
_TYPES: dict[Any, tuple[Any, ...]] = {
    _library.NUMBERS: (ctypes.POINTER(_NUMBER), _SIZE), _library.WRITTEN_NUMBERS: (ctypes.POINTER(_NUMBER), _SIZE),
    _library.WRITTEN_BYTES: (ctypes.POINTER(_MARK), _SIZE),
}  # fmt: skip

# The calls of a prepared grid: for few lists without the types of their arguments, which have these types already, and for many with them.
_NAMES = [f"zarrs_prepared_{asked}_of" for asked in ("chunk_indices", "homes", "chunk_boxes", "covers")]
_FOR_FEW = {name: _library.function(name) for name in _NAMES}
_FOR_MANY = {name: _library.function(name, [kind for kinds in _library.CALLS[name].values() for kind in _TYPES.get(kinds, kinds)]) for name in _NAMES}

# The key of one chunk, with room for those that are usual.
_KEYS = _library.function("zarrs_prepared_keys_of")
_USUAL_KEY: Any = ctypes.c_char * 128
_OFFSETS: Any = _NUMBER * 2
_USUAL_SIZE, _TWO = _SIZE(128), _SIZE(2)

# Bytes lie at this offset from the beginning of their object, which is aligned for every type. In CPython they are aligned for numbers, too.
_ARE_BYTES_ALIGNED = (bytes.__basicsize__ - 1) % ctypes.alignment(_NUMBER) == 0

# An answer with this many numbers or more is left as it was allocated, until it is known which lists have no answer.
_MANY = 2**12


def prepared(kind: str, length: int, **metadata: Any) -> Numbers:
    """The numbers of a grid or an encoding, which are seldom more than `length`. Raises what the library refuses."""
    code = _library.SHORT_BUFFER
    while code == _library.SHORT_BUFFER:
        numbers = _library.room(length)
        code, told = _library.call(f"zarrs_prepare_{kind}", numbers=numbers, **metadata)
        length = told["needed"]
    if code != _library.OK:
        refuse(code, text_of(f"zarrs_{kind}_fault", "words", **metadata)[1])
    numbers = numbers[:length].copy()
    numbers.flags.writeable = False
    return numbers


class PreparedGrid:
    """The numbers of the grid of an array of this shape, and what the library answers by them. Raises what the library refuses."""

    __slots__ = ("_numbers", "_pointer", "_size")

    def __init__(self, shape: Numbers, chunk_grid: bytes) -> None:
        # One edge for all chunks takes seven numbers a dimension.
        self._numbers = prepared("grid", 2 + 7 * shape.size, shape=shape, chunk_grid=chunk_grid)
        self._pointer, self._size = self._numbers.ctypes.data_as(ctypes.POINTER(_NUMBER)), _SIZE(self._numbers.size)

    def grid_shape(self, dimensionality: int) -> Numbers:
        """How many chunks are counted along each dimension."""
        sizes = _library.room(dimensionality)
        code, _told = _library.call("zarrs_prepared_grid_shape", numbers=self._numbers, grid_shape=sizes)
        if code != _library.OK:
            refuse(code)
        return sizes

    @overload
    def ask(self, name: str, count: Literal[1], lists: Numbers) -> tuple[Numbers, Marks]: ...

    @overload
    def ask(self, name: str, count: Literal[2], lists: Numbers, shapes: Numbers | None = None) -> tuple[Numbers, Numbers, Marks]: ...

    def ask(self, name: str, count: int, lists: Numbers, shapes: Numbers | None = None) -> Any:
        """What a call answers of lists of numbers, which `lists_of_numbers` made. A call of boxes takes their shapes, too. The answer is `count` arrays
        in the form of the lists, one or two, and the marks."""
        few = _few_lists(lists.shape)
        if few is None:
            return self._ask_many(name, count, [lists] if shapes is None else [lists, shapes])
        # The same as there, for few lists: no step but those that each call takes.
        numbers, size, marks, marks_size, marks_shape = few
        grid, grid_size, function, wrong = self._pointer, self._size, _FOR_FEW[name], None
        answers: tuple[Any, ...]
        try:
            asked, first, found = lists.tobytes(), numbers(), marks()
            if count == 1:
                code = function(grid, grid_size, asked, size, first, size, found, marks_size)
                answers = _array(lists.shape, _UINT64, first), _array(marks_shape, _BOOL, found)
            else:
                second = numbers()
                if shapes is None:
                    code = function(grid, grid_size, asked, size, first, size, second, size, found, marks_size)
                else:
                    asked_shapes, wrong = shapes.tobytes(), _SIZE()
                    told = ctypes.byref(wrong)
                    code = function(grid, grid_size, asked, size, asked_shapes, size, first, size, second, size, found, marks_size, told)
                answers = _array(lists.shape, _UINT64, first), _array(lists.shape, _UINT64, second), _array(marks_shape, _BOOL, found)
        except MemoryError as error:
            raise MemoryError("out of memory: there is no room for the answer") from error
        if code != _library.OK:
            _refuse(code, wrong)
        return answers

    def _ask_many(self, name: str, count: int, asked: list[Numbers]) -> Any:
        """The same for any number of lists."""
        shape, size = asked[0].shape, asked[0].size
        is_long = size >= _MANY
        found = _library.room(shape[:-1], np.bool_)
        answers = [_library.room_for_all(shape) if is_long else _library.room(shape) for _ in range(count)]
        lists = (part for numbers in (*asked, *answers) for part in (_pointer(numbers), size))
        marks = (_MARK.from_buffer(found) if found.size else None, found.size)
        wrong = _SIZE()
        told = [wrong] if len(asked) == 2 else []
        code = _FOR_MANY[name](self._pointer, self._size, *lists, *marks, *told)
        if code != _library.OK:
            _refuse(code, wrong)
        if is_long and not found.all():
            for numbers in answers:
                numbers[~found] = 0
        return (*answers, found)


class PreparedEncoding:
    """The numbers of an encoding, and the key of one chunk by them. Raises what the library refuses."""

    __slots__ = ("_pointer", "_size", "numbers")

    def __init__(self, chunk_key_encoding: bytes) -> None:
        # A suffix takes a number more for each byte.
        self.numbers = prepared("encoding", 3, chunk_key_encoding=chunk_key_encoding)
        self._pointer, self._size = self.numbers.ctypes.data_as(ctypes.POINTER(_NUMBER)), _SIZE(self.numbers.size)

    def key(self, chunk: Numbers) -> str | None:
        """The key of a chunk, if it is found at once; None if it must be asked for as the keys of many chunks are."""
        few = _few_lists(chunk.shape)
        if few is None:
            return None
        text, needed = _USUAL_KEY(), _SIZE()
        code = _KEYS(self._pointer, self._size, few[1], chunk.tobytes(), few[1], text, _USUAL_SIZE, _OFFSETS(), _TWO, ctypes.byref(needed))
        return text.raw[: needed.value].decode() if code == _library.OK else None


@functools.lru_cache(maxsize=256)
def _few_lists(shape: tuple[int, ...]) -> Any:
    """What a call takes for lists in an array of this shape. It is the types of the room for lists and for marks, how many items each has, and the form
    of the marks. None if there are many lists, or no lists, or if the lists can't be passed as bytes."""
    size, count = math.prod(shape), math.prod(shape[:-1])
    is_few = _ARE_BYTES_ALIGNED and 0 < size < _MANY
    return (_NUMBER * size, _SIZE(size), _MARK * count, _SIZE(count), shape[:-1]) if is_few else None


def _refuse(code: int, wrong: Any) -> NoReturn:
    refuse(code, f"box {wrong.value} ends past 18446744073709551615" if code == _library.NOT_A_BOX else None)


def _pointer(numbers: Numbers) -> Any:
    """A pointer to the items of an array of `uint64`, which is contiguous and aligned and stays as long as the pointer does."""
    try:
        return _NUMBER.from_buffer(numbers)
    except (TypeError, ValueError):
        # It is read-only, or has no item.
        return ctypes.cast(numbers.ctypes.data, ctypes.POINTER(_NUMBER)) if numbers.size else None
