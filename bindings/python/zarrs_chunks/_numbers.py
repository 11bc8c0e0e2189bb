"""Whole numbers, as they are given and as the library takes them."""

from __future__ import annotations

import itertools
import operator
from typing import Any

import numpy as np
import numpy.typing as npt

from ._reading import reading

# What a batch answers: lists of numbers, and marks that say which of them there are.
Numbers = npt.NDArray[np.uint64]
Marks = npt.NDArray[np.bool_]

GREATEST = 2**64 - 1
_ARRAY, _UINT64 = np.ndarray, np.dtype(np.uint64)


def whole_number(argument: str, value: Any) -> int:
    """A number from 0 to 18446744073709551615: an int, one of numpy's integers, or what has `__index__`.

    >>> whole_number("first", np.uint8(3))
    3
    >>> whole_number("first", 2.0)
    Traceback (most recent call last):
    TypeError: first: 'float' object cannot be interpreted as an integer
    """
    with reading(argument):
        number = index_of(value)
    _check_range(argument, number, number)
    return number


def numbers(argument: str, values: Any) -> Numbers:
    """Whole numbers as an array that the library reads: `uint64`, contiguous and aligned. It shares the memory of `values` if that is such an
    array, and is a copy if not. An array without items may be of any type; one of floats or of truth values is refused.

    >>> numbers("indices", [np.uint64(1), 2])
    array([1, 2], dtype=uint64)
    >>> numbers("indices", [1.0, 2])
    Traceback (most recent call last):
    TypeError: indices: whole numbers are wanted, and the array is of float64
    """
    # A view of its own: what another thread does to the caller's, as to set its type or its shape, doesn't change it.
    if type(values) is _ARRAY:
        array = values.view()
        flags = array.flags
        if array.dtype == _UINT64 and flags.c_contiguous and flags.aligned:
            return array
    with reading(argument):
        array = np.asarray(values).view()
        if array.size == 0:
            return np.zeros(array.shape, np.uint64)
    kind = array.dtype.kind
    if kind == "u":
        with reading(argument):
            return np.require(array, np.uint64, ["C", "A"])
    if kind == "i":
        return _from_signed(argument, array)
    # A list with a number from 2 ** 63 on, or with one of numpy's uint64 beside others, is an array of floats for numpy.
    if kind == "O" or (kind == "f" and not isinstance(values, np.ndarray)):
        return _from_objects(argument, values, array.dtype)
    raise TypeError(f"{argument}: whole numbers are wanted, and the array is of {array.dtype}")


def lists_of_numbers(argument: str, values: Any, dimensionality: int) -> Numbers:
    """The same for lists with a number for each dimension, which are the last axis."""
    array = numbers(argument, values)
    shape = array.shape
    if not shape or shape[-1] != dimensionality:
        raise ValueError(f"{argument}: the last axis is to have {dimensionality} numbers, one a dimension, and the array's shape is {shape}")
    return array


def list_of_numbers(argument: str, values: Any) -> Numbers:
    """One list of whole numbers, as an array of its own that nobody else has."""
    array = numbers(argument, values)
    if array.ndim != 1:
        raise ValueError(f"{argument}: one list of numbers is wanted, and the array's shape is {array.shape}")
    with reading(argument):
        return np.array(array)


def _from_signed(argument: str, array: npt.NDArray[Any]) -> Numbers:
    # It is copied first, so that what is tested is what is asked.
    with reading(argument):
        own = array.astype(np.int64, order="C")
    least = int(own.min())
    _check_range(argument, least, least)
    return own.view(np.uint64)


def _from_objects(argument: str, values: Any, found_type: np.dtype[Any]) -> Numbers:
    with reading(argument):
        objects = np.asarray(values, object)
        whole = [_whole_item(item, found_type) for item in objects.ravel().tolist()]
    _check_range(argument, min(whole), max(whole))
    with reading(argument):
        return np.array(whole, np.uint64).reshape(objects.shape)


def _whole_item(item: Any, found_type: np.dtype[Any]) -> int:
    if not hasattr(type(item), "__index__"):
        told = f"one is of the type {type(item).__name__}" if found_type == object else f"the array is of {found_type}"
        raise TypeError(f"whole numbers are wanted, and {told}")
    return index_of(item)


def longest_level(shape: tuple[int, ...]) -> int:
    """How many lists an array of this shape becomes along its longest level. They may be many even if it has no items.

    >>> longest_level((1000, 0, 3))
    1000
    """
    return max(itertools.accumulate(shape, operator.mul), default=0)


def index_of(value: Any) -> int:
    """A plain int, and not one of a derived class that compares otherwise."""
    if isinstance(value, np.bool_):
        raise TypeError("a truth value of numpy's is no whole number")
    return int.__index__(operator.index(value))


def _check_range(argument: str, least: int, most: int) -> None:
    if least < 0 or most > GREATEST:
        told = "below" if least < 0 else "above"
        raise ValueError(f"{argument}: numbers are those from 0 to 18446744073709551615, and one is {told}")
