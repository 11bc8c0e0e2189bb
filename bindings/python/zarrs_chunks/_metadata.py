"""JSON, and the metadata of an extension, as a grid and an encoding have it."""

from __future__ import annotations

import json
import math
from collections.abc import Mapping
from typing import Any

import numpy as np

from ._numbers import index_of, longest_level
from ._reading import reading

# The library reads JSON up to 127 deep. Metadata that it takes has at most six.
_DEEPEST = 100
_MOST_ITEMS = 2**22


class Metadata:
    """The metadata of a grid or of an encoding: a name, or an object with a name and, perhaps, a configuration. Its JSON text is kept, so
    later changes of the object that was given don't matter."""

    def __init__(self, argument: str, given: Any) -> None:
        self.text = json_text(argument, given)

    def value(self) -> Any:
        """The metadata as a new `dict`, or the name."""
        return json.loads(self.text.decode())

    def name(self) -> str:
        value = self.value()
        return str(value if isinstance(value, str) else value["name"])

    def configuration(self) -> dict[str, Any] | None:
        """The configuration as a new `dict`, or None if there is no configuration."""
        value = self.value()
        return None if isinstance(value, str) else value.get("configuration")

    def canonical(self) -> str:
        """The text with the members of each object in the order of their names."""
        return json.dumps(self.value(), sort_keys=True, separators=(",", ":"))


def json_text(argument: str, given: Any) -> bytes:
    """Compact JSON, as bytes, of dicts, lists, tuples, arrays, texts, numbers, truth values and None. Raises TypeError for what JSON has no form
    for. Raises ValueError for a value that JSON can't say. This is a float that isn't finite, a text with half a surrogate pair, a nesting of
    more than 100, or more items than 4194304.

    >>> json_text("chunk_grid", {"chunk_shape": (np.int64(2), 3)})
    b'{"chunk_shape":[2,3]}'
    >>> json_text("chunk_grid", {"chunk_shape": {2, 3}})
    Traceback (most recent call last):
    TypeError: chunk_grid: JSON has no form for a set
    """
    with reading(argument):
        return json.dumps(_Plain().value(given, 0), ensure_ascii=False, allow_nan=False, separators=(",", ":")).encode()


class _Plain:
    """Makes plain dicts, lists, texts and numbers of a value. They are all new, and have at most `_MOST_ITEMS` items in all. A list that is in another
    one many times counts as often, since it is written as often."""

    def __init__(self) -> None:
        self.left = _MOST_ITEMS

    def value(self, given: Any, depth: int) -> Any:
        if depth > _DEEPEST:
            raise ValueError(f"it is nested more than {_DEEPEST} deep")
        if isinstance(given, Mapping):
            return self.members(given, depth)
        if isinstance(given, np.ndarray):
            self.take(longest_level(given.shape))
            given = np.asarray(given).tolist()
        if isinstance(given, (list, tuple)):
            return self.items(list(given), depth)
        return _scalar(given)

    def members(self, given: Mapping[Any, Any], depth: int) -> dict[str, Any]:
        members = list(given.items())
        self.take(len(members))
        for name, _member in members:
            if not isinstance(name, str):
                raise TypeError(f"the name of a member is a str, and not of the type {type(name).__name__}")
        return {name: self.value(member, depth + 1) for name, member in members}

    def items(self, given: list[Any], depth: int) -> list[Any]:
        self.take(len(given))
        # A list of many edges needn't be gone through one by one.
        return given if set(map(type, given)) <= {int} else [self.value(item, depth + 1) for item in given]

    def take(self, count: int) -> None:
        self.left -= count
        if self.left < 0:
            raise ValueError(f"it has more than {_MOST_ITEMS} items")


def _scalar(value: Any) -> Any:
    if value is None or isinstance(value, str):
        return value
    if isinstance(value, (bool, np.bool_)):
        return bool(value)
    if hasattr(type(value), "__index__"):
        return index_of(value)
    if isinstance(value, (float, np.floating)):
        if not math.isfinite(value):
            raise ValueError(f"JSON has no form for {value}")
        return float(value)
    raise TypeError(f"JSON has no form for a {type(value).__name__}")
