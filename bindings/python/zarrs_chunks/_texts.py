"""Bytes and keys, as they are given and as the library takes them."""

from __future__ import annotations

import itertools
from collections.abc import Iterable
from typing import Any, Union

import numpy as np
import numpy.typing as npt

from ._reading import reading

# What a key may be, and a text of keys.
Key = Union[str, bytes, bytearray, memoryview]
Text = Union[bytes, bytearray, memoryview, npt.NDArray[np.uint8]]

# How many keys are taken or given out in one call as Python's own texts, which take a gigabyte then.
MOST_KEYS = 2**24


def as_bytes(argument: str, text: Text) -> bytes:
    """Bytes that nobody changes: `bytes` as they are, and a copy of a bytearray, a memoryview or an array of uint8, whatever its strides.

    >>> as_bytes("text", memoryview(b"c/1c/2")[::-1])
    b'2/c1/c'
    >>> as_bytes("text", "c/1")
    Traceback (most recent call last):
    TypeError: text: bytes are wanted, and not a str
    """
    with reading(argument):
        return _bytes_of(text)


def _bytes_of(text: Text) -> bytes:
    if type(text) is bytes:
        return text
    if isinstance(text, str):
        raise TypeError("bytes are wanted, and not a str")
    buffer: Any = text
    with memoryview(buffer) as view:
        if view.ndim != 1 or view.format not in ("B", "c"):
            raise TypeError(f"bytes one after another are wanted, and not a {type(text).__name__} of the format {view.format} with {view.ndim} axes")
        return view.tobytes()


def keys_as_bytes(keys: Iterable[Key]) -> list[bytes]:
    """Each of some keys, which are `str` or bytes. Raises MemoryError if there are more than `MOST_KEYS`, as from an iterator without end.

    >>> keys_as_bytes(["c/1", b"c/2"])
    [b'c/1', b'c/2']
    >>> keys_as_bytes("c/1")
    Traceback (most recent call last):
    TypeError: keys: a list of keys is wanted, and not one str
    """
    if isinstance(keys, (str, bytes, bytearray, memoryview)):
        raise TypeError(f"keys: a list of keys is wanted, and not one {type(keys).__name__}")
    with reading("keys"):
        texts = [_bytes_of_key(key) for key in itertools.islice(keys, MOST_KEYS + 1)]
        if len(texts) > MOST_KEYS:
            raise MemoryError(f"more than {MOST_KEYS} keys are given at once; `decode_text` takes more")
        return texts


def _bytes_of_key(key: Key) -> bytes:
    if isinstance(key, str):
        return str.encode(key)
    if isinstance(key, (bytes, bytearray, memoryview)):
        return _bytes_of(key)
    raise TypeError(f"each is a str or bytes, and one is of the type {type(key).__name__}")
