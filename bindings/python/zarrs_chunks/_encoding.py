"""Chunk key encodings."""

from __future__ import annotations

import itertools
import math
from collections.abc import Iterable, Mapping
from typing import Any, SupportsIndex

import numpy as np
import numpy.typing as npt

from . import _library
from ._answer import refuse
from ._metadata import Metadata
from ._numbers import Marks, Numbers, list_of_numbers, longest_level, numbers, whole_number
from ._prepared import PreparedEncoding
from ._stored import Description, Stored
from ._texts import MOST_KEYS, Key, Text, as_bytes, keys_as_bytes


class Encoding:
    """A chunk key encoding: under which key each chunk of an array is stored. It never changes. Two are equal if made of the same metadata.

    `chunk_key_encoding` is what the member `chunk_key_encoding` of the array's `zarr.json` holds: an object as a `dict`, or a name alone.

    >>> Encoding({"name": "v2", "configuration": {"separator": "/"}}).encode([1, 23, 45])
    '1/23/45'
    >>> Encoding("v3")
    Traceback (most recent call last):
    ValueError: name `v3` is not supported
    """

    def __init__(self, chunk_key_encoding: str | Mapping[str, Any]) -> None:
        self._metadata = Metadata("chunk_key_encoding", chunk_key_encoding)
        self._prepared = PreparedEncoding(self._metadata.text)

    @classmethod
    def of(cls, array: Stored) -> Encoding:
        """The encoding of a stored array, as `Grid.of` takes it. One of format 2 has the encoding `v2`.

        >>> import pathlib, tempfile
        >>> with tempfile.TemporaryDirectory() as folder:
        ...     _ = pathlib.Path(folder, ".zarray").write_text('{"zarr_format": 2, "shape": [5, 7], "chunks": [2, 3]}')
        ...     Encoding.of(folder)
        Encoding({'name': 'v2', 'configuration': {'separator': '.'}})
        """
        return cls(Description(array).chunk_key_encoding())

    def __repr__(self) -> str:
        return f"Encoding({self.metadata!r})"

    def __eq__(self, other: object) -> bool:
        if not isinstance(other, Encoding):
            return NotImplemented
        return self._identity() == other._identity()

    def __hash__(self) -> int:
        return hash(self._identity())

    def __reduce__(self) -> tuple[Any, ...]:
        return type(self), (self.metadata,)

    def _identity(self) -> str:
        return self._metadata.canonical()

    @property
    def metadata(self) -> str | dict[str, Any]:
        """What the encoding was made of, as a new `dict` or the name alone.

        >>> Encoding({"name": "v2", "configuration": {"separator": "/"}}).metadata
        {'name': 'v2', 'configuration': {'separator': '/'}}
        """
        value: str | dict[str, Any] = self._metadata.value()
        return value

    @property
    def name(self) -> str:
        """The name of the encoding, as it was given.

        >>> Encoding("default").name
        'default'
        """
        return self._metadata.name()

    @property
    def configuration(self) -> dict[str, Any] | None:
        """The configuration, as it was given, as a new `dict`; None if there was none.

        >>> Encoding({"name": "v2", "configuration": {"separator": "/"}}).configuration
        {'separator': '/'}
        """
        return self._metadata.configuration()

    def encode(self, chunks: npt.ArrayLike) -> Any:
        """The key of each chunk, in lists that nest as the chunks do. Raises MemoryError if there are more than 16777216.

        >>> Encoding("default").encode([[0, 0], [10, 2]])
        ['c/0/0', 'c/10/2']
        >>> Encoding("default").encode([10, 2])
        'c/10/2'
        """
        lists = _chunks(chunks)
        key = self._prepared.key(lists) if lists.ndim == 1 else None
        if key is not None:
            return key
        # An array without items takes no memory, and may yet be very many lists.
        if longest_level(lists.shape[:-1]) > MOST_KEYS:
            raise MemoryError(f"chunks: out of memory: more than {MOST_KEYS} keys or lists of them are wanted at once; `encode_text` gives more")
        text, offsets = self._keys(lists)
        keys = np.empty(offsets.size - 1, object)
        keys[:] = keys_between(text, offsets)
        return keys.reshape(lists.shape[:-1]).tolist()

    def encode_text(self, chunks: npt.ArrayLike) -> tuple[bytes, Numbers]:
        """The keys of chunks as one text of bytes, and where each begins there and the last one ends. It is for very many keys.

        >>> text, offsets = Encoding("default").encode_text([[0, 0], [10, 2]])
        >>> text, offsets.tolist()
        (b'c/0/0c/10/2', [0, 5, 11])
        """
        return self._keys(_chunks(chunks))

    def decode(self, keys: Iterable[Key], dimensionality: SupportsIndex) -> tuple[Numbers, Marks]:
        """The chunk with `dimensionality` numbers that has each key, and whether there is one. The chunk may lie outside of the grid. Each key is
        a `str` or bytes. Raises MemoryError if there are more than 16777216.

        >>> chunks, found = Encoding("default").decode(["c/10/2", "c/10/02"], 2)
        >>> chunks.tolist(), found.tolist()
        ([[10, 2], [0, 0]], [True, False])
        """
        width, texts = whole_number("dimensionality", dimensionality), keys_as_bytes(keys)
        offsets = np.array([0, *itertools.accumulate(map(len, texts))], np.uint64)
        return self._chunks_of_keys(b"".join(texts), offsets, width)

    def decode_text(self, text: Text, offsets: npt.ArrayLike, dimensionality: SupportsIndex) -> tuple[Numbers, Marks]:
        """The same of keys as `encode_text` gives them. The text is bytes, a bytearray, a memoryview or an array of `uint8`.

        >>> Encoding("default").decode_text(b"c/0/0c/10/2", [0, 5, 11], 2)[0].tolist()
        [[0, 0], [10, 2]]
        """
        own_text, ends = as_bytes("text", text), list_of_numbers("offsets", offsets)
        if ends.size == 0:
            raise ValueError("offsets: there is one more than there are keys, and none was given")
        return self._chunks_of_keys(own_text, ends, whole_number("dimensionality", dimensionality))

    def _keys(self, chunks: Numbers) -> tuple[bytes, Numbers]:
        """The keys of chunks as one text, and their offsets."""
        count, dimensionality = math.prod(chunks.shape[:-1]), chunks.shape[-1]
        offsets, length, code = _library.room(count + 1), usual_length(count, dimensionality), _library.SHORT_BUFFER
        while code == _library.SHORT_BUFFER:
            text = _library.text_room(length)
            code, told = self._call("zarrs_prepared_keys_of", dimensionality=dimensionality, chunks=chunks, text=text, offsets=offsets)
            if code == _library.SHORT_BUFFER:
                # Another thread may change the caller's array until the next call; its copy has one length.
                length, chunks = told["needed"], chunks.copy()
        if code != _library.OK:
            refuse(code)
        return text[: told["needed"]].tobytes(), offsets

    def _chunks_of_keys(self, text: bytes, offsets: Numbers, dimensionality: int) -> tuple[Numbers, Marks]:
        """The chunks of keys. Nobody may change the text or the offsets meanwhile: the library reads them twice."""
        chunks, found = _library.room((offsets.size - 1, dimensionality)), _library.room(offsets.size - 1, np.uint8)
        code, told = self._call("zarrs_prepared_chunks_of_keys", dimensionality=dimensionality, text=text, offsets=offsets, chunks=chunks, found=found)
        if code == _library.WRONG_OFFSETS:
            refuse(code, f"the offsets of key {told['wrong']} descend, or lie past the text")
        if code != _library.OK:
            refuse(code)
        return chunks, found.view(np.bool_)

    def _call(self, name: str, **arguments: Any) -> tuple[int, dict[str, int]]:
        return _library.call(name, numbers=self._prepared.numbers, **arguments)


def _chunks(chunks: npt.ArrayLike) -> Numbers:
    lists = numbers("chunks", chunks)
    if lists.ndim == 0:
        raise ValueError("chunks: a chunk is a list of numbers, one a dimension")
    return lists


def usual_length(count: int, dimensionality: int) -> int:
    """How many bytes `count` keys seldom exceed."""
    return count * (2 + 6 * dimensionality)


def keys_between(text: bytes, offsets: Numbers) -> list[str]:
    """The keys of a text, each from an offset up to the next one."""
    ends = offsets.tolist()
    return [text[start:end].decode() for start, end in zip(ends, ends[1:])]
