"""Questions to the library, and their answers as Python's values. What a call of its own answers isn't asked this way."""

from __future__ import annotations

import json
from collections.abc import Iterator
from typing import Any

from ._answer import line_of, line_within

# How many bytes of text a page of a walk holds at most, except a page with a single item; and how many items are asked for at first.
_PAGE = 2**18
_FIRST_ITEMS = 16


def plain_text(value: Any) -> bytes:
    """Compact JSON of Python's own texts, numbers and lists.

    >>> plain_text([[1, 2], [3, 4]])
    b'[[1,2],[3,4]]'
    """
    return json.dumps(value, separators=(",", ":")).encode()


def object_text(**members: bytes) -> bytes:
    """The JSON of an object whose members are JSON already.

    >>> object_text(call=plain_text("encode"), chunk_key_encoding=b'"v2"', of=plain_text([1, 2]))
    b'{"call":"encode","chunk_key_encoding":"v2","of":[1,2]}'
    """
    return b"{" + b",".join(b'"%b":%b' % (name.encode(), text) for name, text in members.items()) + b"}"


def ask(call: str, **members: bytes) -> Any:
    """The answer to a question whose members are JSON already. Raises what the library refuses, in its own words.

    >>> ask("encode", chunk_key_encoding=b'"v2"', of=b"[1,2]")
    '1.2'
    >>> ask("encode", chunk_key_encoding=b'"v3"', of=b"[1,2]")
    Traceback (most recent call last):
    ValueError: name `v3` is not supported
    """
    return _value_of(line_of(object_text(call=plain_text(call), **members)))


def walk(call: str, first: int, most: int, **members: bytes) -> Iterator[Any]:
    """The items of a walk from the one with the number `first` on, for at most `most` numbers. They are read page by page, so they take no more memory
    than a page, or than an item that is longer.

    >>> shape, chunk_grid = b"[9]", b'{"name":"regular","configuration":{"chunk_shape":[2]}}'
    >>> list(walk("iter_chunk_indices", 1, 3, shape=shape, chunk_grid=chunk_grid))
    [[1], [2], [3]]
    """
    size, has_more = _FIRST_ITEMS, True
    while most > 0 and has_more:
        size = min(size, most)
        text = object_text(call=plain_text(call), first=plain_text(first), items=plain_text(size), **members)
        line = line_within(text, _PAGE) if size > 1 else line_of(text, _PAGE)
        if line is None:
            size //= 2
            continue
        page = _value_of(line)
        yield from page["items"]
        has_more, first, most = page["more"], first + size, most - size
        if 2 * len(line) <= _PAGE:
            size *= 2


def _value_of(line: str) -> Any:
    for beginning in ("refused: ", "unreadable: "):
        if line.startswith(beginning):
            raise ValueError(line.removeprefix(beginning))
    return json.loads(line)
