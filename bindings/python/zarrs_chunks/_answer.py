"""Answers that are text: the answers to any question, and the words of a refusal."""

from __future__ import annotations

from collections.abc import Mapping
from typing import Any, NoReturn

from . import _library
from ._metadata import json_text

# The length that the library returns if it doesn't know how long an answer is, and the greatest length that is asked for, in bytes.
_UNKNOWN = 2**64 - 1
_LONGEST = 2**30


def answer(question: Mapping[str, Any]) -> str:
    """The library's answer to any question of `chunkcalls`, as crates/chunkcalls/CALLING.md lists them. The question is a `dict`. The answer is a
    text: compact JSON, or `refused: ` or `unreadable: ` and why. Raises MemoryError if the answer is longer than 1073741824 bytes.

    >>> answer({"chunk_key_encoding": "v2", "call": "encode", "of": [1, 23, 45]})
    '"1.23.45"'
    >>> answer({"chunk_key_encoding": "v3", "call": "encode", "of": []})
    'refused: name `v3` is not supported'
    """
    if not isinstance(question, Mapping):
        raise TypeError(f"question: a dict is wanted, and not a {type(question).__name__}")
    return line_of(json_text("question", question))


def line_of(question: bytes, room: int = 256) -> str:
    """The line that answers the text of a question, without its line feed. It is given `room` bytes at first.

    >>> line_of(b"[1,2")
    'unreadable: not JSON'
    """
    code, line = text_of("zarrs_answer", "line", room, question=question)
    if code != _library.OK:
        refuse(code)
    return line.removesuffix("\n")


def line_within(question: bytes, room: int) -> str | None:
    """The same, or None if the line and its line feed are longer than `room` bytes.

    >>> line_within(b"[1,2", 21), line_within(b"[1,2", 20)
    ('unreadable: not JSON', None)
    """
    _code, line, _needed = _text_within("zarrs_answer", "line", room, question=question)
    return None if line is None else line.removesuffix("\n")


def text_of(name: str, buffer: str, room: int = 256, **given: Any) -> tuple[int, str]:
    """The code of a call that writes a text to a buffer, and the text. The call is given `room` bytes for it, and then as much as it needs."""
    while room <= _LONGEST:
        code, text, needed = _text_within(name, buffer, room, **given)
        if text is not None:
            return code, text
        room = 2 * room if needed == _UNKNOWN else needed
    raise MemoryError(f"out of memory: the answer is longer than {_LONGEST} bytes")


def _text_within(name: str, buffer: str, room: int, **given: Any) -> tuple[int, str | None, int]:
    """The same with `room` bytes and no more: the code, the text, which is None if it is longer, and how long it is."""
    text = _library.text_room(room)
    code, told = _library.call(name, **given, **{buffer: text})
    if code == _library.OUT_OF_MEMORY:
        raise MemoryError("out of memory")
    needed = told["needed"]
    return code, text[:needed].tobytes().decode() if needed <= room else None, needed


def refuse(code: int, words: str | None = None) -> NoReturn:
    """Raises what a code other than OK means, in these words or in the library's own."""
    if code == _library.OUT_OF_MEMORY:
        raise MemoryError("out of memory")
    raise ValueError(words or text_of("zarrs_code_words", "words", code=code)[1])
