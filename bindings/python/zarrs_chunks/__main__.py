"""Answers questions, a line each, from standard input: `python -m zarrs_chunks`.

It answers as the program `chunkcalls` does, whose page lists the questions. What has been read is answered, and the answer written out, before
more is read. So it can be kept running and asked a line at a time. The status is 0, or 1 after an error, which a line on standard error reports.
"""

from __future__ import annotations

import os
import sys
from collections.abc import Sequence
from typing import BinaryIO, TextIO

from ._answer import line_of
from ._version import __version__

HELP = """\
Usage: python -m zarrs_chunks [--help | --version]

Answers questions about chunk grids and chunk keys, a line of JSON each on
standard input, by a line each on standard output. The page of `chunkcalls`
says what may be asked:

  {"shape":[5,7,52],"chunk_grid":{"name":"regular","configuration":
   {"chunk_shape":[1,2,3]}},"call":"chunk_indices","of":[3,5,50]}

The status is 0, or 1 after an input or an output that failed, or where memory
ran out, which standard error tells."""


class Fault(Exception):
    """Why the program ends before its input does."""


def answer_lines(questions: BinaryIO, answers: BinaryIO) -> None:
    """Writes the answer to each line before the next one is read.

    >>> import io
    >>> answers = io.BytesIO()
    >>> answer_lines(io.BytesIO(b'{"chunk_key_encoding":"v2","call":"encode","of":[1,2]}\\n[1,2\\n'), answers)
    >>> answers.getvalue()
    b'"1.2"\\nunreadable: not JSON\\n'
    """
    while line := _read(questions):
        _write(answers, line_of(line.removesuffix(b"\n")))


def _read(questions: BinaryIO) -> bytes:
    try:
        return questions.readline()
    except OSError as error:
        raise Fault("input failed") from error


def _write(answers: BinaryIO, line: str) -> None:
    try:
        answers.write(line.encode() + b"\n")
        answers.flush()
    except OSError as error:
        raise Fault("output failed") from error


def _bytes_of(stream: TextIO | None, fault: str) -> BinaryIO:
    """The bytes of a standard stream, which is None if it was closed."""
    if stream is None:
        raise Fault(fault)
    return stream.buffer


def main(words: Sequence[str]) -> None:
    """Does what the words of a command line ask for. Raises Fault if it can't."""
    if len(words) > 1 or not {*words} <= {"--help", "--version"}:
        raise Fault("it takes `--help` or `--version`, or no word")
    try:
        answers = _bytes_of(sys.stdout, "output failed")
        if words:
            _write(answers, HELP if words[0] == "--help" else __version__)
        else:
            answer_lines(_bytes_of(sys.stdin, "input failed"), answers)
    except MemoryError as error:
        raise Fault("out of memory") from error


if __name__ == "__main__":
    try:
        main(sys.argv[1:])
    except Fault as fault:
        print(f"zarrs_chunks: {fault}", file=sys.stderr, flush=True)
        # What is still held for an output that failed is dropped, without a second error.
        os._exit(1)
