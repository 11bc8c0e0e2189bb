"""What a call says of a refusal, and how much a walk may take: `test.py` runs it.

It compares the words of metadata's faults and of codes. Walks are asked for with a buffer that is too short for their
items. If there are two faults, `zarrs_answer` and the call of a plan must report the same one.
"""
import ctypes
import itertools
import json
import pathlib

import numpy as np
from call_names import WALKS
from extensions import GREATEST, regular
from memory import at_most, used

VERSION = (pathlib.Path(__file__).resolve().parent.parent / "VERSION").read_text().strip()
SHAPE = np.array([4, 7], np.uint64)
REGULAR = regular(2, 3)
# Metadata of a grid of this array, the code that they end with, and the words.
GRIDS = [
    (REGULAR, 0, ""),
    (None, -4, "not an extension"),
    ({}, -4, "name is missing"),
    ({"name": 3}, -4, "name is not a text"),
    ({"name": "regular", "configuration": []}, -4, "configuration is not an object"),
    ("hexagonal", -5, "name `hexagonal` is not supported"),
    ({"name": "regular", "configuration": {}}, -5, "configuration is unsupported: missing field `chunk_shape`"),
    (regular(0, 3), -5, "configuration is unsupported: wrong value in field `chunk_shape`"),
    ({"name": "rectangular", "configuration": {"chunk_shape": [[1, 1], 3]}}, -5,
     "rectangular chunk grid configuration: [[1, 1], 3] not compatible with array shape [4, 7]"),
]  # fmt: skip
ENCODINGS = [
    ("v2", 0, ""),
    ("octal", -5, "name `octal` is not supported"),
    ({"name": "zarrs.default_suffix", "configuration": {"suffix": "a/"}}, -5,
     "chunk key suffix must not end with a slash"),
]
# What the header says of each code.
CODES = {
    0: "the call has answered",
    -1: "out of memory",
    -2: "an array has more or fewer items than the others demand",
    -3: "the metadata is not JSON",
    -4: "the metadata is no extension's",
    -5: "the grid or the encoding is refused",
    -6: "a box ends past 18446744073709551615",
    -7: "offsets descend, or lie past the text",
    -8: "the text of the answer is longer than its buffer",
    -9: "the numbers are not those of a prepared grid or encoding",
    -10: "no call ends with this code",
    1: "no call ends with this code",
    -(2**31): "no call ends with this code",
}


def text_of(call, name, *arguments):
    """What a call writes to a buffer that its text fills, with its code; and whether a buffer one shorter stays as it
    was, with that code."""
    needed = ctypes.c_size_t(77)
    call(name, *arguments, np.zeros(0, np.uint8), ctypes.byref(needed))
    length = needed.value
    text, short = np.full(length + 1, 7, np.uint8), np.full(max(length - 1, 0), 7, np.uint8)
    code = call(name, *arguments, text[:length], ctypes.byref(needed))
    short_code = call(name, *arguments, short, ctypes.byref(needed))
    kept = (short == 7).all() and text[length] == 7 and needed.value == length
    return code, text[:length].tobytes().decode(), short_code, bool(kept)


def words(tally, call):
    for metadata, code, said in GRIDS:
        found = text_of(call, "zarrs_grid_fault", SHAPE, json.dumps(metadata).encode())
        tally.same(f"the fault of {metadata}", found, (code, said, code, True))
    tally.same("a grid that isn't JSON", text_of(call, "zarrs_grid_fault", SHAPE, b"{"), (-3, CODES[-3], -3, True))
    for metadata, code, said in ENCODINGS:
        found = text_of(call, "zarrs_encoding_fault", json.dumps(metadata).encode())
        tally.same(f"the fault of {metadata}", found, (code, said, code, True))
    tally.same("an encoding that isn't JSON", text_of(call, "zarrs_encoding_fault", b"\xff"), (-3, CODES[-3], -3, True))
    for code, said in CODES.items():
        tally.same(f"the code {code}", text_of(call, "zarrs_code_words", ctypes.c_int32(code)), (0, said, -8, True))
    tally.same("the version", text_of(call, "zarrs_version"), (0, VERSION, -8, True))


def answered(call, question, room):
    line, needed = np.full(room + 1, 7, np.uint8), ctypes.c_size_t()
    code = call("zarrs_answer", json.dumps(question).encode(), line[:room], ctypes.byref(needed))
    return code, needed.value, line[: needed.value].tobytes() if code == 0 else bool((line == 7).all())


def walks(tally, call):
    grid = {"shape": [10**9, 10**9], "chunk_grid": regular(1, 1)}
    plan = {"call": "parts", "of": [[0, 0], [10**9, 10**9]], "chunk_key_encoding": "default"}
    calls = [*({"call": name} for name in WALKS), plan]
    with at_most(used() + 2**25):
        for asked, more, room in itertools.product(calls, ({}, {"first": 10**17}), (0, 10000)):
            found = answered(call, {**grid, **asked, **more, "items": GREATEST}, room)
            tally.same(f"{asked['call']}, {more}, all items and {room} bytes", found, (-8, GREATEST, True))
    # What isn't too long is told as before, also where it fills its buffer.
    small = {"shape": [4, 7], "chunk_grid": REGULAR, "call": "iter_chunk_indices", "items": GREATEST}
    whole = b'{"items":[[0,0],[0,1],[0,2],[1,0],[1,1],[1,2]],"more":false}\n'
    tally.same("a walk that fills its buffer", answered(call, small, len(whole)), (0, len(whole), whole))
    tally.same("a walk that is one too long", answered(call, small, len(whole) - 1), (-8, len(whole), True))


def one_order(tally, library):
    """A bad grid, a bad encoding and a bad box, by a call of their own and as a question."""
    bad = {"chunk_grid": "hexagonal", "chunk_key_encoding": "octal", "of": [[GREATEST, 0], [1, 1]]}
    said = {"chunk_grid": -5, "chunk_key_encoding": -5, "of": -6}
    right = {"chunk_grid": REGULAR, "chunk_key_encoding": "default", "of": [[0, 0], [1, 1]]}
    words_of = {"chunk_grid": "name `hexagonal`", "chunk_key_encoding": "name `octal`", "of": "box end exceeds"}
    names = list(bad)
    for chosen in itertools.combinations_with_replacement(names, 2):
        asked = {**right, **{name: bad[name] for name in chosen}}
        metadata = {name: json.dumps(asked[name]).encode() for name in names[:2]}
        start, box_shape = (np.array(numbers, np.uint64) for numbers in asked["of"])
        box = {"start": start, "box_shape": box_shape, "first": 0}
        code, _told, _moved = library.parts_of({"shape": SHAPE, **metadata, **box, "offsets": np.zeros(1, np.uint64)})
        line = answered(library.call, {"shape": SHAPE.tolist(), "call": "parts", "items": 1, **asked}, 200)[2]
        found = (code, line.startswith(f"refused: {words_of[chosen[0]]}".encode()))
        tally.same(f"{' and '.join(sorted(set(chosen)))} of a plan", found, (said[chosen[0]], True))


def words_and_bounds(tally, library):
    words(tally, library.call)
    walks(tally, library.call)
    one_order(tally, library)
