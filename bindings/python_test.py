"""What the Python package takes, refuses and keeps: `test.py` runs it.

Each group of comparisons is a function over the tally of `test.py`. Beside them `fuzz.py` gives each call any values.
"""
import array
import copy
import ctypes
import itertools
import json
import os
import pathlib
import pickle
import re
import shutil
import subprocess
import sys
import tempfile
import threading

import numpy as np
from extensions import GREATEST, grid_metadata, regular
from memory import at_most, used
from odd_values import Index, Raising, Whole, misaligned
from zarrs_chunks import Encoding, Grid, _library, _processor, _texts, answer
from zarrs_chunks._answer import refuse

REGULAR = regular(2, 3)
HEADER = pathlib.Path(__file__).resolve().parent / "zarrs_chunks.h"


def kind_of_error(call):
    try:
        return call()
    except Exception as raised:
        return type(raised)


# ---- the calls


def table(tally):
    """The table of the calls names the arguments and the structs of the header, in its order and with its types."""
    kinds = {
        ("const uint64_t *", True): _library.NUMBERS, ("const uint8_t *", True): _library.BYTES, ("uint64_t *", True): _library.WRITTEN_NUMBERS,
        ("uint8_t *", True): _library.WRITTEN_BYTES, ("size_t", False): _library.SIZE, ("uint64_t", False): _library.NUMBER,
        ("int32_t", False): _library.CODE, ("size_t *", False): _library.TOLD_SIZE, ("uint8_t", False): (ctypes.c_uint8,),
        ("const struct zarrs_stored_array *", False): _library.STORED_ARRAY, ("const struct zarrs_element_box *", False): _library.ELEMENT_BOX,
        ("struct zarrs_part_buffers *", False): _library.PART_BUFFERS,
    }  # fmt: skip
    structs = {
        "zarrs_stored_array": _library.StoredArray, "zarrs_element_box": _library.ElementBox, "zarrs_part_buffers": _library.PartBuffers,
    }  # fmt: skip
    text = re.sub(r"/\*.*?\*/", "", HEADER.read_text(), flags=re.DOTALL)

    def rows(inside, end):
        parts = [" ".join(part.split()) for part in inside.split(end)]
        declared = [re.fullmatch(r"(.*?) ?(\w+)", part).groups() for part in parts if part not in ("", "void")]
        names = [name for _kind, name in declared]
        return names, [(name, kinds[kind, f"{name}_len" in names]) for kind, name in declared if not name.endswith("_len")]

    calls = {call: rows(inside, ",")[1] for call, inside in re.findall(r"^int32_t (\w+)\((.*?)\);", text, re.MULTILINE | re.DOTALL)}
    tally.same("the calls of the header", {name: [*arguments.items()] for name, arguments in _library.CALLS.items()}, calls)
    fields = {struct: rows(inside, ";") for struct, inside in re.findall(r"^struct (\w+) \{(.*?)\};", text, re.MULTILINE | re.DOTALL)}
    of_package = {name: ([field for field, _kind in struct._fields_], [*struct.KINDS.items()]) for name, struct in structs.items()}
    tally.same("the structs of the header", of_package, fields)
    version = int(re.search(r"#define ZARRS_ABI_VERSION (\d+)", text)[1])
    tally.same("the version of the header", _library.VERSION, version)


def unfit_arguments(tally):
    """What isn't fit for the library never reaches it."""
    shape, text, numbers = np.array([5, 7], np.uint64), json.dumps(REGULAR).encode(), _library.room(16)

    def call(**exchanged):
        return lambda: _library.call("zarrs_prepare_grid", **{"shape": shape, "chunk_grid": text, "numbers": numbers, **exchanged})

    tally.same("fit arguments", (call()(), int(numbers[1])), ((_library.OK, {"needed": 16}), 2))
    frozen = _library.room(2)
    frozen.flags.writeable = False
    unfit = {
        "shape": [
            shape[::-1], np.broadcast_to(shape[:1], (2, 2)), shape.astype(">u8"), shape.astype(np.int64), misaligned(shape),
            [5, 7], None, 5, b"5",
        ],  # fmt: skip
        "chunk_grid": ["text", bytearray(text), memoryview(text), np.frombuffer(text, np.uint8), None, 7],
        "numbers": [frozen, numbers[::-1], _library.room(4)[::2], _library.room(4)[:2], numbers.view(np.int64), np.zeros(2, ">u8"), None, 0],
    }
    for name, values in unfit.items():
        for value in values:
            words = f"{name}: the library can't be given this {type(value).__name__}"
            tally.raises(f"{name} as {value!r}", TypeError, words, call(**{name: value}))
    for call in (
        lambda: _library.call("zarrs_prepare_grid", shape=shape, chunk_grid=text),
        lambda: _library.call("zarrs_prepare_grid", shape=shape, chunk_grid=text, numbers=numbers, found=numbers),
        lambda: _library.call("zarrs_answer", question=b"", line=_library.text_room(1), needed=ctypes.c_size_t()),
    ):
        tally.same("a wrong number of arguments", kind_of_error(call), TypeError)
    keys = {"numbers": numbers, "chunks": shape, "text": _library.text_room(9), "offsets": _library.room(2)}
    for number in (-1, 2**64, 1.0, None, True):
        tally.same(f"a size of {number}", kind_of_error(lambda: _library.call("zarrs_prepared_keys_of", dimensionality=number, **keys)), TypeError)
    plan = {
        "array": {"shape": shape, "chunk_grid": text, "chunk_key_encoding": b'"v2"'}, "elements": {"start": shape, "shape": shape}, "first": 0,
        "buffers": {name: _library.room(2) for name in ("chunks", "in_chunk", "in_selection", "shapes", "offsets")} | {"text": _library.text_room(9)},
    }  # fmt: skip
    for struct, name, value in (("array", "shape", [5, 7]), ("array", "chunk_grid", "text"), ("elements", "start", None), ("buffers", "chunks", frozen)):
        words = f"{name}: the library can't be given this {type(value).__name__}"
        unfit = {**plan, struct: {**plan[struct], name: value}}
        tally.raises(f"{name} of {struct} as {value!r}", TypeError, words, lambda: _library.call("zarrs_parts_of", **unfit))
    tally.same("a field too few", kind_of_error(lambda: _library.call("zarrs_parts_of", **{**plan, "elements": {"start": shape}})), TypeError)
    for name, function in _library._FUNCTIONS.items():
        tally.same(f"the types of {name}", (function.restype, len(function.argtypes)), (ctypes.c_int32, sum(map(len, _library.CALLS[name].values()))))


# ---- what goes in


def texts_of_keys(tally):
    encoding = Encoding("default")
    plain, offsets = b"c/1c/23", [0, 3, 7]
    spread = np.frombuffer(bytes(byte for pair in zip(plain, b"x" * 7) for byte in pair), np.uint8)
    turned = np.frombuffer(plain[::-1], np.uint8)
    for what, text in {
        "bytes": plain, "a bytearray": bytearray(plain), "a memoryview": memoryview(plain), "a strided memoryview": memoryview(spread)[::2],
        "an array": np.frombuffer(plain, np.uint8), "a strided array": spread[::2], "a reversed array": turned[::-1],
        "an array of bytes": array.array("B", plain),
    }.items():  # fmt: skip
        chunks, found = encoding.decode_text(text, offsets, 1)
        tally.same(f"the keys in {what}", (chunks.tolist(), found.tolist()), ([[1], [23]], [True, True]))
    same = np.broadcast_to(np.uint8(ord("c")), 4)
    tally.same("the keys in a broadcast array", encoding.decode_text(same, [0, 1, 4], 0)[1].tolist(), [True, False])
    strided = np.frombuffer(b"c1x1", np.uint8)[::2]
    tally.same("a strided text isn't read past its strides", encoding.decode_text(strided, [0, 2], 1)[1].tolist(), [False])
    for text in ("c/1", None, 3, [99], {}, np.zeros(3, np.uint64), np.zeros(3, np.int8), np.zeros((3, 1), np.uint8), array.array("Q", [1]), encoding):
        tally.same(f"the keys in {text!r}", kind_of_error(lambda: encoding.decode_text(text, [0, 3], 1)), TypeError)
    tally.raises("a text", TypeError, "text: bytes are wanted, and not a str", lambda: encoding.decode_text("c/1", [0, 3], 1))
    none = "offsets: there is one more than there are keys, and none was given"
    tally.raises("no offsets", ValueError, none, lambda: encoding.decode_text(b"", [], 1))
    tally.same("offsets in two axes", kind_of_error(lambda: encoding.decode_text(b"c/1", [[0, 3]], 1)), ValueError)


def keys(tally):
    encoding = Encoding("default")
    expected = ([[1], [23], [0]], [True, True, False])
    for what, given in {
        "texts": ["c/1", "c/23", "c"], "bytes": [b"c/1", bytearray(b"c/23"), memoryview(b"c")], "a tuple": ("c/1", b"c/23", "c"),
        "numpy's texts": np.array(["c/1", "c/23", "c"]), "numpy's bytes": np.array([b"c/1", b"c/23", b"c"]),
        "a generator": (key for key in ["c/1", "c/23", "c"]),
    }.items():  # fmt: skip
        chunks, found = encoding.decode(given, 1)
        tally.same(f"keys as {what}", (chunks.tolist(), found.tolist()), expected)
    for one in ("c/1", b"c/1", bytearray(b"c/1"), memoryview(b"c/1")):
        words = f"keys: a list of keys is wanted, and not one {type(one).__name__}"
        tally.raises(f"one key as {type(one).__name__}", TypeError, words, lambda: encoding.decode(one, 1))
    for wrong in (None, 3, [1], [None], [["c/1"]], [encoding], np.zeros(3), Raising(IndexError("of its own")), encoding):
        tally.same(f"{wrong!r} as keys", kind_of_error(lambda: encoding.decode(wrong, 1)), TypeError)
    surrogate = "keys: 'utf-8' codec can't encode character '\\ud800' in position 2: surrogates not allowed"
    tally.raises("half a surrogate pair", ValueError, surrogate, lambda: encoding.decode(["c/\ud800"], 1))
    tally.same("bytes that are no UTF-8", encoding.decode([b"c/\xff"], 1)[1].tolist(), [False])
    texts = encoding.encode([[0, 1], [2, 3]])
    tally.same("keys go in again", encoding.decode(texts, np.int64(2))[0].tolist(), [[0, 1], [2, 3]])
    text, offsets = encoding.encode_text([[0, 1], [2, 3]])
    tally.same("a text goes in again", encoding.decode_text(text, offsets, np.uint8(2))[0].tolist(), [[0, 1], [2, 3]])


def nesting(tally):
    encoding = Encoding("default")
    for shape, keys in {
        (0, 2): [], (2, 0, 3): [[], []], (0, 2, 3): [], (2, 1, 0): [["c"], ["c"]], (3, 0): ["c"] * 3, (0,): "c", (1, 1, 2): [["c/0/0"]],
        (2, 2, 0, 5): [[[], []], [[], []]], (0, 0, 0): [], (2, 0, 0): [[], []],
    }.items():  # fmt: skip
        for kind in (np.uint64, np.int8) + ((np.float64,) if 0 in shape else ()):
            tally.same(f"keys of {shape} of {np.dtype(kind)}", encoding.encode(np.zeros(shape, kind)), keys)
    grid = Grid([5, 7], REGULAR)
    tally.same("boxes of no lists", [part.shape for part in grid.subset(np.zeros((2, 0, 2)))], [(2, 0, 2), (2, 0, 2), (2, 0)])
    tally.same("an empty list", kind_of_error(lambda: grid.chunk_indices([])), ValueError)
    none = Grid([], regular())
    tally.same("lists without numbers", [part.shape for part in none.find_home(np.zeros((3, 0)))], [(3, 0), (3, 0), (3,)])


def whole_numbers(tally):
    grid, encoding = Grid([5, 7], REGULAR), Encoding("default")
    for what, index in {
        "numpy's": [np.uint64(3), np.uint64(5)], "a mix": [np.uint64(3), 5], "another": [np.int8(3), np.uint64(5)], "a tuple": (3, 5),
        "by __index__": [Index(3), Index(5)], "objects": np.array([3, np.uint64(5)], object), "array": array.array("i", [3, 5]),
        "big-endian": np.array([3, 5], ">i4"), "reversed": np.array([5, 3])[::-1], "misaligned": misaligned(np.array([3, 5], np.uint64)),
        "arrays": [np.array(3), np.array(5, np.uint64)], "an int's child": [Whole(3), Whole(5)], "unsigned bytes": np.array([3, 5], np.uint8),
        "a matrix": np.array([[3, 5]], np.int16).view(np.matrix),
    }.items():  # fmt: skip
        chunks, found = grid.chunk_indices(index)
        tally.same(f"an index as {what}", (chunks.reshape(-1).tolist(), found.reshape(-1).tolist()), ([1, 1], [True]))
    tally.same("mixed lists", grid.chunk_indices([[np.uint64(1), 1], [0, np.int64(6)]])[0].tolist(), [[0, 0], [0, 2]])
    tally.same("the greatest number", grid.chunk_indices([GREATEST, 0])[0].tolist(), [GREATEST // 2, 0])
    tally.same("the greatest beside numpy's", encoding.encode([GREATEST, np.uint64(GREATEST), np.int8(1)]), f"c/{GREATEST}/{GREATEST}/1")
    answers = grid.find_home([[3, 5], [4, 6]])
    tally.same("chunks go in again", [part.tolist() for part in grid.subset(answers[0])], [[[2, 3], [4, 6]], [[2, 3], [2, 3]], [True, True]])
    wanted, kinds = "indices: whole numbers are wanted, and the array is of ", "f8 f4 c16 ? M8[s] m8[s] S2 V3".split()
    for kind in kinds:
        tally.raises(f"an array of {kind}", TypeError, wanted + str(np.dtype(kind)), lambda: grid.chunk_indices(np.zeros(2, kind)))
    tally.raises("floats", TypeError, wanted + "float64", lambda: grid.chunk_indices([1.0, 2]))
    tally.raises("truth values", TypeError, wanted + "bool", lambda: grid.chunk_indices([True, False]))
    tally.raises("text", TypeError, wanted + "<U2", lambda: grid.chunk_indices("10"))
    tally.raises("None", TypeError, "indices: whole numbers are wanted, and one is of the type NoneType", lambda: grid.chunk_indices([1, None]))
    tally.raises("a set", TypeError, "indices: whole numbers are wanted, and one is of the type set", lambda: grid.chunk_indices({1, 2}))
    bounds = "indices: numbers are those from 0 to 18446744073709551615, and one is "
    for number in (2**64, 10**5000, Whole(2**64), Index(2**70)):
        tally.raises("a number above", ValueError, bounds + "above", lambda: grid.chunk_indices([1, number]))
    for number in (-1, np.int8(-1), -(10**5000), Whole(-1), Index(-1), -(2**63)):
        tally.raises("a number below", ValueError, bounds + "below", lambda: grid.chunk_indices([1, number]))
    tally.same("lists of two lengths", kind_of_error(lambda: grid.chunk_indices([[1, 2], [3]])), ValueError)
    endless = []
    endless.append(endless)
    tally.same("a list in itself", kind_of_error(lambda: grid.chunk_indices(endless)) in (TypeError, ValueError), True)
    for error in (IndexError("own"), KeyError("own"), RuntimeError("own"), ZeroDivisionError("own"), StopIteration(), RecursionError("own")):
        takes_parts = lambda value: grid.parts(encoding, [0, 0], [1, 1], value)
        for call in (grid.chunk_indices, encoding.encode, lambda value: Grid(value, REGULAR), takes_parts):
            for value in (Raising(error), [Raising(error)]):
                tally.same(f"what raises {error!r}", kind_of_error(lambda: call(value)) in (TypeError, ValueError), True)


def single_numbers(tally):
    grid, encoding = Grid([5, 7], REGULAR), Encoding("default")
    for two in (2, np.int64(2), np.uint64(2), Index(2), np.array(2), Whole(2)):
        tally.same(f"a dimensionality of {two!r}", encoding.decode(["c/1/2"], two)[0].tolist(), [[1, 2]])
        parts = grid.parts(encoding, [0, 0], [5, 7], two, two)
        tally.same(f"{two!r} parts", (parts.keys, parts.in_all), (["c/0/2", "c/1/0"], 9))
    above, below = (f"numbers are those from 0 to 18446744073709551615, and one is {which}" for which in ("above", "below"))
    for name, call in {
        "dimensionality": lambda value: encoding.decode([], value), "first": lambda value: grid.parts(encoding, [0, 0], [1, 1], value),
        "most": lambda value: grid.parts(encoding, [0, 0], [1, 1], 0, value),
    }.items():  # fmt: skip
        for value in (2**64, 10**5000, Index(2**64), Whole(2**64)):
            tally.raises(f"{name} above", ValueError, f"{name}: {above}", lambda: call(value))
        for value in (-1, np.int8(-1), Whole(-1)):
            tally.raises(f"{name} below", ValueError, f"{name}: {below}", lambda: call(value))
        tally.raises(f"{name} as a float", TypeError, f"{name}: 'float' object cannot be interpreted as an integer", lambda: call(1.0))
        for value in ("1", [1], np.array([1, 2]), np.float64(1), np.bool_(True), np.zeros(1, bool), Raising(IndexError())):
            tally.same(f"{name} as {value!r}", kind_of_error(lambda: call(value)), TypeError)
    box = "start and shape: one box is asked for, with 2 numbers each"
    tally.raises("a box of three", ValueError, box, lambda: grid.parts(encoding, [0, 0, 0], [1, 1]))
    tally.same("two boxes", kind_of_error(lambda: grid.parts(encoding, [[0, 0]], [[1, 1]])), ValueError)
    tally.same("a shape in two axes", kind_of_error(lambda: Grid([[5, 7]], REGULAR)), ValueError)
    tally.raises("a grid for an encoding", TypeError, "encoding: an Encoding is wanted, and not a Grid", lambda: grid.parts(grid, [0, 0], [1, 1]))
    tally.raises("a name for an encoding", TypeError, "encoding: an Encoding is wanted, and not a str", lambda: grid.parts("default", [0, 0], [1, 1]))


def huge(tally):
    """What would take more memory than there is, is refused."""
    encoding = Encoding("default")
    for keys, answers in ([], []), (["c/1"], [False]):
        for dimensionality in (2**40, 2**46, 2**62, 2**63, GREATEST):
            # Zeros that nobody reads take no memory, and some systems give as many as there are addresses.
            found = kind_of_error(lambda: encoding.decode(keys, dimensionality)[1].tolist())
            tally.same(f"{len(keys)} keys of {dimensionality} numbers", found in (answers, MemoryError), True)
    shape = [10**12, 10**6]
    grid = Grid(shape, regular(1, 1))
    at_most = "parts are asked for, and at most 5592405 fit into one answer: give `first` and `most`"
    tally.raises("a plan of very many parts", MemoryError, f"out of memory: {10**18} {at_most}", lambda: grid.parts(encoding, [0, 0], shape))
    tally.raises("very many of them", MemoryError, f"out of memory: {10**9} {at_most}", lambda: grid.parts(encoding, [0, 0], shape, 7, 10**9))
    tally.same("few of them", grid.parts(encoding, [0, 0], shape, 10**6 + 7, 1).keys, ["c/1/7"])
    last = [f"c/{10**12 - 1}/{10**6 - 1}"]
    tally.same("the last of them, all from it on", grid.parts(encoding, [0, 0], shape, 10**18 - 1).keys, last)
    tally.same("the last of them, with the most after it", grid.parts(encoding, [0, 0], shape, 10**18 - 1, GREATEST).keys, last)
    for shape in ((2**40, 0, 2), (2**20, 2**20, 0, 1), (2**40, 0), (2**24 + 1, 0)):
        tally.same(f"keys of {shape}", kind_of_error(lambda: encoding.encode(np.zeros(shape))), MemoryError)
    most, _texts.MOST_KEYS = _texts.MOST_KEYS, 1000
    more = "keys: out of memory: more than 1000 keys are given at once; `decode_text` takes more"
    tally.raises("keys without end", MemoryError, more, lambda: encoding.decode(itertools.repeat("c/1"), 1))
    tally.same("as many keys as are taken", len(encoding.decode(["c/1"] * 1000, 1)[1]), 1000)
    _texts.MOST_KEYS = most
    lists = np.broadcast_to(np.uint64(1), (2**45, 2))
    for call in (grid.chunk_indices, grid.find_home, grid.subset, encoding.encode, encoding.encode_text):
        tally.same("more lists than fit", kind_of_error(lambda: call(lists)), MemoryError)


def metadata(tally):
    shape = [5, 7]
    name = "regular"
    for what, sizes in {
        "numpy's integers": [np.int64(2), np.uint8(3)], "a tuple": (2, 3), "an array": np.array([2, 3]), "objects": [Index(2), Whole(3)],
    }.items():  # fmt: skip
        grid = Grid(shape, grid_metadata("regular", sizes))
        tally.same(f"edges as {what}", (grid.grid_shape, grid.metadata, grid == Grid(shape, REGULAR)), ((3, 3), REGULAR, True))
    listed = grid_metadata("rectangular", [np.array([2, 3], np.uint64), (np.int8(7),)])
    tally.same("edges as arrays", Grid(shape, listed).configuration, {"chunk_shape": [[2, 3], [7]]})
    circular, deep, again = {}, [], [1] * 10
    circular["name"] = circular
    for _ in range(90):
        again = [again] * 10
    for _ in range(10**5):
        deep = [deep]
    refused = {
        "nan": (ValueError, float("nan")), "inf": (ValueError, {"name": float("inf")}), "a set": (TypeError, {"name": {1}}),
        "very many items": (ValueError, {"name": again}), "a huge array": (ValueError, {"name": np.broadcast_to(1, 2**40)}),
        "very many empty lists": (ValueError, {"name": np.zeros((2**40, 0, 3))}),
        "circular": (ValueError, circular), "deep": (ValueError, deep), "a huge number": (ValueError, {"name": 10**5000}),
        "half a surrogate pair": (ValueError, "\ud800"), "half a pair within": (ValueError, {"name": "a\udc00"}),
        "a number as a name": (TypeError, {1: 2}), "a grid": (TypeError, Grid(shape, REGULAR)), "what raises": (TypeError, Raising(IndexError())),
        "a function": (TypeError, len), "complex": (TypeError, 1j), "dates": (TypeError, np.zeros(1, "M8[s]")), "bytes": (TypeError, b"default"),
        "nothing": (ValueError, None), "a number": (ValueError, 3), "a list": (ValueError, []), "no name": (ValueError, {}),
        "a float": (ValueError, np.float64(1)),
    }  # fmt: skip
    for what, (kind, value) in refused.items():
        tally.same(f"a grid of {what}", kind_of_error(lambda: Grid(shape, value)), kind)
        tally.same(f"an encoding of {what}", kind_of_error(lambda: Encoding(value)), kind)
    tally.raises("a set's words", TypeError, "chunk_grid: JSON has no form for a set", lambda: Grid(shape, {"name": {1}}))
    tally.raises("a nan's words", ValueError, "chunk_key_encoding: JSON has no form for nan", lambda: Encoding(float("nan")))
    tally.raises("an argument of `answer`", TypeError, "question: a dict is wanted, and not a str", lambda: answer("{}"))
    question = {"shape": np.array(shape), "chunk_grid": REGULAR, "call": "chunk_indices", "of": (np.uint64(3), 5)}
    tally.same("numpy's numbers in a question", answer(question), "[1,1]")
    unreadable = "unreadable: there is no call `no`"
    tally.same("no call", answer({**question, "call": "no"}), unreadable)
    walk = {"shape": [10**4], "chunk_grid": regular(1), "call": "iter_chunk_indices", "items": 10**4}
    tally.same("a long answer", len(json.loads(answer(walk))["items"]), 10**4)


# ---- what is kept


def kept(tally):
    """Grids and encodings don't change with what they were made of, nor with what they hand out."""
    shape, given, suffix = np.array([5, 7], np.uint64), regular(2, 3), {"name": "v2", "configuration": {"separator": "/"}}
    grid, encoding = Grid(shape, given), Encoding(suffix)
    shape[:] = 100
    given["configuration"]["chunk_shape"][:] = [1, 1]
    given["name"] = "no"
    suffix["configuration"]["separator"] = "."
    grid.metadata["name"], grid.configuration["chunk_shape"][0] = "other", 9
    encoding.metadata["name"], encoding.configuration["separator"] = "other", "."
    tally.same("the grid as it was", (grid.array_shape, grid.grid_shape, grid.metadata), ((5, 7), (3, 3), REGULAR))
    tally.same("its answers", (grid.chunk_indices([4, 6])[0].tolist(), grid.parts(encoding, [0, 0], [5, 7]).in_all), ([2, 2], 9))
    tally.same("the encoding as it was", (encoding.encode([1, 2]), encoding.metadata["name"]), ("1/2", "v2"))
    tally.same("the parts of a grid", (grid.name, grid.configuration), ("regular", {"chunk_shape": [2, 3]}))
    tally.same("the parts of an encoding", (encoding.name, encoding.configuration), ("v2", {"separator": "/"}))
    tally.same("of a name alone", (Encoding("v2").name, Encoding("v2").configuration, Encoding({"name": "v2"}).configuration), ("v2", None, None))
    for value in (grid, encoding, Encoding("default"), Encoding({"name": "zarrs.default_suffix", "configuration": {"suffix": ".é漢"}})):
        for copied in (pickle.loads(pickle.dumps(value)), copy.copy(value), copy.deepcopy(value), eval(repr(value))):
            tally.same(f"a copy of {value}", (copied == value, hash(copied) == hash(value), repr(copied)), (True, True, repr(value)))
    other = {"configuration": {"chunk_shape": [2, 3]}, "name": "regular"}
    tally.same("members in another order", (Grid([5, 7], other) == grid, len({Grid([5, 7], other), grid})), (True, 1))
    different = [Grid([5, 8], REGULAR), Grid([5, 7], {**REGULAR, "name": "zarrs.regular_bounded"}), encoding, "regular", None]
    tally.same("what is another", [grid == value for value in different], [False] * 5)
    tally.same("another encoding", [encoding == value for value in (Encoding("v2"), grid, "v2")], [False] * 3)
    tally.raises("a refused copy", ValueError, "name `no` is not supported", lambda: Grid([5, 7], given))


# ---- other threads


class Changing:
    """Changes an array in a thread of its own, over and over, until the end of a `with`."""

    def __init__(self, change):
        self.change, self.ended = change, threading.Event()
        self.thread = threading.Thread(target=self.run)

    def run(self):
        while not self.ended.is_set():
            self.change()

    def __enter__(self):
        self.thread.start()

    def __exit__(self, *_error):
        self.ended.set()
        self.thread.join()


def changed_meanwhile(tally):
    """Where another thread changes what was given, each answer is that of a number which was there, and each text is one that was written."""
    chunks, lists = np.zeros((3000, 1), np.uint64), 3000
    encoding, grid = Encoding("default"), Grid([GREATEST], regular(2**32))

    def change():
        chunks[:] = GREATEST
        chunks[:] = 0

    with Changing(change):
        for _ in range(300):
            text, offsets = encoding.encode_text(chunks)
            keys = {text[start:end] for start, end in zip(offsets.tolist(), offsets[1:].tolist())}
            tally.same("keys of changing chunks", (keys <= {b"c/0", b"c/%d" % GREATEST}, int(offsets[-1]) == len(text)), (True, True))
            answers, found = grid.chunk_indices(chunks)
            tally.same("chunks of changing indices", (set(answers.ravel().tolist()) <= {0, 2**32 - 1}, bool(found.all())), (True, True))
            tally.same("keys of changing chunks, one by one", set(encoding.encode(chunks)) <= {"c/0", f"c/{GREATEST}"}, True)
    text, offsets = bytearray(b"c/1" * lists), np.arange(0, 3 * lists + 1, 3).astype(np.uint64)

    def change_text():
        text[:3] = b"\xff\xfe\xfd"
        offsets[1:-1] = 2**63
        text[:3] = b"c/1"
        offsets[1:-1] = np.arange(3, 3 * lists, 3)

    with Changing(change_text):
        for _ in range(300):
            try:
                chunks_found, found = encoding.decode_text(text, offsets, 1)
                tally.same("chunks of changing keys", set(chunks_found[found].ravel().tolist()) <= {1}, True)
            except ValueError as error:
                told = re.fullmatch(r"the offsets of key \d{1,4} descend, or lie past the text", str(error))
                tally.same("chunks of changing offsets", told is not None, True)
    start, shape, small = np.zeros(2, np.uint64), np.array([4, 6], np.uint64), Grid([5, 7], REGULAR)

    def change_box():
        start[:] = GREATEST
        start[:] = 0

    with Changing(change_box):
        for _ in range(300):
            try:
                parts = small.parts(encoding, start, shape)
                tally.same("a plan of a changing box", parts is None or all(key.startswith("c/") for key in parts.keys), True)
            except ValueError as error:
                tally.same("a changing box", str(error), "a box ends past 18446744073709551615")
    metadata, sizes = regular(2, 3), np.array([5, 7])

    def change_metadata():
        metadata.pop("other", None)
        sizes[:] = 9
        metadata["other"] = 1
        sizes[:] = 5

    with Changing(change_metadata):
        for _ in range(300):
            tally.same("a grid of changing metadata", kind_of_error(lambda: type(Grid(sizes, metadata))) in (Grid, ValueError), True)

    shared = np.zeros((1000, 2), np.uint64)

    def change_form():
        shared.dtype = np.uint8
        shared.dtype = np.uint64

    with Changing(change_form):
        for _ in range(2000):
            found = kind_of_error(lambda: small.chunk_indices(shared)[1].all())
            tally.same("indices whose type changes", found in (True, ValueError), True)


# ---- the machine


def processor(tally):
    flags = "fpu sse sse2 cx16 lahf_lm popcnt sse4_1 sse4_2 ssse3"
    text = f"processor\t: 0\nmodel name\t: made up\nflags\t\t: {flags}\n\nprocessor\t: 1\nflags\t\t: {flags}\n"
    tally.same("a processor that does", _processor.fault("x86_64", text), None)
    for flag in ("cx16", "lahf_lm", "popcnt", "sse4_1", "sse4_2", "ssse3"):
        words = f"the library needs an x86-64-v2 processor, and this one is without {flag}"
        tally.same(f"one without {flag}", _processor.fault("x86_64", text.replace(f" {flag}", "", 1)), words)
    several = words.replace("ssse3", "cx16, lahf_lm, popcnt, sse4_1, sse4_2, ssse3")
    tally.same("an old one", _processor.fault("AMD64", "flags : fpu sse sse2"), several)
    for known in ("", "no flags\n", "bugs : none"):
        tally.same("nothing known of its flags", _processor.fault("x86_64", known), None)
    tally.same("nothing known of the machine", _processor.fault("", text), None)
    tally.same("another machine", _processor.fault("aarch64", text), "the library is for x86-64 processors, and this one is aarch64")


def place_of_the_library(tally):
    """A package loads the library that the variable names, or the one beside it. It takes none that lies in the current folder, on LD_LIBRARY_PATH, in
    a folder of the package's path, or where a build leaves it."""
    with tempfile.TemporaryDirectory() as room:
        package, built, current = (pathlib.Path(room).resolve() / name for name in ("bindings/python/zarrs_chunks", "bindings/out/llvm", "current"))
        shutil.copytree(pathlib.Path(_library.__file__).parent, package, ignore=shutil.ignore_patterns("__pycache__", "*.so*"))
        name = f"libzarrs_chunks.so.{_library.VERSION}"
        for folder in (built, current, package.parent):
            folder.mkdir(parents=True, exist_ok=True)
            for copied in (name, "libzarrs_chunks.so"):
                shutil.copyfile(_library.path(), folder / copied)

        def loaded(**variables):
            kept = {variable: value for variable, value in os.environ.items() if variable != "ZARRS_CHUNKS_LIBRARY"}
            places = {"LD_LIBRARY_PATH": str(current), "PYTHONPATH": str(package.parent)}
            words = "import zarrs_chunks, pathlib; print(*{line.split()[-1] for line in pathlib.Path('/proc/self/maps').open() if 'libzarrs' in line})"
            ended = subprocess.run([sys.executable, "-c", words], env={**kept, **places, **variables}, cwd=current, capture_output=True, text=True)
            return (ended.stdout or ended.stderr).splitlines()[-1]

        missing = "ImportError: {} is missing: set ZARRS_CHUNKS_LIBRARY to the path of " + name
        tally.same("a package without a library", loaded(), missing.format(package / name))
        tally.same("one with an empty variable", loaded(ZARRS_CHUNKS_LIBRARY=""), missing.format(package / name))
        tally.same("a named library", loaded(ZARRS_CHUNKS_LIBRARY=str(built / name)), str(built / name))
        tally.same("one named from the current folder", loaded(ZARRS_CHUNKS_LIBRARY=name), str(current / name))
        shutil.copyfile(_library.path(), package / name)
        tally.same("a library beside the package", loaded(), str(package / name))
        tally.same("another one that is named", loaded(ZARRS_CHUNKS_LIBRARY=str(built / name)), str(built / name))
        tally.same("one that is named and missing", loaded(ZARRS_CHUNKS_LIBRARY="none"), missing.format(current / "none"))


def little_memory(tally):
    """After a call that was out of memory everything answers as before."""
    grid, encoding = Grid([10**6, 7], REGULAR), Encoding("default")
    # Each answer is larger than what the process may have freed before and keeps.
    indices = np.arange(12 * 10**6, dtype=np.uint64).reshape(-1, 2) % 7
    signed, text, offsets = indices.astype(np.int32), bytes(3 * 10**6), np.arange(0, 3 * 10**6 + 1, 3)
    calls = [
        lambda: grid.find_home(indices), lambda: grid.chunk_indices(signed), lambda: encoding.encode_text(indices),
        lambda: encoding.decode_text(text, offsets, 50), lambda: grid.parts(encoding, [0, 0], [10**6, 7]),
        lambda: Grid([10**6], grid_metadata("rectangular", [[1] * 10**6])),
    ]  # fmt: skip
    for call in calls:
        with at_most(used() + 2**20):
            found = kind_of_error(call)
        tally.same("a call under little memory", found, MemoryError)
        tally.same("the next one", (grid.chunk_indices([4, 6])[0].tolist(), encoding.encode([1, 2]), grid.grid_shape), ([2, 2], "c/1/2", (500000, 3)))
    tally.raises("the code of it", MemoryError, "out of memory", lambda: refuse(_library.OUT_OF_MEMORY))
    tally.raises("another code", ValueError, "an array has more or fewer items than the others demand", lambda: refuse(_library.WRONG_LENGTH))
    tally.raises("a code that is unknown", ValueError, "no call ends with this code", lambda: refuse(-99))


def unknown_lengths(tally):
    """An answer whose length isn't told is asked for with twice the room each time, and not without end."""
    asked, whole = [], _library.call

    def call(name, question, line):
        asked.append(line.size)
        return (_library.SHORT_BUFFER, {"needed": GREATEST}) if line.size < enough else whole(name, question=question, line=line)

    try:
        _library.call = call
        enough = 2000
        tally.same(
            "an answer of unknown length", (answer({"chunk_key_encoding": "v2", "call": "encode", "of": [1]}), asked), ('"1"', [256, 512, 1024, 2048])
        )
        enough = 2**40
        longer = "out of memory: the answer is longer than 1073741824 bytes"
        tally.raises("one that is too long", MemoryError, longer, lambda: answer({"call": "no"}))
    finally:
        _library.call = whole


def python_package(tally):
    for group in (
        table, unfit_arguments, texts_of_keys, keys, nesting, whole_numbers, single_numbers, huge, metadata, kept, changed_meanwhile, processor,
        place_of_the_library, little_memory, unknown_lengths,
    ):  # fmt: skip
        group(tally)
