"""Compares the calls with plain arithmetic of Python: `test.py` runs it. They are asked for answers at several numbers of
dimensions, for each fault at one of these, and with any numbers in place of a prepared grid's.

Each call is taken as the list of its arguments, by the names of the header. So an argument can be made longer or
shorter, or be exchanged for a wrong one, and what the call ends with is compared with the order of faults that the
header tells. After each array lies an item that no call may change.
"""
import ctypes
import itertools
import json
import random

import numpy as np
from chunk_grids import Grid
from chunk_keys import Encoding
from extensions import GREATEST, grid_metadata

DIMENSIONS = (1, 2, 3, 4, 5, 9, 300)
FAULTS_OF = 3  # dimensions: which fault is told, and what it leaves, is the same of any number of them
LEFT = 7  # what buffers hold before a call
ROUNDS = 100  # of prepared grids with any numbers

# The order in which faults are told: those of the grid, of the encoding, and then the others.
METADATA = {"no JSON": (b'{"name":', -3), "no extension": (b"3", -4), "refused": (b'"no"', -5)}
LENGTH, NOT_A_BOX, OFFSETS, SHORT, NOT_PREPARED = -2, -6, -7, -8, -9


def filled(count, kind=np.uint64):
    return np.full(count, LEFT, kind)


class Count(ctypes.c_size_t):
    """A `size_t` that a call tells."""


class Asked:
    """A call: its name, its arguments by name, and which of them have the lengths that others demand."""

    def __init__(self, name, arguments, measured):
        self.name, self.arguments, self.measured = name, arguments, measured

    def ends(self, library, **exchanged):
        """Makes the call with some arguments exchanged. Gives its code, the arguments as the call leaves them, and the names
        of those beside which it writes, or whose pointer it moves."""
        kept = {name: own(part) for name, part in {**self.arguments, **exchanged}.items()}
        told, beside = {}, []
        if self.name == "zarrs_parts_of":
            code, told, beside = library.parts_of(kept, before=LEFT)
        else:
            code = library.call(self.name, *(ctypes.byref(part) if isinstance(part, Count) else part for part in kept.values()))
        beside += [name for name, part in kept.items() if isinstance(part, np.ndarray) and part.base[-1] != LEFT]
        return code, {name: seen(part) for name, part in kept.items()} | told, beside


def own(part):
    """A copy of what a call may write to, with one item more after it."""
    if isinstance(part, Count):
        return Count(part.value)
    return np.append(part, np.array([LEFT], part.dtype))[:-1] if isinstance(part, np.ndarray) else part


def seen(part):
    if isinstance(part, Count):
        return part.value
    return part.tolist() if isinstance(part, np.ndarray) else part


# ---- what is right, by plain arithmetic

DEFAULT = Encoding("default")


def bounded(rng, dimensions):
    """A grid of equal chunks that end with the array."""
    edges = [rng.randrange(1, 12) for _ in range(dimensions)]
    return Grid(grid_metadata("zarrs.regular_bounded", edges), [rng.randrange(1, 40) for _ in range(dimensions)])


def given_of(grid):
    return {"shape": np.array(grid.shape, np.uint64), "chunk_grid": json.dumps(grid.metadata()).encode()}


def numbers_of(grid):
    """The numbers of a prepared grid of equal chunks that end with the array: a mark, the number of dimensions, and for
    each dimension how many chunks are counted, the last index and the last chunk, and one run of chunks, which begins at
    0 with the chunk 0, with its edge."""
    rows = zip(grid.grid_shape(), grid.shape, grid.edges)
    numbers = [part for count, size, edge in rows for part in (count, size - 1, count - 1, 1, 0, 0, edge)]
    return np.array([int.from_bytes(b"zarrgrid", "big"), len(grid.shape), *numbers], np.uint64)


def offsets_of(texts):
    """Where each of some texts begins, one after another, and where the last one ends."""
    return list(itertools.accumulate(map(len, texts), initial=0))


def seen_parts(parts):
    """What the Python package answers of a plan, as `chunkcalls` and the model have it."""
    lists = (part.tolist() for part in (parts.chunks, parts.in_chunk, parts.in_selection, parts.shapes))
    return [
        {"chunk": chunk, "in_chunk": [place, shape], "in_selection": [start, shape], "key": key}
        for chunk, place, start, shape, key in zip(*lists, parts.keys)
    ]


def batch(answers, lists, width):
    """What a batch leaves in its arrays and in its marks, where these held LEFT before."""
    left = [[[LEFT] * width] * lists if answer is None else answer for answer in answers]
    written = [[number for answer in left for number in answer[place]] for place in range(lists)]
    return written, [0 if answer is None else 1 for answer in answers]


def flat(lists):
    return np.array([number for numbers in lists for number in numbers], np.uint64)


# ---- each call, and what it is to leave


def grid_calls(rng, dimensions):
    """Each call of a grid with arguments that are right, and what it leaves by name."""
    grid, count = bounded(rng, dimensions), 6
    counts = grid.grid_shape()
    inside = [[rng.randrange(size) for size in grid.shape] for _ in range(count)]
    # Of three indices one is outside along one dimension, and of three chunks one is past those that are counted.
    indices = [[*index] for index in inside]
    for k in range(1, count, 3):
        indices[k][k % dimensions] = grid.shape[k % dimensions]
    some = lambda i, size: rng.randrange(1, size - i + 1) if i < size else 1
    sizes = [list(map(some, index, grid.shape)) for index in indices]
    sizes[3][0] = 0
    chunks = [grid.chunk_indices(index) for index in inside]
    for k in range(1, count, 3):
        chunks[k] = [c + number for c, number in zip(chunks[k], counts)]
    homes, boxes = [grid.home(index) for index in indices], [grid.subset(chunk) for chunk in chunks]
    covers = [grid.chunks_in_array_subset(*box) for box in zip(indices, sizes)]

    prepared = numbers_of(grid)
    asked, expected = {"numbers": filled(prepared.size), "needed": Count(LEFT)}, {"numbers": prepared.tolist(), "needed": prepared.size}
    yield Asked("zarrs_prepare_grid", {**given_of(grid), **asked}, []), expected
    given = {"numbers": prepared}
    yield Asked("zarrs_prepared_grid_shape", {**given, "grid_shape": filled(dimensions)}, ["grid_shape"]), {"grid_shape": counts}
    for name, lists, names, answers in (
        ("chunk_indices_of", {"indices": indices}, ["chunks"], homes),
        ("homes_of", {"indices": indices}, ["chunks", "places"], homes),
        ("chunk_boxes_of", {"chunks": chunks}, ["origins", "shapes"], boxes),
        ("covers_of", {"starts": indices, "shapes": sizes}, ["first_chunks", "chunk_counts"], covers),
    ):
        written, marks = batch(answers, len(names), dimensions)
        asked = {**given, **{name: flat(numbers) for name, numbers in lists.items()}}
        asked |= {**{name: filled(count * dimensions) for name in names}, "found": filled(count, np.uint8)}
        if name == "covers_of":
            asked["wrong"] = Count(LEFT)
        yield Asked(f"zarrs_prepared_{name}", asked, [*lists, *names, "found"]), {**dict(zip(names, written)), "found": marks}


def key_calls(rng, dimensions):
    count, ends = 5, [0, 9, 10]
    chunks = [[rng.choice([*ends, rng.randrange(2**64), GREATEST]) for _ in range(dimensions)] for _ in range(count)]
    keys = [DEFAULT.key(chunk).encode() for chunk in chunks]
    text, offsets = b"".join(keys), offsets_of(keys)
    # The mark, the kind of keys, and the separator's byte.
    numbers = np.array([int.from_bytes(b"zarrkeys", "big"), 0, ord("/")], np.uint64)
    asked, expected = {"numbers": filled(3), "needed": Count(LEFT)}, {"numbers": numbers.tolist(), "needed": 3}
    yield Asked("zarrs_prepare_encoding", {"chunk_key_encoding": b'"default"', **asked}, []), expected
    given = {"numbers": numbers, "dimensionality": dimensions}
    asked = {**given, "chunks": flat(chunks), "text": filled(len(text), np.uint8), "offsets": filled(count + 1), "needed": Count(LEFT)}
    expected = {"text": list(text), "offsets": offsets, "needed": len(text)}
    yield Asked("zarrs_prepared_keys_of", asked, ["chunks", "offsets"]), expected
    keys[1] = b"c/01"
    text, offsets = np.frombuffer(b"".join(keys), np.uint8), np.array(offsets_of(keys), np.uint64)
    written, marks = batch([None if k == 1 else (chunk,) for k, chunk in enumerate(chunks)], 1, dimensions)
    asked = {**given, "text": text, "offsets": offsets, "chunks": filled(count * dimensions), "found": filled(count, np.uint8), "wrong": Count(LEFT)}
    yield Asked("zarrs_prepared_chunks_of_keys", asked, ["offsets", "chunks", "found"]), {"chunks": written[0], "found": marks}


def plan_call(rng, dimensions):
    """The plan of a box that two dimensions at most cut, and one of a box that has no plan."""
    grid = bounded(rng, dimensions)
    start = [rng.randrange(size) for size in grid.shape]
    room = [size - begin for begin, size in zip(start, grid.shape)]
    sizes = [min(rng.randrange(1, edge + 2), most) for edge, most in zip(grid.edges[:2], room)] + [1] * (dimensions - 2)
    parts = list(grid.parts(start, sizes, DEFAULT))
    keys = [part["key"].encode() for part in parts]
    text, given = b"".join(keys), {**given_of(grid), "chunk_key_encoding": b'"default"'}
    lists = {
        "chunks": [part["chunk"] for part in parts],
        "in_chunk": [part["in_chunk"][0] for part in parts],
        "in_selection": [part["in_selection"][0] for part in parts],
        "shapes": [part["in_chunk"][1] for part in parts],
    }

    def asked_of(start, sizes):
        room = {name: filled(len(parts) * dimensions) for name in lists}
        box = {"start": np.array(start, np.uint64), "box_shape": np.array(sizes, np.uint64), "first": 0}
        return {**given, **box, **room, "text": filled(len(text), np.uint8), "offsets": filled(len(parts) + 1)}

    measured = ["start", "box_shape", *lists, "offsets"]
    expected = {name: flat(numbers).tolist() for name, numbers in lists.items()}
    told = {"needed": len(text), "count": len(parts), "in_all": len(parts), "found": 1}
    told |= {"text": list(text), "offsets": offsets_of(keys)}
    yield Asked("zarrs_parts_of", asked_of(start, sizes), measured), {**expected, **told}
    none = {"needed": 0, "count": 0, "in_all": 0, "found": 0}
    yield Asked("zarrs_parts_of", asked_of(grid.shape, [1] * dimensions), measured), none


def calls(rng, dimensions):
    yield from grid_calls(rng, dimensions)
    yield from key_calls(rng, dimensions)
    yield from plan_call(rng, dimensions)


# ---- faults


def other_lengths(asked):
    """Each array that others measure, one item too long and one too short."""
    for name in asked.measured:
        part = asked.arguments[name]
        yield f"{name} longer", {name: np.concatenate([part, part[:1]])}
        yield f"{name} shorter", {name: part[:-1]}


def other_numbers(numbers):
    """Numbers that are those of no grid."""
    other_mark, more, fewer, runs = (numbers.copy() for _ in range(4))
    other_mark[0] += np.uint64(1)
    more[1] += np.uint64(1)
    fewer[1] -= np.uint64(1)
    runs[5] = GREATEST
    yield "another mark", other_mark
    yield "a dimension more", more
    yield "a dimension fewer", fewer
    yield "more runs than numbers", runs
    yield "a number more", np.concatenate([numbers, numbers[-1:]])
    yield "a number fewer", numbers[:-1]
    yield "no numbers", numbers[:0]


def other_encodings(numbers):
    """Numbers that are those of no encoding."""
    mark, _kind, separator = numbers.tolist()
    suffixed = [mark, 2, separator]
    for what, others in {
        "another mark": [mark + 1, 0, separator], "another kind": [mark, 3, separator],
        "another separator": [mark, 0, ord("-")], "a number fewer": [mark, 0],
        "a number more": [mark, 0, separator, separator],
        "no numbers": [], "a suffix that ends in a slash": [*suffixed, ord("/")], "a suffix that is no UTF-8": [*suffixed, 0xC3],
        "a suffix of no bytes": [*suffixed, 256],
    }.items():  # fmt: skip
        yield what, np.array(others, np.uint64)


def wrong_arguments(asked):
    """What can be wrong with a call: of each fault where it stands in the order, its code, and the arguments with it."""
    given = asked.arguments
    for place, name in enumerate(("chunk_grid", "chunk_key_encoding")):
        if name in given:
            for what, (text, code) in METADATA.items():
                yield place, f"{name}: {what}", code, {name: text}
    if "shape" in given:
        # The grid is refused that has another number of dimensions.
        yield 0, "shape longer", METADATA["refused"][1], {"shape": np.concatenate([given["shape"], given["shape"][:1]])}
        yield 0, "shape shorter", METADATA["refused"][1], {"shape": given["shape"][:-1]}
    if asked.name.startswith("zarrs_prepared_"):
        others = other_encodings if "dimensionality" in given else other_numbers
        for what, numbers in others(given["numbers"]):
            yield 0, what, NOT_PREPARED, {"numbers": numbers}
    for what, exchanged in other_lengths(asked):
        yield 2, what, LENGTH, exchanged
    for start, shape in (("starts", "shapes"), ("start", "box_shape")):
        if start in given:
            far, long = given[start].copy(), given[shape].copy()
            far[-1], long[-1] = GREATEST, 1
            yield 3, "no box", NOT_A_BOX, {start: far, shape: long}
    if asked.name == "zarrs_prepared_chunks_of_keys":
        descending, past = given["offsets"].copy(), given["offsets"].copy()
        descending[-2] = descending[-1] + np.uint64(1)
        past[-1] = given["text"].size + 1
        yield 4, "descending offsets", OFFSETS, {"offsets": descending}
        yield 4, "offsets past the text", OFFSETS, {"offsets": past}
    if asked.name in ("zarrs_prepared_keys_of", "zarrs_parts_of"):
        yield 5, "a short buffer", SHORT, {"text": given["text"][:-1]}
    if asked.name in ("zarrs_prepare_grid", "zarrs_prepare_encoding"):
        yield 5, "a short buffer", SHORT, {"numbers": given["numbers"][:-1]}


def first_wrong(asked, exchanged):
    """The number of the first box that ends too far, or of the first key whose offsets descend or lie past the text."""
    arguments = {**asked.arguments, **exchanged}
    given = {name: part.tolist() for name, part in arguments.items() if isinstance(part, np.ndarray)}
    if "starts" in given:
        ends = [start + size for start, size in zip(given["starts"], given["shapes"])]
        width = len(given["starts"]) // len(given["found"])
        return next(k // width for k, end in enumerate(ends) if end > GREATEST)
    pairs = zip(given["offsets"], given["offsets"][1:])
    return next(k for k, (start, end) in enumerate(pairs) if start > end or end > len(given["text"]))


def merged(first, second):
    """Both faults in one call, where they are of different arguments."""
    return None if first.keys() & second.keys() else {**first, **second}


def ends_of(tally, library, asked, expected, what):
    code, left, beside = asked.ends(library)
    tally.same(what, (code, {name: left[name] for name in expected}, beside), (0, expected, []))


def faults_of(tally, library, asked, expected, what):
    """Each fault of a call, and each two where one comes before the other."""
    has_plan = expected.get("found") != 0
    wrong = [fault for fault in wrong_arguments(asked) if has_plan or fault[2] != SHORT]
    wrong.sort(key=lambda fault: fault[0])
    for _place, fault, told, exchanged in wrong:
        code, left, beside = asked.ends(library, **exchanged)
        of_which = left["wrong"] if "wrong" in left and told in (NOT_A_BOX, OFFSETS) else None
        right = None if of_which is None else first_wrong(asked, exchanged)
        tally.same(f"{what}, {fault}", (code, of_which, beside), (told, right, []))
    for one, other in itertools.combinations(wrong, 2):
        both = merged(one[3], other[3])
        if one[0] != other[0] and both is not None:
            code, _left, beside = asked.ends(library, **both)
            tally.same(f"{what}, {one[1]} and {other[1]}", (code, beside), (one[2], []))


def short(tally, library, asked, expected, what):
    """A buffer that is too short for its text or its numbers: all else is written, and their length is told."""
    filling = "text" if "text" in expected else "numbers"
    for room in (0, expected["needed"] - 1):
        code, left, beside = asked.ends(library, **{filling: filled(room, asked.arguments[filling].dtype)})
        right = {**expected, filling: [LEFT] * room}
        tally.same(f"{what}, room for {room}", (code, {name: left[name] for name in right}, beside), (SHORT, right, []))


def any_numbers(tally, library):
    """Prepared grids with some of their numbers exchanged for any: each call ends with a code of its own, marks with 0 or
    1, and writes nothing beside its buffers."""
    rng = random.Random(7)
    odd = lambda: rng.choice([0, 1, 2, 3, 5, 2**32, 2**63, GREATEST - 1, GREATEST, rng.randrange(50)])
    for number in range(ROUNDS):
        dimensions, count = rng.randrange(1, 4), rng.choice([1, 20])
        numbers = numbers_of_runs(rng, dimensions)
        for _ in range(rng.randrange(4)):
            numbers[rng.randrange(numbers.size)] = odd()
        for name, asked, answers in (("chunk_indices", 1, 1), ("homes", 1, 2), ("chunk_boxes", 1, 2), ("covers", 2, 2)):
            lists = [np.array([odd() for _ in range(count * dimensions)], np.uint64) for _ in range(asked)]
            kept = [filled(count * dimensions + 1) for _ in range(answers)] + [filled(count + 1, np.uint8)]
            told = [ctypes.byref(Count())] if name == "covers" else []
            code = library.call(f"zarrs_prepared_{name}_of", numbers, *lists, *(part[:-1] for part in kept), *told)
            ends = {0, LENGTH, NOT_A_BOX, NOT_PREPARED} if told else {0, LENGTH, NOT_PREPARED}
            beside, marks = [int(part[-1]) for part in kept], set(kept[-1][:-1].tolist())
            found = code in ends, beside, code != 0 or marks <= {0, 1}
            tally.same(f"{name} by any numbers, round {number}", found, (True, [LEFT] * len(kept), True))


def numbers_of_runs(rng, dimensions):
    """The numbers of a prepared grid of some runs of chunks along each dimension."""
    numbers = [int.from_bytes(b"zarrgrid", "big"), dimensions]
    for _ in range(dimensions):
        runs = [(rng.randrange(1, 9), rng.randrange(1, 5)) for _ in range(rng.randrange(1, 6))]
        starts = list(itertools.accumulate((edge * count for edge, count in runs), initial=0))
        chunks = list(itertools.accumulate((count for _edge, count in runs), initial=0))
        numbers += [chunks[-1], starts[-1] - 1, chunks[-1] - 1, len(runs), *starts[:-1], *chunks[:-1], *(edge for edge, _count in runs)]
    return np.array(numbers, np.uint64)


def faults(tally, library):
    for dimensions in DIMENSIONS:
        for asked, expected in calls(random.Random(dimensions), dimensions):
            what = f"{asked.name} of {dimensions} dimensions"
            ends_of(tally, library, asked, expected, what)
            if dimensions == FAULTS_OF:
                faults_of(tally, library, asked, expected, what)
                if expected.get("needed"):
                    short(tally, library, asked, expected, what)
    any_numbers(tally, library)
