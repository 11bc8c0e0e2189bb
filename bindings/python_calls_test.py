"""The Python package's calls beside the vectors of `chunkcalls`, the models of `tools/`, numpy and zarr-python: `test.py` runs it.

Each group of comparisons is a function over the tally of `test.py`. What is right comes from the vectors, from a model or from arithmetic. Arrays of
zarr-python 2 and the program `chunkplan` are compared with where they are there.
"""
import dataclasses
import inspect
import io
import itertools
import json
import math
import os
import pathlib
import pickle
import re
import subprocess
import sys
import tempfile
import threading
import tracemalloc
import typing

import numpy as np
import zarrs_chunks
from built import CRATES, IS_THOROUGH, vectors
from byte_ranges import byte_ranges as model_ranges
from byte_ranges import fault_of_ranges, great_boxes, small_boxes
from call_names import CALLS
from chunk_grids import Grid as Model
from chunk_grids import first_of
from chunk_keys import Encoding as ModelKeys
from chunk_plans import changed_chunks, fault_of_numbers
from chunk_plans import share as share_of_lines
from extensions import GREATEST, Refused, grid_metadata, regular
from faults import seen_parts
from memory import at_most, used
from odd_values import Index, Lying, Raising, Whole, misaligned
from random_arrays import Generator
from task_questions import MOST_TO_COUNT, TOO_MANY, answer_of, chunks_met
from zarrs_chunks import Box, ByteRanges, ChangedChunks, Counted, Destination, Encoding, Grid, Located, Source, Task, TaskCounts
from zarrs_chunks import __main__, _boxes, _grid, _questions, byte_ranges

PACKAGE = pathlib.Path(zarrs_chunks.__file__).parent
REGULAR = regular(2, 3)
CHUNKPLAN = CRATES / "chunkplan" / "out" / "chunkplan"


def outcome(call):
    """What a call answers, as JSON has it, or the kind and the words of what it raises."""
    try:
        return plain(call())
    except Exception as error:
        return type(error), str(error)


def plain(value):
    """An answer as JSON has it: its tuples are lists."""
    if isinstance(value, Located):
        return {name: plain(part) for name, part in value._asdict().items()}
    if isinstance(value, Counted):
        return {"answer": plain(value.chunk), "comparisons": value.comparisons}
    if isinstance(value, (ByteRanges, Source, Destination, TaskCounts)):
        return {name: plain(part) for name, part in value._asdict().items()}
    if isinstance(value, Task):
        return {"buffer": plain(value.buffer), "from": plain(value.sources), "to": plain(value.targets)}
    if isinstance(value, ChangedChunks):
        return {what: plain(getattr(value, what)) for what in ("after", "before", "kept")}
    if isinstance(value, dict):
        return {name: plain(part) for name, part in value.items()}
    return [plain(part) for part in value] if isinstance(value, (list, tuple)) else value


# ---- the vectors


def grid_in(asked):
    return Grid(asked["shape"], asked["chunk_grid"])


def encoding_in(asked):
    return Encoding(asked["chunk_key_encoding"])


def of_batch(answer):
    """The one answer of a batch of one list: the one array or a list of several, or None."""
    *lists, found = answer
    numbers = [part.tolist() for part in lists]
    return (numbers[0] if len(numbers) == 1 else numbers) if found else None


def walked(asked):
    """A page of a walk. With a `first`, items are counted by their chunks, also where a chunk has no box."""
    grid, most, call = grid_in(asked), min(asked["items"], 10**6), asked["call"]
    walk = getattr(grid, call)(*([asked["first"]] if "first" in asked else []))
    if call == "iter_chunk_indices" or "first" not in asked:
        return first_of((plain(item) for item in walk), most)
    chunks = [*itertools.islice(grid.iter_chunk_indices(asked["first"]), most + 1)]
    with_boxes = sum(chunk in chunks[:most] for chunk, _box in itertools.islice(grid.iter_chunk_indices_and_subsets(asked["first"]), most))
    return {"items": plain([*itertools.islice(walk, with_boxes)]), "more": len(chunks) > most}


def planned(asked):
    first = asked.get("first", 0)
    parts = grid_in(asked).parts(encoding_in(asked), *asked["of"], first, asked["items"])
    return parts and {"items": seen_parts(parts), "more": first + len(parts.keys) < parts.in_all}


def copy_in(asked):
    """The arguments of a copy, without the encodings, and the encoding of the target."""
    target = asked["target"]
    try:
        written = Grid(target.get("shape", asked["shape"]), target["chunk_grid"]), encoding_in(target)
    except ValueError as error:
        raise ValueError(f"field `target`: {error}") from error
    return *written, {name: asked[name] for name in ("subset", "at", "task_chunks", "order") if name in asked}


def tasks_in(asked, **more):
    grid, encoding = grid_in(asked), encoding_in(asked)
    target, target_encoding, copy = copy_in(asked)
    return grid.tasks(encoding, target, target_encoding, **copy, **more)


def tasked(asked):
    first = {name: asked[name] for name in ("first",) if name in asked}
    page = first_of((plain(task) for task in tasks_in(asked, **first)), min(asked["items"], 10**6))
    limited = [plain(task) for task in tasks_in(asked, **first, most=asked["items"])]
    return page if limited == page["items"] else f"{limited} with `most`"


def counted(asked):
    """The counts, and the first tasks of the share, if they can be gone through."""
    grid, _encoding = grid_in(asked), encoding_in(asked)
    target, _target_encoding, copy = copy_in(asked)
    counts = plain(grid.task_counts(target, **copy))
    tasks = tasks_in(asked, share=asked.get("share", [0, 1]))
    return {**counts, "share": plain([*itertools.islice(tasks, 3)]) if may_list(asked) else None}


def may_list(asked):
    """Whether a task isn't too long to be given."""
    return max(asked["shape"], default=0) <= 100


def first_of_share(asked, share):
    """The first tasks of a share, from one number on up to another."""
    return answer_of({**asked, "call": "tasks", "first": share[0], "items": min(share[1] - share[0], 3)})["items"]


def decoded(asked):
    return of_batch([part[0] for part in encoding_in(asked).decode([asked["of"]], asked["dimensionality"])])


METHODS = {
    "dimensionality": lambda asked: grid_in(asked).dimensionality,
    "array_shape": lambda asked: grid_in(asked).array_shape,
    "grid_shape": lambda asked: grid_in(asked).grid_shape,
    "metadata": lambda asked: grid_in(asked).written_metadata(),
    "configuration": lambda asked: grid_in(asked).written_metadata()["configuration"],
    "chunk_shape": lambda asked: grid_in(asked).chunk_shape(asked["of"]),
    "chunk_shape_u64": lambda asked: grid_in(asked).chunk_shape(asked["of"]),
    "chunk_origin": lambda asked: grid_in(asked).chunk_origin(asked["of"]),
    "subset": lambda asked: of_batch(grid_in(asked).subset(asked["of"])),
    "chunk_indices_inbounds": lambda asked: grid_in(asked).chunk_indices_inbounds(asked["of"]),
    "chunk_indices": lambda asked: of_batch(grid_in(asked).chunk_indices(asked["of"])),
    "chunk_element_indices": lambda asked: of_batch(grid_in(asked).chunk_element_indices(asked["of"])),
    "array_indices_inbounds": lambda asked: grid_in(asked).array_indices_inbounds(asked["of"]),
    "locate": lambda asked: grid_in(asked).locate(encoding_in(asked), asked["of"]),
    "chunk_indices_counted": lambda asked: grid_in(asked).chunk_indices_counted(asked["of"]),
    "chunks_subset": lambda asked: grid_in(asked).chunks_subset(*asked["of"]),
    "chunks_in_array_subset": lambda asked: of_batch(grid_in(asked).chunks_in_array_subset(*asked["of"])),
    "parts": planned,
    "tasks": tasked,
    "task_counts": counted,
    "changed_chunks": lambda asked: grid_in(asked).changed_chunks(asked["resize"]),
    "iter_chunk_indices": walked,
    "iter_chunk_subsets": walked,
    "iter_chunk_indices_and_subsets": walked,
    "runs": lambda asked: grid_in(asked).runs(asked["of"]),
    "encode": lambda asked: encoding_in(asked).encode(asked["of"]),
    "decode": decoded,
    "byte_ranges": lambda asked: byte_ranges(asked["chunk_shape"], asked["of"], asked["item_size"], asked.get("memory_order", "C")),
}
# Those that refuse lists of another length in words of their own, since they take many lists.
BATCHES = {"subset", "chunk_indices", "chunk_element_indices", "chunks_in_array_subset", "parts"}
# Where the library refuses a text that is no store key, a batch says that it is the key of no chunk.
NO_KEY = "refused: invalid store key "


def expected_of(asked, answer):
    """What the method is to answer, or the error, by the line that answers the question."""
    call, lists = asked["call"], asked.get("of")
    if call == "decode" and asked["dimensionality"] == GREATEST:
        return (MemoryError,)
    if answer.startswith(NO_KEY):
        return None
    if call in BATCHES:
        lengths = {len(numbers) for numbers in (lists if lists and isinstance(lists[0], list) else [lists])}
        if answer.startswith("refused: box end exceeds ") or (lengths != {len(asked["shape"])} and not re.match("refused: (name|regular) ", answer)):
            return (ValueError,)
    for beginning in ("refused: ", "unreadable: "):
        if answer.startswith(beginning):
            return ValueError, answer[len(beginning) :]
    if call == "task_counts":
        counts = json.loads(answer)
        share = counts.pop("share")
        products = {name: None if None in factors else math.prod(factors) for name, factors in counts.items()}
        return {**products, "share": first_of_share(asked, share) if may_list(asked) else None}
    return json.loads(answer)


def by_methods(tally):
    """Each vector that a method can be asked: all but those whose question can't be read."""
    tally.same("the calls with a method", METHODS.keys(), set(CALLS))
    asked_of, left = dict.fromkeys(METHODS, 0), 0
    for question, answer in vectors():
        if answer.startswith("unreadable: ") and not re.fullmatch("unreadable: there is no call `(runs|chunk_indices_counted)`", answer):
            left += 1
            continue
        asked = json.loads(question)
        expected, found = expected_of(asked, answer), outcome(lambda: METHODS[asked["call"]](asked))
        if isinstance(expected, tuple) and isinstance(found, tuple) and len(expected) == 1:
            found = found[:1]
        tally.same(question, found, expected)
        asked_of[asked["call"]] += 1
    tally.same("calls without a vector", [call for call, count in asked_of.items() if count < 10], [])
    tally.same("the vectors are asked or left", (sum(asked_of.values()) + left, left < 150), (len(vectors()), True))


# ---- the models


def beside_models(tally):
    """The methods at random grids, beside the models, which are plain arithmetic."""
    generator = Generator(5)
    for _ in range(400):
        metadata, shape = generator.grid()
        model, grid, keys = Model(metadata, shape), Grid(shape, metadata), generator.encoding()
        encoding, model_keys = Encoding(keys), ModelKeys(keys)
        chunk, index = generator.chunk(model), generator.index(model)
        if generator.one_in(12):
            chunk, index = generator.longer_or_shorter(chunk), generator.longer_or_shorter(index)
        box, dimension = generator.box(list(chunk)), generator.number(len(shape) + 1)
        asked = {
            "chunk_shape": [chunk], "chunk_origin": [chunk], "chunk_indices_inbounds": [chunk], "array_indices_inbounds": [index],
            "chunks_subset": box,
        }  # fmt: skip
        for call, given in asked.items():
            tally.same(f"{grid} {call} {given}", outcome(lambda: getattr(grid, call)(*given)), of_model(lambda: getattr(model, call)(*given)))
        tally.same(f"{grid} locate {index}", outcome(lambda: grid.locate(encoding, index)), of_model(lambda: model.locate(index, model_keys)))
        tally.same(f"{grid} written", grid.written_metadata(), model.metadata())
        if model.name == "rectilinear":
            tally.same(f"{grid} runs {dimension}", grid.runs(dimension), model.runs(dimension))
            found, right = outcome(lambda: grid.chunk_indices_counted(index)), of_model(lambda: model.chunk_indices_counted(index))
            if isinstance(found, dict) and isinstance(right, dict):
                fewest, most = right["comparisons"]
                right["comparisons"] = found["comparisons"] if fewest <= found["comparisons"] <= most else right["comparisons"]
            tally.same(f"{grid} counted {index}", found, right)
        else:
            for call, of in (("runs", 0), ("chunk_indices_counted", index)):
                tally.raises(f"{grid} {call}", ValueError, f"there is no call `{call}`", lambda: getattr(grid, call)(of))
        walks_beside_model(tally, generator, model, grid)
        tasks_beside_model(tally, generator, model, keys)


def of_model(call):
    try:
        return call()
    except Refused as refused:
        return ValueError, refused.text


def walks_beside_model(tally, generator, model, grid):
    """Thirty items of each walk, from its beginning and from some chunk on, which is counted with those that have no box."""
    in_all = math.prod(model.grid_shape())
    for first in (0, min(generator.number(max(in_all - 1, 0)), GREATEST - 40)):
        rest, chunk = first, []
        for size in reversed(model.grid_shape()):
            chunk.insert(0, rest % size if size else 0)
            rest //= size or 1
        chunks, right = [], []
        while in_all and len(chunks) < min(30, in_all - first):
            chunks.append(list(chunk))
            for place in reversed(range(len(chunk))):
                chunk[place] += 1
                if chunk[place] < model.grid_shape()[place]:
                    break
                chunk[place] = 0
        found = [*itertools.islice(grid.iter_chunk_indices(first), 30)]
        tally.same(f"{grid} walk from {first}", plain(found), chunks)
        for chunk in chunks:
            box = model.subset(chunk)
            right += [[chunk, box]] if box else []
        # A walk over boxes goes on past those thirty chunks.
        pairs = [*itertools.islice(grid.iter_chunk_indices_and_subsets(first), len(right))]
        boxes = [*itertools.islice(grid.iter_chunk_subsets(first), len(right))]
        tally.same(f"{grid} boxes from {first}", (plain(pairs), plain(boxes)), (right, [box for _chunk, box in right]))


def tasks_beside_model(tally, generator, model, keys):
    """The first tasks of the copy of a region, and its counts. A region of an array with great chunks is small."""
    draw = generator.random
    sizes = draw.choice([model.shape, [generator.size(False) for _ in model.shape]])
    kind, target_keys = draw.choice(["regular", "zarrs.regular_bounded", "rectilinear"]), generator.encoding()
    lengths = [generator.number(min(*pair, draw.choice([40, GREATEST]))) for pair in zip(model.shape, sizes)]
    start, at = ([generator.number(size - length) for size, length in zip(shape, lengths)] for shape in (model.shape, sizes))
    asked = {
        "shape": model.shape, "chunk_grid": model.metadata(), "chunk_key_encoding": keys,
        "target": {"shape": sizes, "chunk_grid": generator.grid_over(sizes, kind, max(sizes, default=0) > 100), "chunk_key_encoding": target_keys},
        "subset": [start, lengths], "at": at, "task_chunks": [draw.choice([1, 1, 2, 3, GREATEST]) for _ in sizes], "order": draw.choice(["source", "target"]),
    }  # fmt: skip
    if generator.one_in(18):
        asked["at"] = generator.longer_or_shorter(at)
    elif generator.one_in(18):
        asked["task_chunks"] = [number or 1 for number in generator.longer_or_shorter(asked["task_chunks"])]
    if chunks_of_copy(asked) > 2000:
        return
    (grid, target), copy = (grid_in(one) for one in (asked, asked["target"])), copy_in(asked)[2]
    right = of_model(lambda: answer_of({**asked, "call": "tasks", "items": 4})["items"])
    tally.same(f"{asked} tasks", outcome(lambda: [*tasks_in(asked, most=4)]), right)
    right = of_model(lambda: products_of(answer_of({**asked, "call": "task_counts"})))
    tally.same(f"{asked} counts", outcome(lambda: grid.task_counts(target, **copy)), right)


def products_of(counts):
    """The counts of an answer, each as a number, or None if a factor is past the greatest."""
    return {name: None if None in factors else math.prod(factors) for name, factors in counts.items() if name != "share"}


def chunks_of_copy(asked):
    """How many chunks of either array hold some of a region, at most."""
    arrays = [(asked["shape"], asked["chunk_grid"], asked["subset"][0]), (asked["target"]["shape"], asked["target"]["chunk_grid"], asked["at"])]
    met = [
        math.prod(chunks_met(d, first, size) for d, first, size in zip(Model(metadata, shape).dimensions, start, asked["subset"][1]) if size)
        for shape, metadata, start in arrays
    ]  # fmt: skip
    return max(met)


# ---- walks


def pages(tally):
    """A walk is the same however long its pages are, and takes the memory of a page."""
    grid, target = Grid([9, 14], REGULAR), Grid([9, 14], regular(4, 5))
    encodings = Encoding("default"), Encoding("v2")
    chunks = [*itertools.product(range(5), range(5))]
    boxes = [((2 * row, 3 * column), (2, 3)) for row, column in chunks]
    kept = _questions._PAGE, _questions._FIRST_ITEMS
    whole = [*grid.tasks(encodings[0], target, encodings[1])]
    tally.same("chunks of a target", chunks_of(whole), [*itertools.product(range(3), range(3))])
    try:
        for _questions._PAGE, _questions._FIRST_ITEMS in ((1, 1), (60, 2), (300, 7), (2**18, 64)):
            page = f"{_questions._PAGE} bytes and {_questions._FIRST_ITEMS} items"
            for first in range(0, 27, 4):
                tally.same(f"chunks by {page}", [*grid.iter_chunk_indices(first)], chunks[first:])
                tally.same(f"boxes by {page}", [*grid.iter_chunk_subsets(first)], boxes[first:])
                tally.same(f"both by {page}", [*grid.iter_chunk_indices_and_subsets(first)], [*zip(chunks, boxes)][first:])
            for first, most in itertools.product(range(0, 11, 3), (None, 0, 1, 4, GREATEST)):
                found = [*grid.tasks(encodings[0], target, encodings[1], first=first, most=most)]
                tally.same(f"tasks by {page}", found, whole[first:][:most])
    finally:
        _questions._PAGE, _questions._FIRST_ITEMS = kept
    great = Grid([GREATEST] * 2, regular(1, 1))
    for first in (0, 10**19, GREATEST - 2, GREATEST - 1, GREATEST):
        right = [divmod(number, GREATEST) for number in range(first, min(first + 3, GREATEST))]
        tally.same(f"a walk without end from {first}", [*itertools.islice(great.iter_chunk_indices(first), 3)], right)
    tracemalloc.start()
    count = sum(1 for _chunk in itertools.islice(great.iter_chunk_indices(), 10**5))
    count += sum(1 for _task in itertools.islice(great.tasks(encodings[0], great, encodings[1]), 10**4))
    peak = tracemalloc.get_traced_memory()[1]
    tracemalloc.stop()
    tally.same("the memory of long walks", (count, peak < 2**25), (110000, True))
    small_and_large(tally)


def chunks_of(tasks):
    """The one chunk of the target that each task writes."""
    return [part.chunk for task in tasks for (part,) in [task.targets]]


def small_and_large(tally):
    """Tasks that read one chunk stand beside some that read very many: a page is cut where it gets too long."""
    edges = [1] * 3000 + [15000, 15000]
    grid, target = Grid([33000], regular(1)), Grid([33000], grid_metadata("rectangular", [edges]))
    found = [(task.targets[0].chunk[0], len(task.sources)) for task in grid.tasks(Encoding("v2"), target, Encoding("v2"))]
    tally.same("sources of small and of large tasks", found, [*enumerate(edges)])


# ---- copies


def cut(array, ends, key):
    """The parts of an intermediate array these ends along each dimension, by key."""
    pieces = [[*zip([0, *places], places)] for places in ends]
    chunks = itertools.product(*(range(len(part)) for part in pieces))
    return {key(chunk): array[tuple(slice(*part[number]) for part, number in zip(pieces, chunk))] for chunk in chunks}


def moved(tally):
    """Rechunkings of arrays that numpy holds, by tasks of several chunks, in the order of either array."""
    rng = np.random.default_rng(7)
    for _ in range(90):
        shape = rng.integers(1, 12, rng.integers(0, 4)).tolist()
        array = rng.integers(0, 1000, shape)
        ends = []
        for _side in range(2):
            cuts = [np.unique(np.append(rng.integers(1, size + 1, 3), size)).tolist() for size in shape]
            ends.append(cuts)
        grids = [Grid(shape, grid_metadata("rectangular", [np.diff([0, *places]) for places in cuts])) for cuts in ends]
        source = cut(array, ends[0], lambda chunk: "/".join(["c", *map(str, chunk)]))
        right = cut(array, ends[1], lambda chunk: ".".join(map(str, chunk)) or "0")
        written, copy = {}, {"task_chunks": rng.integers(1, 4, len(shape)), "order": str(rng.choice(["source", "target"]))}
        for task in grids[0].tasks(Encoding("default"), grids[1], Encoding("v2"), **copy):
            buffer = np.full(task.buffer, -1)
            for part in task.sources:
                buffer[slices(part.in_buffer)] = source[part.key][slices(part.in_chunk)]
            for part in task.targets:
                if part.key not in written:
                    written[part.key] = np.full(part.shape, -1)
                written[part.key][slices(part.in_chunk)] = buffer[slices(part.in_buffer)]
                tally.same("whole chunks have their shape", part.whole, part.in_chunk.shape == part.shape)
        tally.same(f"keys of {grids}", {*written}, {*right})
        tally.same(f"elements of {grids}", all((written[key] == right[key]).all() for key in right), True)


def slices(box):
    return tuple(slice(start, start + size) for start, size in zip(*box))


def shares(tally):
    encodings = Encoding("default"), Encoding("v2")
    grid, target = Grid([9, 14], REGULAR), Grid([9, 14], regular(2, 5))
    for subset in (None, ([2, 5], [7, 5]), ([1, 3], [3, 8]), ([0, 0], [0, 3])):
        for copy in ({}, {"task_chunks": [2, 1]}, {"order": "source"}, {"order": "source", "task_chunks": [1, 3]}):
            copy |= {} if subset is None else {"subset": subset, "at": subset[0]}
            right = [*grid.tasks(encodings[0], target, encodings[1], **copy)]
            for workers in (1, 2, 3, 4, 7, 15, 40):
                for worker in range(workers):
                    found = [*grid.tasks(encodings[0], target, encodings[1], **copy, share=(worker, workers))]
                    tally.same(f"the share {worker} of {workers} of {copy}", found, [right[line] for line in share_of_lines(len(right), worker, workers)])
    none = Grid([], regular())
    tally.same("shares of one task", [len([*none.tasks(encodings[0], none, encodings[1], share=(worker, 2))]) for worker in range(2)], [0, 1])
    # More tasks than a number counts.
    great = Grid([GREATEST] * 2, regular(1, 1))
    asked = lambda subset=None, **more: great.tasks(encodings[0], great, encodings[1], subset, **more)
    for worker in (0, 1, 2**63, GREATEST - 2, GREATEST - 1):
        right = [divmod(3 * worker + number, GREATEST) for number in range(3)]
        found = chunks_of(asked(([0, 0], [3, GREATEST]), share=(worker, GREATEST)))
        tally.same(f"the share {worker} of very many", found, right)
        beginning = chunks_of(itertools.islice(asked(share=[worker, np.uint64(GREATEST)]), 3))
        tally.same(f"the share {worker} of all", beginning, [(worker, number) for number in range(3)])
    row = Grid([GREATEST], regular(1))
    found = chunks_of(row.tasks(encodings[0], row, encodings[1], share=(GREATEST - 1, GREATEST)))
    tally.same("the last share of as many tasks as there are numbers", found, [(GREATEST - 1,)])
    wrong = "share: the number of a worker, counted from 0, is less than how many workers there are"
    for share in ((1, 1), (0, 0), (5, 2)):
        tally.raises(f"the share {share}", ValueError, wrong, lambda: asked(share=share))
    beside = "share: it is given in place of `first` and `most`, and not beside them"
    for more in ({"first": 1}, {"most": 1}, {"first": 2, "most": 0}):
        tally.raises(f"a share beside {more}", ValueError, beside, lambda: asked(share=(0, 1), **more))
    for share in (3, None, "ab", [1], (1, 2, 3), (0.0, 1), (0, None), Raising(KeyError("own")), (-1, 2), (0, 2**64), [np.zeros(2), 3]):
        found = outcome(lambda: type(asked(share=share)))
        tally.same(f"{share!r} as a share", share is None or found[0] in (TypeError, ValueError) and found[1].startswith("share: "), True)
    slabs(tally)
    cut_shares(tally)
    of_program(tally)


def cut_shares(tally):
    """Shares whose tasks have greater numbers than can be asked for are shares of parts of the region. Here 7 is the greatest number."""
    generator, encodings = Generator(13), (Encoding("default"), Encoding("v2"))
    kept = _boxes.GREATEST, _grid.GREATEST
    for kind, other in itertools.product(["regular", "zarrs.regular_bounded", "rectangular", "rectilinear"], repeat=2):
        for _ in range(6):
            shape = [generator.number(12) for _ in range(generator.random.randint(1, 3))]
            grid, target = (Grid(shape, generator.grid_over(shape, name)) for name in (kind, other))
            lengths = [generator.number(size) for size in shape]
            start, at = ([generator.number(size - length) for size, length in zip(shape, lengths)] for _ in range(2))
            each, order = [generator.random.randint(1, 3) for _ in shape], generator.random.choice(["source", "target"])
            asked = lambda **more: [*grid.tasks(encodings[0], target, encodings[1], (start, lengths), at, task_chunks=each, order=order, **more)]
            right, workers = asked(), generator.random.randint(1, 5)
            try:
                _boxes.GREATEST, _grid.GREATEST = 7, 7
                found = [asked(share=(worker, workers)) for worker in range(workers)]
            finally:
                _boxes.GREATEST, _grid.GREATEST = kept
            of_shares = [[right[line] for line in share_of_lines(len(right), worker, workers)] for worker in range(workers)]
            tally.same(f"shares of {grid} to {target} from {start}, {lengths} to {at}, by {each} of the {order}", found, of_shares)


def counts(tally):
    """Counts beside what is counted in the tasks, and beside arithmetic if there are very many."""
    generator, encodings = Generator(11), (Encoding("default"), Encoding("v2"))
    kinds = ["regular", "zarrs.regular_bounded", "rectangular", "rectilinear"]
    for round_, (one, other) in itertools.product(range(12), itertools.product(kinds, repeat=2)):
        shape = [generator.random.randrange(round_ + 3) for _ in range(generator.random.randrange(4))]
        grid, target = (Grid(shape, generator.grid_over(shape, kind)) for kind in (one, other))
        subset = generator.random.choice([None, generator.box_within(shape)])
        copy = {"task_chunks": [generator.random.randint(1, 3) for _ in shape], "order": generator.random.choice(["source", "target"])}
        copy |= {} if subset is None else {"subset": subset, "at": subset[0]}
        tasks = [*grid.tasks(encodings[0], target, encodings[1], **copy)]
        buffers = [math.prod(task.buffer) for task in tasks]
        right = TaskCounts(
            chunks_read=sum(len(task.sources) for task in tasks), chunks_written=sum(len(task.targets) for task in tasks),
            elements_decoded=sum(math.prod(part.shape) for task in tasks for part in task.sources), elements_moved=sum(buffers),
            largest_task=max(buffers, default=0), tasks=len(tasks),
        )  # fmt: skip
        tally.same(f"counts of {grid} into {target} {copy}", grid.task_counts(target, **copy), right)
    # Chunks of 3 into chunks of 2, along 2^24 + 2^23 of the first: of three of the second two lie within one of the first, and one in two.
    size = 3 * 2**24
    grid, target = Grid([size] * 3, regular(3, 3, 3)), Grid([size] * 3, regular(2, 3, size))
    tasks = size // 2 * (size // 3)
    right = TaskCounts(2**73, tasks, 27 * 2**73, size**3, 6 * size, tasks)
    tally.same("counts past 2^24 chunks", grid.task_counts(target), right)
    along = 2**24 + 2**24 // 3
    read, tasks = along * 7 * 2**24, 7 * 2**24
    right = TaskCounts(read, tasks, 27 * read, 2**25 * 21 * size, 6 * size, tasks)
    tally.same("counts of 2^24 chunks", grid.task_counts(target, ([0, 0, 0], [2**25, 21, size])), right)
    great = Grid([GREATEST], regular(2**63))
    right = TaskCounts(5, 4, None, GREATEST, 2**62 + 1, 4)
    tally.same("counts up to the greatest number", great.task_counts(Grid([GREATEST], regular(2**62 + 1))), right)
    tally.same("counts without dimensions", Grid([], regular()).task_counts(Grid([], regular())), TaskCounts(1, 1, 1, 1, 1, 1))
    many = MOST_TO_COUNT + 1
    source, listed = Grid([many], regular(2)), Grid([many], grid_metadata("rectilinear", [[[1, many]]]))
    tally.raises("counts past 2^20 listed chunks", ValueError, TOO_MANY, lambda: source.task_counts(listed))
    last = source.tasks(encodings[0], listed, encodings[1], share=(many - 1, many))
    tally.same("tasks past 2^20 listed chunks", chunks_of(last), [(many - 1,)])
    grid = Grid([5, 7], REGULAR)
    lengths = "incompatible dimensionality 1, expected 2"
    tally.raises("counts into another array", ValueError, f"the target's array: {lengths}", lambda: grid.task_counts(Grid([5], regular(2))))
    tally.raises("counts into no grid", TypeError, "target: a Grid is wanted, and not a int", lambda: grid.task_counts(3))
    tally.raises("counts of a shorter region", ValueError, f"the region: {lengths}", lambda: grid.task_counts(grid, ([0], [1])))
    tally.raises("counts of tasks of shorter groups", ValueError, f"the chunks a task: {lengths}", lambda: grid.task_counts(grid, task_chunks=[2]))
    counts_of_program(tally)


def documents_of_copies(seed):
    """Copies between arrays of two kinds of grid, as documents of `chunkplan`, which are questions too."""
    generator = Generator(seed)
    draw = generator.random
    for _ in range(60):
        shape = [draw.randrange(40) for _ in range(draw.randrange(4))]
        stored = [{"chunk_grid": generator.grid_over(shape, name), "chunk_key_encoding": generator.encoding()}
                  for name in draw.sample(["regular", "zarrs.regular_bounded", "rectilinear"], 2)]  # fmt: skip
        asked = {"shape": shape, **stored[0], "target": stored[1]}
        if draw.randrange(2):
            box = generator.box_within(shape)
            asked |= {"target": {"shape": shape, **stored[1]}, "subset": box, "at": box[0]}
        yield {**asked, "task_chunks": [draw.randint(1, 3) for _ in shape], "order": draw.choice(["source", "target"])}


def counts_of_program(tally):
    """Compares counts with those of `chunkplan`, if the program was built."""
    if not CHUNKPLAN.exists():
        return
    for asked in documents_of_copies(9):
        ended = subprocess.run([CHUNKPLAN], input=json.dumps({**asked, "counts": True}).encode(), capture_output=True)
        (stage,) = json.loads(ended.stdout)["stages"]
        target, _encoding, copy = copy_in(asked)
        tally.same(f"counts of {asked}", plain(grid_in(asked).task_counts(target, **copy)), {name: stage[name] for name in TaskCounts._fields})


def slabs(tally):
    """Boxes of at most so many numbers, one behind another, are the box."""
    kept, _boxes.GREATEST = _boxes.GREATEST, 7
    try:
        for shape in [(), (3,), (7,), (2, 3), (4, 5), (3, 2, 3), (2, 7, 1), (2, 2, 2, 2)]:
            start = tuple(range(5, 5 + len(shape)))
            right = [*itertools.product(*(range(s, s + n) for s, n in zip(start, shape)))]
            for first, end in itertools.combinations(range(len(right) + 1), 2):
                found = []
                for box, number, count in _boxes.slabs(Box(start, shape), first, end - first):
                    of_slab = [*itertools.product(*(range(s, s + n) for s, n in zip(*box)))]
                    tally.same(f"the size of {box}", len(of_slab) <= 7, True)
                    found += of_slab[number : number + count]
                tally.same(f"slabs of {shape} from {first} to {end}", found, right[first:end])
    finally:
        _boxes.GREATEST = kept


def of_program(tally):
    """Shares beside those of `chunkplan`, where the program was built."""
    if not CHUNKPLAN.exists():
        print("no share was compared with those of chunkplan: the program isn't built", flush=True)
        return
    draw = Generator(8).random
    for asked in documents_of_copies(8):
        workers = draw.choice([1, 2, 3, 7, 50])
        share = [draw.randrange(workers), workers]
        ended = subprocess.run([CHUNKPLAN], input=json.dumps({**asked, "share": share}).encode(), capture_output=True)
        lines = [{name: line[name] for name in ("buffer", "from", "to")} for line in map(json.loads, ended.stdout.splitlines())]
        found = [plain(task) for task in tasks_in(asked, share=share)]
        tally.same(f"{asked} by chunkplan", (found, ended.returncode), (lines, 0))


# ---- selections


def selections(tally):
    """The box of a selection has the elements that numpy selects, and what numpy refuses is refused."""
    bounds = [None, *range(-5, 6)]
    ones = [*range(-5, 6), ..., *(slice(start, stop) for start in bounds for stop in bounds), slice(1, 3, 1), slice(None, None, np.int8(1))]
    for size in range(4):
        for item in ones:
            same_elements(tally, (size,), item)
            same_elements(tally, (size,), (item,))
    rng = Generator(9).random
    for _ in range(4000):
        shape = tuple(rng.randrange(4) for _ in range(rng.randrange(5)))
        slices = [slice(rng.choice(bounds), rng.choice(bounds)) for _ in range(rng.randrange(len(shape) + 2))]
        same_elements(tally, shape, tuple(rng.choice(ones) if rng.random() < 0.5 else item for item in slices))
    great = [2**64, -(2**70), np.s_[2**70 :], np.s_[-(2**70) : 2**70]]
    for selection in ((), ..., (...,), np.s_[..., ...], 0, np.s_[0, ...], np.s_[:, ..., :, :], *great):
        for shape in ((), (3,), (2, 3), (2, 3, 4)):
            same_elements(tally, shape, selection)
    for number in (np.int64(-1), np.uint8(1), Index(-2), Whole(1), np.array(1), np.array(2, np.uint64)):
        same_elements(tally, (3, 2), number)
        same_elements(tally, (4,), slice(number, None))
    great = Grid([GREATEST, 5], regular(2, 3))
    tally.same("great sizes", great.box(np.s_[-3:, 1]), ((GREATEST - 3, 1), (3, 1)))
    tally.same("all of great sizes", great.box(...), ((0, 0), (GREATEST, 5)))
    tally.same("the last of great sizes", great.box(GREATEST - 1), ((GREATEST - 1, 0), (1, 5)))
    refused(tally)


def same_elements(tally, shape, selection):
    grid, array = Grid(shape, regular(*[2] * len(shape))), np.arange(np.prod(shape, dtype=int)).reshape(shape)
    try:
        right = np.ravel(array[selection]).tolist()
    except IndexError:
        right = IndexError
    found = outcome(lambda: grid.box(selection))
    if not isinstance(found, tuple):
        within = all(0 <= s and s + n <= size for s, n, size in zip(*found, shape)) and len(found[0]) == len(found[1]) == len(shape)
        elements = array[tuple(slice(s, s + n) for s, n in zip(*found))]
        found = (within and elements.shape == tuple(found[1]), elements.ravel().tolist())
        right = right if right is IndexError else (True, right)
    else:
        found = found[0]
    tally.same(f"{selection} of {shape}", found, right)


def refused(tally):
    grid = Grid([5, 7], REGULAR)
    newaxis = "selection: it adds a dimension by None, or `newaxis`, and a box has those of the array"
    step = "selection: the slice for dimension {} has another step than 1, and so selects no box"
    for selection, kind, words in [
        (None, TypeError, newaxis), (np.s_[1, np.newaxis], TypeError, newaxis),
        (True, TypeError, "selection: a truth value selects no box"), (np.s_[1, np.False_], TypeError, "selection: a truth value selects no box"),
        ([1, 2], TypeError, "selection: a list selects elements one by one, and no box"),
        (np.s_[:, np.array([1])], TypeError, "selection: a ndarray selects elements one by one, and no box"),
        (1.0, TypeError, "selection: ints, slices and an ellipsis are wanted, and not a float"),
        ("1", TypeError, "selection: ints, slices and an ellipsis are wanted, and not a str"),
        (np.s_[1.0:], TypeError, "selection: 'float' object cannot be interpreted as an integer"),
        (np.s_[: np.True_], TypeError, "selection: a truth value of numpy's is no whole number"),
        (np.s_[::2], ValueError, step.format(0)), (np.s_[1, ::-1], ValueError, step.format(1)), (np.s_[::0], ValueError, step.format(0)),
        (np.s_[..., 1, ...], IndexError, "selection: it has more than one ellipsis"),
        (np.s_[1, 2, 3], IndexError, "selection: it has items for 3 dimensions, and the array has 2"),
        (np.s_[0, 7], IndexError, "selection: the number for dimension 1 lies outside of the array, which has 7 elements there"),
        (np.s_[-6], IndexError, "selection: the number for dimension 0 lies outside of the array, which has 5 elements there"),
        (10**5000, IndexError, "selection: the number for dimension 0 lies outside of the array, which has 5 elements there"),
    ]:  # fmt: skip
        tally.raises(f"a refused selection, {words}", kind, words, lambda: grid.box(selection))
    odd = [Raising(IndexError("own")), slice(Raising(KeyError("own"))), {}, {1}, len, Lying(1, [1]), np.zeros(2), np.array(True), np.array(1.0)]
    for selection in odd:
        tally.same(f"{selection} as a selection", outcome(lambda: grid.box(selection))[0], TypeError)


# ---- stored arrays


def stored(tally):
    with tempfile.TemporaryDirectory() as name:
        room = pathlib.Path(name)
        suffixed = {"name": "zarrs.default_suffix", "configuration": {"suffix": ".tiff"}}
        of_3 = {"zarr_format": 3, "node_type": "array", "shape": [5, 7], "data_type": "int8", "chunk_grid": REGULAR, "chunk_key_encoding": suffixed}
        of_2 = {"zarr_format": 2, "shape": [5, 7], "chunks": [2, 3], "dtype": "<i4", "fill_value": None, "order": "C"}
        folders = {
            "three": ({"zarr.json": of_3}, (Grid([5, 7], REGULAR), Encoding(suffixed))),
            "two": ({".zarray": of_2}, (Grid([5, 7], REGULAR), v2("."))),
            "slashes": ({".zarray": {**of_2, "dimension_separator": "/"}}, (Grid([5, 7], REGULAR), v2("/"))),
            "null": ({".zarray": {**of_2, "dimension_separator": None}}, (Grid([5, 7], REGULAR), v2("."))),
            "both": ({".zarray": {**of_2, "chunks": [1, 1]}, "zarr.json": of_3}, (Grid([5, 7], REGULAR), Encoding(suffixed))),
            "scalar": ({".zarray": {**of_2, "shape": [], "chunks": []}}, (Grid([], regular()), v2("."))),
            "empty": ({".zarray": {**of_2, "shape": [0, 7], "chunks": [2, 3]}}, (Grid([0, 7], REGULAR), v2("."))),
            "names é漢": ({"zarr.json": {**of_3, "chunk_key_encoding": "v2"}}, (Grid([5, 7], REGULAR), Encoding("v2"))),
        }  # fmt: skip
        for name, (files, right) in folders.items():
            folder = written(room / name, files)
            for path in (folder, str(folder), os.path.relpath(folder)):
                tally.same(f"{name} as {type(path).__name__}", (Grid.of(path), Encoding.of(path)), right)
        refused_folders(tally, room, of_2, of_3)
        like_arrays(tally)
        arrays_of_zarr(tally, room)


def v2(separator):
    return Encoding({"name": "v2", "configuration": {"separator": separator}})


def written(folder, files):
    folder.mkdir()
    for name, metadata in files.items():
        (folder / name).write_bytes(metadata if isinstance(metadata, bytes) else json.dumps(metadata).encode())
    return folder


def refused_folders(tally, room, of_2, of_3):
    both = (Grid, Encoding)
    for what, name, metadata, words in [
        ("a group", "zarr.json", {"zarr_format": 3, "node_type": "group"}, "it is a group's, and no array's"),
        ("another node", "zarr.json", {**of_3, "node_type": "tree"}, "its node_type isn't `array`"),
        ("no node", "zarr.json", {"zarr_format": 3}, "its node_type isn't `array`"),
        ("another format", "zarr.json", {**of_3, "zarr_format": 4}, "its zarr_format isn't 3"),
        ("format 3 in .zarray", ".zarray", {**of_2, "zarr_format": 3}, "its zarr_format isn't 2"),
        ("a list", "zarr.json", [1], "it is not an object"),
        ("no chunks", ".zarray", {name: member for name, member in of_2.items() if name != "chunks"}, "there is no member `chunks`"),
    ]:  # fmt: skip
        folder = written(room / what, {name: metadata})
        for kind in both:
            tally.raises(f"{what}, {kind.__name__}", ValueError, f"array: {folder / name}: {words}", lambda: kind.of(folder))
    for member, kind in (("shape", Grid), ("chunk_grid", Grid), ("chunk_key_encoding", Encoding)):
        folder = written(room / f"no {member}", {"zarr.json": {name: value for name, value in of_3.items() if name != member}})
        tally.raises(f"no {member}", ValueError, f"array: {folder / 'zarr.json'}: there is no member `{member}`", lambda: kind.of(folder))
    for shape in ("57", [5.0, 7], [True, 7], None, {"5": 7}, [[5, 7]], 5):
        folder = written(room / f"shape {shape}", {".zarray": {**of_2, "shape": shape}})
        words = f"array: {folder / '.zarray'}: the member `shape` is no list of whole numbers"
        tally.raises(f"the shape {shape}", ValueError, words, lambda: Grid.of(folder))
    for text in (b"", b"{", b"\xff{}", b'{"shape":[5,7]}}', b"[" * 10**5):
        folder = written(room / f"text {len(text)} {text[:1]}", {"zarr.json": text})
        for kind in both:
            found = outcome(lambda: kind.of(folder))
            begins = f"array: {folder / 'zarr.json'}: it is not JSON: "
            tally.same(f"the text {text[:20]}", (found[0], found[1].startswith(begins)), (ValueError, True))
    for missing in (room / "none", room / "a group" / "zarr.json", room):
        for kind in both:
            words = f"array: {missing} has no zarr.json and no .zarray"
            tally.raises(f"nothing in {missing}", FileNotFoundError, words, lambda: kind.of(missing))
    (room / "folders" / "zarr.json").mkdir(parents=True)
    tally.same("a folder in the file's place", outcome(lambda: Grid.of(room / "folders"))[0], IsADirectoryError)
    # The library's own words, where it refuses what was read.
    folder = written(room / "no edge", {".zarray": {**of_2, "chunks": [0, 3]}})
    words = "configuration is unsupported: wrong value in field `chunk_shape`"
    tally.raises("chunks of no elements", ValueError, words, lambda: Grid.of(folder))
    folder = written(room / "separator", {".zarray": {**of_2, "dimension_separator": "-"}})
    words = "configuration is unsupported: wrong value in field `separator`"
    tally.raises("another separator", ValueError, words, lambda: Encoding.of(folder))
    wanted = "array: the path of an array's folder, or an array of zarr-python 2, is wanted, and not a "
    for value in (None, 3, b"folder", np.zeros((5, 7)), Grid([5, 7], REGULAR), {"shape": [5]}, object):
        for kind in both:
            tally.raises(f"{value!r} as an array", TypeError, wanted + type(value).__name__, lambda: kind.of(value))
    tally.same("a path with a zero", outcome(lambda: Grid.of("a\0b"))[0], ValueError)
    tally.same("a path with half a pair", outcome(lambda: Grid.of("a\ud800b"))[0], ValueError)


class LikeZarr:
    """What is read of an array of zarr-python 2."""

    def __init__(self, shape, chunks, separator, version=2):
        self.shape, self.chunks, self._dimension_separator, self._version = shape, chunks, separator, version


def like_arrays(tally):
    """Arrays are known by their attributes, so that zarr-python needn't be there."""
    right = Grid([5, 7], REGULAR), v2("/")
    for array in (LikeZarr((5, 7), (2, 3), "/"), LikeZarr([np.int64(5), np.uint8(7)], np.array([2, 3]), "/")):
        tally.same(f"an array like {array.shape}", (Grid.of(array), Encoding.of(array)), right)
    draft = "array: it is of a draft of format 3, whose keys are others"
    for kind in (Grid, Encoding):
        tally.raises("an array of the draft", ValueError, draft, lambda: kind.of(LikeZarr((5, 7), (2, 3), "/", version=3)))
    for shape in ("57", (5.0, 7), (True, 7), None):
        words = "array: LikeZarr: the member `shape` is no list of whole numbers"
        tally.raises(f"an array of the shape {shape}", ValueError, words, lambda: Grid.of(LikeZarr(shape, (2, 3), "/")))
    below = "shape: numbers are those from 0 to 18446744073709551615, and one is below"
    tally.raises("a shape below 0", ValueError, below, lambda: Grid.of(LikeZarr((5, -7), (2, 3), "/")))
    failing = type("Failing", (), {"shape": property(lambda self: 1 // 0)})()
    tally.raises("an array that fails", TypeError, "array: integer division or modulo by zero", lambda: Grid.of(failing))


def arrays_of_zarr(tally, room):
    """Arrays of zarr-python 2, where it is there: their chunks lie under the keys that are told."""
    try:
        import zarr

        version = zarr.__version__
    except ImportError:
        version = "none"
    if not version.startswith("2."):
        print(f"no array of zarr-python 2 was read: its version here is {version}", flush=True)
        return
    for number, (shape, chunks, separator) in enumerate(
        [((5, 7), (2, 3), None), ((5, 7), (2, 3), "/"), ((), (), "."), ((0,), (4,), "."), ((6, 1, 4), (6, 2, 1), "/"), ((9,), True, None)]
    ):
        folder = room / f"zarr {number}"
        array = zarr.open_array(str(folder), mode="w", shape=shape, chunks=chunks, dtype="u1", fill_value=0, dimension_separator=separator)
        array[...] = 1
        for given in (array, zarr.open_array(str(folder), mode="r"), folder):
            grid, encoding = Grid.of(given), Encoding.of(given)
            keys = {encoding.encode(chunk) for chunk in grid.iter_chunk_indices()}
            files = {path.relative_to(folder).as_posix() for path in folder.rglob("*") if path.is_file() and path.name != ".zarray"}
            tally.same(f"keys of {shape} in {chunks} by {separator}", (keys, grid.array_shape), (files, shape))
    nested = zarr.open_array(zarr.NestedDirectoryStore(str(room / "nested")), mode="w", shape=(5, 7), chunks=(2, 3), dtype="u1")
    tally.same("a nested store", (Grid.of(nested), Encoding.of(nested)), (Grid([5, 7], REGULAR), v2("/")))
    group = zarr.open_group(str(room / "of groups"), mode="w")
    tally.same("an array of a group", Grid.of(group.create_dataset("a", shape=(5, 7), chunks=(2, 3))), Grid([5, 7], REGULAR))
    tally.same("a group", [outcome(lambda: kind.of(group))[0] for kind in (Grid, Encoding)], [TypeError] * 2)
    tally.same("a group's folder", outcome(lambda: Grid.of(room / "of groups"))[0], FileNotFoundError)
    # zarr-python itself can't count such chunks.
    none = zarr.open_array(str(room / "none of it"), mode="w", shape=(0, 5), chunks=False, dtype="u1")
    words = "configuration is unsupported: wrong value in field `chunk_shape`"
    for given in (none, room / "none of it"):
        tally.raises("chunks of no elements", ValueError, words, lambda: Grid.of(given))


# ---- resizes


def padded(array, edges):
    """An array as chunks with these edges, by their numbers: 0 stands in the places past the array."""
    counts = [-(-size // edge) for size, edge in zip(array.shape, edges)]
    whole = np.zeros([count * edge for count, edge in zip(counts, edges)], array.dtype)
    whole[tuple(map(slice, array.shape))] = array
    places = itertools.product(*map(range, counts))
    return {chunk: whole[tuple(slice(c * edge, (c + 1) * edge) for c, edge in zip(chunk, edges))] for chunk in places}


def changed(tally):
    """Which chunks change: of arrays that numpy holds, in which no element that stays or goes is -1 or 0, and one that comes is -1; of
    all kinds of grids beside the model, which goes element by element; at the greatest numbers; and what is taken and refused."""
    rng, generator = np.random.default_rng(13), Generator(13, longest_edge=4)
    for _ in range(100):
        shape, resized, edges = np.array([rng.integers(0, 9, 3), rng.integers(0, 9, 3), rng.integers(1, 5, 3)])[:, : rng.integers(0, 4)].tolist()
        array, other, both = rng.integers(1, 1000, shape), np.full(resized, -1), tuple(slice(min(pair)) for pair in zip(shape, resized))
        other[both] = array[both]
        was, now = padded(array, edges), padded(other, edges)
        right = {"delete": was.keys() - now.keys(), "keep": set(), "create": now.keys() - was.keys(), "rewrite": set()}
        for chunk in was.keys() & now.keys():
            right["keep" if np.array_equal(was[chunk], now[chunk]) else "rewrite"].add(chunk)
        found, lists = Grid(shape, regular(*edges)).changed_chunks(resized), {what: [*map(list, chunks)] for what, chunks in right.items()}
        tally.same(f"chunks of {edges} from {shape} to {resized}", fault_of_numbers(plain(found), lists, len(shape)), None)
    for _ in range(200):
        shape = [generator.number(9) for _ in range(generator.random.randint(0, 4))]
        resized = [size if generator.one_in(2) else generator.number(9) for size in shape]
        metadata = generator.grid_over(shape, generator.random.choice(["regular", "zarrs.regular_bounded", "rectangular", "rectilinear"]))
        told, grid = f"changes of {metadata} from {shape} to {resized}", Grid(shape, metadata)
        try:
            right = changed_chunks(Model(metadata, shape), Model(metadata, resized))
        except Refused as refused:
            tally.raises(told, ValueError, f"field `resize`: {refused.text}", lambda: grid.changed_chunks(resized))
            continue
        tally.same(told, fault_of_numbers(plain(grid.changed_chunks(resized)), right, len(shape)), None)
    great = Grid([GREATEST] * 2, regular(1, 1))
    right = ChangedChunks(before=(GREATEST, GREATEST), after=(7, GREATEST), kept=(7, GREATEST))
    for shape in ([7, GREATEST], (np.uint64(7), GREATEST), np.array([7, GREATEST], np.uint64), [Index(7), Whole(GREATEST)]):
        tally.same(f"changes of very many chunks to {shape!r}", great.changed_chunks(shape), right)
    tally.same("the types of numbers", {type(number) for numbers in vars(great.changed_chunks([7, 7])).values() for number in numbers}, {int})
    tally.same("changes are copied", pickle.loads(pickle.dumps(great.changed_chunks([7, GREATEST]))), right)
    tally.raises("they don't change", dataclasses.FrozenInstanceError, "cannot assign to field 'kept'", lambda: setattr(right, "kept", ()))
    grid, bounds = Grid([5, 7], REGULAR), "shape: numbers are those from 0 to 18446744073709551615, and one is "
    refused = "field `resize`: regular chunk shape and array shape have inconsistent dimensionality"
    for shape in ([], [5], [5, 7, 1]):
        tally.raises(f"a resize to {shape}", ValueError, refused, lambda: grid.changed_chunks(shape))
    tally.raises("a new size below", ValueError, f"{bounds}below", lambda: grid.changed_chunks([5, -1]))
    tally.raises("a new size above", ValueError, f"{bounds}above", lambda: grid.changed_chunks([5, 2**64]))
    tally.raises("new sizes as floats", TypeError, "shape: whole numbers are wanted, and the array is of float64", lambda: grid.changed_chunks([5.0, 7]))
    shaped = "shape: one list of numbers is wanted, and the array's shape is (1, 2)"
    tally.raises("new sizes of two axes", ValueError, shaped, lambda: grid.changed_chunks([[5, 7]]))
    for value in (3, None, Raising(IndexError("own")), [Raising(KeyError("own"))]):
        tally.same(f"{value!r} as a new shape", outcome(lambda: grid.changed_chunks(value))[0] in (TypeError, ValueError), True)
    changes_of_program(tally)


def changes_of_program(tally):
    """The chunks of the lines of `chunkplan`, where the program was built: a line for each chunk that either array uses."""
    if not CHUNKPLAN.exists():
        return
    generator = Generator(14)
    for _ in range(60):
        shape = [generator.random.randrange(40) for _ in range(generator.random.randrange(4))]
        resized = [generator.random.randrange(40) for _ in shape]
        metadata = generator.grid_over([max(pair) for pair in zip(shape, resized)], generator.random.choice(["regular", "zarrs.regular_bounded", "rectilinear"]))
        document = {"shape": shape, "chunk_grid": metadata, "chunk_key_encoding": "v2", "resize": resized, "include_unchanged": True}
        ended = subprocess.run([CHUNKPLAN], input=json.dumps(document).encode(), capture_output=True)
        lists = {what: [] for what in ("create", "delete", "keep", "rewrite")}
        for line in map(json.loads, ended.stdout.splitlines()):
            lists[line["what"]].append(line["chunk"])
        found = plain(Grid(shape, metadata).changed_chunks(resized))
        tally.same(f"changes of {document}", (ended.returncode, fault_of_numbers(found, lists, len(shape))), (0, None))


# ---- bytes of chunks


def bytes_of_chunks(tally):
    """Which bytes of a chunk a box has: beside the models; of chunks that numpy wrote to a file, whose box is read by the ranges; at the greatest
    numbers, of very many ranges, of which some are looked at; and what is taken and refused."""
    with tempfile.TemporaryDirectory() as folder:
        path = pathlib.Path(folder, "chunk")
        for edges, box, item_size, order in small_boxes(15, 400):
            told, found = f"bytes of {box} in {edges}, {item_size} each, {order}", byte_ranges(edges, box, item_size, order)
            tally.same(told, plain(found), model_ranges(edges, box, item_size, order))
            if found is None:
                continue
            tally.same(f"{told}, by element", fault_of_ranges(plain(found), edges, box, item_size, order), None)
            tally.same(f"{told}, from a file", *from_file(path, found, edges, box, item_size, order))
    for edges, box, item_size, order in great_boxes(15, 400):
        try:
            right = model_ranges(edges, box, item_size, order)
        except Refused as refused:
            right = (ValueError, refused.text)
        found = outcome(lambda: byte_ranges(edges, box, item_size, order))
        tally.same(f"bytes of {box} in {edges}, {item_size} each, {order}", found, right)
    many = byte_ranges([2**20, 2**20, 8], ([0, 1, 2], [2**20, 2**20 - 1, 3]), 2)
    tally.same("ranges one after another", [*itertools.islice(many.ranges(), 2)], [(20, 26), (36, 42)])
    tally.same("of very many dimensions", [*byte_ranges([1] * 2000, ([0] * 2000, [1] * 2000), 3).ranges()], [(0, 3)])
    values_of_bytes(tally)


def from_file(path, found, edges, box, item_size, order):
    """What a file that numpy wrote a chunk to has in some ranges, one behind another, and the elements of the box in the same order."""
    chunk = np.random.default_rng(item_size).integers(0, 256, math.prod(edges) * item_size, np.uint8).view(f"V{item_size}").reshape(edges)
    path.write_bytes(chunk.tobytes(order))
    written = np.fromfile(path, np.uint8)
    return b"".join(written[begin:end].tobytes() for begin, end in found.ranges()), chunk[slices_of(box)].tobytes(order)


def slices_of(box):
    return tuple(slice(first, first + count) for first, count in zip(*box))


def values_of_bytes(tally):
    right = ByteRanges(20, 4, (2,), (12,))
    for pair in ((2, 3), np.array([2, 3], np.uint64), [np.int8(2), Index(3)], np.array([2, 3], ">i2"), misaligned(np.array([2, 3], np.uint64))):
        tally.same(f"a chunk of {pair!r}", byte_ranges([7, 3], Box((1, 2), (2, 1)), np.uint8(4)), right)
        tally.same(f"a box of {pair!r}", byte_ranges(np.array([4, 6]), (pair, pair), Whole(1)), ByteRanges(15, 3, (2,), (6,)))
        tally.same(f"a chunk of edges {pair!r}", byte_ranges(pair, ([0, 0], [2, 3]), 1, order=np.str_("F")), ByteRanges(0, 6, (), ()))
    found = byte_ranges([7, 3], ([1, 2], [2, 1]), 4)
    tally.same("the types of an answer", [type(part) for part in (*found, *found.counts, *found.strides)], [int, int, tuple, tuple, int, int])
    tally.same("ranges are copied", pickle.loads(pickle.dumps(found)), found)
    ranges = found.ranges()
    tally.same("ranges are an iterator", (iter(ranges) is ranges, [*ranges], [*ranges]), (True, [(20, 24), (32, 36)], []))
    asked = {"chunk_shape": [7, 3], "box": ([1, 2], [2, 1]), "item_size": 4}
    call = lambda **more: byte_ranges(**{**asked, **more})
    bounds = "numbers are those from 0 to 18446744073709551615, and one is "
    for name, below, above in (("chunk_shape", [7, -1], [7, 2**64]), ("box", ([1, -1], [1, 1]), ([1, 1], [1, 2**64])), ("item_size", -1, 2**64)):
        tally.raises(f"{name} below", ValueError, f"{name}: {bounds}below", lambda: call(**{name: below}))
        tally.raises(f"{name} above", ValueError, f"{name}: {bounds}above", lambda: call(**{name: above}))
    whole = "whole numbers are wanted, and the array is of float64"
    tally.raises("edges as floats", TypeError, f"chunk_shape: {whole}", lambda: call(chunk_shape=[7.0, 3]))
    tally.raises("a box of floats", TypeError, f"box: {whole}", lambda: call(box=([1.0, 2], [2, 1])))
    tally.raises("a size as a float", TypeError, "item_size: 'float' object cannot be interpreted as an integer", lambda: call(item_size=4.0))
    tally.raises("elements of no bytes", ValueError, "item_size: an element has one byte or more", lambda: call(item_size=0))
    for order in ("A", "c", "", "CF", "C "):
        tally.raises(f"the order {order!r}", ValueError, "order: it is `C` or `F`", lambda: call(order=order))
    for order in (None, b"C", 0, ["C"]):
        words = f"order: a text is wanted, and not a {type(order).__name__}"
        tally.raises(f"the order {order!r}", TypeError, words, lambda: call(order=order))
    for value in (3, None, [], [[0, 0]], "ab", Raising(IndexError("own")), [Raising(KeyError("own"))] * 2):
        found = outcome(lambda: call(box=value))
        tally.same(f"{value!r} as a box", (found[0] in (TypeError, ValueError), found[1].startswith("box: ")), (True, True))
    tally.raises("a box of one dimension", ValueError, "incompatible dimensionality 1, expected 2", lambda: call(box=([0], [1])))


# ---- the program


def program(tally):
    """`python -m zarrs_chunks`: each tenth vector, with `--thorough` each, one after another and in turn, words, and outputs that fail."""
    command, environment = [sys.executable, "-m", "zarrs_chunks"], {**os.environ, "PYTHONPATH": str(PACKAGE.parent)}
    environment.pop("PYTHONUNBUFFERED", None)

    def ended(*words, text=b"", **streams):
        streams = {"input": text, "stdout": subprocess.PIPE, **streams}
        run = subprocess.run([*command, *words], stderr=subprocess.PIPE, env=environment, **streams)
        return run.returncode, run.stdout, run.stderr.decode()

    asked = vectors() if IS_THOROUGH else vectors()[::10]
    questions, answers = ("".join(f"{line}\n" for line in lines).encode() for lines in zip(*asked))
    tally.same("vectors", ended(text=questions), (0, answers, ""))
    tally.same("a last line without a line feed", ended(text=questions[:-1]), (0, answers, ""))
    tally.same("no lines", ended(), (0, b"", ""))
    unreadable = b"unreadable: not JSON\n"
    tally.same("lines that are no JSON", ended(text=b"\n\xff\n{\r\n\0"), (0, 4 * unreadable, ""))
    (question, answer), *_others = vectors()
    ends = {b"\r": f"{answer}\n".encode(), b" \t": f"{answer}\n".encode(), b"\v": unreadable, b"\0": unreadable}
    text = b"".join(question.encode() + end + b"\n" for end in ends)
    tally.same("what stands behind a question", ended(text=text), (0, b"".join(ends.values()), ""))
    running = subprocess.Popen(command, stdin=subprocess.PIPE, stdout=subprocess.PIPE, env=environment)
    # An answer that is held back never comes.
    too_late = threading.Timer(60, running.kill)
    too_late.start()
    for question, answer in vectors()[:100]:
        running.stdin.write(question.encode() + b"\n")
        running.stdin.flush()
        tally.same(f"{question}, in turn", running.stdout.readline().decode(), f"{answer}\n")
    running.stdin.close()
    too_late.cancel()
    tally.same("the end of it", (running.stdout.read(), running.wait()), (b"", 0))
    tally.same("--version", ended("--version"), (0, f"{zarrs_chunks.__version__}\n".encode(), ""))
    status, told, errors = ended("--help")
    begins, widest = told.startswith(b"Usage: python -m zarrs_chunks "), max(map(len, told.splitlines()))
    tally.same("--help", (status, begins, widest < 80, errors), (0, True, True, ""))
    words = "zarrs_chunks: it takes `--help` or `--version`, or no word\n"
    for given in (["--hel"], ["--help=yes"], ["--help", "--version"], ["-"], ["--help", "--help"], [""], ["-V"]):
        tally.same(f"the words {given}", ended(*given, text=questions), (1, b"", words))
    with open("/dev/full", "wb") as full:
        for given in ((), ("--help",)):
            found = ended(*given, text=questions, stdout=full)
            tally.same(f"a full device, {given}", found, (1, None, "zarrs_chunks: output failed\n"))
    reader, writer = os.pipe()
    os.close(reader)
    found = ended(text=questions, stdout=writer)
    os.close(writer)
    tally.same("a reader that has gone", found, (1, None, "zarrs_chunks: output failed\n"))
    failing(tally)


def failing(tally):
    class Failing(io.BytesIO):
        def readline(self, *_size):
            raise OSError("own")

    tally.raises("an input that fails", __main__.Fault, "input failed", lambda: __main__.answer_lines(Failing(), io.BytesIO()))
    for fault in ("input failed", "output failed"):
        tally.raises(f"no stream, {fault}", __main__.Fault, fault, lambda: __main__._bytes_of(None, fault))


# ---- the package


def typed(tally):
    """All that is public is annotated, and its annotations name what there is."""
    public = [getattr(zarrs_chunks, name) for name in zarrs_chunks.__all__ if name != "__version__"]
    functions = [part for part in public if inspect.isfunction(part)]
    for kind in filter(inspect.isclass, public):
        if issubclass(kind, tuple):
            tally.same(f"the fields of {kind.__name__}", typing.get_type_hints(kind).keys(), set(kind._fields))
            continue
        if dataclasses.is_dataclass(kind):
            tally.same(f"the fields of {kind.__name__}", typing.get_type_hints(kind).keys(), {field.name for field in dataclasses.fields(kind)})
            continue
        for name, member in vars(kind).items():
            member = member.fget if isinstance(member, property) else getattr(member, "__func__", member)
            functions += [member] if inspect.isfunction(member) and (not name.startswith("_") or name.startswith("__")) else []
    tally.same("many are public", len(functions) > 40, True)
    for function in functions:
        signature = inspect.signature(function)
        of_arguments = [argument.annotation for name, argument in signature.parameters.items() if name not in ("self", "cls")]
        tally.same(f"annotations of {function.__qualname__}", inspect.Signature.empty in [*of_arguments, signature.return_annotation], False)
        # Python 3.9 has no `|` of types, which nothing but this asks for.
        if sys.version_info >= (3, 10):
            tally.same(f"what they name, {function.__qualname__}", "return" in typing.get_type_hints(function), True)
        tally.same(f"the docstring of {function.__qualname__}", bool(function.__doc__) or function.__name__.startswith("__"), True)
    tally.same("the mark of types", (PACKAGE / "py.typed").read_text(), "")
    at = [path.name for path in PACKAGE.glob("*.py") if zarrs_chunks.__version__ in path.read_text()]
    tally.same("where the version stands", (at, re.fullmatch(r"\d+\.\d+\.\d+", zarrs_chunks.__version__) is not None), (["_version.py"], True))


def values(tally):
    """What the calls of one list take and refuse, and what they answer, of which each is of Python's own types."""
    grid, encoding, target = Grid([5, 7], REGULAR), Encoding("default"), Grid([5, 7], regular(5, 2))
    rectilinear = Grid([9, 9], grid_metadata("rectilinear", [[[3, 3]], [4, 5]]))
    right = ((2, 3), (2, 3), True, True, Located((0, 0), (1, 1), "c/0/0"), (0, 0), Box((2, 3), (2, 3)))
    for what, pair in {
        "numpy's": [np.uint64(1), np.uint64(1)], "a tuple": (1, 1), "by __index__": [Index(1), Whole(1)],
        "objects": np.array([1, np.int8(1)], object), "big-endian": np.array([1, 1], ">i2"),
        "misaligned": misaligned(np.array([1, 1], np.uint64)), "strided": np.ones(4, np.int8)[::2],
    }.items():  # fmt: skip
        found = (
            grid.chunk_shape(pair), grid.chunk_origin(pair), grid.chunk_indices_inbounds(pair), grid.array_indices_inbounds(pair),
            grid.locate(encoding, pair), rectilinear.chunk_indices_counted(pair).chunk, grid.chunks_subset(pair, pair),
        )  # fmt: skip
        tally.same(f"lists as {what}", found, right)
        kinds = {type(number) for part in (found[0], found[1], found[4].chunk, found[4].element, found[6].start, found[6].shape) for number in part}
        tally.same(f"the types of answers to {what}", (kinds, type(found[2]), type(found[4].key)), ({int}, bool, str))
    copied = lambda subset=None, at=None, **more: grid.tasks(encoding, target, encoding, subset, at, **more)
    singles = {
        "chunk": [grid.chunk_shape, grid.chunk_origin, grid.chunk_indices_inbounds],
        "index": [grid.array_indices_inbounds, lambda value: grid.locate(encoding, value), rectilinear.chunk_indices_counted],
        "start": [lambda value: grid.chunks_subset(value, [1, 1])], "shape": [lambda value: grid.chunks_subset([1, 1], value)],
        "subset": [lambda value: copied((value, [1, 1])), lambda value: copied(([0, 0], value)), lambda value: grid.task_counts(target, (value, [1, 1]))],
        "at": [lambda value: copied(([0, 0], [1, 1]), value), lambda value: grid.task_counts(target, ([0, 0], [1, 1]), value)],
        "task_chunks": [lambda value: copied(task_chunks=value), lambda value: grid.task_counts(target, task_chunks=value)],
    }  # fmt: skip
    numbers = {
        "dimension": [rectilinear.runs], "first": [grid.iter_chunk_indices, grid.iter_chunk_subsets, grid.iter_chunk_indices_and_subsets],
        "most": [lambda value: copied(most=value)],
    }  # fmt: skip
    numbers["first"].append(lambda value: copied(first=value))
    bounds = "numbers are those from 0 to 18446744073709551615, and one is "
    for name, calls in singles.items():
        for call in calls:
            tally.raises(f"{name} below", ValueError, f"{name}: {bounds}below", lambda: call([0, -1]))
            tally.raises(f"{name} above", ValueError, f"{name}: {bounds}above", lambda: call([0, 2**64]))
            tally.raises(f"{name} of floats", TypeError, f"{name}: whole numbers are wanted, and the array is of float64", lambda: call([0.0, 1]))
            shaped = f"{name}: one list of numbers is wanted, and the array's shape is (1, 2)"
            tally.raises(f"{name} of two axes", ValueError, shaped, lambda: call([[0, 1]]))
            for value in (3, Raising(IndexError("own")), [Raising(KeyError("own"))]):
                tally.same(f"{name} as {value!r}", outcome(lambda: call(value))[0] in (TypeError, ValueError), True)
    for name, calls in numbers.items():
        for call in calls:
            tally.raises(f"{name} below", ValueError, f"{name}: {bounds}below", lambda: call(-1))
            tally.raises(f"{name} above", ValueError, f"{name}: {bounds}above", lambda: call(2**64))
            tally.raises(f"{name} as a float", TypeError, f"{name}: 'float' object cannot be interpreted as an integer", lambda: call(1.0))
            tally.same(f"{name} as another", [outcome(lambda: call(value))[0] for value in ("1", [1], np.zeros(2))], [TypeError] * 3)
    lengths = "incompatible dimensionality 1, expected 2"
    for subset, words in ((([0], [1]), f"the region: {lengths}"), (([0, 0], [1]), "incompatible dimensionality 1, expected 2")):
        tally.raises(f"the region {subset}, at once", ValueError, words, lambda: copied(subset))
    for subset in (3, [], [[0, 0]], [[0, 0], [1, 1], [2, 2]], "ab", {1, 2}, Raising(ValueError("own"))):
        found = outcome(lambda: copied(subset))
        tally.same(f"{subset!r} as a region", (found[0] in (TypeError, ValueError), found[1].startswith("subset: ")), (True, True))
    past = "the region has to end within the source's array"
    tally.raises("a region past the array, at once", ValueError, past, lambda: copied(([0, 0], [5, 8])))
    tally.raises("a share of it, at once", ValueError, past, lambda: copied(([0, 0], [5, 8]), share=(0, 2)))
    moved = "the region, moved to the index to begin at, has to end within the target's array"
    tally.raises("an index too far on, at once", ValueError, moved, lambda: copied(([0, 0], [5, 7]), [1, 0]))
    tally.raises("groups of another length, at once", ValueError, f"the chunks a task: {lengths}", lambda: copied(task_chunks=[1]))
    few = "task_chunks: a task takes 1 chunk or more along each dimension"
    for call in (copied, lambda **more: grid.task_counts(target, **more)):
        tally.raises("groups of no chunk", ValueError, few, lambda: call(task_chunks=[1, 0]))
        for order in ("", "Source", "targets", "\ud800"):
            tally.raises(f"{order!r} as an order", ValueError, "order: it is `target` or `source`", lambda: call(order=order))
        for order in (None, 1, b"source", ["source"]):
            tally.raises(f"{order!r} as an order", TypeError, f"order: a text is wanted, and not a {type(order).__name__}", lambda: call(order=order))
    tally.same("an order of numpy's", [*copied(order=np.str_("source"))], [*copied(order="source")])
    tally.raises("a name for an encoding", TypeError, "encoding: an Encoding is wanted, and not a str", lambda: grid.locate("default", [1, 1]))
    for name, given in {"encoding": ("v2", target, encoding), "target_encoding": (encoding, target, "v2")}.items():
        tally.raises(f"a name for {name}", TypeError, f"{name}: an Encoding is wanted, and not a str", lambda: grid.tasks(*given))
    tally.raises("a dict for a target", TypeError, "target: a Grid is wanted, and not a dict", lambda: grid.tasks(encoding, REGULAR, encoding))
    refused = {(5,): f"the target's array: {lengths}", (5, 7, 1): "the target's array: incompatible dimensionality 3, expected 2", (5, 6): moved}
    for shape, words in refused.items():
        apart = Grid(shape, regular(*shape))
        tally.raises(f"a target of {shape}", ValueError, words, lambda: grid.tasks(encoding, apart, encoding))
    larger = Grid([5, 8], regular(5, 4))
    tally.same("a larger target", [task.targets[0].whole for task in grid.tasks(encoding, larger, encoding)], [True, False])
    for walk, count in ((grid.iter_chunk_indices(), 9), (grid.iter_chunk_subsets(), 9), (copied(), 4)):
        tally.same("a walk is an iterator", (iter(walk) is walk, len([*walk]), [*walk]), (True, count, []))
    made = [grid.box(...), grid.locate(encoding, [1, 1]), next(copied()), rectilinear.chunk_indices_counted([1, 1])]
    tally.same("answers are copied", pickle.loads(pickle.dumps(made)), made)


def little_memory(tally):
    """After a call that was out of memory everything answers as before."""
    source, target, encoding = Grid([10**6], regular(1)), Grid([10**6], regular(10**6)), Encoding("default")
    listed = Grid([10**6], grid_metadata("rectilinear", [[1] * 10**6]))
    for call in (lambda: next(source.tasks(encoding, target, encoding)), listed.written_metadata, lambda: listed.chunk_origin([10**7])):
        with at_most(used() + 2**20):
            found = outcome(call)
        tally.same("a call under little memory", found[0], MemoryError)
        tally.same("the next one", (source.chunk_origin([4]), next(source.tasks(encoding, source, encoding)).targets[0].key), ((4,), "c/0"))
    tally.same("with enough of it", (listed.chunk_origin([10**7]), listed.runs(0)), (None, 1))


def python_calls(tally):
    plans = moved, shares, counts, changed, bytes_of_chunks
    for group in (by_methods, beside_models, pages, *plans, selections, stored, program, typed, values, little_memory):
        group(tally)
