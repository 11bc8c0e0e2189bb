#!/usr/bin/env python3
"""Gives any values to the arguments of the Python package's public calls, and tells what they do that they shouldn't.

    bindings/fuzz.py [--seconds 5] [--seed 1]
    bindings/fuzz.py --seed 17 --call 203

It needs numpy and the shared library, as the package does. The calls are made in processes of their own, each with a
seed, and each call draws its values from the seed and its number alone; so the second form makes one call again. A call
may answer, or raise TypeError or ValueError with words, or MemoryError; a selection may also be out of bounds, and a
folder missing. Where the values are whole numbers in any dress, it has to answer, and the answer is compared with plain
arithmetic, that of a selection with numpy's; where one of them is no such number, it has to be refused. It is a fault
besides where a process is ended by a signal, as it is by a call that takes longer than a minute. The status is then 1.
"""
import argparse
import array
import itertools
import json
import math
import os
import pathlib
import pickle
import random
import signal
import subprocess
import sys
import tempfile
import time

HERE = pathlib.Path(__file__).resolve().parent
sys.path[:0] = [str(HERE / "python"), str(HERE), str(HERE.parent / "tools")]
sys.dont_write_bytecode = True
from built import shared_library  # noqa: E402
from byte_ranges import byte_ranges as model_ranges, great_boxes, small_boxes  # noqa: E402
from call_names import CALLS, OF_RECTILINEAR, WALKS  # noqa: E402
from chunk_plans import changed_chunks_by_numbers, share as share_of_lines  # noqa: E402
from extensions import GREATEST, Refused, grid_metadata, regular  # noqa: E402
from memory import set_most, used  # noqa: E402
from task_questions import answer_of  # noqa: E402

CALLS_OF_A_SEED = 3000
LONGEST = 60  # seconds
MOST_MEMORY = 2**30  # bytes of address space, beside what the process has at first
REFUSED = "refused"
ALLOWED = (TypeError, ValueError, MemoryError)


class Wrong(Exception):
    """A call did what it shouldn't."""


# ---- values of any kind


def any_number(rng):
    near = rng.choice([0, 1, 2, 5, 255, 2**31, 2**32, 2**53, 2**63, 2**64, 2**70, 10**5000])
    return rng.choice([1, -1]) * (near + rng.randrange(-2, 3))


def any_text(rng):
    return rng.choice(
        ["", "c", "c/1", "default", "v2", "regular", "\ud800", "c/\udcff", "\0", "é漢", "0" * 5000, "nan", "18446744073709551616", "[1]", "null"]
    )


def any_bytes(rng):
    return rng.choice([b"", b"c/1", b"c/1c/2", b"\xff\xfe", b"\0" * 9, bytes(rng.randrange(256) for _ in range(rng.randrange(40)))])


def any_shape(rng):
    shape = [rng.choice([0, 1, 1, 2, 2, 3, 5]) for _ in range(rng.randrange(5))]
    if shape and rng.random() < 0.03:
        shape[0] = rng.choice([10**4, 2**31, 2**40])
        return [*shape, 0] if rng.random() < 0.5 else shape
    return shape


def any_array(rng):
    kind = rng.choice("? b B h H i I q Q e f d g F D S3 U2 V5 O M8[s] m8[s] >u8 >i4 <i8 u8,u8".split())
    shape = any_shape(rng)
    if any(size > 10 for size in shape):
        return np.broadcast_to(np.zeros((), kind), shape)
    numbers = np.zeros(shape, kind)
    if numbers.dtype.kind in "biufO" and numbers.size:
        numbers.ravel()[:] = np.array([rng.choice([0, 1, 3, 100]) for _ in range(numbers.size)]).astype(numbers.dtype)
    return any_layout(rng, numbers)


def any_layout(rng, numbers):
    """The same items, laid out otherwise in memory."""
    how = rng.randrange(8)
    if numbers.dtype.hasobject or numbers.ndim == 0 or how == 0:
        return numbers
    if how == 1:
        return np.asfortranarray(numbers)
    if how == 2:
        return np.repeat(numbers, 2, axis=0)[::2]
    if how == 3:
        return np.flip(np.flip(numbers).copy())
    if how == 4 and numbers.size:
        return misaligned(numbers)
    if how == 5:
        numbers = numbers.copy()
        numbers.flags.writeable = False
    if how == 6:
        return numbers.view(type("Derived", (np.ndarray,), {}))
    return numbers.astype(numbers.dtype.newbyteorder()) if how == 7 else numbers


def any_object(rng):
    errors = [IndexError, KeyError, RuntimeError, ZeroDivisionError, StopIteration, RecursionError]
    errors += [OverflowError, AttributeError, OSError, MemoryError]
    endless, deep = [], []
    endless.append(endless)
    for _ in range(rng.choice([30, 200, 5000])):
        deep = [deep]
    makers = [
        lambda: None, lambda: rng.random() < 0.5, lambda: rng.choice([0.0, -0.0, 1.0, 0.5, 1e308, float("nan"), float("inf")]), lambda: 1j,
        lambda: Raising(rng.choice(errors)("of its own")), lambda: Index(rng.choice([1, -1, 2**64, "1", None, 1.0])), lambda: endless, lambda: deep,
        lambda: Lying(rng.choice([-1, 0, 1, 2**70, "1"]), rng.choice([[1], [1, 2], None, np.zeros(2)])), lambda: {1, 2}, lambda: {"name": {1}}, dict,
        lambda: (number for number in [1, 2]), lambda: range(rng.randrange(4)), lambda: Grid([5], regular(1)), lambda: Encoding("v2"),
        lambda: {rng.choice([1, None, "name", b"name"]): any_value(rng)}, lambda: rng.choice([np.uint64, np.int8, np.float32, np.bool_])(1),
        lambda: Grid, lambda: len, lambda: np.str_("c/1"),
        lambda: array.array("Q", [1, 2]), lambda: array.array("d", [1]), lambda: np.datetime64("NaT"), lambda: np.ma.masked, lambda: Ellipsis, object,
    ]  # fmt: skip
    return rng.choice(makers)()


def any_value(rng):
    how = rng.randrange(8)
    if how == 0:
        return any_number(rng)
    if how == 1:
        return any_text(rng)
    if how == 2:
        given = any_bytes(rng)
        return rng.choice([given, bytearray(given), memoryview(given), memoryview(given)[:: rng.choice([1, 2, -1])], np.bytes_(given)])
    if how in (3, 4):
        return any_array(rng)
    if how == 5:
        return [any_value(rng) if rng.random() < 0.2 else rng.choice([1, 2, np.uint64(3)]) for _ in range(rng.randrange(4))]
    return any_object(rng)


# ---- values that stand for whole numbers


def dressed(rng, numbers):
    """Whole numbers in another form: an array of uint64 becomes lists, objects, or an array of another type and layout."""
    most = int(numbers.max()) if numbers.size else 0
    if numbers.size == 0:
        return numbers.astype(rng.choice(["f8", "u8", "i4", "?", "O"]))
    how = rng.randrange(6)
    if how == 0:
        return numbers.tolist()
    if how == 1:
        scalars = [kind for kind in (np.uint64, np.int64, np.uint8, int, Index) if kind not in (np.int64, np.uint8) or most <= np.iinfo(kind).max]
        objects = np.empty(numbers.size, object)
        objects[:] = [rng.choice(scalars)(number) for number in numbers.ravel().tolist()]
        objects = objects.reshape(numbers.shape)
        return objects if rng.random() < 0.3 else objects.tolist()
    if how == 2 and numbers.ndim > 1:
        return rng.choice([list, tuple])(numbers)
    fitting = [kind for kind in ("u8", "i8", "u4", "i4", "u2", "i2", "u1", "i1", ">u8", ">i8", "O") if kind == "O" or most <= np.iinfo(kind).max]
    return any_layout(rng, numbers.astype(rng.choice(fitting)))


def draw(rng, good):
    """A good value and True, or any value and False."""
    return (good, True) if rng.random() < 0.7 else (any_value(rng), False)


def spoiled(rng, numbers):
    """Numbers of which one is no whole number from 0 to 18446744073709551615."""
    place, how = rng.randrange(numbers.size), rng.randrange(4)
    if how == 0:
        kind = rng.choice(["i1", "i8", ">i4"])
        signed = (numbers & np.uint64(127)).astype(kind)
        signed.ravel()[place] = -rng.choice([1, 128])
        return any_layout(rng, signed)
    objects = numbers.astype(object)
    objects.ravel()[place] = rng.choice(
        [-1, 2**64, 10**5000, -(2**63), 0.5, 1.0, None, "1", np.float64(1), Index(2**64), Index(-1), Index("1"), np.int8(-1)]
    )
    return objects if how == 1 else objects.tolist()


def draw_lists(rng, lists, width):
    """Lists of so many numbers, in some shape and dress, and what they stand for, as an array. That is None where any value is taken instead, and
    REFUSED where one of them is no such number."""
    numbers = np.array(lists, np.uint64).reshape(len(lists), width)
    how = rng.random()
    if how < 0.3:
        return any_value(rng), None
    if how < 0.4 and numbers.size:
        return spoiled(rng, numbers), REFUSED
    shapes = [numbers.shape, (1, *numbers.shape), (len(lists), 1, width)]
    shapes += [(width,)] if len(lists) == 1 else []
    numbers = numbers.reshape(rng.choice(shapes))
    return dressed(rng, numbers), numbers


def some_lists(rng, sizes):
    """Lists of numbers, most of them below these sizes."""
    return [[number_near(rng, size) for size in sizes] for _ in range(rng.choice([0, 1, 1, 2, 7]))]


def number_near(rng, size):
    return rng.choice([rng.randrange(size), rng.randrange(size), size, rng.choice([0, GREATEST, 2**63, size + 1])])


# ---- calls, and what they may answer


def attempt(call, *others):
    """The answer of a call, and whether there is one; what it raises has to be an allowed error with words, or one of the others."""
    try:
        return call(), True
    except others as error:
        return error, False
    except ALLOWED as error:
        if not isinstance(error, MemoryError) and (type(error) not in ALLOWED or not str(error) or "ctypes" in str(error)):
            raise Wrong(f"raised {error!r}") from error
        return error, False
    except Exception as error:
        raise Wrong(f"raised {error!r}") from error


def demand(what, found, expected):
    if found != expected:
        raise Wrong(f"{what}: {str(found)[:300]}, and {str(expected)[:300]} is right")


def check_form(answer):
    """The arrays of a batch are uint64, new and of one shape, and the last one says which answers there are."""
    *lists, found = answer
    demand("types", [part.dtype for part in answer], [np.dtype(np.uint64)] * len(lists) + [np.dtype(bool)])
    demand("shapes", {part.shape[:-1] for part in lists}, {found.shape})
    for part in lists:
        demand("numbers of no answer", bool(part[~found].any()), False)


def check_batch(answer, is_answered, numbers, expected):
    """The answer to lists of numbers, beside plain arithmetic: `expected` gives the lists of one answer, or None."""
    if numbers is None or numbers is REFUSED:
        if is_answered:
            check_form(answer)
            demand("an answer to what are no such numbers", numbers, None)
        return
    if not is_answered:
        raise Wrong(f"{numbers.tolist()} is refused: {answer!r}")
    check_form(answer)
    *lists, found = answer
    demand("shapes", [part.shape for part in lists], [numbers.shape] * len(lists))
    width = numbers.shape[-1]
    rows = [numbers.reshape(found.size, width).tolist(), *(part.reshape(found.size, width).tolist() for part in lists)]
    for index, *parts, mark in zip(*rows, found.ravel().tolist()):
        right = expected(index)
        demand(index, parts if mark else None, None if right is None else list(right))


def draw_list(rng, numbers):
    """One list of numbers in some dress, and what it stands for. That is None where any value is taken instead, and REFUSED where one of them is no
    such number."""
    how, numbers = rng.random(), np.array(numbers, np.uint64)
    if how < 0.2:
        return any_value(rng), None
    if how < 0.3 and numbers.size:
        return spoiled(rng, numbers), REFUSED
    return dressed(rng, numbers), numbers.tolist()


def check_one(answer, is_answered, drawn, expected):
    """The answer to lists that were drawn, beside plain arithmetic, which may refuse it."""
    if REFUSED in drawn:
        demand("whether what is no such number is refused", is_answered, False)
    if REFUSED in drawn or None in drawn:
        return
    try:
        right = expected(*drawn)
    except Refused as refused:
        demand(f"{drawn} is refused", (type(answer), str(answer)), (ValueError, refused.text))
    else:
        demand(drawn, as_lists(answer) if is_answered else repr(answer), right)


def as_lists(answer):
    """An answer with lists in the place of its tuples."""
    return [as_lists(part) for part in answer] if isinstance(answer, (tuple, list)) else answer


def model_of(rng, most_dimensions=3):
    """A grid as the model has it, and as the package has it."""
    model = bounded(rng, rng.randrange(most_dimensions + 1))
    return model, Grid(model.shape, model.metadata())


def rectilinear_model_of(rng):
    """The same of a grid of listed edges, along one dimension or two."""
    edges = [[rng.randrange(1, 6) for _ in range(rng.randrange(1, 8))] for _ in range(rng.choice([1, 2]))]
    model = Model(grid_metadata("rectilinear", edges), [max(1, sum(listed) - rng.randrange(3)) for listed in edges])
    return model, Grid(model.shape, model.metadata())


def part_of(answer, place):
    return answer and [answer[place]]


def ask_of_grid(rng):
    model, grid = model_of(rng)
    calls = {
        "chunk_indices": lambda index: part_of(model.home(index), 0),
        "chunk_element_indices": lambda index: part_of(model.home(index), 1),
        "find_home": model.home,
        "subset": model.subset,
    }
    name = rng.choice(list(calls))
    sizes = model.grid_shape() if name == "subset" else model.shape
    given, numbers = draw_lists(rng, some_lists(rng, sizes), len(model.shape))
    answer, is_answered = attempt(lambda: getattr(grid, name)(given))
    check_batch(answer, is_answered, numbers, calls[name])


def ask_covers(rng):
    model, grid = model_of(rng)
    starts = some_lists(rng, model.shape)
    width = len(model.shape)
    draw_size = lambda start, size: 0 if start + size > GREATEST else rng.choice([0, 1, rng.randrange(size + 1)])
    shapes = [list(map(draw_size, row, model.shape)) for row in starts]
    numbers = [np.array(lists, np.uint64).reshape(len(starts), width) for lists in (starts, shapes)]
    given = [draw(rng, dressed(rng, part)) for part in numbers]
    answer, is_answered = attempt(lambda: grid.chunks_in_array_subset(given[0][0], given[1][0]))
    if given[0][1] and given[1][1]:
        boxes = iter(shapes)
        check_batch(answer, is_answered, numbers[0], lambda start: model.chunks_in_array_subset(start, next(boxes)))
    elif is_answered:
        check_form(answer)


def ask_parts(rng):
    model, grid = model_of(rng)
    start = [rng.randrange(size) for size in model.shape]
    sizes = [
        rng.choice([0, 1, rng.randrange(min(9, size - begin) + 1), size - begin + 1])
        for begin, size in zip(start, model.shape)
    ]
    first, most = rng.choice([0, 0, 1, 7, 10**6, GREATEST]), rng.choice([None, 0, 1, 3, 10**4, GREATEST])
    box = [draw(rng, dressed(rng, np.array(numbers, np.uint64))) for numbers in (start, sizes)]
    drawn = [draw(rng, Encoding("default")), *box, draw(rng, first), draw(rng, most)]
    answer, is_answered = attempt(lambda: grid.parts(*(value for value, _good in drawn)))
    if not all(good for _value, good in drawn):
        return
    if not is_answered:
        raise Wrong(f"the parts of {start} {sizes} from {first} at most {most} are refused: {answer!r}")
    right = model.parts(start, sizes, DEFAULT)
    demand("whether there is a plan", answer is not None, right is not None)
    if answer is not None:
        right = list(right)
        wanted = right[first : None if most is None else first + most]
        demand("parts", (seen_parts(answer), answer.in_all), (wanted, len(right)))


def ask_keys(rng):
    width = rng.randrange(4)
    encoding = Encoding(rng.choice(["default", {"name": "default", "configuration": {"separator": "/"}}]))
    given, numbers = draw_lists(rng, some_lists(rng, [rng.choice([1, 10, 2**40])] * width), width)
    name = rng.choice(["encode", "encode_text"])
    answer, is_answered = attempt(lambda: getattr(encoding, name)(given))
    if numbers is None or numbers is REFUSED:
        demand("an answer to what are no such numbers", is_answered and numbers is REFUSED, False)
        return
    if not is_answered:
        raise Wrong(f"{numbers.tolist()} has no keys: {answer!r}")
    keys = list(map(DEFAULT.key, numbers.reshape(-1, width).tolist() if width else [[]] * int(np.prod(numbers.shape[:-1]))))
    if name == "encode_text":
        offsets = offsets_of(keys)
        demand("keys", (answer[0], answer[1].tolist(), answer[1].dtype), ("".join(keys).encode(), offsets, np.dtype(np.uint64)))
        return
    nested = np.empty(len(keys), object)
    nested[:] = keys
    demand("keys", answer, nested.reshape(numbers.shape[:-1]).tolist())


def ask_chunks_of_keys(rng):
    width = rng.choice([0, 1, 2, 2, 5])
    chunks = some_lists(rng, [rng.choice([1, 10, 2**40])] * width)
    no_keys = ["", "c", "c/01", "c/1/", "/", "c/+1", "c/18446744073709551616", "0", "é"]
    keys = [DEFAULT.key(chunk) if rng.random() < 0.8 else rng.choice(no_keys) for chunk in chunks]
    right = [DEFAULT.chunk(key, width) for key in keys]
    expected = [chunk or [0] * width for chunk in right], [chunk is not None for chunk in right]
    dimensionality = draw(rng, rng.choice([int, np.int64, np.uint8, Index])(width))
    encoding = Encoding("default")
    if rng.random() < 0.5:
        dress = rng.choice([str, str.encode, lambda key: bytearray(key.encode()), lambda key: memoryview(key.encode()), np.str_])
        drawn = [draw(rng, rng.choice([list, tuple, iter])(map(dress, keys))), dimensionality]
        answer, is_answered = attempt(lambda: encoding.decode(*(value for value, _good in drawn)))
    else:
        texts = [key.encode() for key in keys]
        text, offsets = b"".join(texts), np.array(offsets_of(texts), np.uint64)
        laid = rng.choice([bytes, bytearray, memoryview, lambda text: memoryview(text[::-1])[::-1], lambda text: any_layout(rng, as_array(text))])
        drawn = [draw(rng, laid(text)), draw(rng, dressed(rng, offsets)), dimensionality]
        answer, is_answered = attempt(lambda: encoding.decode_text(*(value for value, _good in drawn)))
    if all(good for _value, good in drawn):
        if not is_answered:
            raise Wrong(f"{keys} are refused: {answer!r}")
        demand(keys, (answer[0].tolist(), answer[1].tolist()), expected)
    if is_answered:
        check_form(answer)


def as_array(text):
    return np.frombuffer(text, np.uint8)


def ask_of_one(rng):
    """The calls of one chunk, of one element and of one box."""
    model, grid = rng.choice([model_of, rectilinear_model_of])(rng)
    near = lambda sizes: [number_near(rng, size) for size in sizes]
    chunk, index, encoding = near(model.grid_shape()), near(model.shape), draw(rng, Encoding("default"))
    room = [rng.choice([0, 1, 2, 9, GREATEST - start]) for start in chunk]
    calls = {
        "chunk_shape": [chunk], "chunk_origin": [chunk], "chunk_indices_inbounds": [chunk], "array_indices_inbounds": [index],
        "chunks_subset": [chunk, room], "chunk_indices_counted": [index], "locate": [index],
    }  # fmt: skip
    name = rng.choice(list(calls))
    given, drawn = zip(*(draw_list(rng, numbers) for numbers in calls[name]))
    if name == "locate":
        answer, is_answered = attempt(lambda: grid.locate(encoding[0], *given))
        drawn = (*drawn, None) if not encoding[1] else drawn
        check_one(answer, is_answered, drawn, lambda index: (found := model.locate(index, DEFAULT)) and list(found.values()))
    elif name == "chunk_indices_counted":
        answer, is_answered = attempt(lambda: grid.chunk_indices_counted(*given).chunk)
        check_one(answer, is_answered, drawn, lambda index: has_runs(model, name) and model.chunk_indices(index))
    else:
        answer, is_answered = attempt(lambda: getattr(grid, name)(*given))
        check_one(answer, is_answered, drawn, getattr(model, name))


def has_runs(model, name):
    if model.name != "rectilinear":
        raise Refused(f"there is no call `{name}`")
    return True


def ask_runs(rng):
    model, grid = rng.choice([model_of, rectilinear_model_of])(rng)
    dimension, is_good = draw(rng, rng.choice([0, 1, 2, GREATEST]))
    answer, is_answered = attempt(lambda: grid.runs(dimension))
    check_one(answer, is_answered, [dimension if is_good else None], lambda dimension: has_runs(model, "runs") and model.runs(dimension))
    demand("metadata", grid.written_metadata(), model.metadata())


def ask_walks(rng):
    model, grid = model_of(rng)
    in_all = math.prod(model.grid_shape())
    first, is_good = draw(rng, rng.choice([0, rng.randrange(in_all), in_all, GREATEST]))
    name = rng.choice(WALKS)
    answer, is_answered = attempt(lambda: [*itertools.islice(getattr(grid, name)(first), 20)])
    if is_good:
        right = [*itertools.islice(getattr(model, name)(), min(first, in_all), min(first, in_all) + 20)]
        demand(f"{name} from {first}", as_lists(answer) if is_answered else repr(answer), right)


def drawn_copy(rng):
    """A question about the copy of a region, the grid that is asked, and the arguments by which it is asked about the copy, as they were drawn."""
    model, grid = model_of(rng, 2)
    target = bounded(rng, len(model.shape))
    lengths = [rng.randrange(min(pair) + 1) for pair in zip(model.shape, target.shape)]
    start, at = ([rng.randrange(size - length + 1) for size, length in zip(shape, lengths)] for shape in (model.shape, target.shape))
    copy = {"subset": [start, lengths], "at": at, "task_chunks": [rng.randrange(1, 4) for _ in at], "order": rng.choice(["target", "source"])}
    question = {
        "shape": model.shape, "chunk_grid": model.metadata(), "chunk_key_encoding": "default",
        "target": {"shape": target.shape, "chunk_grid": target.metadata(), "chunk_key_encoding": "v2"}, **copy,
    }  # fmt: skip
    given = {"target": Grid(target.shape, target.metadata()), **copy}
    return question, grid, {name: draw(rng, value) for name, value in given.items()}


def ask_tasks(rng):
    question, grid, drawn = drawn_copy(rng)
    drawn |= {"encoding": draw(rng, Encoding("default")), "target_encoding": draw(rng, Encoding("v2"))}
    right = answer_of({**question, "call": "tasks", "items": GREATEST})["items"]
    if rng.random() < 0.5:
        first, most = rng.choice([0, 1, 7, GREATEST]), rng.choice([None, 0, 1, 5, GREATEST])
        drawn |= {"first": draw(rng, first), "most": draw(rng, most)}
        right = right[first:][:most]
    else:
        workers = rng.choice([1, 2, 3, 50, GREATEST])
        worker = rng.randrange(workers)
        drawn["share"] = draw(rng, rng.choice([tuple, list, np.array])([np.uint64(worker), np.uint64(workers)]))
        right = [right[line] for line in share_of_lines(len(right), worker, workers)]
    found, is_answered = attempt(lambda: [*itertools.islice(grid.tasks(**values_of(drawn)), 10**4)])
    if are_good(drawn):
        demand("tasks", [task_of_model(task) for task in found] if is_answered else repr(found), right)


def ask_task_counts(rng):
    question, grid, drawn = drawn_copy(rng)
    found, is_answered = attempt(lambda: grid.task_counts(**values_of(drawn)))
    if are_good(drawn):
        right = answer_of({**question, "call": "task_counts"})
        demand("counts", found._asdict() if is_answered else repr(found), {name: math.prod(numbers) for name, numbers in right.items() if name != "share"})


def values_of(drawn):
    return {name: value for name, (value, _good) in drawn.items()}


def are_good(drawn):
    return all(good for _value, good in drawn.values())


def ask_changed(rng):
    model, grid = rng.choice([model_of, rectilinear_model_of])(rng)
    shape, drawn = draw_list(rng, [number_near(rng, size) for size in model.shape][: rng.choice([0, 1, 9, 9, 9])])
    answer, is_answered = attempt(lambda: grid.changed_chunks(shape))

    def right(resized):
        try:
            return [*changed_chunks_by_numbers(model, Model(model.metadata(), resized)).values()]
        except Refused as refused:
            raise Refused(f"field `resize`: {refused.text}") from refused

    check_one([list(numbers) for _what, numbers in sorted(vars(answer).items())] if is_answered else answer, is_answered, [drawn], right)


def ask_bytes(rng):
    """Bytes of small chunks and of such at the greatest numbers."""
    edges, (start, shape), item_size, order = next(rng.choice([small_boxes, great_boxes])(rng.randrange(2**32), 1))
    chunk_shape, drawn_edges = draw_list(rng, edges)
    start, drawn_start = draw_list(rng, start)
    shape, drawn_shape = draw_list(rng, shape)
    others = [(start, shape), rng.choice([int, Index])(item_size), rng.choice([str, np.str_])(order)]
    given = [draw(rng, value) for value in others]
    answer, is_answered = attempt(lambda: byte_ranges(chunk_shape, *(value for value, _good in given)))
    if not all(good for _value, good in given):
        return

    def right(*lists):
        found = model_ranges(lists[0], lists[1:], item_size, order)
        return found and [found[name] for name in ByteRanges._fields]

    check_one(answer, is_answered, [drawn_edges, drawn_start, drawn_shape], right)


def task_of_model(task):
    """What the package answers of a task, as the model has it."""
    pieces = [[{name: as_lists(part) for name, part in piece._asdict().items()} for piece in end] for end in (task.sources, task.targets)]
    return {"buffer": list(task.buffer), "from": pieces[0], "to": pieces[1]}


def ask_box(rng):
    """A selection, of which numpy selects the same elements, where it is none of those that are refused."""
    model, grid = model_of(rng)
    number = lambda: rng.choice([int, int, np.int64, np.int8, Index])(rng.randrange(-45, 45))
    bound = lambda: rng.choice([None, number(), number(), 2**70, -(2**70)])
    one = lambda: rng.choice([slice(bound(), bound()), slice(bound(), bound(), rng.choice([1, np.int8(1)])), ..., number(), number(), 2**70])
    drawn = [draw(rng, one()) for _ in range(rng.choice([0, 1, 1, len(model.shape), len(model.shape) + 1]))]
    selection = tuple(item for item, _good in drawn)
    selection, is_good = (selection[0], drawn[0][1]) if len(drawn) == 1 and rng.random() < 0.5 else (selection, all(good for _item, good in drawn))
    if rng.random() < 0.1:
        selection, is_good = slice(any_value(rng), any_value(rng), any_value(rng)), False
    answer, is_answered = attempt(lambda: grid.box(selection), IndexError)
    if not is_answered and (not is_good or isinstance(answer, MemoryError)):
        return
    elements = np.arange(math.prod(model.shape)).reshape(model.shape)
    try:
        right = np.ravel(elements[selection]).tolist()
    except IndexError:
        demand(f"{selection} is out of bounds", type(answer), IndexError)
        return
    box = tuple(slice(start, start + size) for start, size in zip(*answer)) if is_answered else repr(answer)
    demand(f"{selection} of {model.shape}", elements[box].ravel().tolist() if is_answered else box, right)


def ask_stored(rng):
    """Any values as a stored array, and folders with any metadata."""
    grid, encoding = Grid([5, 7], regular(2, 3)), Encoding({"name": "v2", "configuration": {"separator": "."}})
    attempt(lambda: rng.choice([Grid, Encoding]).of(any_value(rng)), OSError)
    members = {"zarr_format": 2, "shape": [5, 7], "chunks": [2, 3]}
    if rng.random() < 0.5:
        members = {"zarr_format": 3, "node_type": "array", "shape": [5, 7], "chunk_grid": grid.metadata, "chunk_key_encoding": encoding.metadata}
    name = "zarr.json" if "node_type" in members else ".zarray"
    drawn = {member: (value, True) if rng.random() < 0.9 else (any_json(rng), False) for member, value in members.items() if rng.random() < 0.98}
    is_good = len(drawn) == len(members) and all(good for _value, good in drawn.values())
    text = json.dumps({member: value for member, (value, _good) in drawn.items()}).encode()
    if rng.random() < 0.1:
        text, is_good = rng.choice([text[:-1], any_bytes(rng), json.dumps(any_json(rng)).encode()]), False
    with tempfile.TemporaryDirectory() as folder:
        pathlib.Path(folder, name).write_bytes(text)
        found = [attempt(lambda: kind.of(folder), OSError) for kind in (Grid, Encoding)]
    if is_good:
        demand("what is stored", found, [(grid, True), (encoding, True)])


def any_json(rng):
    """Any value that JSON has a form for."""
    how = rng.randrange(6)
    if how == 0:
        return [any_json(rng) for _ in range(rng.randrange(3))]
    if how == 1:
        return {rng.choice(["name", "configuration", "chunk_shape", "é"]): any_json(rng) for _ in range(rng.randrange(3))}
    return rng.choice([None, True, 0, 1, -1, 2, 3, 2**64, 1.5, float("nan"), "", "array", "group", "regular", "v2", "\ud800", "/"])


def make_things(rng):
    """Grids and encodings of any values, and what each made one is asked for."""
    edges = [rng.randrange(1, 5) for _ in range(rng.randrange(3))]
    shape = draw(rng, dressed(rng, np.array([7] * len(edges), np.uint64)))
    configuration = {"chunk_shape": draw(rng, dressed(rng, np.array(edges, np.uint64)))[0]}
    metadata = {"name": draw(rng, "regular")[0], "configuration": draw(rng, configuration)[0]}
    for make in (
        lambda: Grid(shape[0], draw(rng, metadata)[0]), lambda: Encoding(any_value(rng)),
        lambda: Encoding({"name": draw(rng, "v2")[0], "configuration": draw(rng, {"separator": draw(rng, "/")[0]})[0]}),
    ):  # fmt: skip
        made, is_made = attempt(make)
        if is_made:
            again, _is_made = attempt(lambda: (eval(repr(made)), pickle.loads(pickle.dumps(made)), {made: 1}))
            demand("copies", again[:2], (made, made))
            demand("its form", (type(made.metadata) in (str, dict), type(made.name), made == any_text(rng)), (True, str, False))


def ask_any_question(rng):
    model, grid = model_of(rng, 2)
    calls = [call for call in CALLS if call not in OF_RECTILINEAR]
    index = [rng.randrange(size) for size in model.shape]
    of = rng.choice([index, [index, [1] * len(index)], "c/1", 0])
    members = {
        "call": rng.choice(calls), "shape": model.shape, "chunk_grid": grid.metadata, "chunk_key_encoding": "default", "of": of,
        "items": rng.choice([0, 1, 100, GREATEST]), "dimensionality": rng.choice([0, 1, 2, GREATEST]),
        "target": {"chunk_grid": "regular", "chunk_key_encoding": "v2"} | ({"chunk_grid": grid.metadata} if rng.random() < 0.9 else {}),
        "share": [rng.randrange(3), rng.choice([1, 2, 3, GREATEST])], "resize": index, "order": rng.choice(["source", "target"]),
        "subset": [[0] * len(index), index], "at": [0] * len(index), "task_chunks": [rng.choice([1, 2, GREATEST]) for _ in index],
        "chunk_shape": model.shape, "item_size": rng.choice([1, 8, GREATEST]), "memory_order": rng.choice("CF"),
    }  # fmt: skip
    question = {name: value if rng.random() < 0.9 else any_value(rng) for name, value in members.items() if rng.random() < 0.95}
    told, is_answered = attempt(lambda: answer(draw(rng, question)[0]))
    if is_answered and not told.startswith(("refused: ", "unreadable: ")):
        json.loads(told)


KINDS = (
    ask_of_grid, ask_of_grid, ask_covers, ask_parts, ask_keys, ask_chunks_of_keys, make_things, ask_any_question,
    ask_of_one, ask_of_one, ask_runs, ask_walks, ask_tasks, ask_task_counts, ask_changed, ask_bytes, ask_box, ask_stored,
)  # fmt: skip


# ---- processes


def make_calls(seed, numbers, at, deadline):
    """In a process of its own: makes the calls with these numbers, and leaves in a file the number of the one that it is at."""
    set_most(used() + MOST_MEMORY)
    np.seterr(all="ignore")
    wrong = made = 0
    for number in numbers:
        if time.monotonic() > deadline or wrong >= 5:
            break
        os.pwrite(at, b"%20d" % number, 0)
        signal.alarm(LONGEST)
        rng = random.Random(f"{seed} {number}")
        kind = rng.choice(KINDS)
        try:
            kind(rng)
        except Wrong as fault:
            wrong += 1
            print(f"seed {seed}, call {number}, {kind.__name__}: {fault}", flush=True)
        signal.alarm(0)
        made += 1
    os.pwrite(at, b"%20d" % made, 32)
    return wrong


def one_seed(seed, deadline, call):
    """Makes the calls of a seed. Gives how many were made and whether one did what it shouldn't."""
    with tempfile.TemporaryFile() as at:
        words = [sys.executable, "-W", "ignore", __file__, "--seed", str(seed), "--at", str(at.fileno()), "--until", str(deadline)]
        ended = subprocess.run(words + ([] if call is None else ["--call", str(call)]), pass_fds=[at.fileno()]).returncode
        told = os.pread(at.fileno(), 64, 0)
        if ended < 0 or len(told) < 52:
            how = f"by signal {-ended} ({signal.Signals(-ended).name})" if ended < 0 else f"with status {ended}"
            print(f"seed {seed}, call {told[:20].decode().strip()}: the process ended {how}", flush=True)
            return int(told[:20] or b"0"), True
        return int(told[32:]), ended != 0


def main():
    parser = argparse.ArgumentParser()
    parser.add_argument("--seconds", type=float, default=5)
    parser.add_argument("--seed", type=int, default=1)
    parser.add_argument("--call", type=int)
    parser.add_argument("--at", type=int, help=argparse.SUPPRESS)
    parser.add_argument("--until", type=float, help=argparse.SUPPRESS)
    chosen = parser.parse_args()
    if chosen.at is not None:
        numbers = range(CALLS_OF_A_SEED) if chosen.call is None else [chosen.call]
        sys.exit(1 if make_calls(chosen.seed, numbers, chosen.at, chosen.until) else 0)
    deadline = time.monotonic() + chosen.seconds
    seed, calls, faults = chosen.seed, 0, 0
    while seed == chosen.seed or (chosen.call is None and time.monotonic() < deadline):
        made, is_wrong = one_seed(seed, deadline, chosen.call)
        seed, calls, faults = seed + 1, calls + made, faults + is_wrong
    print(f"{calls} calls with any values, by {seed - chosen.seed} seeds from {chosen.seed} on, {faults} of them with faults")
    sys.exit(1 if faults else 0)


if __name__ == "__main__":
    import numpy as np

    os.environ.setdefault("ZARRS_CHUNKS_LIBRARY", str(shared_library()))
    if "--at" in sys.argv:
        from chunk_grids import Grid as Model
        from faults import DEFAULT, bounded, offsets_of, seen_parts
        from odd_values import Index, Lying, Raising, misaligned
        from zarrs_chunks import ByteRanges, Encoding, Grid, answer, byte_ranges
    main()
