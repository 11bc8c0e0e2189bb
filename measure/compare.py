#!/usr/bin/env python3
"""Asks `chunkcalls` and `chunkwhere` generated questions, and compares their answers with a second opinion.

    python3 measure/compare.py [--questions N] [--arrays N] [--documents N] [--seed N]
                               [--calls PROGRAM] [--where PROGRAM] [--without-zarr]

There are two, and neither shares code with this repository:

- `tools/chunk_grids.py` and `tools/chunk_keys.py`, whole numbers in Python, on `--questions` questions of each call and
  on `--documents` documents, over all grids and encodings, small arrays and those at the greatest numbers, with faults
  of each kind among them;
- zarr-python 2 (Debian's `python3-zarr`, by Debian's own Python), on `--arrays` arrays with regular chunks and keys of
  version 2: it writes the array, and a box of another one, to a store, and gives a third one another shape; what is
  compared is what then lies in the store under which key, and of a box of a chunk at which bytes.

The programs are those that `rt run` built in their crates, if none are given. It prints how many answers were compared,
by call, and each that differs, and ends with the status 1 where one did. A seed asks the same questions each time.
"""
import argparse
import collections
import itertools
import json
import pathlib
import re
import sys

for folder in ("measure", "tools"):
    sys.path.insert(0, str(pathlib.Path(__file__).resolve().parent.parent / folder))
from built import builds  # noqa: E402
from byte_ranges import byte_ranges, expanded, fault_of_ranges, great_boxes, small_boxes  # noqa: E402
from call_names import CALLS, OF_BOX, OF_BYTES, OF_CHUNK, OF_INDEX, OF_KEYS, OF_RECTILINEAR, OF_RESIZE, OF_TASKS  # noqa: E402
from call_names import WALKS, WITH_ENCODING  # noqa: E402
from chunk_grids import Grid, first_of  # noqa: E402
from chunk_keys import Encoding  # noqa: E402
from chunk_plans import changed_chunks, changed_chunks_by_numbers, chunks_by_numbers, fault_of_numbers, may_go_through  # noqa: E402
from extensions import GREATEST, GRIDS, Refused, regular  # noqa: E402
from random_arrays import EQUAL, Generator  # noqa: E402
from runs import run  # noqa: E402
from task_questions import answer_of  # noqa: E402

MODEL = "the model"


def as_text(value):
    """JSON that tells `true` from `1`."""
    return json.dumps(value, sort_keys=True)


class Asking(Generator):
    """Questions and documents about arrays, some of them with a fault."""

    def question(self, call):
        """A question of a call, with a fault in one of ten."""
        if call in OF_BYTES:
            return self.of_bytes(call)
        metadata, shape = self.grid()
        while not self.may_ask(call, metadata, shape):
            metadata, shape = self.grid()
        grid, encoding = Grid(metadata, shape), self.encoding()
        question = {"call": call}
        if call not in OF_KEYS:
            question |= {"shape": shape, "chunk_grid": metadata}
        if call in OF_KEYS or call in WITH_ENCODING:
            question["chunk_key_encoding"] = encoding
        if call in OF_CHUNK or call == "encode":
            question["of"] = self.chunk(grid)
        elif call in OF_INDEX:
            question["of"] = self.index(grid)
        elif call in OF_BOX:
            question["of"] = self.box(self.chunk(grid) if call == "chunks_subset" else self.index(grid))
        elif call == "runs":
            question["of"] = self.number(len(shape) + 1)
        elif call == "decode":
            chunk = self.chunk(grid)
            question["of"] = self.key(Encoding(encoding), chunk)
            lengths = [len(chunk)] * 4 + [len(chunk) + 1, max(len(chunk) - 1, 0), GREATEST]
            question["dimensionality"] = self.random.choice(lengths)
        if call in OF_TASKS:
            question |= self.tasks(call, shape)
        if call in OF_RESIZE:
            question["resize"] = self.longer_or_shorter(shape) if self.one_in(12) else [self.resized(size) for size in shape]
        if call in WALKS or call in ("parts", "tasks"):
            question["items"] = self.number(30)
        return self.with_fault(question) if self.one_in(10) else question

    def may_ask(self, call, metadata, shape):
        """Whether the grid has the call, and its answer isn't too long: a task is given whole."""
        is_small = len(shape) <= 2 and max(shape, default=0) <= 40
        return (call not in OF_RECTILINEAR or metadata["name"] == "rectilinear") and (call != "tasks" or is_small)

    def tasks(self, call, shape):
        """A rechunking, or a region and the array that it goes to, seldom one that doesn't fit; perhaps of several chunks a task, in the order of the
        source, from which number on or which share."""
        members = self.region(shape) if max(shape, default=0) <= 40 and self.one_in(2) else {"target": self.storage(shape)}
        if self.one_in(2):
            each = [self.random.choice([1, 2, 3, self.random.randint(1, GREATEST)]) for _ in shape]
            members["task_chunks"] = [number or 1 for number in self.longer_or_shorter(each)] if self.one_in(12) else each
        if self.one_in(2):
            members["order"] = self.random.choice(["source", "target"])
        if self.one_in(2) and call == "tasks":
            members["first"] = self.number(30)
        elif self.one_in(2) and call == "task_counts":
            of = self.random.choice([1, 2, 3, 7, self.random.randint(1, GREATEST), GREATEST])
            members["share"] = [self.number(of - 1), of]
        return members

    def storage(self, shape):
        """How an array of this shape is to be stored."""
        metadata = self.grid_over(shape, self.random.choice(list(GRIDS)), max(shape, default=0) > 40)
        # So many chunks along a dimension would be gone through by the model, which takes long.
        while any(count > 2**12 for count in Grid(metadata, shape).grid_shape()):
            metadata = self.grid_over(shape, self.random.choice(list(GRIDS)), True)
        return {"chunk_grid": metadata, "chunk_key_encoding": self.encoding()}

    def region(self, shape):
        """Another array, and a box that goes there, seldom one that doesn't lie in either; perhaps where it begins."""
        sizes = [self.size(False) for _ in shape]
        box = self.box_within([min(pair) for pair in zip(shape, sizes)])
        box[0] = [self.random.randint(0, size - count) for size, count in zip(shape, box[1])]
        at = [self.random.randint(0, size - count) for size, count in zip(sizes, box[1])]
        if self.one_in(12):
            sizes = self.longer_or_shorter(sizes)
        members = {"target": {"shape": sizes, **self.storage(sizes)}}
        if not self.one_in(8):
            members["subset"] = self.box(self.longer_or_shorter(box[0]) if self.one_in(2) else box[0]) if self.one_in(12) else box
        if not self.one_in(4):
            members["at"] = self.longer_or_shorter(at) if self.one_in(12) else at
        return members

    def resized(self, size):
        """A size that the array gets along a dimension: mostly the same or one near to it, so that edges may be listed."""
        near = min(max(size + self.random.choice([-9, -2, -1, 1, 2, 9]), 0), GREATEST)
        return self.random.choice([size, size, size, near, self.number(size), self.size(size > 40)])

    def of_bytes(self, call):
        """A box of a chunk, small or at the greatest numbers, some of them with a fault; in row-major order, which isn't always said."""
        boxes = self.random.choice([small_boxes, great_boxes])(self.random.randrange(2**32), 1)
        chunk_shape, of, item_size, order = next(boxes)
        question = {"call": call, "chunk_shape": chunk_shape, "of": of, "item_size": item_size}
        return question if order == "C" and self.one_in(2) else {**question, "memory_order": order}

    def with_fault(self, question):
        call, of = question["call"], question.get("of")
        fault = self.random.choice(["metadata", "edges", "length", "box"])
        if fault == "metadata":
            member = self.random.choice([name for name in ("chunk_grid", "chunk_key_encoding") if name in question])
            broken = self.broken_metadata(question[member])
            # With another grid than a rectilinear one there is no such call.
            if call not in OF_RECTILINEAR or isinstance(broken, dict) and broken.get("name") == "rectilinear":
                return {**question, member: broken}
        elif fault == "edges" and "shape" in question:
            shape, metadata = self.not_of_one_array(question["shape"], question["chunk_grid"])
            return {**question, "shape": shape, "chunk_grid": metadata}
        elif fault == "length" and isinstance(of, list) and call != "encode":
            longer = self.longer_or_shorter
            return {**question, "of": self.box(longer(of[0])) if call in OF_BOX else longer(of)}
        elif fault == "box" and call in OF_BOX:
            start, shape = of
            far = [[GREATEST for _ in start], [1 for _ in start]]
            return {**question, "of": [start, self.longer_or_shorter(shape)] if self.one_in(2) else far}
        return question

    def document(self):
        metadata, shape = self.grid()
        encoding = self.encoding()
        grid = Grid(metadata, shape)
        document = {
            "shape": shape,
            "chunk_grid": metadata,
            "chunk_key_encoding": encoding,
            "indices": [self.index(grid) for _ in range(self.number(20))],
            "keys": [self.key(Encoding(encoding), self.chunk(grid)) for _ in range(self.number(20))],
        }
        if self.one_in(8):
            member = self.random.choice(["chunk_grid", "chunk_key_encoding"])
            document[member] = self.broken_metadata(document[member])
        elif self.one_in(8) and document["indices"]:
            place = self.number(len(document["indices"]) - 1)
            document["indices"][place] = self.longer_or_shorter(document["indices"][place])
        return document

    def not_of_one_array(self, shape, metadata):
        """A shape and metadata that mostly don't fit together."""
        if self.one_in(3):
            return self.longer_or_shorter(shape), metadata
        if self.one_in(2) or metadata["name"] in EQUAL:
            step = self.random.choice([-1, 1])
            return [min(max(size + step, 0), GREATEST) for size in shape], metadata
        member = "chunk_shape" if metadata["name"] == "rectangular" else "chunk_shapes"
        edges = list(metadata["configuration"][member])
        if edges:
            place = self.random.randrange(len(edges))
            item = edges[place] if isinstance(edges[place], list) else []
            edges[place] = self.random.choice([[], [*item, GREATEST], [*item, 1], item[:-1]])
        return shape, {**metadata, "configuration": {**metadata["configuration"], member: edges}}

    def broken_metadata(self, metadata):
        """Metadata with a fault."""
        if not isinstance(metadata, dict) or "configuration" not in metadata:
            return self.random.choice(["octal", 5, None, {"name": 5}])
        name, members = metadata["name"], metadata["configuration"]
        member = self.random.choice(["chunk_shape", "chunk_shapes", "kind", "separator", "suffix"])
        lists = [[0], [1.5], [[1, 2, 3]], [[[1, 0]]], [[[1]]], [2**64]]
        wrong = self.random.choice([None, True, 5, -1, "", "inline ", *lists, {}, "//"])
        whole = [5, [], None, {}, {"name": None}, *({"name": name, "configuration": wrong} for wrong in ([], None))]
        return self.random.choice([
            *whole,
            {**metadata, "must_understand": self.random.choice([0, None, "false"])},
            {**metadata, "name": self.random.choice(["", "Regular", "regular_bounded", name + " "])},
            {"name": name, "configuration": {**members, "more": 1}},
            {"name": name, "configuration": {**members, "A": 1, "b": 2}},
            {"name": name, "configuration": {**members, member: wrong}},
            {"name": name, "configuration": {key: value for key, value in members.items() if key != member}},
        ])


def model_answer(question):
    """What the model answers to a question."""
    call, of = question["call"].removesuffix("_u64"), question.get("of")
    grid = Grid(question["chunk_grid"], question["shape"]) if "chunk_grid" in question else None
    encoding = [Encoding(question["chunk_key_encoding"])] if "chunk_key_encoding" in question else []
    if call == "encode":
        return encoding[0].key(of)
    if call == "decode":
        if of.endswith("/"):
            raise Refused(f"invalid store key {of}")
        return encoding[0].chunk(of, question["dimensionality"])
    if call in OF_BYTES:
        return model_ranges(question)
    if call in OF_TASKS:
        return answer_of(question)
    if call in OF_RESIZE:
        return model_resize(grid, question)
    arguments = of if call in OF_BOX else [of] if "of" in question else []
    found = getattr(grid, call)(*arguments, *encoding)
    return first_of(found, question["items"]) if "items" in question and found is not None else found


def model_ranges(question):
    """Ranges by products, which in small chunks have to be those of the elements."""
    asked = question["chunk_shape"], question["of"], question["item_size"], question.get("memory_order", "C")
    found = byte_ranges(*asked)
    if found is not None and max(question["chunk_shape"], default=0) <= 5:
        fault = fault_of_ranges(found, *asked)
        assert fault is None, f"the models differ: {fault}"
    return found


def model_resize(grid, question):
    """Three lists of numbers. If the arrays are small, they must have the chunks that are found element by element."""
    shape = question["resize"]
    try:
        resized = Grid(question["chunk_grid"], shape)
    except Refused as refusal:
        raise Refused(refusal.text and f"field `resize`: {refusal.text}") from refusal
    found = changed_chunks_by_numbers(grid, resized)
    if may_go_through(grid) and may_go_through(resized):
        fault = fault_of_numbers(found, changed_chunks(grid, resized), len(shape))
        assert fault is None, f"the models differ: {fault}"
    return found


def model_lines(document):
    """The lines of `chunkwhere`, or the line of the first fault."""
    grid = answered(Grid, document["chunk_grid"], document["shape"])
    encoding = answered(Encoding, document["chunk_key_encoding"])
    made = {"chunk_grid": grid, "chunk_key_encoding": encoding}
    refused = {member: told for member, told in made.items() if isinstance(told, Refused)}
    for member, refusal in refused.items():
        if refusal.text in OF_METADATA:
            raise Refused(f"field `{member}`: {refusal.text}")
    for refusal in refused.values():
        raise refusal
    return list(lines_of(document, grid, encoding))


def lines_of(document, grid, encoding):
    for place, index in enumerate(document["indices"]):
        try:
            found = grid.locate(index, encoding)
        except Refused as refusal:
            raise Refused(f"index {place}: {refusal.text}") from refusal
        yield "-" if found is None else " ".join([found["key"], *map(str, found["element"])])
    for key in document["keys"]:
        chunk = encoding.chunk(key, len(document["shape"]))
        yield "-" if chunk is None else " ".join(map(str, chunk))


# What is told of metadata before a name, a configuration and a grid are judged.
OF_METADATA = {
    "not an extension", "name is missing", "name is not a text", "configuration is not an object",
    "must_understand is not a truth value",
}  # fmt: skip


def agrees(expected, printed):
    """Whether a printed line is what the model answers."""
    if isinstance(expected, Refused):
        return printed.startswith("refused: ") and expected.text in (None, printed.removeprefix("refused: "))
    try:
        found = json.loads(printed)
    except ValueError:
        return False
    if isinstance(expected, dict) and "comparisons" in expected:
        # The definitions bound the comparisons, and don't count them.
        fewest, most = expected["comparisons"]
        expected = {**expected, "comparisons": found.get("comparisons")} if isinstance(found, dict) else expected
        return as_text(found) == as_text(expected) and fewest <= found["comparisons"] <= most
    return as_text(found) == as_text(expected)


def answered(answer, *arguments):
    try:
        return answer(*arguments)
    except Refused as refusal:
        return refusal


class Tally:
    """What was compared, by what it was compared with and by call."""

    def __init__(self):
        self.counts = collections.Counter()
        self.refused = collections.Counter()
        self.differ = 0

    def count(self, source, call, same, told, refused=False):
        self.counts[source, call] += 1
        self.refused[source, call] += refused
        if not same:
            self.differ += 1
            print(f"{source}, {call}: {told}")

    def print(self):
        for source in dict.fromkeys(source for source, _ in self.counts):
            print(f"\n{source}")
            for (of, call), count in self.counts.items():
                if of == source:
                    refused = self.refused[of, call]
                    print(f"  {call:32}{count:8}" + (f", {refused} of them refused" if refused else ""))
        print(f"\n{sum(self.counts.values())} compared, {self.differ} differ")


def ask(program, questions):
    """A line for each question, by one run."""
    lines = "".join(f"{json.dumps(question)}\n" for question in questions)
    status, printed, error = run(program, lines.encode())
    printed = printed.decode().splitlines()
    if (status, error) != (0, b"") or len(printed) != len(questions):
        sys.exit(f"{len(questions)} questions have {len(printed)} answers, and the status is {status}: {error[:300]}")
    return printed


def compare_calls(arguments, tally):
    asking = Asking(arguments.seed)
    questions = [asking.question(call) for _ in range(arguments.questions) for call in CALLS]
    for question, printed in zip(questions, ask(arguments.calls, questions)):
        expected = answered(model_answer, question)
        refused = isinstance(expected, Refused)
        told = f"{json.dumps(question)}\n  expected {expected.text if refused else expected}\n  found    {printed}"
        tally.count(f"{MODEL} and chunkcalls", question["call"], agrees(expected, printed), told, refused)


def compare_documents(arguments, tally):
    asking, source = Asking(arguments.seed + 1), f"{MODEL} and chunkwhere"
    for document in (asking.document() for _ in range(arguments.documents)):
        expected, given = answered(model_lines, document), json.dumps(document)
        status, printed, error = run(arguments.where, given.encode())
        if isinstance(expected, Refused):
            same = (status, printed, error) == (1, b"", f"chunkwhere: {expected.text}\n".encode())
            told = f"{given}\n  expected {expected.text}\n  found    {status, printed, error}"
            tally.count(source, "documents refused", same, told)
            continue
        lines = printed.decode().split("\n")[:-1] if status == 0 else [f"status {status}"]
        calls = ["lines of indices"] * len(document["indices"]) + ["lines of keys"] * len(document["keys"])
        for call, line, found in itertools.zip_longest(calls, expected, lines, fillvalue="nothing"):
            tally.count(source, call, line == found, f"{given}\n  expected {line}\n  found    {found}")


# zarr-python 2.


class Written:
    """An array of zarr-python 2 and the store that it was written to."""

    def __init__(self, zarr, shape, edges, separator, order="C"):
        self.store = {}
        self.shape, self.edges = shape, edges
        self.array = zarr.create(
            shape=tuple(shape), chunks=tuple(edges), dtype="<u4", fill_value=0, compressor=None, filters=None,
            order=order, dimension_separator=separator, store=self.store,
        )  # fmt: skip

    def chunks(self, numpy):
        """What the store holds of each chunk, by key."""
        return {
            key: numpy.frombuffer(bytes(held), dtype="<u4").reshape(self.edges)
            for key, held in self.store.items()
            if not key.startswith(".z")
        }


def compare_with_zarr(arguments, tally):
    try:
        import numpy
        import zarr
    except ImportError:
        sys.exit("there is no zarr-python: install Debian's python3-zarr, and use Debian's Python; or --without-zarr")
    if not zarr.__version__.startswith("2."):
        sys.exit(f"zarr-python 2 is needed, and this is {zarr.__version__}")
    source = f"zarr-python {zarr.__version__}"
    draw = Generator(arguments.seed + 2).random
    asked = []
    for _ in range(arguments.arrays):
        shape = [draw.randint(1, 12) for _ in range(draw.choice([0, 1, 2, 2, 3, 3, 4]))]
        edges = [draw.choice([1, 2, 3, 4, 5, size, size + 2]) for size in shape]
        separator = draw.choice("./")
        keys = {"name": "v2", "configuration": {"separator": separator}}
        array = {"shape": shape, "chunk_grid": regular(*edges), "chunk_key_encoding": keys}
        indices = [[draw.randrange(size) for size in shape] for _ in range(20)]
        homes, told = whole_array(numpy, Written(zarr, shape, edges, separator), indices)
        compare_lines(arguments.where, {**array, "indices": indices}, homes, tally, source)
        told += box_of_array(draw, numpy, Written(zarr, shape, edges, separator))
        told.append(resized_array(draw, Written(zarr, shape, edges, separator)))
        order = draw.choice("CF")
        told.append(bytes_of_chunk(draw, numpy, Written(zarr, shape, edges, separator, order), order))
        asked += [({**array, **question}, expected) for question, expected in told]
    for (question, expected), printed in zip(asked, ask(arguments.calls, [question for question, _ in asked])):
        told = f"{json.dumps(question)}\n  store    {expected}\n  found    {printed}"
        tally.count(f"{source} and chunkcalls", question["call"], is_same(expected, printed), told)


def is_same(expected, printed):
    """Whether a printed answer is what the store holds, which is a value or a test; one of another form isn't."""
    try:
        found = json.loads(printed)
        return bool(expected(found)) if callable(expected) else as_text(found) == as_text(expected)
    except (ValueError, TypeError, KeyError, IndexError):
        return False


def compare_lines(program, document, homes, tally, source):
    _, printed, _ = run(program, json.dumps(document).encode())
    lines = printed.decode().splitlines()
    for index, (key, place), found in zip(document["indices"], homes, lines + ["nothing"] * len(homes)):
        line = " ".join([key, *map(str, place)])
        told = f"{json.dumps(document)}\n  {index}: store {line}, found {found}"
        tally.count(f"{source} and chunkwhere", "lines of indices", line == found, told)


def whole_array(numpy, written, indices):
    """An array is written whole. Gives the key and the place of each index, and questions with their answers."""
    shape, edges = written.shape, written.edges
    written.array[...] = numpy.arange(1, numpy.prod(shape, dtype=int) + 1, dtype="<u4").reshape(shape)
    held = written.chunks(numpy)
    cells = ((key, place, value) for key, part in held.items() for place, value in numpy.ndenumerate(part))
    home_of = {int(value): (key, list(place)) for key, place, value in cells if value}
    homes = [home_of[int(numpy.ravel_multi_index(index, shape)) + 1 if shape else 1] for index in indices]
    asked = []
    for index, (key, place) in zip(indices, homes):
        chunk = [(i - in_chunk) // edge for i, in_chunk, edge in zip(index, place, edges)]
        asked.append(({"call": "locate", "of": index}, {"chunk": chunk, "element": place, "key": key}))
        asked.append(({"call": "chunk_element_indices", "of": index}, place))
    chunks = []
    for key, part in held.items():
        # Where the chunk's first element lies in the array, from its value.
        first = [int(n) for n in numpy.unravel_index(int(part.flat[0]) - 1, shape)] if shape else []
        chunk = [start // edge for start, edge in zip(first, edges)]
        chunks.append(chunk)
        asked += [
            ({"call": "decode", "of": key, "dimensionality": len(shape)}, chunk),
            ({"call": "encode", "of": chunk}, key),
            ({"call": "chunk_origin", "of": chunk}, first),
            ({"call": "chunk_indices", "of": first}, chunk),
            ({"call": "chunk_shape", "of": chunk}, list(part.shape)),
        ]
    if shape:
        asked.append(({"call": "grid_shape"}, list(written.array.cdata_shape)))
    asked.append(({"call": "iter_chunk_indices", "items": len(chunks)}, {"items": sorted(chunks), "more": False}))
    return homes, asked


def box_of_array(draw, numpy, written):
    """Questions about the box of an array, that alone was written."""
    start, sizes = [], []
    for size in written.shape:
        start.append(draw.randrange(size))
        sizes.append(draw.randint(1, size - start[-1]))
    values = numpy.arange(1, numpy.prod(sizes, dtype=int) + 1, dtype="<u4").reshape(sizes)
    written.array[slices([start, sizes])] = values
    chunks = written.chunks(numpy)

    def is_read_back(answer):
        """Each chunk of the store is zero but for the box of its part, which has the part's values."""
        if answer["more"] or sorted(part["key"] for part in answer["items"]) != sorted(chunks):
            return False
        for part in answer["items"]:
            expected = numpy.zeros(written.edges, dtype="<u4")
            expected[slices(part["in_chunk"])] = values[slices(part["in_selection"])]
            if not numpy.array_equal(expected, chunks[part["key"]]):
                return False
        return True

    def has_as_many(cover):
        return numpy.prod(cover[1], dtype=int) == len(chunks)

    yield {"call": "parts", "of": [start, sizes], "items": len(chunks) + 1}, is_read_back
    yield {"call": "chunks_in_array_subset", "of": [start, sizes]}, has_as_many


def resized_array(draw, written):
    """A question about an array that gets another shape: it is written whole before and after, so that the store then has each chunk
    that is used."""
    shape = [draw.choice([size, draw.randint(0, 12)]) for size in written.shape]

    def chunks():
        keys = [key for key in written.store if not key.startswith(".z")]
        return {tuple(map(int, re.findall("[0-9]+", key))) if shape else () for key in keys}

    written.array[...] = 1
    before = chunks()
    written.array.resize(*shape)
    left = chunks()
    written.array[...] = 2
    after = chunks()

    def is_as_stored(answer):
        found = {what: [*map(tuple, chunks)] for what, chunks in chunks_by_numbers(answer).items()}
        both = found["keep"] + found["rewrite"]
        return [sorted(both), sorted(found["delete"]), sorted(found["create"])] == [sorted(left), sorted(before - left), sorted(after - left)]

    return {"call": "changed_chunks", "resize": shape}, is_as_stored


def bytes_of_chunk(draw, numpy, written, order):
    """A question about a box of a chunk of an array that is written whole: those bytes of the chunk have the box's elements."""
    values = numpy.arange(1, numpy.prod(written.shape, dtype=int) + 1, dtype="<u4").reshape(written.shape)
    written.array[...] = values
    key = draw.choice(sorted(key for key in written.store if not key.startswith(".z")))
    held, box, places = bytes(written.store[key]), [[], []], []
    for number, edge, size in zip(re.findall("[0-9]+", key), written.edges, written.shape):
        origin = int(number) * edge
        start = draw.randrange(min(edge, size - origin))
        count = draw.randint(1, min(edge, size - origin) - start)
        box[0].append(start)
        box[1].append(count)
        places.append(slice(origin + start, origin + start + count))
    right = values[tuple(places)].tobytes(order)

    def has_the_elements(answer):
        return b"".join(held[begin:end] for begin, end in expanded(answer)) == right

    return {"call": "byte_ranges", "chunk_shape": written.edges, "of": box, "item_size": 4, "memory_order": order}, has_the_elements


def slices(box):
    return tuple(slice(start, start + size) for start, size in zip(*box))


def main():
    parser = argparse.ArgumentParser()
    parser.add_argument("--questions", type=int, default=2000)
    parser.add_argument("--documents", type=int, default=1000)
    parser.add_argument("--arrays", type=int, default=400)
    parser.add_argument("--seed", type=int, default=1)
    parser.add_argument("--calls", default=None, help="a build of chunkcalls")
    parser.add_argument("--where", default=None, help="a build of chunkwhere")
    parser.add_argument("--without-zarr", action="store_true")
    arguments = parser.parse_args()
    arguments.calls = arguments.calls or str(builds("chunkcalls")[0])
    arguments.where = arguments.where or str(builds("chunkwhere")[0])
    tally = Tally()
    compare_calls(arguments, tally)
    compare_documents(arguments, tally)
    if not arguments.without_zarr:
        compare_with_zarr(arguments, tally)
    tally.print()
    sys.exit(1 if tally.differ else 0)


if __name__ == "__main__":
    main()
