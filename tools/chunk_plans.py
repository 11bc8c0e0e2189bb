"""Plans of reads, copies and resizes, element by element: each element is asked for its chunk and its place there. Plans of
arrays that have too many elements are found by boxes, too.

    python3 tools/chunk_plans.py [SEED]

compares the two ways to tell which chunks a resize changes, on small arrays of each kind of grid. It prints how many
resizes were compared and where the two differ, and then ends with the status 1 where they did.
"""
import collections
import itertools
import math
import operator
import sys

from chunk_grids import Grid, overlap
from chunk_keys import Encoding
from extensions import GREATEST, GRIDS, Refused
from random_arrays import Generator

# What becomes of a chunk, in the order of the words.
CHANGES = ("create", "delete", "keep", "rewrite")


def box_of(places):
    """The box of some places, which has to hold each of them once."""
    start = [min(numbers) for numbers in zip(*places)]
    shape = [max(numbers) - first + 1 for numbers, first in zip(zip(*places), start)]
    assert {tuple(n - first for n, first in zip(place, start)) for place in places} == set(elements(shape)), "no box"
    assert len(set(places)) == len(places), "a place twice"
    return [start, shape]


def elements(shape):
    return itertools.product(*map(range, shape))


def is_inside(numbers, start, shape):
    return all(first <= n < first + size for n, first, size in zip(numbers, start, shape))


def boxes(moved):
    """What is moved, as boxes: each element comes as the chunks that it is in, and its places here and there."""
    groups = {}
    for chunks, *places in moved:
        for kept, place in zip(groups.setdefault(chunks, ([], [])), places):
            kept.append(tuple(place))
    return [(chunks, *map(box_of, places)) for chunks, places in sorted(groups.items())]


def home(grid, index):
    chunk, place = grid.home(index)
    return tuple(chunk), place


def shapes(grid, chunks):
    """The shape of each chunk: along each dimension, how many indices have the chunk's number, also past the array."""
    sizes = []
    for dimension, met in zip(grid.dimensions, zip(*chunks)):
        numbers = map(dimension.holder, itertools.count())
        sizes.append(collections.Counter(itertools.takewhile(range(max(met) + 1).__contains__, numbers)))
    return {chunk: [size[number] for size, number in zip(sizes, chunk)] for chunk in chunks}


def numbered(lines):
    return [{**line, "number": number, "of": len(lines)} for number, line in enumerate(lines)]


def share(count, number, of):
    """Which of so many lines are in one of several shares: from its part of all, rounded down, on up to the next one's."""
    return range(number * count // of, (number + 1) * count // of)


def read(grid, encoding, start, shape, clip=False):
    """The plan that reads a box of elements, or those of them that are the array's."""

    def moved():
        for steps in elements(shape):
            index = [first + step for first, step in zip(start, steps)]
            if not clip or all(i < size for i, size in zip(index, grid.shape)):
                yield *home(grid, index), steps

    missed = {home(grid, index)[0] for index in elements(grid.shape) if not is_inside(index, start, shape)}
    parts = boxes(moved())
    shape_of = shapes(grid, [chunk for chunk, *_ in parts])
    return numbered([
        {"chunk": list(chunk), "in_chunk": in_chunk, "in_selection": in_selection, "key": encoding.key(chunk),
         "shape": shape_of[chunk], "whole": chunk not in missed}
        for chunk, in_chunk, in_selection in parts
    ])  # fmt: skip


def read_by_boxes(grid, encoding, start, shape):
    """The plan that reads a box of elements of the array, by what each chunk and the box have in common: for arrays of any
    size."""
    return numbered([
        {**part, "shape": grid.chunk_shape(part["chunk"]), "whole": part["in_chunk"][1] == held_by(grid, part["chunk"])}
        for part in grid.parts(start, shape, encoding)
    ])  # fmt: skip


def tasks(source, target, box, at, each, by_source=False):
    """The plan that copies a box of one array to another array by tasks. A task takes what neighbouring chunks of the target hold of
    the elements, `each` along a dimension, or of the source. It fills its buffer from the source, and writes it to the target."""
    (grid, encoding), (target_grid, target_encoding) = source, target
    groups = collections.defaultdict(list)
    for steps in elements(box[1]):
        homes = home(grid, sums(box[0], steps)), home(target_grid, sums(at, steps))
        grouped = homes[0 if by_source else 1][0]
        groups[tuple(map(operator.floordiv, grouped, each))].append((steps, *homes))
    held = collections.Counter(home(target_grid, index)[0] for index in elements(target_grid.shape))
    lines = []
    for _, moved in sorted(groups.items()):
        first, buffer = box_of([steps for steps, _, _ in moved])
        places = [tuple(map(operator.sub, steps, first)) for steps, _, _ in moved]
        read, written = (
            boxes((chunk, in_chunk, place) for (chunk, in_chunk), place in zip(homes, places)) for homes in [*zip(*moved)][1:]
        )  # fmt: skip
        lines.append({
            "buffer": buffer, "from": pieces(grid, encoding, read),
            "to": [{**piece, "whole": math.prod(piece["in_chunk"][1]) == held[tuple(piece["chunk"])]}
                   for piece in pieces(target_grid, target_encoding, written)],
        })  # fmt: skip
    return numbered(lines)


def pieces(grid, encoding, parts):
    """What chunks and the buffer of a task have in common, as a line has it."""
    shape_of = shapes(grid, [chunk for chunk, *_ in parts])
    return [
        {"chunk": list(chunk), "in_buffer": in_buffer, "in_chunk": in_chunk, "key": encoding.key(chunk), "shape": shape_of[chunk]}
        for chunk, in_chunk, in_buffer in parts
    ]  # fmt: skip


def counts_of_tasks(lines, each, intermediate=None):
    """The counts of all tasks of a stage."""
    read, written = ([piece for line in lines for piece in line[end]] for end in ("from", "to"))
    buffers = [math.prod(line["buffer"]) for line in lines]
    return {
        "chunks_read": len(read), "chunks_written": len(written), "elements_decoded": sum(math.prod(piece["shape"]) for piece in read),
        "elements_moved": sum(buffers), "intermediate": intermediate, "largest_task": max(buffers, default=0), "task_chunks": each,
        "tasks": len(lines),
    }  # fmt: skip


def arrays_of(document):
    """Both arrays of a document of a copy: of each its grid and its encoding."""
    return [array_of(end) for end in (document, {"shape": document["shape"], **document["target"]})]


def array_of(end):
    """An array, as its grid and its encoding."""
    return Grid(end["chunk_grid"], end["shape"]), Encoding(end["chunk_key_encoding"])


def region_asked(document):
    """The box that a document copies, and the index at which it begins in the target."""
    shape = document["shape"]
    if "chunks" in document:
        box = elements_of_chunks(arrays_of(document)[1][0], document["chunks"])
        return box, box[0]
    return document.get("subset", [[0] * len(shape), shape]), document.get("at", [0] * len(shape))


def elements_of_chunks(grid, chunks):
    """The box of the elements of an array that the chunks of a box hold."""
    (first, count), start, shape = overlap(grid.chunks_in_array_subset([0] * len(grid.shape), grid.shape), chunks), [], []
    if 0 in count:
        return grid.empty_box()
    for dimension, number, numbers in zip(grid.dimensions, first, count):
        start.append(dimension.start(number))
        shape.append(min(dimension.end(number + numbers - 1), dimension.size) - start[-1])
    return [start, shape]


def copy(document, plan=tasks):
    """The lines of a document of a copy by tasks: those of `task_chunks`, or of one chunk each. They are found by element, or by boxes."""
    each = document.get("task_chunks", [1] * len(document["shape"]))
    return plan(*arrays_of(document), *region_asked(document), each, document.get("order") == "source")


def beside(lines, target, keys):
    """What is left of the lines of a plan where the target, which is a grid with its encoding, has these keys in its store;
    and the keys that are of no chunk that holds elements of its array."""
    grid, encoding = target
    held = {encoding.key(home(grid, index)[0]) for index in elements(grid.shape)}
    left = [line for line in lines if not all(piece["whole"] and piece["key"] in keys for piece in line["to"])]
    return left + [{"unexpected": key} for key in keys if key not in held]


def tasks_by_boxes(source, target, box, at, each, by_source=False, begin_with=0):
    """The lines of tasks, one after another from a number on, by what each group of chunks and the region have in common: for arrays of any size."""
    (grid, encoding), (target_grid, target_encoding) = source, target
    grouped, begin = (grid, box[0]) if by_source else (target_grid, at)
    first, count = grouped.chunks_in_array_subset(begin, box[1])
    firsts = [f // k for f, k in zip(first, each)]
    counts = [n and (f + n - 1) // k + 1 - f // k for f, n, k in zip(first, count, each)]
    of = math.prod(counts)
    for number in itertools.takewhile(of.__gt__, itertools.count(begin_with)):
        group = sums(firsts, place_of(number, counts))
        along = [*zip(grouped.dimensions, group, each, begin, box[1])]
        starts = [max(d.start(g * k) - b, 0) for d, g, k, b, _ in along]
        buffer = [min(d.start((g + 1) * k) - b, n) - start for start, (d, g, k, b, n) in zip(starts, along)]
        yield {
            "buffer": buffer, "from": [as_piece(part, grid) for part in grid.parts(sums(box[0], starts), buffer, encoding)],
            "number": number if number <= GREATEST else None, "of": of if of <= GREATEST else None,
            "to": [{**as_piece(part, target_grid), "whole": part["in_chunk"][1] == held_by(target_grid, part["chunk"])}
                   for part in target_grid.parts(sums(at, starts), buffer, target_encoding)],
        }  # fmt: skip


def place_of(number, counts):
    """Which place in a box of this shape has a number, where the places are numbered in row-major order."""
    place = []
    for count in reversed(counts):
        number, last = divmod(number, count)
        place.insert(0, last)
    return place


def as_piece(part, grid):
    """A part of the plan of a buffer's box, as a line of a task has it."""
    return {**{name: part[name] for name in ("chunk", "in_chunk", "key")}, "in_buffer": part["in_selection"], "shape": grid.chunk_shape(part["chunk"])}


def held_by(grid, chunk):
    """How many elements of the array a chunk holds along each dimension."""
    return [min(d.end(c), d.size) - d.start(c) for d, c in zip(grid.dimensions, chunk)]


def resize(before, after, encoding, keep):
    """The changes of an array that gets another shape, by chunk, without their numbers: which elements of the array each
    chunk holds, before and after, and its shape. Two grids are given, of one metadata."""

    def held(grid):
        found = collections.defaultdict(list)
        for index in elements(grid.shape):
            found[home(grid, index)[0]].append(index)
        shape_of = shapes(grid, list(found))
        return {chunk: (box_of(indices), shape_of[chunk]) for chunk, indices in found.items()}

    was, now = held(before), held(after)
    return changes(was, now, sorted(was.keys() | now.keys()), encoding, keep)


def resize_by_boxes(before, after, encoding, keep, chunks):
    """The changes of some chunks in the same plan, which either array uses: by where each begins and ends."""

    def held(grid, chunk):
        along = list(zip(grid.dimensions, chunk))
        if not all(d.has(c) and d.start(c) < d.size for d, c in along):
            return None
        sizes = [min(d.end(c), d.size) - d.start(c) for d, c in along]
        return [d.start(c) for d, c in along], sizes, grid.chunk_shape(chunk)

    def of_all(grid):
        found = {chunk: held(grid, chunk) for chunk in chunks}
        return {chunk: ([start, size], edges) for chunk, (start, size, edges) in ((c, h) for c, h in found.items() if h)}

    return changes(of_all(before), of_all(after), chunks, encoding, keep)


def changes(was, now, chunks, encoding, keep):
    """What becomes of some chunks, each of which holds a box of the array and has a shape, as it was or as it is to be."""
    lines = []
    for chunk in chunks:
        here, there = was.get(chunk), now.get(chunk)
        what = "create" if here is None else "delete" if there is None else "keep" if here == there else "rewrite"
        if keep or what != "keep":
            (was_box, was_shape), (now_box, now_shape) = here or (None, None), there or (None, None)
            lines.append({"chunk": list(chunk), "key": encoding.key(chunk), "now": now_box, "now_shape": now_shape,
                          "was": was_box, "was_shape": was_shape, "what": what})  # fmt: skip
    return lines


def changed_chunks(before, after):
    """The chunks that either array uses, by what becomes of them: each by the lines of the resize, and so by its elements."""
    found = {what: [] for what in CHANGES}
    for line in resize(before, after, Encoding("v2"), True):
        found[line["what"]].append(line["chunk"])
    return found


def changed_chunks_by_numbers(before, after):
    """The same by how many chunks are used and kept along each dimension, for arrays of any size."""
    was, now = used_along(before), used_along(after)
    return {"after": now, "before": was, "kept": kept_along(before, after, [min(pair) for pair in zip(was, now)])}


def used_along(grid):
    """How many chunks hold elements of the array along each dimension. An array without elements uses no chunk along any."""
    return [0 if 0 in grid.shape else d.holder(d.size - 1) + 1 for d in grid.dimensions]


def kept_along(before, after, both):
    """How many of the chunks that both arrays use are kept along each dimension: 0 along all without such a chunk. Only the last may differ."""

    def held(dimension, chunk):
        start, end = dimension.start(chunk), dimension.end(chunk)
        return end - start, min(end, dimension.size) - start

    if 0 in both:
        return both
    kept = [n if held(d, n - 1) == held(e, n - 1) else n - 1 for d, e, n in zip(before.dimensions, after.dimensions, both)]
    return [0] * len(kept) if 0 in kept else kept


def may_go_through(grid):
    """Whether an array has few elements, and its chunks short edges, so that it can be gone through."""
    edges = [edge for dimension in grid.dimensions for edge, _ in dimension.pairs]
    return max([*grid.shape, *edges], default=0) <= 100 and math.prod(grid.shape) <= 2000


def chunks_by_numbers(answer):
    """The chunks that an answer about a resize says are kept, rewritten, deleted and created."""
    found = {what: [] for what in CHANGES}
    for chunk in itertools.product(*map(range, map(max, answer["after"], answer["before"]))):
        after, before, kept = (all(map(operator.lt, chunk, answer[numbers])) for numbers in ("after", "before", "kept"))
        if after or before:
            found["create" if not before else "delete" if not after else "keep" if kept else "rewrite"].append(list(chunk))
    return found


def fault_of_numbers(answer, chunks, dimensionality):
    """What is wrong with such an answer, which must have a number a dimension in each list and these chunks; or None."""
    if [*answer] != ["after", "before", "kept"] or {*map(len, answer.values())} != {dimensionality}:
        return f"its lists are {answer}"
    found = chunks_by_numbers(answer)
    if {what: sorted(some) for what, some in found.items()} != {what: sorted(some) for what, some in chunks.items()}:
        return f"its chunks are {found} and not {chunks}"
    return None


def stored(grid, value_of):
    """A store of an array: the elements of each chunk that has some of the array, by their places there, and 0 past it."""
    held = {}
    for index in elements(grid.shape):
        chunk, place = home(grid, index)
        held.setdefault(chunk, {})[tuple(place)] = value_of(index)
    shape_of = shapes(grid, list(held))
    return {chunk: {place: values.get(place, 0) for place in elements(shape_of[chunk])} for chunk, values in held.items()}


def carried_out(store, lines):
    """The store after a worker did the lines of a resize, as the program's page tells it: it looks at nothing else."""
    store = dict(store)
    for line in lines:
        chunk = tuple(line["chunk"])
        if line["what"] == "delete":
            store.pop(chunk, None)
        elif line["what"] in ("rewrite", "create"):
            before = store.get(chunk, {})
            kept = common(line["was"], line["now"]) if line["what"] == "rewrite" else set()
            store[chunk] = {place: before[place] if place in kept else 0 for place in elements(line["now_shape"])}
    return store


def common(box, other):
    """The places in a chunk of the elements that are in two boxes of the array, both from the chunk's first element on."""
    assert box[0] == other[0]
    return set(elements([min(sizes) for sizes in zip(box[1], other[1])]))


def sums(numbers, steps):
    return [number + step for number, step in zip(numbers, steps)]


def small_resizes(seed, of_each_kind):
    """Small arrays of each kind of grid that get other shapes: the metadata and both shapes, of which the new one may have no
    grid by these metadata."""
    generator = Generator(seed, longest_edge=4)
    for kind in GRIDS:
        for _ in range(of_each_kind):
            shape = [generator.number(9) for _ in range(generator.random.randint(0, 4))]
            resized = [size if generator.one_in(3) else generator.number(9) for size in shape]
            yield generator.grid_over(shape, kind), shape, resized


def main():
    compared = differ = 0
    for metadata, shape, resized in small_resizes(int(sys.argv[1]) if sys.argv[1:] else 1, 500):
        try:
            grids = Grid(metadata, shape), Grid(metadata, resized)
        except Refused:
            continue
        compared += 1
        fault = fault_of_numbers(changed_chunks_by_numbers(*grids), changed_chunks(*grids), len(shape))
        if fault:
            differ += 1
            print(f"{metadata} from {shape} to {resized}: {fault}")
    print(f"{compared} resizes compared, {differ} differ")
    sys.exit(1 if differ or not compared else 0)


if __name__ == "__main__":
    main()
