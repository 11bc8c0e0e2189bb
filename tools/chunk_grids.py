"""Chunk grids in whole numbers, as `docs/DEFINITIONS.md`, the crates' pages and the Zarr specifications define them.

It is a second opinion that scripts compare the programs and the libraries with, as `chunk_keys` and `chunk_plans` are:
written from those pages alone, not from the sources of this repository nor from what they answer. It is plain and slow:
Python's whole numbers have no greatest one, and edges are gone through one after another.
"""
import itertools
import sys

from extensions import GREATEST, GRIDS, Refused, extension, grid_metadata


class Dimension:
    """One dimension of a grid: its chunks follow one another from 0. They stand as pairs of an edge and how many chunks
    in a row have it. Of equal edges that aren't bounded there is a chunk for every number, but not all are counted."""

    def __init__(self, size, pairs, count=None, listed=False):
        self.size, self.pairs, self.listed = size, pairs, listed
        self.chunks = sum(count for _, count in pairs)
        self.count = self.chunks if count is None else count

    def first_edge(self):
        return self.pairs[0][0]

    def has(self, chunk):
        return chunk < self.chunks

    def start(self, chunk):
        start = 0
        for edge, count in self.pairs:
            start += edge * min(chunk, count)
            chunk -= min(chunk, count)
        return start

    def end(self, chunk):
        return self.start(chunk + 1)

    def holder(self, index):
        before = start = 0
        for edge, count in self.pairs:
            if index < start + edge * count:
                return before + (index - start) // edge
            before, start = before + count, start + edge * count
        return None

    def with_a_box(self):
        """How many of the counted chunks end at the greatest number or before: those before the one that holds it."""
        holder = self.holder(GREATEST)
        return self.count if holder is None else min(self.count, holder)

    def runs(self):
        """The edges in run-length form: neighbours with one edge are one pair."""
        equal = itertools.groupby(self.pairs, key=lambda pair: pair[0])
        return [(edge, sum(count for _, count in pairs)) for edge, pairs in equal]


def equal_edges(size, edge):
    return Dimension(size, [(edge, GREATEST + 2)], count=-(-size // edge))


def bounded_edges(size, edge):
    """The last chunk ends with the array."""
    whole, rest = divmod(size, edge)
    return Dimension(size, [(edge, whole), (rest, 1)] if rest else [(edge, whole)])


class Grid:
    """A chunk grid over an array of this shape. Its calls have the names and the answers of the library's."""

    def __init__(self, metadata, shape):
        self.name, members = extension(metadata, GRIDS)
        self.shape = shape
        self.edges = members["chunk_shapes" if self.name == "rectilinear" else "chunk_shape"]
        if len(self.edges) != len(shape):
            raise self.incompatible()
        self.dimensions = [self.dimension(size, item) for size, item in zip(shape, self.edges)]

    def incompatible(self):
        if self.name in ("rectangular", "rectilinear"):
            beginning = f"{self.name} chunk grid configuration: {self.edges}"
            return Refused(f"{beginning} not compatible with array shape {self.shape}")
        name = "regular" if self.name == "regular" else "`regular_bounded`"
        return Refused(f"{name} chunk shape and array shape have inconsistent dimensionality")

    def dimension(self, size, item):
        if self.name == "zarrs.regular_bounded":
            return bounded_edges(size, item)
        if not isinstance(item, list):
            return equal_edges(size, item)
        pairs = [tuple(element) if isinstance(element, list) else (element, 1) for element in item]
        total = sum(edge * count for edge, count in pairs)
        within = total == size if self.name == "rectangular" else size <= total <= GREATEST
        if not pairs or not within:
            raise self.incompatible()
        return Dimension(size, pairs, listed=True)

    # What is asked of nothing.

    def dimensionality(self):
        return len(self.dimensions)

    def array_shape(self):
        return self.shape

    def grid_shape(self):
        return [d.count for d in self.dimensions]

    def configuration(self):
        return self.metadata()["configuration"]

    def metadata(self):
        written = self.edges
        if self.name == "rectilinear":
            written = [
                [edge if count == 1 else [edge, count] for edge, count in d.runs()] if d.listed else item
                for d, item in zip(self.dimensions, self.edges)
            ]
        return grid_metadata(self.name, written)

    def of_length(self, numbers):
        """Each dimension with its number."""
        given, expected = len(numbers), len(self.dimensions)
        if given != expected:
            raise Refused(f"incompatible dimensionality {given}, expected {expected}")
        return list(zip(self.dimensions, numbers))

    # What is asked of a chunk.

    def chunk_shape(self, chunk):
        pairs = self.of_length(chunk)
        return [d.end(c) - d.start(c) for d, c in pairs] if all(d.has(c) for d, c in pairs) else None

    def chunk_origin(self, chunk):
        pairs = self.of_length(chunk)
        starts = [d.start(c) for d, c in pairs]
        return starts if all(d.has(c) and start <= GREATEST for (d, c), start in zip(pairs, starts)) else None

    def subset(self, chunk):
        pairs = self.of_length(chunk)
        if not all(d.has(c) and d.end(c) <= GREATEST for d, c in pairs):
            return None
        return [[d.start(c) for d, c in pairs], [d.end(c) - d.start(c) for d, c in pairs]]

    def chunk_indices_inbounds(self, chunk):
        pairs = zip(self.dimensions, chunk)
        return len(chunk) == len(self.shape) and all(c < d.count or d.count == 0 for d, c in pairs)

    # What is asked of an index.

    def home(self, index):
        """The chunk that holds an index, and the place of the index there."""
        chunk = [d.holder(i) for d, i in self.of_length(index)]
        return None if None in chunk else (chunk, [i - d.start(c) for d, c, i in zip(self.dimensions, chunk, index)])

    def chunk_indices(self, index):
        home = self.home(index)
        return home and home[0]

    def chunk_element_indices(self, index):
        home = self.home(index)
        return home and home[1]

    def locate(self, index, encoding):
        home = self.home(index)
        return home and {"chunk": home[0], "element": home[1], "key": encoding.key(home[0])}

    def array_indices_inbounds(self, index):
        pairs = zip(self.dimensions, index)
        return len(index) == len(self.shape) and all(
            (i < d.size or d.size == 0) and not (d.listed and d.holder(i) is None) for d, i in pairs
        )

    def chunk_indices_counted(self, index):
        """The chunk, with the fewest and the most comparisons of the look-up: one in each dimension of listed edges, if
        the answer is a chunk. Without one the look-up may end in the first of those dimensions."""
        listed, chunk = [d for d in self.dimensions if d.listed], self.chunk_indices(index)
        fewest = 1 if chunk is None else len(listed)
        return {"answer": chunk, "comparisons": (fewest, sum(len(d.runs()).bit_length() for d in listed))}

    # What is asked of a box.

    def chunks_subset(self, start, shape):
        check_box(start, shape)
        self.of_length(start)
        if 0 in shape:
            return self.empty_box()
        first = self.subset(start)
        last = self.subset([s + n - 1 for s, n in zip(start, shape)])
        if first is None or last is None:
            return None
        return [first[0], [s + n - begin for begin, s, n in zip(first[0], *last)]]

    def chunks_in_array_subset(self, start, shape):
        check_box(start, shape)
        if 0 in shape and self.dimensions:
            return self.empty_box()
        first = self.chunk_indices(start)
        last = self.chunk_indices([s + n - 1 for s, n in zip(start, shape)])
        if first is None or last is None:
            return None
        return [first, [b - a + 1 for a, b in zip(first, last)]]

    def empty_box(self):
        return [[0] * len(self.shape), [0] * len(self.shape)]

    def parts(self, start, shape, encoding):
        """The parts of the cover, one after another; nothing where there is no cover."""
        cover = self.chunks_in_array_subset(start, shape)
        return None if cover is None else (self.part(chunk, start, shape, encoding) for chunk in numbers_in(*cover))

    def part(self, chunk, start, shape, encoding):
        starts = [d.start(c) for d, c in zip(self.dimensions, chunk)]
        begins = [max(s, first) for s, first in zip(start, starts)]
        ends = [min(s + n, d.end(c)) for s, n, d, c in zip(start, shape, self.dimensions, chunk)]
        sizes = [end - begin for begin, end in zip(begins, ends)]
        return {
            "chunk": chunk,
            "in_chunk": [[begin - s for begin, s in zip(begins, starts)], sizes],
            "in_selection": [[begin - s for begin, s in zip(begins, start)], sizes],
            "key": encoding.key(chunk),
        }

    # Walks.

    def iter_chunk_indices(self):
        return numbers_in([0] * len(self.shape), self.grid_shape())

    def iter_chunk_indices_and_subsets(self):
        # Along a dimension the chunks follow one another, so those with a box are the first ones.
        chunks = numbers_in([0] * len(self.shape), [d.with_a_box() for d in self.dimensions])
        return ([chunk, self.subset(chunk)] for chunk in chunks)

    def iter_chunk_subsets(self):
        return (box for _, box in self.iter_chunk_indices_and_subsets())

    # Runs.

    def runs(self, dimension):
        if dimension >= len(self.dimensions) or not self.dimensions[dimension].listed:
            return None
        return len(self.dimensions[dimension].runs())


def numbers_in(start, shape):
    """The lists of numbers in a box, in row-major order, one after another."""
    if 0 in shape:
        return
    numbers = list(start)
    while True:
        yield list(numbers)
        for place in reversed(range(len(start))):
            if numbers[place] + 1 < start[place] + shape[place]:
                numbers[place] += 1
                break
            numbers[place] = start[place]
        else:
            return


def overlap(box, other):
    """What two boxes have in common."""
    starts = [max(pair) for pair in zip(box[0], other[0])]
    ends = [min(s + n, t + m) for s, n, t, m in zip(*box, *other)]
    return [starts, [max(end - start, 0) for start, end in zip(starts, ends)]]


def check_box(start, shape):
    """A box is of equal lengths, and ends at the greatest number or before it."""
    if len(start) != len(shape):
        raise Refused(f"incompatible dimensionality {len(shape)}, expected {len(start)}")
    for place, (s, n) in enumerate(zip(start, shape)):
        if s + n > GREATEST:
            raise Refused(f"box end exceeds {GREATEST} in dimension {place}")


def first_of(walk, most):
    items = list(itertools.islice(walk, min(most, sys.maxsize - 1) + 1))
    return {"items": items[:most], "more": len(items) > most}
