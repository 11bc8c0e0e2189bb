"""Random arrays, grids and encodings, and what they are asked of: small ones, and some at the greatest numbers."""
import random

from extensions import ENCODINGS, GREATEST, GRIDS, grid_metadata

ENDS = [1, 2, 3, 2**31, 2**32, 2**32 + 1, 2**53 + 1, 2**63 - 1, 2**63, 2**63 + 1, GREATEST - 1, GREATEST]
EQUAL = ("regular", "zarrs.regular_bounded")


class Generator:
    """Draws from a seed, so that a seed gives the same arrays each time."""

    def __init__(self, seed, longest_edge=12):
        self.random = random.Random(seed)
        self.longest_edge = longest_edge

    def one_in(self, number):
        return self.random.randrange(number) == 0

    def number(self, most):
        """A number up to another one, often a small one or one at the end."""
        near = [self.random.randint(0, min(most, 9)), most - self.random.randint(0, min(most, 2))]
        return self.random.choice([self.random.randint(0, most), *near])

    # Arrays, grids and encodings.

    def size(self, great):
        if great:
            return self.random.choice([*ENDS, self.random.randint(0, GREATEST)])
        return self.random.choice([0, 0, 0, *range(1, 41)])

    def edge(self, great):
        if great:
            return self.random.choice([*ENDS, self.random.randint(1, GREATEST)])
        return self.random.randint(1, self.longest_edge)

    def listed(self, size, exact):
        """Edges that add up to the size, or reach over it."""
        edges, left = [], size
        while left > 0 and len(edges) < 12:
            edges.append(self.random.randint(1, min(left, self.longest_edge if size < 100 else left)))
            left -= edges[-1]
        if left > 0:
            edges.append(left)
        if not exact:
            room = GREATEST - size
            while room > 0 and self.one_in(2):
                edges.append(self.random.randint(1, min(room, 9)))
                room -= edges[-1]
            if not edges:
                edges.append(self.random.randint(1, 9))
        self.random.shuffle(edges)
        return edges

    def elements(self, size):
        """Run-length elements that reach over the size."""
        if size > 100 and self.one_in(2):
            some = (1, 2, 3, 2**32, self.random.randint(1, size))
            edge = self.random.choice([edge for edge in some if edge <= size])
            rest = size % edge
            return [[edge, size // edge], *([rest] if rest else [])]
        elements = []
        for edge in self.listed(size, False):
            form = self.random.randrange(3)
            elements += [edge] if form == 0 else [[edge, 1]] if form == 1 or edge % 2 else [[edge // 2, 2]]
        return elements

    def edges(self, name, size, great):
        # A list of edges of a rectangular grid has to add up to the size, which none does where that is 0.
        if name in EQUAL or name == "rectangular" and size == 0 or self.one_in(3):
            return self.edge(great)
        return self.elements(size) if name == "rectilinear" else self.listed(size, True)

    def grid_over(self, shape, name, great=False):
        """The metadata of a grid of this kind over an array of this shape."""
        return grid_metadata(name, [self.edges(name, size, great) for size in shape])

    def grid(self):
        """A grid's metadata and an array shape that it accepts."""
        great = self.one_in(3)
        shape = [self.size(great) for _ in range(self.random.choice([0, 1, 1, 2, 2, 3, 3, 4, 5]))]
        return self.grid_over(shape, self.random.choice(list(GRIDS)), great), shape

    def encoding(self):
        name = self.random.choice(list(ENCODINGS))
        configuration = {}
        if not self.one_in(3):
            configuration["separator"] = self.random.choice("/.")
        if name == "zarrs.default_suffix":
            configuration["suffix"] = self.random.choice(["", ".tiff", "5", ".1", "/x", "é", ".", ' "é"'])
        elif not configuration and self.one_in(2):
            return self.random.choice([name, {"name": name}])
        return {"name": name, "configuration": configuration}

    # What they are asked of.

    def chunk(self, grid):
        return [self.chunk_along(d) for d in grid.dimensions]

    def chunk_along(self, dimension):
        if self.one_in(4):
            # Where there are no more counted chunks, no more indices, or no more numbers.
            past = 0 if dimension.listed else GREATEST // dimension.first_edge() - 1
            return min(self.random.choice([dimension.count, past]) + self.random.randrange(3), GREATEST)
        return self.number(max(dimension.count - 1, 0)) if not self.one_in(12) else self.number(GREATEST)

    def index(self, grid):
        return [self.index_along(d) for d in grid.dimensions]

    def index_along(self, dimension):
        size = dimension.size
        if self.one_in(6):
            past = dimension.start(dimension.count) if dimension.listed else dimension.count * dimension.first_edge()
            return min(self.random.choice([size, size + 1, past, past + 1, self.number(GREATEST)]), GREATEST)
        if self.one_in(3) and dimension.count:
            chunk = self.number(dimension.count - 1)
            if dimension.has(chunk):
                start, end = dimension.start(chunk), dimension.end(chunk)
                return min(self.random.choice([start, end - 1, end]), GREATEST)
        return self.number(max(size - 1, 0))

    def box(self, start):
        """A box with this start."""
        if start and self.one_in(12):
            return [start, [0 if self.one_in(2) else 1 for _ in start]]
        sizes = [self.random.choice([1, 2, 5, self.number(40), self.number(GREATEST)]) for _ in start]
        return [start, [max(min(size, GREATEST - s), 0) for s, size in zip(start, sizes)]]

    def box_within(self, shape):
        """A box that lies within an array of this shape, seldom an empty one."""
        least = 0 if self.one_in(8) else 1
        start = [self.random.randint(0, max(size - least, 0)) for size in shape]
        sizes = [self.random.randint(min(least, size - first), size - first) for size, first in zip(shape, start)]
        return [start, sizes]

    def longer_or_shorter(self, numbers):
        return numbers[:-1] if numbers and self.one_in(2) else [*numbers, self.number(9)]

    def key(self, encoding, chunk):
        """A key of the chunk, or a text that is nearly one."""
        key = encoding.key(chunk)
        if self.one_in(2):
            return key
        place = self.random.randrange(len(key) + 1)
        others = ["", "0", "1", "9", "/", ".", "c", "-", " ", "+", "00", "18446744073709551616", "٣"]
        return key[:place] + self.random.choice(others) + key[place + self.random.randrange(2):]
