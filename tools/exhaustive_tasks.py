"""Counts the tasks of a small copy for every choice of `task_chunks`, element by element.

`.ci/plans` compares the tasks that `chunkplan` chooses with the cheapest ones. This module uses nothing of `tools/chunk_tasks`.
"""
import collections
import itertools
import math


class Counts(collections.namedtuple("Counts", "largest_task chunks_read elements_decoded")):
    """The elements of the largest buffer, the chunks that all tasks read, and the elements of these chunks, each whole."""

    def cost(self, read_elements):
        """Returns the cost in elements. A read is worth `read_elements`."""
        return self.chunks_read * read_elements + self.elements_decoded


class Stage:
    """The copy of a box of elements from one array to another, where the box begins at an index."""

    def __init__(self, source, target, box, at):
        """Takes the grids of both arrays, the box as its start and its shape, and the index."""
        self.most, self.is_empty = target.grid_shape(), 0 in box[1]
        along = [*zip(source.dimensions, target.dimensions, *box, at)]
        # Along each dimension, the chunk that each index is written to and the chunk that it is read from.
        self.moved = [
            [(there.holder(to + step), here.holder(first + step)) for step in range(size)] for here, there, first, size, to in along
        ]
        written, read = ([{pair[end] for pair in moved} for moved in self.moved] for end in (0, 1))
        self.edges = [list(map(whole_edges, grid.dimensions, chunks)) for grid, chunks in ((target, written), (source, read))]
        # The elements of the largest chunk that any task reads or writes, whole.
        self.chunk = max(math.prod(max(edges.values(), default=0) for edges in of_grid) for of_grid in self.edges)

    def counts_along(self, place, k):
        """Returns the counts along one dimension if a task takes k chunks of the target: all chunks with one quotient by k."""
        grouped = [(written // k, read) for written, read in self.moved[place]]
        lengths, reads = collections.Counter(group for group, _ in grouped), set(grouped)
        return Counts(max(lengths.values(), default=0), len(reads), sum(self.edges[1][place][read] for _, read in reads))

    def counts(self, task_chunks):
        """Returns the counts of all tasks."""
        return product([self.counts_along(place, k) for place, k in enumerate(task_chunks)])

    def all_counts(self):
        """Yields the counts for every choice from one chunk of the target to all of them along each dimension."""
        lists = [[self.counts_along(place, k) for k in range(1, most + 1)] for place, most in enumerate(self.most)]
        return map(product, itertools.product(*lists))

    def held(self, counts):
        """Returns how many elements a worker holds at most: a buffer and a chunk, or 0 if there are no tasks."""
        return 0 if self.is_empty else counts.largest_task + self.chunk

    def least_cost(self, max_elements, read_elements):
        """Returns the cost of the cheapest tasks that fit, or None if none fit."""
        if self.is_empty:
            return 0
        fitting = (counts for counts in self.all_counts() if self.held(counts) <= max_elements)
        return min((counts.cost(read_elements) for counts in fitting), default=None)


def whole_edges(dimension, chunks):
    """Returns the edge of each chunk. In a regular grid, the last chunk has the same edge as all others."""
    return {chunk: dimension.end(chunk) - dimension.start(chunk) for chunk in chunks}


def product(along):
    """Returns the counts of all dimensions together."""
    return Counts(*(math.prod(counts[place] for counts in along) for place in range(3)))
