"""One dimension of a chunk grid, and one dimension of a copy between two grids."""
import bisect
import itertools


class Chain:
    """The chunks along one dimension of an array: they follow one another from index 0.

    A regular chain has one edge for all chunks. Its last chunk may reach over the array, and is stored whole. A listed
    chain has the edges of its chunks, which reach the end of the array or over it.
    """

    def __init__(self, size, edges):
        """Takes the array's size, and one edge or a list of edges, in which `[edge, count]` means a run of equal ones."""
        self.size, self.edge = size, edges if isinstance(edges, int) else None
        if self.edge is None:
            runs = [item if isinstance(item, (list, tuple)) else (item, 1) for item in edges]
            each = itertools.chain.from_iterable(itertools.repeat(edge, count) for edge, count in runs)
            self.ends = [0, *itertools.accumulate(each)]
            assert self.ends[-1] >= size, "the chunks end before the array"

    def start(self, chunk):
        """Returns the first index of a chunk."""
        return chunk * self.edge if self.edge else self.ends[chunk]

    def holder(self, index):
        """Returns the number of the chunk that holds an index."""
        return index // self.edge if self.edge else bisect.bisect_right(self.ends, index) - 1

    def limit(self, chunk):
        """Returns a number, or the number of chunks of a listed chain if that is less."""
        return chunk if self.edge else min(chunk, len(self.ends) - 1)


def regular_bounded(size, edge):
    """Returns the chain whose chunks have one edge, but the last one, which ends with the array."""
    whole, rest = divmod(size, edge)
    return Chain(size, [[edge, whole], *([rest] if rest else [])])


class Side:
    """One dimension of a copy: a range of the source, from `first` on, goes to the target, from `at` on."""

    def __init__(self, source, target, first=0, at=0, size=None):
        self.source, self.target, self.first, self.at = source, target, first, at
        self.size = target.size if size is None else size
        assert first + self.size <= source.size and at + self.size <= target.size, "the range leaves an array"
        # Whether groups grow with the number of their chunks, and what they decode with what they read.
        self.is_regular = bool(source.edge and target.edge and not at)

    def most(self):
        """Returns the size of groups from which on one group holds the range: its last chunk's number, and one."""
        return self.target.holder(self.at + self.size - 1) + 1 if self.size else 1

    def sources(self):
        """Returns the first chunk of the source that the range meets, and the one behind the last."""
        return met(self.source, self.first, self.size)

    def targets(self):
        """Returns the first chunk of the target that the range meets, and the one behind the last."""
        return met(self.target, self.at, self.size)

    def group_count(self, k):
        """Returns how many groups of k chunks of the target the range meets."""
        first, last = self.targets()
        return -(-last // k) - first // k

    def groups(self, k):
        """Yields where each group of k chunks of the target begins and ends, in steps behind the range's first element."""
        first, last = self.targets()
        for group in range(first // k, -(-last // k)):
            start = self.target.start(group * k) - self.at
            end = self.target.start(self.target.limit((group + 1) * k)) - self.at
            yield max(start, 0), min(end, self.size)


def met(chain, first, size):
    """Returns the first chunk that a range meets, and the one behind the last."""
    return (chain.holder(first), chain.holder(first + size - 1) + 1) if size else (0, 0)


def longest_chunk(chain, first, size):
    """Returns the longest whole edge of the chunks that a range meets, or 1 if it meets none."""
    start, end = met(chain, first, size)
    if start == end:
        return 1
    return chain.edge or max(chain.ends[chunk + 1] - chain.ends[chunk] for chunk in range(start, end))


def longest_part(chain, first, size):
    """Returns the most elements of the range in one chunk, or 1 if it has no element."""
    start, end = met(chain, first, size)
    inside = (min(chain.start(chunk + 1), first + size) - max(chain.start(chunk), first) for chunk in range(start, end))
    return min(chain.edge, size) or 1 if chain.edge and first == 0 else max(inside, default=1)
