"""What of the source goes where in the target: a box of its elements, which in a rechunking is the whole array. And the groups of
chunks of tasks."""
import dataclasses
import math

from stored_arrays import Refused, check_movable


@dataclasses.dataclass
class Region:
    start: list  # its first element in the source's array
    shape: list
    at: list  # where that element goes in the target's array

    def chunks(self, target):
        """The target's chunks that it meets: the first one, and how many along each dimension."""
        return met(self.at, self.shape, target.chunk_shape)

    def count(self, target):
        """How many chunks of the target it meets, which is how many tasks of one chunk it has."""
        return math.prod(self.chunks(target)[1])

    def number_of(self, chunk, target):
        """The number of such a chunk in row-major order."""
        number = 0
        for step, first, count in zip(chunk, *self.chunks(target)):
            number = number * count + step - first
        return number

    def chunk_at(self, number, target):
        """The chunk that has a number."""
        chunk = []
        for first, count in reversed([*zip(*self.chunks(target))]):
            number, step = divmod(number, count)
            chunk.insert(0, first + step)
        return chunk

    def each(self, target):
        """The chunks that it meets in row-major order, one by one: there may be more than fit in memory."""
        return (self.chunk_at(number, target) for number in range(self.count(target)))

    def part(self, number, target):
        """The part of the region that goes to the chunk with a number."""
        at, shape = self.given(self.chunk_at(number, target), target)
        return Region(self.in_source(at), shape, at)

    def given(self, chunk, target):
        """What it gives a chunk of the target: the first element in the target's array, and how many along each dimension."""
        return common((self.at, self.shape), target.held(chunk))

    def in_source(self, index):
        """Where an element of the target's array is in the source's."""
        return [place - to + first for place, to, first in zip(index, self.at, self.start)]

    def uses(self, chunk, source, target):
        """How many chunks of the target a chunk of the source meets."""
        start, shape = common((self.start, self.shape), source.held(chunk))
        moved = [place - first + to for place, first, to in zip(start, self.start, self.at)]
        return math.prod(met(moved, shape, target.chunk_shape)[1])


def common(box, other):
    """What two boxes have in common, each by its start and its shape."""
    starts = [max(pair) for pair in zip(box[0], other[0])]
    ends = [min(first + size, also + room) for first, size, also, room in zip(*box, *other)]
    return starts, [max(end - start, 0) for start, end in zip(starts, ends)]


def met(start, shape, edges):
    """The chunks with these edges that a box meets: the first one, and how many along each dimension."""
    if 0 in shape:
        return [0] * len(shape), [0] * len(shape)
    first = [place // edge for place, edge in zip(start, edges)]
    return first, [(place + size - 1) // edge - chunk + 1 for place, size, edge, chunk in zip(start, shape, edges, first)]


def region_between(source, target, subset=None, at=None):
    """The box `subset` of the source, which goes to the target from the index `at` on; where there is none, the whole array.
    Refuses what isn't in one of the arrays, and a target that can't have the source's elements."""
    check_movable(source, target)
    none = [0] * len(source.shape)
    if subset is None:
        if at is not None:
            raise Refused("where a region begins in the target, and no region: give --subset too")
        if source.shape != target.shape:
            raise Refused(f"another shape: {source.shape} in {source.folder}, {target.shape} in {target.folder}")
        return Region(none, source.shape, none)
    region = Region(*subset, none if at is None else at)
    for array, begin in ((source, region.start), (target, region.at)):
        if not len(begin) == len(region.shape) == len(array.shape):
            raise Refused(f"the region has another number of dimensions than {array.folder}")
        if any(first + size > room for first, size, room in zip(begin, region.shape, array.shape)):
            raise Refused(f"the region ends past the shape {array.shape} of {array.folder}")
    return region


def numbers(text):
    """Numbers with commas between them."""
    return [int(number) for number in text.split(",")] if text else []


def grouped(array, counts):
    """The array with chunks that each join a number of its neighbouring chunks along each dimension."""
    if len(counts) != len(array.shape) or min(counts, default=1) < 1:
        raise Refused(f"tasks of {counts} chunks, in an array of {len(array.shape)} dimensions")
    return dataclasses.replace(array, chunk_shape=[edge * count for edge, count in zip(array.chunk_shape, counts)])


def add_task_chunks(parser):
    """How many neighbouring chunks a task takes."""
    parser.add_argument("--task-chunks", type=numbers, metavar="COUNTS", help="how many chunks a task takes along each dimension, as 1,4")


def add_region(parser):
    """The words that tell a region."""
    parser.add_argument("--subset", nargs=2, type=numbers, metavar=("START", "SHAPE"), help="a box of the source, as 2,0 3,4")
    parser.add_argument("--at", type=numbers, metavar="INDEX", help="where it begins in the target, as 1,1; without it at 0")
