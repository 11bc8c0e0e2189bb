"""The tasks of a stage, one after another, and what a worker does who carries them out element by element."""
import itertools
import math


def tasks(sides, sizes):
    """Yields the tasks of a stage by the sizes of groups along each dimension.

    A task has the buffer's shape, the parts of chunks of the source that fill it, and the parts of chunks of the target that
    it is written to. A part has a box in its chunk and a box in the buffer. A part of the target says whether the chunk gets
    all elements that it has of its array.
    """
    for groups in itertools.product(*(list(side.groups(k)) for side, k in zip(sides, sizes))):
        read = [parts(side.source, side.first, side.source.size, *group) for side, group in zip(sides, groups)]
        written = [parts(side.target, side.at, side.target.size, *group) for side, group in zip(sides, groups)]
        yield {
            "buffer": [end - start for start, end in groups],
            "from": [part_of(along) for along in itertools.product(*read)],
            "to": [part_of(along) for along in itertools.product(*written)],
        }


def parts(chain, first, size, start, end):
    """Returns the parts of a group along one dimension, each of one chunk.

    A part has the chunk, its whole edge, where the part begins there and in the buffer, and how long it is. It says whether this
    is all that the chunk has of the array.
    """
    found = []
    for chunk in range(chain.holder(first + start), chain.holder(first + end - 1) + 1):
        begins, ends = chain.start(chunk), chain.start(chunk + 1)
        begin, stop = max(begins, first + start), min(ends, first + end)
        is_whole = stop - begin == min(ends, size) - begins
        found.append((chunk, ends - begins, begin - begins, begin - first - start, stop - begin, is_whole))
    return found


def part_of(along):
    chunk, shape, in_chunk, in_buffer, size, is_whole = map(list, zip(*along)) if along else ([],) * 6
    box = {"chunk": tuple(chunk), "shape": shape, "in_chunk": [in_chunk, size], "in_buffer": [in_buffer, size]}
    return {**box, "whole": all(is_whole)}


def places(box):
    """Returns the places of a box, in row-major order."""
    start, size = box
    return itertools.product(*(range(first, first + length) for first, length in zip(start, size)))


def stored(chains, value_of):
    """Returns a store of an array: of each chunk the elements by their places."""
    store = {}
    for index in itertools.product(*(range(chain.size) for chain in chains)):
        chunk = tuple(chain.holder(i) for chain, i in zip(chains, index))
        place = tuple(i - chain.start(c) for chain, c, i in zip(chains, chunk, index))
        store.setdefault(chunk, {})[place] = value_of(index)
    return store


class Worker:
    """A worker who carries out the tasks of a stage from one store into another, and counts what is done."""

    def __init__(self, source, target):
        self.source, self.target = source, target
        self.read, self.decoded, self.largest, self.tasks = 0, 0, 0, 0
        # The elements that were read and written, and the task by which each chunk was written.
        self.taken, self.given, self.writers = set(), set(), {}

    def carry_out(self, task):
        """Fills a buffer and empties it. Each place is filled once and emptied once, and each chunk is in a list once."""
        buffer, emptied = {}, set()
        for part in task["from"]:
            self.read += 1
            self.decoded += math.prod(part["shape"])
            for place, to in zip(places(part["in_chunk"]), places(part["in_buffer"])):
                assert to not in buffer, "a place of the buffer is filled twice"
                assert (part["chunk"], place) not in self.taken, "an element is read twice"
                self.taken.add((part["chunk"], place))
                buffer[to] = self.source[part["chunk"]][place]
        assert len(buffer) == math.prod(task["buffer"]), "the buffer isn't full"
        for part in task["to"]:
            self.writers.setdefault(part["chunk"], []).append(self.tasks)
            for place, to in zip(places(part["in_chunk"]), places(part["in_buffer"])):
                assert to not in emptied, "a place of the buffer is written twice"
                assert (part["chunk"], place) not in self.given, "an element is written twice"
                emptied.add(to)
                self.given.add((part["chunk"], place))
                self.target.setdefault(part["chunk"], {})[place] = buffer[to]
        assert len(emptied) == len(buffer), "the buffer isn't empty"
        for chunks in (task["from"], task["to"]):
            assert len({part["chunk"] for part in chunks}) == len(chunks), "a chunk is in a list twice"
        self.largest = max(self.largest, math.prod(task["buffer"]))
        self.tasks += 1
