"""Models which plans the library rechunker makes, by what its description says of its algorithm.

    python3 measure/rechunker_model.py

prints its plans for a few rechunkings. `measure/tasks.py` sets them beside the plans of `tools/chunk_tasks`.

The rules, in the order in which a plan is made, for regular chunks and a bound of memory in elements:

1. A block that is written is a chunk of the target, made longer. Along each dimension, from the last to the first, it takes
   the whole array if the block still fits in memory; or else as many times its edge as fit, up to the whole array.
2. A block that is read is a chunk of the source, made longer in the same way, but only along dimensions where the source's
   edge is shorter than the edge of the block that is written, and only up to this edge.
3. If both blocks are equal, the source is copied straight to the target, a block at a time.
4. Or else there is an intermediate array, and its chunk has along each dimension the lesser edge of both blocks. A task of
   the first copy reads a block of the source, a task of the second writes a block of the target.
5. With more stages there are blocks between the first and the last one, whose edges are the geometric means, rounded down.
   Between two blocks there is an intermediate array by rule 4. A task reads one array by a block and writes the next one.

What is uncertain:

- The library wasn't run, and its code wasn't at hand.
- Whether the limit of rule 2 is the edge of the block that is written or that of the target's chunk. Both are modelled, and
  the cheaper plan is taken.
- Whether a task of rule 5 goes from one intermediate array to the next, as here, or by way of one more array. The first is
  cheaper. The library's function takes one intermediate array; more stages have a planner of their own. That one chooses the
  number of stages by a least chunk size, which isn't modelled: the cheapest of two to four stages is taken.
- A chunk that a task meets is counted as read once by it, and decoded whole. The library holds only the block to the bound;
  what a decoded chunk takes that isn't whole in the block comes on top.
- Where the intermediate edge doesn't divide the edge of the block that is read, two tasks write one intermediate chunk. The
  library may shorten the block there. It is left as it is, which is cheaper.
"""
import collections
import itertools
import math

# A copy of an array: the chunk shape that is read, the block that a task takes, the chunks read, the elements decoded.
Copy = collections.namedtuple("Copy", "chunks block reads decoded")
Plan = collections.namedtuple("Plan", "cost copies intermediate")


def enlarged(shape, chunks, most, limits):
    """Returns a chunk made longer up to limits along each dimension, the last one first; None along one is no change."""
    block = list(chunks)
    for place in reversed(range(len(block))):
        if limits[place] is None:
            continue
        others = math.prod(block) // block[place]
        upper = min(limits[place], shape[place])
        longer = min(block[place] * (most // (block[place] * others)), upper)
        block[place] = upper if upper * others <= most else max(longer, block[place])
    return block


def copy_of(shape, chunks, block):
    """Returns what a copy reads whose tasks take blocks of one shape from chunks of another."""
    reads = math.prod(map(meetings, shape, chunks, block))
    return Copy(chunks, block, reads, reads * math.prod(chunks))


def meetings(size, edge, block):
    """Returns how many pairs of a chunk and a block share an element along a dimension."""
    last = size - 1
    return 1 + last // edge + last // block - last // math.lcm(edge, block)


def root(number, degree):
    """Returns the greatest whole number whose power is no greater than a number."""
    found = round(number ** (1 / degree))
    while found**degree > number:
        found -= 1
    while (found + 1) ** degree <= number:
        found += 1
    return found


def blocks_between(first, last, count):
    """Returns the blocks of so many intermediate arrays and one more: from the first one to the last."""
    steps = [
        [root(a ** (count - step) * b**step, count) for a, b in zip(first, last)] for step in range(1, count)
    ]  # fmt: skip
    return [first, *steps, last]


def plans(shape, source, target, max_elements, read_elements, most_stages):
    """Yields the plans of two stages, or of one, and of more: none if a chunk alone is larger than the memory."""
    if max(math.prod(source), math.prod(target)) > max_elements:
        return
    written = enlarged(shape, target, max_elements, shape)
    for limits_of in (written, target):
        limits = [other if edge < other else None for edge, other in zip(source, limits_of)]
        read = enlarged(shape, source, max_elements, limits)
        if read == written:
            yield plan_of(shape, source, [read], read_elements)
            continue
        for count in range(1, most_stages):
            yield plan_of(shape, source, blocks_between(read, written, count), read_elements)


def plan_of(shape, source, blocks, read_elements):
    """Returns the plan whose tasks take these blocks, one kind a stage."""
    intermediate = [list(map(min, *pair)) for pair in itertools.pairwise(blocks)]
    copies = [copy_of(shape, chunks, block) for chunks, block in zip([source, *intermediate], blocks)]
    return Plan(sum(copy.reads * read_elements + copy.decoded for copy in copies), copies, intermediate)


def rechunker_plan(shape, source, target, max_elements, read_elements=2_500_000, most_stages=2):
    """Returns the cheapest plan of those modelled, or None if there is none."""
    return min(plans(shape, source, target, max_elements, read_elements, most_stages), default=None)


def memory_of(plan, target):
    """Returns how many elements a task of a plan holds at most, with the chunk that is being decoded or encoded."""
    written = [*plan.intermediate, target]
    return max(
        math.prod(copy.block) + max(math.prod(copy.chunks), math.prod(chunks)) for copy, chunks in zip(plan.copies, written)
    )  # fmt: skip


def has_conflicts(plan, shape, target):
    """Whether two tasks of a copy write one chunk: where the chunk's edge doesn't divide the block's, and the block isn't as
    long as the array."""
    written = [*plan.intermediate, target]
    return any(
        block < size and block % edge
        for copy, chunks in zip(plan.copies, written)
        for size, block, edge in zip(shape, copy.block, chunks)
    )


def main():
    for case in [
        ([8760, 720, 1440], [1, 720, 1440], [8760, 10, 10], 2**28),
        ([8760, 721, 1440], [1, 721, 1440], [8760, 10, 10], 250_000_000),
        ([2048] * 3, [64] * 3, [100] * 3, 25_000_000),
    ]:
        for most_stages in (2, 4):
            plan = rechunker_plan(*case, most_stages=most_stages)
            reads = [copy.reads for copy in plan.copies]
            decoded = sum(copy.decoded for copy in plan.copies) / math.prod(case[0])
            blocks = [copy.block for copy in plan.copies]
            print(f"{case}: blocks {blocks}, {sum(reads):,} = {reads} reads, {decoded:.2f} decoded")


if __name__ == "__main__":
    main()
