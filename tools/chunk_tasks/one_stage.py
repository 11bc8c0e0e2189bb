"""The tasks of one stage, and the cheapest choice of them that fits in memory.

Neither what a size of groups reads nor how long its groups are grows or falls with the number of chunks in a group, and so all
numbers are tried:

- Larger groups may read more: of 4 elements in chunks of 2, groups of 2 read 2 chunks, groups of 3 read 3.
- Equally many groups may read fewer chunks where they are larger: of 4 elements in chunks of 3, groups of 2 read 3 chunks,
  groups of 3 read 2.
- Groups of more chunks may be shorter where edges differ: with edges 1, 1, 1, 3 the longest group of 2 chunks has 4 elements,
  that of 3 chunks has 3.
- What reads fewer chunks may decode more elements where the edges of the source differ: from edges 6, 2, 5, 2, 5 to chunks of
  1, groups of 10 read 6 chunks of 25 elements, groups of 7 read 7 chunks of 24. Then the largest size that fits needn't be the
  cheapest one.
"""
import bisect
import collections
import math

from .chains import longest_chunk

# What one read is worth in decoded elements.
READ_ELEMENTS = 2_500_000

# Up to which number all sizes of groups along a dimension are tried. How many choices are gone through at most, without those
# along the last dimension.
MOST_SIZES, MOST_CHOICES = 2**16, 2**22
# How fine the numbers of pieces are that chunks are cut into: all numbers, 1, 2, 4, 8 .., and one piece or one a chunk.
ALL, DOUBLING, ENDS = 20, 0, -64

# A size of groups along one dimension: how many neighbouring chunks of the target a task takes, the elements of the longest
# group, how many chunks of the source all groups meet, and the elements of these chunks, whole.
Size = collections.namedtuple("Size", "k largest reads decoded")

# A choice: the cost, the size along each dimension, and the products of what these have.
Choice = collections.namedtuple("Choice", "cost sizes largest reads decoded")


def size_by_walk(side, k):
    """Returns a size of groups by a walk over the groups."""
    largest = reads = decoded = 0
    for start, end in side.groups(k):
        first, last = side.source.holder(side.first + start), side.source.holder(side.first + end - 1)
        largest = max(largest, end - start)
        reads += last + 1 - first
        decoded += side.source.start(last + 1) - side.source.start(first)
    return Size(k, largest, reads, decoded)


def size_of(side, k):
    """Returns a size of groups; without a walk if both chains are regular and the range begins at 0 in both.

    A chunk and a group meet once for each place where one of both begins. The places where both begin are counted once.
    """
    a, b = side.source.edge, side.target.edge
    if not a or not b or side.first or side.at or not side.size:
        return size_by_walk(side, k)
    last = side.size - 1
    reads = 1 + last // a + last // (b * k) - last // math.lcm(a, b * k)
    return Size(k, min(b * k, side.size), reads, reads * a)


def beats(one, other):
    """Whether a size takes the place of another one in any choice: it is no larger, and reads and decodes no more."""
    return one.largest <= other.largest and one.reads <= other.reads and one.decoded <= other.decoded


def next_pieces(pieces, fineness):
    """Returns the next number of pieces that is tried: one more, and more by a part of 2^fineness; or 2^(1 - fineness) times
    as many, where that is negative."""
    return pieces + max(pieces >> fineness, 1) if fineness >= 0 else pieces << (1 - fineness)


def chunks_a_piece(chunks, fineness):
    """Yields how many chunks a piece has, where so many chunks are cut into pieces of one number: the largest first, which is
    all, the smallest last, which is 1. Of those that give equally many pieces there is the smallest."""
    pieces = 1
    while True:
        each = -(-chunks // pieces)
        yield each
        if each == 1:
            return
        fewer = -(-chunks // (each - 1))
        pieces = min(max(fewer, next_pieces(pieces, fineness)), chunks)


def tried(side, all_to):
    """Yields the sizes of groups that are tried, smallest first: all up to a number, and then those that double the number of
    groups."""
    most = side.most()
    yield from range(1, min(most, all_to) + 1)
    yield from (k for k in reversed(list(chunks_a_piece(most, DOUBLING))) if k > all_to)


def unbeaten(side, all_to=MOST_SIZES):
    """Returns the sizes of groups that are kept, smallest group first: each size that no other size that is tried beats.

    Between regular chains the walk ends with the first size by which each chunk of the source is read once: no size reads or
    decodes less, and no later one has smaller groups. A size is kept there if it reads less than all before it.
    """
    first, end = side.sources()
    kept = []
    for k in tried(side, all_to):
        size = size_of(side, k)
        if side.is_regular:
            if not kept or size.reads < kept[-1].reads:
                kept.append(size)
            if kept[-1].reads == end - first:
                break
        elif not any(beats(other, size) for other in kept):
            kept = [*(other for other in kept if not beats(size, other)), size]
    return sorted(kept, key=lambda size: size.largest)


def all_were_tried(side, kept):
    """Whether each size that wasn't tried is beaten by one that is kept."""
    first, end = side.sources()
    return side.most() <= MOST_SIZES or side.is_regular and kept[-1].k <= MOST_SIZES and kept[-1].reads == end - first


def falls(sizes):
    """Whether of a list of sizes each one is larger than the one before, and reads and decodes no more."""
    return all(a.largest <= b.largest and a.reads >= b.reads and a.decoded >= b.decoded for a, b in zip(sizes, sizes[1:]))


def room(sides, max_elements):
    """Returns how many elements a buffer may have: the bound without a largest chunk of either array."""
    source = math.prod(longest_chunk(side.source, side.first, side.size) for side in sides)
    target = math.prod(longest_chunk(side.target, side.at, side.size) for side in sides)
    return max_elements - max(source, target)


def cost_of(reads, decoded, read_elements):
    return reads * read_elements + decoded


def cheapest(lists, most, read_elements):
    """Returns the cheapest choice of one size of each list whose groups have at most so many elements, or None. Of choices
    that cost the same it is the first one.

    All choices that fit are gone through, but in the last list: if that one falls, its largest size that fits is as cheap as
    any there.
    """
    if any(sizes[-1].largest == 0 for sizes in lists):
        # Where the range has no element there is no task, and any choice is right.
        return Choice(0, tuple(sizes[0] for sizes in lists), 0, 0, 0)
    if most < 1:
        return None
    best = None
    last_falls = bool(lists) and falls(lists[-1])

    def go(place, chosen, largest, reads, decoded):
        nonlocal best
        if place == len(lists):
            cost = cost_of(reads, decoded, read_elements)
            if best is None or cost < best.cost:
                best = Choice(cost, chosen, largest, reads, decoded)
            return
        fitting = bisect.bisect_right(lists[place], most // largest, key=lambda size: size.largest)
        first = max(fitting - 1, 0) if last_falls and place == len(lists) - 1 else 0
        for size in lists[place][first:fitting]:
            go(place + 1, (*chosen, size), largest * size.largest, reads * size.reads, decoded * size.decoded)

    go(0, (), 1, 1, 1)
    return best


def thinned(lists, most):
    """Returns the lists with at most so many choices of all but the last one, and whether they are as they were. While there
    are more, the longest list loses every second size, from its second on."""
    lists, were = list(lists), True
    while math.prod(map(len, lists[:-1])) > most:
        place = max(range(len(lists) - 1), key=lambda place: len(lists[place]))
        lists[place] = lists[place][::2]
        were = False
    return lists, were


def one_stage(sides, max_elements, read_elements=READ_ELEMENTS):
    """Returns the cheapest choice of groups along each dimension that fits, or None if none that is tried does; and whether
    it is exact: the cheapest of all choices that fit."""
    lists = [unbeaten(side) for side in sides]
    is_exact = all(map(all_were_tried, sides, lists))
    lists, were = thinned(lists, MOST_CHOICES)
    return cheapest(lists, room(sides, max_elements), read_elements), is_exact and were
