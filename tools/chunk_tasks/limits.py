"""The least that any choice of tasks reads.

Along one dimension let `n` be the elements of the range, `a` the longest part of it in one chunk of the source, `b` the
longest part in one chunk of the target, `S` the chunks of the source that the range meets, and `g` the longest group. Then:

1. The groups cover the range, so there are at least `n / g` of them, and each meets a chunk: `reads * g >= n`.
2. Each chunk of the source is met by a group, and they cover the range: `reads >= S` and `reads * a >= n`.
3. So `reads * a * g >= n * max(a, g)`. A group has a whole chunk of the target, as far as the range goes: `g >= b`.
   Hence `reads * a * g >= n * max(a, b)`.

The product over the dimensions: `reads * s * N >= V * U`, where `s` is the product of the `a`, `V` of the `n`, `U` of the
`max(a, b)`, and `N` is the elements of the largest buffer, which is the product of the `g`. It holds for every N that is no
less, such as the bound of memory, and for chunks of any lengths. With whole edges in place of parts it is wrong for a
target chunk that is longer than the array.

Stages, from a chain of chunk shapes `c0, c1, .. cm`: `max(x, y) * max(y, z) >= y * max(x, z)` for all numbers, since the
larger of the left factors is `max(x, y, z)` or y, and so the product of the stages' reads is at least
`V^m * U / (s * N^m)`, with the U of the source and the target, whatever the intermediate arrays are.
"""
import math

from .chains import longest_part, met
from .one_stage import cost_of


def least_reads(sides, buffer):
    """Returns how many chunks one stage reads at least, with buffers of at most so many elements (1 or more)."""
    parts = [(longest_part(*source(side)), longest_part(*target(side))) for side in sides]
    array, larger = math.prod(side.size for side in sides), math.prod(map(max, parts))
    read = math.prod(part for part, _ in parts)
    return max(chunks_of(sides), -(-array * larger // (read * buffer)))


def source(side):
    return side.source, side.first, side.size


def target(side):
    return side.target, side.at, side.size


def chunks_of(sides):
    """Returns how many chunks of the source there are in the range."""
    return math.prod(last - first for first, last in (met(*source(side)) for side in sides))


def least_reads_by_stages(sides, buffer, stages):
    """Returns how many chunks so many stages read together at least, with any intermediate arrays.

    The first stage reads each chunk of the source, and the product of the stages' reads is bounded from below. The sum is
    least where the other stages read equally many. It is rounded down.
    """
    parts = [(longest_part(*source(side)), longest_part(*target(side))) for side in sides]
    array, read = math.prod(side.size for side in sides), math.prod(part for part, _ in parts)
    above, below = array**stages * math.prod(map(max, parts)), read * buffer**stages
    if stages == 1:
        return max(chunks_of(sides), -(-above // below))
    # The first stage's reads: those of each chunk once, or as many as any other stage's.
    first = max(chunks_of(sides), root(above // below, stages))
    each = root(above // (below * first), stages - 1) if first else 0
    return first + (stages - 1) * max(each, array and -(-array // buffer))


def least_cost(sides, buffer, stages, read_elements):
    """Returns what so many stages cost at least: the reads, and each element decoded once a stage."""
    array = math.prod(side.size for side in sides)
    return cost_of(least_reads_by_stages(sides, buffer, stages), stages * array, read_elements)


def root(number, degree):
    """Returns the greatest whole number whose power is no greater than a number."""
    low, high = 0, 1 << (number.bit_length() // degree + 1)
    while low + 1 < high:
        middle = (low + high) // 2
        low, high = (middle, high) if middle**degree <= number else (low, middle)
    return low
