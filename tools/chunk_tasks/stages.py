"""Plans of one to four stages, and which chunk shapes are tried for the intermediate arrays."""
import collections
import itertools
import math

from .chains import Chain, Side, longest_chunk, longest_part, met
from .one_stage import ALL, DOUBLING, ENDS, MOST_CHOICES, MOST_SIZES, READ_ELEMENTS
from .one_stage import cheapest, chunks_a_piece, cost_of, thinned, unbeaten

# The chunk shape that a stage writes (None: the target's), and the choice of its tasks.
Stage = collections.namedtuple("Stage", "chunks choice")
Plan = collections.namedtuple("Plan", "cost stages")

MOST_STAGES = 4
# How many shapes are tried for the intermediate array of two stages, at most; and for each in longer plans, at first.
MOST_SHAPES, MOST_SHAPES_AT_FIRST = 2**17, 2**11
# How many edges one edge is changed to, at most.
MOST_EDGES = 2**10
# Up to which number all sizes of groups are tried where a stage reads or writes an intermediate array.
MOST_SIZES_BETWEEN = 2**12

def edges_tried(side, fineness, most):
    """Returns the edges that are tried along a dimension, shortest first; or None if there are more than some number.

    They are multiples of the longest chunk of the source, or of the target, up to the whole range. None is shorter than the
    shorter of these two.
    """
    size = side.size or 1
    units = [min(longest_chunk(*end), size) for end in ends(side)]
    edges = set()
    for unit in units:
        multiples = list(itertools.islice(chunks_a_piece(-(-size // unit), fineness), most + 1))
        if len(multiples) > most:
            return None
        edges |= {min(times * unit, size) for times in multiples}
    return sorted(edge for edge in edges if edge >= min(units))


def ends(side):
    return (side.source, side.first, side.size), (side.target, side.at, side.size)


def all_tried(sides, most, finest=ALL):
    """Returns the edges that are tried along each dimension: as fine as leaves no more shapes than some number. If there are
    more also where only the ends are tried, those are returned."""
    for fineness in reversed(range(ENDS, finest + 1)):
        tried = [edges_tried(side, fineness, most) for side in sides]
        if None not in tried and math.prod(map(len, tried)) <= most:
            return tried
    return tried


class Shape:
    """A chunk shape, as far as bounds of cost need it."""

    def __init__(self, parts, whole, reads, decoded):
        """Takes the longest part of the range in a chunk along each dimension, the elements of a largest chunk, and what is
        read and decoded where each chunk is read once."""
        self.parts, self.part, self.whole, self.reads, self.decoded = parts, math.prod(parts), whole, reads, decoded


class Search:
    """The search for the cheapest plan of one rechunking."""

    def __init__(self, sides, max_elements, read_elements=READ_ELEMENTS):
        """Takes the dimensions, how many elements a worker holds at most, and what a read is worth in elements."""
        self.sides, self.most, self.worth = sides, max_elements, read_elements
        self.array = math.prod(side.size for side in sides)
        self.ends = [end_shape([ends(side)[end] for side in sides]) for end in (0, 1)]
        self.is_regular = all(side.source.edge for side in sides)
        self.kept, self.choices, self.shapes = {}, {}, {}

    # A stage.

    def sizes(self, place, before, after):
        """Returns the sizes of groups that are kept along a dimension, from chunks of one edge to such of another; None is
        the source's or the target's chain."""
        key = place, before, after
        if key not in self.kept:
            self.kept[key] = unbeaten(self.side(*key), MOST_SIZES if before is after is None else MOST_SIZES_BETWEEN)
        return self.kept[key]

    def side(self, place, before, after):
        """Returns one dimension of the copy of a stage."""
        side = self.sides[place]
        first, source = (side.first, side.source) if before is None else (0, Chain(side.size, before))
        at, target = (side.at, side.target) if after is None else (0, Chain(side.size, after))
        return Side(source, target, first, at, side.size)

    def stage(self, before, after):
        """Returns the cheapest choice for a stage between two chunk shapes, or None if no task fits."""
        key = before, after
        if key not in self.choices:
            most = self.buffer(before, after)
            lists = [self.sizes(*place) for place in self.places(before, after)] if most > 0 or not self.array else []
            self.choices[key] = cheapest(thinned(lists, MOST_CHOICES)[0], most, self.worth)
        return self.choices[key]

    def places(self, before, after):
        """Returns each dimension with the edges of two chunk shapes there."""
        nothing = [None] * len(self.sides)
        return list(zip(range(len(self.sides)), before or nothing, after or nothing))

    def buffer(self, before, after):
        """Returns how many elements a buffer may have between two chunk shapes."""
        return self.most - max(self.shape(before, 0).whole, self.shape(after, 1).whole)

    def shape(self, chunks, end):
        """Returns a chunk shape: that of an intermediate array, or of the source (0) or the target (1) for None."""
        if chunks is None:
            return self.ends[end]
        if chunks not in self.shapes:
            count = math.prod(-(-side.size // edge) for side, edge in zip(self.sides, chunks))
            whole = math.prod(chunks)
            self.shapes[chunks] = Shape(chunks, whole, count, count * whole)
        return self.shapes[chunks]

    def at_least(self, before, after):
        """Returns what a stage between two chunk shapes costs at least, or None if no buffer fits (`limits`)."""
        read, written, buffer = self.shape(before, 0), self.shape(after, 1), self.buffer(before, after)
        if buffer <= 0:
            return None
        larger = math.prod(map(max, read.parts, written.parts))
        reads = max(read.reads, -(-self.array * larger // (read.part * buffer)))
        is_regular = before is not None or self.is_regular
        return cost_of(reads, reads * read.whole if is_regular else read.decoded, self.worth)

    def once(self, chunks):
        """Returns what reading each chunk of an intermediate array once costs."""
        shape = self.shape(chunks, 0)
        return cost_of(shape.reads, shape.decoded, self.worth)

    def counts(self, before, stage):
        """Returns how many tasks a stage has that reads chunks of a shape, and how many chunks it writes."""
        sides = [self.side(*place) for place in self.places(before, stage.chunks)]
        written = math.prod(last - first for first, last in map(Side.targets, sides))
        return math.prod(side.group_count(size.k) for side, size in zip(sides, stage.choice.sizes)), written

    # A plan.

    def plan(self, shapes):
        """Returns the plan by intermediate arrays of these chunk shapes, or None if a stage doesn't fit."""
        choices = [self.stage(*pair) for pair in itertools.pairwise([None, *shapes, None])]
        if None in choices:
            return None
        return Plan(sum(choice.cost for choice in choices), list(map(Stage, [*shapes, None], choices)))

    def cheapest_plan(self, most_stages=MOST_STAGES):
        """Returns the cheapest plan of those that are tried, or None if none fits."""
        best = self.plan([])
        if not self.array:
            return best
        if most_stages >= 2:
            best = self.two_stages(best)
        for shapes in self.longer(best, most_stages) if most_stages >= 3 else []:
            best = cheaper(best, self.improved(self.plan(shapes)))
        return best

    def two_stages(self, best):
        """Returns the cheapest of a plan and those of two stages. Shapes are tried from the one whose least cost is the least,
        until that is no less than the cost of the cheapest plan so far."""
        bounds = []
        for shape in itertools.islice(itertools.product(*all_tried(self.sides, MOST_SHAPES)), MOST_SHAPES):
            halves = self.at_least(None, shape), self.at_least(shape, None)
            if None not in halves:
                bounds.append((sum(halves), shape))
        for bound, shape in sorted(bounds):
            if best and bound >= best.cost:
                break
            best = cheaper(best, self.plan([shape]))
        return best

    def longer(self, best, most_stages):
        """Yields the shapes of the cheapest plan of three stages, and then of four, of those whose arrays are cut into 1, 2, 4,
        8 .. pieces along each dimension, or into still fewer numbers of pieces.

        Nothing is yielded for a number of stages if the plan costs as much as another plan and an eighth, or more. The
        cheapest way to each shape is found from the cheapest ways to all shapes with a stage less.
        """
        tried = all_tried(self.sides, MOST_SHAPES_AT_FIRST, DOUBLING)
        shapes = list(itertools.islice(itertools.product(*tried), MOST_SHAPES_AT_FIRST))
        limit = best.cost + best.cost // 8 if best else None
        # The way to each shape: its cost, and its shapes.
        ways = {shape: (choice.cost, [shape]) for shape in shapes if (choice := self.stage(None, shape))}
        lasts = {shape: choice.cost for shape in shapes if (choice := self.stage(shape, None))}
        for _ in range(3, most_stages + 1):
            order = sorted((cost + self.once(shape), shape) for shape, (cost, _) in ways.items())
            longer = {}
            for shape in shapes:
                way = self.way(shape, order, ways, limit and limit - self.once(shape))
                if way:
                    longer[shape] = way
            ways = longer
            ended = [(cost + lasts[shape], way) for shape, (cost, way) in ways.items() if shape in lasts]
            if ended and (limit is None or min(ended)[0] < limit):
                yield min(ended)[1]

    def way(self, shape, order, ways, limit):
        """Returns the cheapest way to a shape by any of the ways that are given, in their order, if it costs less than a
        limit."""
        found = None
        for bound, before in order:
            if limit is not None and bound >= limit:
                break
            cost, least = ways[before][0], self.at_least(before, shape)
            if least is None or limit is not None and cost + least >= limit:
                continue
            choice = self.stage(before, shape)
            if choice and (limit is None or cost + choice.cost < limit):
                limit = cost + choice.cost
                found = limit, [*ways[before][1], shape]
        return found

    def improved(self, plan):
        """Returns a plan that no change of one edge makes cheaper, found from a plan by the best change, again and again.

        An edge of an intermediate array is changed to those that are tried between the edges of the arrays before and after.
        """
        while True:
            best = plan
            for changed in self.changes([stage.chunks for stage in plan.stages[:-1]]):
                best = cheaper(best, self.plan(changed))
            if best is plan:
                return plan
            plan = best

    def changes(self, shapes):
        """Yields the chunk shapes of the intermediate arrays with one edge changed, in each way that is tried."""
        for number, (before, shape, after) in enumerate(zip([None, *shapes], shapes, [*shapes[1:], None])):
            for place, *neighbours in self.places(before, after):
                for edge in all_tried([self.side(place, *neighbours)], MOST_EDGES)[0] or []:
                    changed = (*shape[:place], edge, *shape[place + 1 :])
                    yield [*shapes[:number], changed, *shapes[number + 1 :]]


def end_shape(along):
    """Returns the chunk shape of the source or the target, of which there are a chain and a range along each dimension."""
    reads = decoded = 1
    for chain, first, size in along:
        start, end = met(chain, first, size)
        reads *= end - start
        decoded *= chain.start(end) - chain.start(start)
    return Shape([longest_part(*one) for one in along], math.prod(longest_chunk(*one) for one in along), reads, decoded)


def cheaper(one, other):
    """Returns the cheaper one of two plans: the first one if both cost the same. A plan that is None costs the most."""
    return other if one is None or other and other.cost < one.cost else one
