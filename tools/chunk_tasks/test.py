#!/usr/bin/env python3
"""Compares the choice of tasks with an exhaustive search, and the counts of plans with walks over all their tasks.

    python3 tools/chunk_tasks/test.py [SEED] [CASES]

draws small rechunkings and copies of regions, from each kind of grid to each: CASES of them, or 2,000. It prints
what was compared, and ends with the status 1 at the first difference, which it prints with its case.
"""
import collections
import itertools
import math
import pathlib
import sys

sys.path.insert(0, str(pathlib.Path(__file__).resolve().parent.parent))
from chunk_tasks.chains import Chain, Side, longest_part, met, regular_bounded  # noqa: E402
from chunk_tasks.limits import least_reads, least_reads_by_stages, source, target  # noqa: E402
from chunk_tasks.one_stage import beats, cost_of, falls, one_stage, room, size_by_walk, size_of, unbeaten  # noqa: E402
from chunk_tasks.stages import Search, all_tried, cheaper  # noqa: E402
from chunk_tasks.walk import Worker, stored, tasks  # noqa: E402
from extensions import GRIDS  # noqa: E402
from random_arrays import Generator  # noqa: E402

# The greatest size of the arrays that are made, by how many dimensions they have.
LONGEST = [0, 60, 16, 9]


def chain(name, size, edges):
    """Returns one dimension of a grid of some kind."""
    return regular_bounded(size, edges) if name == "zarrs.regular_bounded" else Chain(size, edges)


def cases(seed, count):
    """Yields rechunkings and copies of regions, from each kind of grid to each: what was drawn, the dimensions, the bound of
    memory and what a read is worth."""
    generator = Generator(seed)
    random, kinds = generator.random, list(itertools.product(GRIDS, GRIDS))
    for number in range(count):
        pair = kinds[number % len(kinds)]
        dimensions = random.choice([0, 1, 1, 2, 2, 2, 3, 3])
        shape = [random.randint(random.randrange(12) > 0, LONGEST[dimensions]) for _ in range(dimensions)]
        is_region = random.randrange(3) == 0
        shapes = [[size + random.randrange(4) for size in shape] if is_region else shape for _ in range(2)]
        generator.longest_edge = random.choice([2, 3, 5, 16])
        grids = [edges_of(generator.grid_over(of, name)) for of, name in zip(shapes, pair)]
        sides = []
        for place, size in enumerate(shape):
            source, target = (chain(name, of[place], edges[place]) for name, of, edges in zip(pair, shapes, grids))
            sides.append(Side(source, target, *(random.randint(0, of[place] - size) for of in shapes), size))
        # Seldom too little for a chunk of each array, and seldom enough for all.
        chunks = -room(sides, 0) + math.prod(longest_part(side.target, side.at, side.size) for side in sides)
        most = random.choice([random.randrange(1, chunks + 1), chunks, chunks * 2, random.randint(chunks, chunks * 6), 10**6])
        worth = random.choice([0, 1, 7, 100, 10**6])
        yield (pair, shapes, grids, shape), sides, most, worth


def opposites(seed, count):
    """Yields rechunkings from chunks that are long along some dimensions to chunks that are long along the others, in little
    memory: those that more stages are worth for."""
    random = Generator(seed).random
    for _ in range(count):
        shape = [random.randint(6, 20) for _ in range(random.choice([2, 2, 3]))]
        long = [random.randrange(2) for _ in shape]
        ways = [(size, -(-size // 2)) for size in shape]
        edges = [
            [random.choice(way if is_long ^ end else (1, 1, 2)) for way, is_long in zip(ways, long)] for end in (0, 1)
        ]  # fmt: skip
        sides = [Side(Chain(size, a), Chain(size, b)) for size, a, b in zip(shape, *edges)]
        yield (shape, edges), sides, max(map(math.prod, edges)) * random.choice([2, 3, 4]), random.choice([100, 10**4])


def uneven(seed, count):
    """Yields rechunkings from chunks of very different lengths to chunks of one or two elements, where a read is worth little."""
    random = Generator(seed).random
    for _ in range(count):
        shape = [random.randint(10, 40) for _ in range(random.choice([1, 1, 2]))]
        edges = [[random.choice([2, 3, 5, 13]) for _ in range(size)] for size in shape]
        sides = [Side(Chain(size, along), Chain(size, random.choice([1, 1, 2]))) for size, along in zip(shape, edges)]
        most = math.prod(2 * size for size in shape)
        yield (shape, edges), sides, random.randint(math.prod(13 for _ in shape) + 2, most), random.choice([0, 0, 1, 3])


def some_shapes(random, sides):
    """Returns one to three chunk shapes."""
    return [tuple(random.randint(1, max(side.size, 1)) for side in sides) for _ in range(random.randint(1, 3))]


def edges_of(metadata):
    return metadata["configuration"].get("chunk_shapes") or metadata["configuration"].get("chunk_shape") or []


def all_choices(sides):
    """Yields each choice of sizes of groups, by walks over the groups."""
    lists = [[size_by_walk(side, k) for k in range(1, side.most() + 1)] for side in sides]
    for sizes in itertools.product(*lists):
        yield [size.k for size in sizes], *(math.prod(size[place] for size in sizes) for place in (1, 2, 3))


def of_the_least(sides):
    """Returns the elements of the range, of the larger parts of chunks along each dimension, and of a largest part of one chunk
    of the source."""
    parts = [(longest_part(*source(side)), longest_part(*target(side))) for side in sides]
    return math.prod(side.size for side in sides), math.prod(map(max, parts)), math.prod(part for part, _ in parts)


def check_one_stage(case, sides, most, worth):
    """The choice is a cheapest one of all, and none is dearer than it is said that each is at least."""
    best = None
    array, larger, read = of_the_least(sides)
    for ks, largest, reads, decoded in all_choices(sides):
        assert reads * read * largest >= array * larger, f"{case}: groups of {ks} read too little"
        if largest <= room(sides, most) or not array:
            cost = cost_of(reads, decoded, worth)
            best = cost if best is None else min(best, cost)
            assert reads >= (least_reads(sides, most) if array else 0), f"{case}: groups of {ks} read less than the least"
            at_least = Search(sides, most, worth).at_least(None, None)
            assert at_least is None or cost >= at_least, f"{case}: groups of {ks} cost less than the least"
    found, is_exact = one_stage(sides, most, worth)
    assert is_exact and (found and found.cost) == best, f"{case}, {most}, {worth}: {found} and not {best}"
    for side in sides:
        kept = unbeaten(side)
        for k in range(1, side.most() + 1):
            assert size_of(side, k) == size_by_walk(side, k), f"{case}: groups of {k}"
            assert any(beats(size, size_of(side, k)) for size in kept), f"{case}: no size is kept that beats {k}"
    return found


def check_shapes(case, sides, most, worth):
    """The plan of one stage or two is a cheapest one of all shapes that are tried."""
    search = Search(sides, most, worth)
    best = search.plan([])
    found = search.two_stages(best)
    plans = [search.plan([shape]) for shape in itertools.product(*all_tried(sides, 2**17))]
    costs = [plan.cost for plan in (best, found, *plans) if plan]
    chosen = cheaper(best, found)
    assert (chosen and chosen.cost) == min(costs, default=None), f"{case}, {most}, {worth}: {chosen} and not {min(costs)}"
    return len(plans)


def check_plan(case, sides, most, worth, plan):
    """Each element goes once, each chunk is written by one task, the bound holds, and the counts are those of the tasks."""
    ends = [side.size for side in sides]
    written, reads, cost = stored([side.source for side in sides], lambda index: index), [], 0
    for number, stage in enumerate(plan.stages):
        is_first, is_last = number == 0, number == len(plan.stages) - 1
        edges = zip(sides, plan.stages[number - 1].chunks or ends, stage.chunks or ends)
        along = [
            Side(
                side.source if is_first else Chain(side.size, before), side.target if is_last else Chain(side.size, after),
                side.first if is_first else 0, side.at if is_last else 0, side.size,
            )
            for side, before, after in edges
        ]  # fmt: skip
        worker = Worker(written, {})
        for task in tasks(along, [size.k for size in stage.choice.sizes]):
            worker.carry_out(task)
            held = [math.prod(part["shape"]) for part in [*task["from"], *task["to"]]]
            assert math.prod(task["buffer"]) + max(held) <= most, f"{case}: a task holds too much"
            is_region = is_last and any(side.size < side.target.size for side in sides)
            assert is_region or all(part["whole"] for part in task["to"]), f"{case}: a chunk is written in parts"
        counted = worker.read, worker.decoded, worker.largest
        expected = stage.choice.reads, stage.choice.decoded, stage.choice.largest
        assert counted == expected, f"{case}: {counted} in the tasks, {expected} counted"
        assert len(worker.given) == math.prod(ends), f"{case}: {len(worker.given)} elements written"
        assert all(len(tasks) == 1 for tasks in worker.writers.values()), f"{case}: a chunk is written by two tasks"
        written = worker.target
        cost += cost_of(worker.read, worker.decoded, worth)
        reads.append(worker.read)
    for chunk, values in written.items():
        for place, value in values.items():
            index = [side.target.start(c) + p - side.at + side.first for side, c, p in zip(sides, chunk, place)]
            assert list(value) == index, f"{case}: an element of {value} is at {index}"
    assert cost == plan.cost, f"{case}: the tasks cost {cost}, and not {plan.cost}"
    if math.prod(ends):
        assert sum(reads) >= least_reads_by_stages(sides, most, len(reads)), f"{case}: {reads} are fewer reads than the least"
        check_product(case, sides, most, reads)
    return len(reads)


def check_product(case, sides, most, reads):
    array, larger, read = of_the_least(sides)
    below = read * most ** len(reads)
    assert math.prod(reads) * below >= array ** len(reads) * larger, f"{case}: the product of {reads} is too small"


def check_orders():
    """Checks the sizes that `one_stage` names: neither reads nor lengths rise or fall with the chunks in a group."""
    for side, sizes in [
        (Side(Chain(4, 2), Chain(4, 1)), [(2, 2, 2, 4), (3, 3, 3, 6)]),
        (Side(Chain(4, 3), Chain(4, 1)), [(2, 2, 3, 9), (3, 3, 2, 6)]),
        (Side(Chain(6, 6), Chain(6, [1, 1, 1, 3])), [(2, 4, 2, 12), (3, 3, 2, 12)]),
        (Side(Chain(20, [6, 2, 5, 2, 5]), Chain(20, 1)), [(7, 7, 7, 24), (10, 10, 6, 25)]),
    ]:
        for size in sizes:
            assert tuple(size_of(side, size[0])) == size, f"groups of {size[0]} are {size_of(side, size[0])} and not {size}"


def check_walk_back():
    """Checks a case in which groups of 10, 11 and 16 are kept: groups of 10 decode the least, and groups of 11 the most."""
    sides = [Side(Chain(31, [9, 2, 1, 7, 2, 8, 2]), Chain(31, 1))]
    assert [size.decoded for size in unbeaten(sides[0]) if size.k in (10, 11, 16)] == [37, 39, 38]
    check_one_stage("groups of 10, 11 and 16", sides, 27, 0)


def main():
    check_orders()
    check_walk_back()
    seed, count = (int(sys.argv[place]) if sys.argv[place:] else number for place, number in ((1, 1), (2, 2000)))
    done, shapes_of = collections.Counter(), Generator(seed).random
    for number, (case, sides, most, worth) in enumerate(cases(seed, count)):
        done["choices"] += math.prod(side.most() for side in sides)
        done["fit"] += check_one_stage(case, sides, most, worth) is not None
        if number % 4 == 0:
            done["shapes"] += check_shapes(case, sides, most, worth)
        search = Search(sides, most, worth)
        for shapes in ([], some_shapes(shapes_of, sides), some_shapes(shapes_of, sides)):
            plan = search.plan(shapes)
            if plan and math.prod(side.size for side in sides):
                done[f"plans of {check_plan(case, sides, most, worth, plan)}"] += 1
    for case, sides, most, worth in uneven(seed, count // 5):
        done["uneven"] += not all(falls(unbeaten(side)) for side in sides)
        check_one_stage(case, sides, most, worth)
    for case, sides, most, worth in opposites(seed, count // 10):
        plan = Search(sides, most, worth).cheapest_plan()
        if plan:
            done[f"chosen of {check_plan(case, sides, most, worth, plan)}"] += 1
    print(f"{count} cases, of which {done['fit']} fit in one stage: each choice is a cheapest of all {done['choices']:,}")
    print(f"{done['uneven']} cases more, in which a larger size along a dimension decodes more: each choice is a cheapest, too")
    print(f"{done['shapes']:,} shapes of intermediate arrays: each plan of two stages is a cheapest by those tried")
    for what, which in (("plans", "by the cheapest tasks of any stages"), ("chosen", "chosen as the cheapest")):
        numbers = ", ".join(f"{done[f'{what} of {stages}']} of {stages}" for stages in (1, 2, 3, 4))
        print(f"plans carried out element by element, {which}, by how many stages they have: {numbers}")


if __name__ == "__main__":
    main()
