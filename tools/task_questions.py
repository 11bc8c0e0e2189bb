"""The answers to the questions `tasks` and `task_counts`. Tasks are those of the lines of `chunkplan`: `chunk_plans` finds them element by element, and by
boxes if the arrays have too many elements. Counts are found along each dimension by itself: chunk by chunk, or by common multiples of two edges. In small
arrays they are compared with what the tasks have.

    python3 tools/task_questions.py [SEED]

compares both ways on small copies between each two kinds of grid. It prints how many were compared and where the two differ, and then ends with the status 1
where they did.
"""
import json
import math
import sys

from chunk_grids import check_box, first_of
from chunk_plans import array_of, counts_of_tasks, may_go_through, tasks, tasks_by_boxes
from extensions import GREATEST, GRIDS, Refused
from random_arrays import Generator

COUNTS = ["chunks_read", "chunks_written", "elements_decoded", "elements_moved", "largest_task", "tasks"]
# Up to how many chunks along a dimension tasks are counted, if it isn't regular in both arrays.
MOST_TO_COUNT = 2**20
TOO_MANY = f"more than {MOST_TO_COUNT} chunks along a dimension, so the tasks aren't counted"
# Up to how many groups along a dimension that is regular in both arrays they are gone through here.
MOST_WALKED = 2**12


def answer_of(question):
    """The answer to a question."""
    return {"tasks": answer_of_tasks, "task_counts": answer_of_counts}[question["call"]](question)


def copy_asked(question):
    """What a question copies, as `tasks` takes it; or its first refusal."""
    shape = question["shape"]
    source = array_of(question)
    try:
        target = array_of({"shape": shape, **question["target"]})
    except Refused as refusal:
        raise Refused(refusal.text and f"field `target`: {refusal.text}") from refusal
    zeros = [0] * len(shape)
    box, at, each = question.get("subset", [zeros, shape]), question.get("at", zeros), question.get("task_chunks", [1] * len(shape))
    check_box(*box)
    lists = {"the chunks a task": each, "the region": box[0], "the target's array": target[0].shape, "the index to begin at": at}
    for what, numbers in lists.items():
        if len(numbers) != len(shape):
            raise Refused(f"{what}: incompatible dimensionality {len(numbers)}, expected {len(shape)}")
    if not lies_in(box, shape):
        raise Refused("the region has to end within the source's array")
    if not lies_in([at, box[1]], target[0].shape):
        raise Refused("the region, moved to the index to begin at, has to end within the target's array")
    return source, target, box, at, each, question.get("order") == "source"


def lies_in(box, shape):
    return all(first + count <= size for first, count, size in zip(*box, shape))


def answer_of_tasks(question):
    """A page of the tasks, by boxes. In small arrays it has to be that of the tasks by element."""
    asked, first = copy_asked(question), question.get("first", 0)
    found = page_of(tasks_by_boxes(*asked, first), question["items"])
    if are_small(asked):
        by_element = page_of(tasks(*asked)[first:], question["items"])
        assert found == by_element, f"the models differ: {found} and {by_element}"
    return found


def are_small(asked):
    return all(may_go_through(grid) for grid, _ in asked[:2])


def page_of(lines, items):
    return first_of(({member: line[member] for member in ("buffer", "from", "to")} for line in lines), items)


def answer_of_counts(question):
    """How much the tasks read, decode and write, and where a share of them lies."""
    asked = copy_asked(question)
    (source, _), (target, _), (start, size), at, each, by_source = asked
    rows = [*zip(source.dimensions, target.dimensions, start, at, size, each)]
    if not are_few(rows):
        raise Refused(TOO_MANY)
    found = no_counts(size) if 0 in size else counts_of([counts_along(*row, by_source) for row in rows])
    if are_small(asked):
        by_element = counts_of_tasks(tasks(*asked), each)
        assert products_of(found) == {name: by_element[name] for name in COUNTS}, f"the models differ: {found} and {by_element}"
    in_all, (number, of) = math.prod(found["tasks"]), question.get("share", [0, 1])
    share = [number * in_all // of, (number + 1) * in_all // of]
    return {name: as_numbers(found[name] if name in found else share) for name in sorted([*COUNTS, "share"])}


def as_numbers(numbers):
    """Numbers as they are told: without those that are past the greatest."""
    return [number if number <= GREATEST else None for number in numbers]


def no_counts(size):
    """The counts of an empty region."""
    return {name: size if name == "elements_moved" else [0] * len(size) for name in COUNTS}


def counts_of(along):
    return {name: [counts[name] for counts in along] for name in COUNTS}


def products_of(counts):
    return {name: math.prod(numbers) for name, numbers in counts.items()}


def are_few(rows):
    """Whether few enough chunks of either array hold some of the region along each dimension that isn't regular in both."""
    if any(size == 0 for *_, size, _ in rows):
        return True
    listed = [row for row in rows if row[0].listed or row[1].listed]
    met = [chunks_met(*end, size) for source, target, first, at, size, _ in listed for end in ((source, first), (target, at))]
    return max(met, default=0) <= MOST_TO_COUNT


def chunks_met(dimension, start, size):
    """How many chunks hold some of so many indices, one or more, from a first one on."""
    return dimension.holder(start + size - 1) - dimension.holder(start) + 1


def counts_along(source, target, first, at, size, each, by_source):
    """The counts along one dimension, of one index or more: group by group, or if they are many in both arrays, by the multiples of the edges."""
    grouped, begin = (source, first) if by_source else (target, at)
    first_group, last_group = (grouped.holder(index) // each for index in (begin, begin + size - 1))
    if last_group - first_group >= MOST_WALKED and not (source.listed or target.listed):
        return counts_of_regular(source, target, first, at, size, each, by_source)
    read = written = decoded = largest = 0
    for number in range(first_group, last_group + 1):
        start = max(grouped.start(number * each) - begin, 0)
        last = min(grouped.start((number + 1) * each) - begin, size) - 1
        reads = source.holder(first + start), source.holder(first + last)
        read += reads[1] - reads[0] + 1
        decoded += source.end(reads[1]) - source.start(reads[0])
        written += chunks_met(target, at + start, last - start + 1)
        largest = max(largest, last - start + 1)
    return {
        "chunks_read": read, "chunks_written": written, "elements_decoded": decoded, "elements_moved": size, "largest_task": largest,
        "tasks": last_group - first_group + 1,
    }  # fmt: skip


def counts_of_regular(source, target, first, at, size, each, by_source):
    """The same where each array has one edge along the dimension. Each chunk that a group meets begins there, or the group begins in it."""
    chunks, begin = [source.first_edge(), target.first_edge()], [first, at]
    this, other = (0, 1) if by_source else (1, 0)
    group = chunks[this] * each

    def begun(edge, before):
        """How many multiples of an edge there are among the region's indices, without its first one, which comes after so many others."""
        return (before + size - 1) // edge - before // edge

    def begun_in_both():
        """How many of these indices are multiples of the group's length, and where they go or come from multiples of the other edge."""
        edges, before = (group, chunks[other]), (begin[this], begin[other])
        common = math.gcd(*edges)
        if (before[0] - before[1]) % common:
            return 0
        # The step p has to be -before[0] by the first edge, and -before[1] by the second one.
        times = (before[0] - before[1]) // common * pow(edges[0] // common, -1, edges[1] // common) % (edges[1] // common)
        step, every = -before[0] + times * edges[0], math.lcm(*edges)
        return (size - 1 - step) // every - (0 - step) // every

    def groups_of_last():
        """How many groups meet the last chunk of the source, if that ends with the array before its edge is full."""
        start = source.start(source.count - 1)
        if first + size <= start:
            return 0
        steps = max(start - first, 0), size - 1
        return (begin[this] + steps[1]) // group - (begin[this] + steps[0]) // group + 1

    groups = begun(group, begin[this]) + 1
    met = {this: begun(chunks[this], begin[this]) + 1, other: groups + begun(chunks[other], begin[other]) - begun_in_both()}
    missing = source.count * chunks[0] - source.end(source.count - 1)
    # The longest group is the first one, the second, or the last.
    ends = sorted({0, size, *(step for step in (-begin[this] % group, -begin[this] % group + group, size - (begin[this] + size) % group) if 0 < step < size)})
    largest = max(end - start for start, end in zip(ends, ends[1:]) if end - start <= group)
    return {
        "chunks_read": met[0], "chunks_written": met[1], "elements_decoded": met[0] * chunks[0] - missing * (groups_of_last() if missing else 0),
        "elements_moved": size, "largest_task": largest, "tasks": groups,
    }  # fmt: skip


def small_copies(seed, of_each_two):
    """Questions for counts of small copies between each two kinds of grid."""
    generator = Generator(seed, longest_edge=4)
    choose = generator.random
    for kind in GRIDS:
        for target_kind in GRIDS:
            for _ in range(of_each_two):
                shapes = [[generator.number(9) for _ in range(dimensions)] for dimensions in [choose.randint(0, 3)] for _ in range(2)]
                lengths = [generator.number(min(pair)) for pair in zip(*shapes)]
                start, at = ([generator.number(size - length) for size, length in zip(shape, lengths)] for shape in shapes)
                yield {
                    "shape": shapes[0], "chunk_grid": generator.grid_over(shapes[0], kind), "chunk_key_encoding": "default", "call": "task_counts",
                    "target": {"shape": shapes[1], "chunk_grid": generator.grid_over(shapes[1], target_kind), "chunk_key_encoding": "v2"},
                    "subset": [start, lengths], "at": at, "task_chunks": [choose.randint(1, 4) for _ in lengths], "order": choose.choice(["source", "target"]),
                }  # fmt: skip


def faults_of(question):
    """Where the models differ on a question: for its tasks, its counts, and the counts of dimensions that are regular in both arrays."""
    try:
        answer_of({**question, "call": "tasks", "items": GREATEST})
        answer_of(question)
    except AssertionError as fault:
        yield str(fault)
    (source, _), (target, _), (start, size), at, each, by_source = copy_asked(question)
    for row in zip(source.dimensions, target.dimensions, start, at, size, each):
        if row[4] and not (row[0].listed or row[1].listed):
            walked, by_multiples = counts_along(*row, by_source), counts_of_regular(*row, by_source)
            if walked != by_multiples:
                yield f"{walked} and {by_multiples}"


def main():
    compared = differ = 0
    for question in small_copies(int(sys.argv[1]) if sys.argv[1:] else 1, 100):
        compared += 1
        for fault in faults_of(question):
            differ += 1
            print(f"{json.dumps(question)}: {fault}")
    print(f"{compared} copies compared, {differ} differ")
    sys.exit(1 if differ or not compared else 0)


if __name__ == "__main__":
    main()
