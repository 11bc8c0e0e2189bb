#!/usr/bin/env python3
"""Prints how rechunkings are planned as tasks, beside a model of the library rechunker and the least that any plan costs.

    python3 measure/tasks.py [--table] [WORD ..]
    python3 measure/tasks.py --program CHUNKPLAN [WORD ..]

Without words all cases are printed, else those whose name has one of the words. Nothing is read or run: the plans are those
of `tools/chunk_tasks`, and rechunker's are those of `measure/rechunker_model.py`.

For each case there are lines with:

- the one stage that is cheapest of all that fit, and how many sizes of groups were kept along each dimension;
- the cheapest plan of one to four stages, and each of its stages: the chunk shape that it writes, how many chunks of it a
  task takes, how many tasks there are, how many chunks they read, and how many elements these have over the array's;
- the plan of rechunker, with one intermediate array at most and with more;
- the least that any plan costs, of one to four stages with buffers as large as the bound.

A cost is a number of reads: what is decoded is divided by 2,500,000 elements, and added to the chunks that are read.

`--table` prints one line a case:

- the plan's stages, reads, elements decoded over the array's, and cost;
- rechunker's reads and elements decoded, and the plan's cost over rechunker's;
- the same for a plan with as much memory as rechunker's takes, with the chunk that is being decoded;
- the plan's cost over the least, and the seconds of the search.

A star says that two tasks of rechunker's plan would write one chunk.

`--program` prints the same for the plans of a built `chunkplan`, as rows of a table of Markdown:

- the plan's stages, reads, elements decoded over the array's;
- rechunker's reads and elements decoded, with one intermediate array at most;
- the plan's cost over rechunker's, under the same bound and with as much memory as rechunker takes;
- the plan's cost over the least, and the seconds.
"""
import json
import math
import pathlib
import subprocess
import sys
import time

sys.path.insert(0, str(pathlib.Path(__file__).resolve().parent.parent / "tools"))
from chunk_tasks.chains import Chain, Side, regular_bounded  # noqa: E402
from chunk_tasks.limits import least_cost, least_reads_by_stages  # noqa: E402
from chunk_tasks.one_stage import READ_ELEMENTS, one_stage, unbeaten  # noqa: E402
from chunk_tasks.stages import MOST_STAGES, Search  # noqa: E402
from rechunker_model import has_conflicts, memory_of, rechunker_plan  # noqa: E402

MONTHS = [24 * days for days in (31, 28, 31, 30, 31, 30, 31, 31, 30, 31, 30, 31)]

# The name, the array's shape, the chunks of the source and of the target along each dimension, and the bound of memory. An
# edge is a number, a list of edges, or the text of a number: chunks of this edge, of which the last one ends with the array.
CASES = [
    ("a year of maps to series", [8760, 720, 1440], [1, 720, 1440], [8760, 10, 10], 2**28),
    ("the same, 721 latitudes", [8760, 721, 1440], [1, 721, 1440], [8760, 10, 10], 250_000_000),
    ("tiles of 64 to tiles of 100", [2048] * 3, [64] * 3, [100] * 3, 25_000_000),
    ("maps to series in 64 MiB", [8760, 721, 1440], [1, 721, 1440], [8760, 10, 10], 2**24),
    ("maps to series in 200 MB", [8760, 721, 1440], [1, 721, 1440], [8760, 10, 10], 50_000_000),
    ("series to maps", [8760, 721, 1440], [8760, 10, 10], [1, 721, 1440], 2**27),
    ("40 years, days to years", [350640, 721, 1440], [24, 721, 1440], [8760, 20, 20], 2**28),
    ("levels of a climate model", [3650, 40, 192, 288], [1, 40, 192, 288], [3650, 1, 16, 16], 100_000_000),
    ("planes of a microscope to cubes", [4096, 4096, 4096], [1, 4096, 4096], [128, 128, 128], 2**28),
    ("video to blocks", [108000, 1080, 1920], [1, 1080, 1920], [1000, 120, 120], 2**27),
    ("tiles of an image", [100_000, 100_000], [256, 256], [1000, 1000], 2**24),
    ("genotypes, variants to samples", [10_000_000, 10_000], [10_000, 1000], [1_000_000, 10], 100_000_000),
    ("rows of a table to columns", [100_000_000, 100], [500_000, 100], [25_000_000, 1], 2**27),
    ("rows of a matrix to columns", [20_000, 20_000], [1, 20_000], [20_000, 1], 4_000_000),
    ("the same in a twentieth", [20_000, 20_000], [1, 20_000], [20_000, 1], 200_000),
    ("inlines of a survey to crosslines", [2000, 2000, 1500], [1, 2000, 1500], [2000, 1, 1500], 2**26),
    ("large planes in little memory", [4000, 3000, 3000], [1, 3000, 3000], [4000, 3, 3], 16_000_000),
    ("cubes of 100 to cubes of 400", [2000] * 3, [100] * 3, [400] * 3, 2**27),
    ("a thin border", [1025, 1025, 1025], [512, 512, 4], [4, 512, 512], 2**25),
    ("months to days", [8760, 721, 1440], [MONTHS, 103, 144], [24, 721, 1440], 2**26),
    ("days to months", [8760, 721, 1440], [24, 721, 1440], [MONTHS, 20, 20], 2**26),
    ("uneven parts to tiles", [5000, 6000], [[[7, 100], [43, 100]], [[11, 200], [19, 200]]], [128, 128], 2**20),
    ("bounded tiles to others", [3000, 3000, 300], ["128", "128", "128"], ["200", "200", "40"], 2**24),
]  # fmt: skip

def chain(size, edges):
    return regular_bounded(size, int(edges)) if isinstance(edges, str) else Chain(size, edges)


class Case:
    """A rechunking with its plans."""

    def __init__(self, name, shape, source, target, most):
        self.name, self.shape, self.source, self.target, self.most = name, shape, source, target, most
        self.array = math.prod(shape)
        self.sides = [Side(chain(size, a), chain(size, b)) for size, a, b in zip(shape, source, target)]
        start = time.perf_counter()
        self.one, self.is_exact = one_stage(self.sides, most)
        self.seconds_of_one = time.perf_counter() - start
        self.kept = [len(unbeaten(side)) for side in self.sides]
        start = time.perf_counter()
        self.search = Search(self.sides, most)
        self.plan = self.search.cheapest_plan()
        self.seconds = time.perf_counter() - start
        self.theirs = self.more_of_theirs = None
        if all(isinstance(edge, int) for edge in [*source, *target]):
            self.theirs, self.more_of_theirs = (
                rechunker_plan(shape, source, target, most, most_stages=stages) for stages in (2, MOST_STAGES)
            )  # fmt: skip
            self.with_theirs = [
                Search(self.sides, memory_of(plan, target)).cheapest_plan() for plan in (self.theirs, self.more_of_theirs)
            ]  # fmt: skip
        self.least = [least_cost(self.sides, most, stages, READ_ELEMENTS) for stages in range(1, MOST_STAGES + 1)]

    def reads(self):
        return sum(stage.choice.reads for stage in self.plan.stages)

    def decoded(self):
        return sum(stage.choice.decoded for stage in self.plan.stages) / self.array

    def print(self):
        print(f"{self.name}: {self.shape} from {short(self.source)} to {short(self.target)}, {self.most:,} elements")
        if self.one:
            ks = [size.k for size in self.one.sizes]
            how = f"groups of {ks}, {self.kept} sizes kept, {self.seconds_of_one:.3f} s, {'exact' if self.is_exact else 'not exact'}"
            row("one stage", self.one.reads, self.one.decoded / self.array, self.one.cost, how)
        how = f"{len(self.plan.stages)} stages, {self.seconds:.2f} s, {len(self.search.choices):,} stages were chosen for"
        row("plan", self.reads(), self.decoded(), self.plan.cost, how)
        before = None
        for number, stage in enumerate(self.plan.stages):
            count, written = self.search.counts(before, stage)
            groups = [size.k for size in stage.choice.sizes]
            shape = list(stage.chunks or []) or short(self.target)
            how = f"writes {written:,} of {shape} by {count:,} tasks of {groups}"
            row(f"  stage {number + 1}", stage.choice.reads, stage.choice.decoded / self.array, stage.choice.cost, how)
            before = stage.chunks
        for name, plan in (("rechunker", self.theirs), ("rechunker, more stages", self.more_of_theirs)):
            if plan:
                reads = [copy.reads for copy in plan.copies]
                decoded = sum(copy.decoded for copy in plan.copies)
                row(name, sum(reads), decoded / self.array, plan.cost, f"blocks {[copy.block for copy in plan.copies]}")
        stages = min(range(MOST_STAGES), key=lambda place: self.least[place]) + 1
        reads = least_reads_by_stages(self.sides, self.most, stages)
        ratio = self.plan.cost / self.least[stages - 1]
        row("at least", reads, stages, self.least[stages - 1], f"with {stages} stages; the plan costs {ratio:.3f} times as much")
        print()

    def line(self):
        """Returns a line of the table of all cases."""
        cells = [f"{self.name:34}", f"{len(self.plan.stages)}", f"{self.reads():>11,}", f"{self.decoded():5.2f}"]
        cells.append(f"{in_reads(self.plan.cost):>11,}")
        if self.theirs:
            for plan, equal in zip((self.theirs, self.more_of_theirs), self.with_theirs):
                reads = sum(copy.reads for copy in plan.copies)
                decoded = sum(copy.decoded for copy in plan.copies) / self.array
                cells += [f"{reads:>11,}", f"{decoded:5.2f}", f"{self.plan.cost / plan.cost:5.3f}", f"{equal.cost / plan.cost:5.3f}"]
                cells[-1] += "*" if has_conflicts(plan, self.shape, self.target) else " "
        else:
            cells += ["-".rjust(11), *["-".rjust(5)] * 3, ""] * 2
        cells += [f"{self.plan.cost / min(self.least):5.3f}", f"{self.seconds:5.2f}"]
        return " ".join(cells)


def grid(edges):
    """Returns the metadata of a grid with these chunks along each dimension."""
    if all(isinstance(edge, int) for edge in edges):
        return {"name": "regular", "configuration": {"chunk_shape": edges}}
    if all(isinstance(edge, str) for edge in edges):
        return {"name": "zarrs.regular_bounded", "configuration": {"chunk_shape": [int(edge) for edge in edges]}}
    return {"name": "rectilinear", "configuration": {"kind": "inline", "chunk_shapes": edges}}


def stages_of(program, shape, source, target, most):
    """Returns the counts of the stages that a program plans, and the seconds."""
    encoded = {"chunk_key_encoding": "default"}
    target = {"chunk_grid": grid(target), **encoded}
    document = {"shape": shape, "chunk_grid": grid(source), **encoded, "target": target, "max_elements": most, "counts": True}
    start = time.perf_counter()
    ran = subprocess.run([program], input=json.dumps(document).encode(), capture_output=True, check=True)
    return json.loads(ran.stdout)["stages"], time.perf_counter() - start


def cost_of(stages):
    return sum(stage["chunks_read"] * READ_ELEMENTS + stage["elements_decoded"] for stage in stages)


def line_of_program(program, name, shape, source, target, most):
    """Returns a row of the table of a program's plans."""
    array = math.prod(shape)
    stages, seconds = stages_of(program, shape, source, target, most)
    decoded = sum(stage["elements_decoded"] for stage in stages) / array
    cells = [name, len(stages), f"{sum(stage['chunks_read'] for stage in stages):,}", f"{decoded:.2f}"]
    if all(isinstance(edge, int) for edge in [*source, *target]):
        theirs = rechunker_plan(shape, source, target, most)
        equal, _ = stages_of(program, shape, source, target, memory_of(theirs, target))
        cells += [f"{sum(copy.reads for copy in theirs.copies):,}", f"{sum(copy.decoded for copy in theirs.copies) / array:.2f}"]
        cells += [f"{cost_of(stages) / theirs.cost:.3f}", f"{cost_of(equal) / theirs.cost:.3f}"]
    else:
        cells += [""] * 4
    sides = [Side(chain(size, a), chain(size, b)) for size, a, b in zip(shape, source, target)]
    least = min(least_cost(sides, most, number, READ_ELEMENTS) for number in (1, 2))
    cells += [f"{cost_of(stages) / least:.3f}", f"{seconds:.2f}"]
    return f"| {' | '.join(map(str, cells))} |"


def in_reads(cost):
    return round(cost / READ_ELEMENTS)


def short(edges):
    return [f"{len(edge)} lengths" if isinstance(edge, list) else edge for edge in edges]


def row(name, reads, decoded, cost, *words):
    print(f"    {name:24} {reads:>13,} reads {decoded:7.3f} decoded {in_reads(cost):>13,} cost   {', '.join(words)}")


def main():
    words = [word for word in sys.argv[1:] if word != "--table"]
    program = words[1] if words[:1] == ["--program"] else None
    words = words[2:] if program else words
    is_table = "--table" in sys.argv
    if is_table:
        theirs = f"{'reads':>11} {'dec.':>5} {'ratio':>5} {'equal':>5} "
        print(f"{'':34}   {'':11} {'':5} {'':11} {'rechunker':>29} {'with more stages':>29}")
        print(f"{'':34} S {'reads':>11} {'dec.':>5} {'cost':>11} {theirs} {theirs} {'least':>5} {'s':>5}")
    for case in CASES:
        if words and not any(word in case[0] for word in words):
            continue
        if program:
            print(line_of_program(program, *case), flush=True)
        elif is_table:
            print(Case(*case).line(), flush=True)
        else:
            Case(*case).print()


if __name__ == "__main__":
    main()
