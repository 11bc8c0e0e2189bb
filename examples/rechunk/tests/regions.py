#!/usr/bin/env python3
"""Copies regions by the plans of `chunkplan` into arrays that hold something, and compares with what zarr-python makes of
`target[..] = source[..]`: all elements have to be equal, and the same keys have to be there. Keys of chunks that the region
doesn't meet have to keep their bytes.

    regions.py CHUNKPLAN [--seed N] [--moves N] [--checks NAME ..]

CHUNKPLAN is the built program. It needs numpy and zarr-python 2 (Debian: python3-zarr).
"""
import itertools
import json
import os
import pathlib
import shutil
import subprocess
import sys
import tempfile

import numpy
import zarr

import moves  # which has the folder of the scripts on the path
from moves import FORMAT_3, TYPES, disk_steps, forget_some, is_refused, make_2, move, plan_of, random_elements, same, store, tool
from region import region_between
from stored_arrays import open_array

if FORMAT_3:
    import format_3


def slices(start, shape):
    return tuple(slice(first, first + size) for first, size in zip(start, shape))


def stored(folder):
    """The bytes under each key of a folder."""
    paths = (path for path in folder.rglob("*") if path.is_file())
    return {str(path.relative_to(folder)): path.read_bytes() for path in paths}


def assigned(source, target, subset, at):
    """A copy of the target's folder after zarr-python's own assignment of the region."""
    copied = target.with_name(f"{target.name}.assigned")
    shutil.copytree(target, copied)
    zarr.open_array(str(copied))[slices(at, subset[1])] = zarr.open_array(str(source), mode="r")[slices(*subset)]
    return copied


def met(target, subset, at):
    """The keys of the chunks that a region meets, element by element."""
    array = open_array(target)
    index = itertools.product(*(range(first, first + size) for first, size in zip(at, subset[1])))
    return {array.key([place // edge for place, edge in zip(places, array.chunk_shape)]) for places in index}


def is_assigned(target, copied, before, written):
    """Whether a target holds what zarr-python made of it, and has other bytes than before only under keys that were written."""
    after = stored(target)
    others = {key for key in before | after if key not in written and before.get(key) != after.get(key)}
    elements = [zarr.open_array(str(folder), mode="r")[...] for folder in (target, copied)]
    return same(*map(numpy.asarray, elements)) and after.keys() == stored(copied).keys() and not others


# By the worker and by engines.


def worker(chunkplan, source, target, room, words):
    """document_of .. | chunkplan | copy_chunks, and then check_done: whether all succeeded."""
    done = room / f"done.{len(list(room.glob('done.*')))}"
    document = tool("document_of.py", source, target, *words, check=True).stdout
    plan = subprocess.run([chunkplan], input=document, capture_output=True, text=True, check=True).stdout
    copying = tool("copy_chunks.py", source, target, *words, "--done", done, input=plan)
    checked = tool("check_done.py", target, done, *words) if plan else copying
    shutil.rmtree(target / ".unfinished", ignore_errors=True)
    return copying.returncode == checked.returncode == 0


def engine(name):
    def by_engine(chunkplan, source, target, room, words):
        place = room / f"done.{len(list(room.glob('done.*')))}"
        environment = {**os.environ, "CHUNKPLAN": chunkplan, "PYTHON": sys.executable, "SHARES": "3", "REGION": " ".join(words)}
        return tool(f"engines/{name}.sh", source, target, place, env=environment).returncode == 0

    return by_engine


JOINED = "two arrays, one behind the other"
COPIES = {
    # of each copy: the target's shape, and the regions of sources of 60 x 50 elements, one after the other: where each begins
    # in its source, its shape, and where it goes
    "a crop": ([30, 20], [([25, 17], [30, 20], [0, 0])]),
    "a shift": ([60, 50], [([0, 0], [57, 45], [3, 5])]),
    JOINED: ([120, 50], [([0, 0], [60, 50], [0, 0]), ([0, 0], [60, 50], [60, 0])]),
    "two arrays, side by side, and a gap": ([60, 103], [([0, 0], [60, 50], [0, 0]), ([0, 0], [60, 50], [0, 53])]),
    "a box in the middle": ([70, 80], [([5, 6], [20, 31], [33, 29])]),
    "a place": ([70, 80], [([59, 49], [1, 1], [69, 79])]),
    "nothing": ([70, 80], [([60, 3], [0, 40], [70, 9])]),
}


def copies(chunkplan, generator, count):
    runs = [(what, worker) for what in COPIES] + [(JOINED, engine("xargs_shares"))]
    for what, run in runs:
        shape, regions = COPIES[what]
        with tempfile.TemporaryDirectory() as room:
            room = pathlib.Path(room)
            target = room / "target"
            array = make_2(target, shape, [17, 13], dtype=">i4", fill_value=-1, order="F", dimension_separator="/")
            array[...] = -2 - numpy.arange(numpy.prod(shape)).reshape(shape)
            shutil.rmtree(target / "1")  # of some chunks no element is stored
            for number, (start, size, at) in enumerate(regions):
                source = room / f"source.{number}"
                make_2(source, [60, 50], [8, 50], dtype="<i4")[...] = numpy.arange(3000).reshape(60, 50) + 10000 * number
                (source / f"{2 + number}.0").unlink()
                subset, before = [start, size], stored(target)
                copied = assigned(source, target, subset, at)
                words = ["--subset", *(",".join(map(str, numbers)) for numbers in subset), "--at", ",".join(map(str, at))]
                succeeded = run(chunkplan, source, target, room, words)
                yield f"{what}, region {number}, by {run.__name__}", succeeded and is_assigned(target, copied, before, met(target, subset, at))
                shutil.rmtree(copied)
                if run is not worker:
                    continue
                yield f"{what}: verified", tool("verify.py", source, target, *words).stdout == "equal\n"
                if 0 not in size:
                    zarr.open_array(str(target))[tuple(at)] += 1
                    told = tool("verify.py", source, target, *words)
                    yield f"{what}: seen", told.returncode == 1 and f"differs at {at}" in told.stderr and "1 elements differ" in told.stderr
                    zarr.open_array(str(target))[tuple(at)] -= 1


# Of random arrays, in this process.


def random_region(generator):
    """The shapes of two arrays, and a region of the one that the other has room for."""
    dimensions = generator.randrange(5)
    shapes = [[generator.randrange(0 if generator.random() < 0.05 else 1, 10) for _ in range(dimensions)] for _ in range(2)]
    size = [generator.randint(0 if generator.random() < 0.05 else min(1, *both), min(both)) for both in zip(*shapes)]
    start, at = ([generator.randint(0, room - n) for room, n in zip(shape, size)] for shape in shapes)
    return shapes, [start, size], at


def regions(chunkplan, generator, count):
    """Of arrays of format 2, so many, beside what zarr-python makes of them; where a format 3 is among them, beside numpy."""
    for formats in itertools.product((2, 3) if FORMAT_3 else (2,), repeat=2):
        for number in range(count):
            dtype, fills, name = generator.choice(TYPES if formats == (2, 2) else [row for row in TYPES if row[2]])
            dtype, (shapes, subset, at) = numpy.dtype(dtype), random_region(generator)
            fills = [fill for fill in fills if fill == fill or dtype.kind != "c"]  # zarr-python turns the sign of such a NaN
            with tempfile.TemporaryDirectory() as room:
                ends = [pathlib.Path(room, name) for name in ("source", "target")]
                held = []
                for form, folder, shape in zip(formats, ends, shapes):
                    elements, fill = random_elements(generator, shape, dtype), generator.choice(fills)
                    store(generator, form, folder, shape, dtype, name, fill, elements)
                    held.append(forget_some(generator, folder, elements, numpy.array(fill, dtype)[()]))
                before, written = stored(ends[1]), met(ends[1], subset, at)
                copied = assigned(*ends, subset, at) if formats == (2, 2) else None
                move(chunkplan, *ends, subset, at)
                what = f"{formats}, region {number} of {dtype}, {subset} of {shapes[0]} to {at} of {shapes[1]}"
                if copied:
                    yield what, is_assigned(ends[1], copied, before, written)
                held[1][slices(at, subset[1])] = held[0][slices(*subset)]
                got = zarr.open_array(str(ends[1]), mode="r")[...] if formats[1] == 2 else format_3.read(ends[1], dtype, numpy.array(fill, dtype)[()])
                after = stored(ends[1])
                others = {key for key in before | after if key not in written and before.get(key) != after.get(key)}
                yield f"{what}, beside numpy", same(held[1], numpy.asarray(got)) and not others and written <= after.keys()


# What has to be refused, and what is kept.

WORDS = ["--subset", "1,1", "9,7", "--at", "2,0"]
MISFITS = [
    # the words of a region between arrays of 12 x 9 elements, and what the message has to say
    (["--subset", "4,1", "9,7", "--at", "2,0"], "ends past the shape [12, 9] of"),
    (["--subset", "1,1", "9,7", "--at", "4,0"], "ends past the shape [12, 9] of"),
    (["--subset", "1", "9", "--at", "2"], "another number of dimensions"),
    (["--subset", "1,1", "9", "--at", "2,0"], "another number of dimensions"),
    (["--subset", "1,1", "9,7", "--at", "2"], "another number of dimensions"),
    (["--at", "2,0"], "give --subset too"),
]


def faults(chunkplan, generator, count):
    with tempfile.TemporaryDirectory() as room:
        room = pathlib.Path(room)
        ends = [room / "source", room / "target"]
        make_2(ends[0], [12, 9], [5, 4], dtype="<i4")[...] = numpy.arange(108).reshape(12, 9)
        make_2(ends[1], [12, 9], [4, 6], dtype="<i4", fill_value=-1)[...] = -7
        for words, message in MISFITS:
            for name in ("document_of.py", "copy_chunks.py", "verify.py"):
                told = tool(name, *ends, *words, input="")
                yield f"{name} {words}", (told.returncode, told.stdout) == (1, "") and message in told.stderr
        asked = [[1, 1], [9, 7]], [2, 0]
        plan = plan_of(chunkplan, *map(open_array, ends), *asked)
        yield "chunks that get all they hold, and others", [to["whole"] for line in plan for to in json.loads(line)["to"]] == [False, False, True, False, False, False]
        # the line of another region, and of the whole array
        for words in ([], ["--subset", "1,1", "9,7", "--at", "2,1"], ["--subset", "0,1", "9,7", "--at", "2,0"]):
            told = tool("copy_chunks.py", *ends, *words, input=plan[0])
            yield f"a line of another plan, {words}", told.returncode == 1 and told.stdout == "" and "line 0" in told.stderr
        # a chunk that is read before it is written: a broken one is refused, and stays as it is; another one isn't read
        for key in ("0.0", "1.0"):
            (ends[1] / key).write_bytes(b"no")
        told = tool("copy_chunks.py", *ends, *WORDS, input=plan[0])
        yield "a broken chunk of the target", told.returncode == 1 and "chunk 0.0 of" in told.stderr and (ends[1] / "0.0").read_bytes() == b"no"
        yield "one that is written over", tool("copy_chunks.py", *ends, *WORDS, input=plan[2]).returncode == 0
        (ends[1] / "0.0").unlink()
        yield "one that isn't stored", tool("copy_chunks.py", *ends, *WORDS, input=plan[0]).returncode == 0
        elements = zarr.open_array(str(ends[1]), mode="r")[:4, :6]
        expected = numpy.full((4, 6), -1)
        expected[2:, :6] = numpy.arange(108).reshape(12, 9)[1:3, 1:7]
        yield "has the fill value besides", numpy.array_equal(elements, expected)
        # what was done is passed over, and is the same when it is done again
        words = [*ends, *WORDS, "--done", room / "done", "--resume", room / "done", "--verbose"]
        yield "two lines", "2 chunks written" in tool("copy_chunks.py", *words, input="".join(plan[:2])).stderr
        told = tool("check_done.py", ends[1], room / "done", *WORDS)
        yield "four are missing", told.returncode == 1 and "4 of 6 chunks weren't done: 1.0, 1.1, 2.0, 2.1" in told.stderr
        yield "the others", "4 chunks written" in tool("copy_chunks.py", *words, input="".join(plan)).stderr
        told = tool("check_done.py", ends[1], room / "done", *WORDS)
        yield "all of the region", (told.returncode, told.stdout) == (0, "all 6 chunks were done\n")
        first = stored(ends[1])
        told = tool("copy_chunks.py", *ends, *WORDS, "--verbose", input="".join(plan))
        yield "once more, each chunk of the source read once", "6 chunks written, 4 read" in told.stderr and stored(ends[1]) == first
        # a chunk that keeps some of its elements takes the place of the old one when the disk has it
        for number, steps in ((0, ["fsync", "rename"]), (2, ["rename"])):
            yield f"line {number} on the disk", disk_steps(*ends, *WORDS, input=plan[number]) == steps
            yield f"line {number}, which isn't waited for", disk_steps(*ends, *WORDS, "--no-sync", input=plan[number]) == ["rename"]
        # without a fill value nothing says what a chunk holds besides
        zarray = json.loads((ends[1] / ".zarray").read_text())
        (ends[1] / ".zarray").write_text(json.dumps({**zarray, "fill_value": None}))
        (ends[1] / "0.0").unlink()
        told = tool("copy_chunks.py", *ends, *WORDS, input=plan[0])
        yield "no fill value", told.returncode == 1 and "there is no fill value" in told.stderr and not (ends[1] / "0.0").exists()
        make_2(room / "less", [12], [4], dtype="<i4")
        source, less = open_array(ends[0]), open_array(room / "less")
        yield "another number of dimensions", is_refused(lambda: region_between(source, less, [[0], [3]], [0]), "another number of dimensions")
        environment = {**os.environ, "CHUNKPLAN": chunkplan, "PYTHON": sys.executable}
        for region, succeeds in ((" ".join(WORDS), True), (" ".join([*WORDS[:-1], "1,0"]), False)):
            (ends[1] / ".zarray").write_text(json.dumps(zarray))
            told = tool("engines/xargs_shares.sh", *ends, room / "room", env={**environment, "REGION": region})
            yield f"a room of another region: {region}", (told.returncode == 0) == succeeds and ("another rechunking" in told.stderr) != succeeds


if __name__ == "__main__":
    moves.main([copies, regions, faults])
