#!/usr/bin/env python3
"""Moves arrays by tasks of `chunkplan`, of given numbers of chunks and as it chooses them, in one stage and in two. All elements must
be what numpy has, byte by byte, and no task holds more elements than its bound. Then it tries what must be refused, a worker
that is killed, and an array of 200 MB under limits of memory.

    two_stages.py CHUNKPLAN [--seed N] [--moves N] [--checks NAME ..]

CHUNKPLAN is the built program. It needs numpy and zarr-python 2 (Debian: python3-zarr).
"""
import itertools
import json
import math
import os
import pathlib
import resource
import shutil
import subprocess
import sys
import tempfile
import time

import numcodecs
import numpy
import zarr

import moves  # which has the folder of the scripts on the path
from copy_chunks import done_in, task_of
from document_of import document_of
from make_intermediate import counts_of, make, metadata_of
from moves import FORMAT_3, TYPES, carry_out, edits, forget_some, is_refused, is_whole, make_2, random_elements, same, shapes, store, tool
from region import grouped, region_between
from regions import assigned, engine, is_assigned, met, slices, stored
from stored_arrays import Refused, open_array

if FORMAT_3:
    import format_3

WHOLE = (None, None)  # in place of a region


def lines_of(chunkplan, source, target, asked=WHOLE, **members):
    """The lines of tasks."""
    document = json.dumps({**document_of(source, target, *asked), **members})
    planned = subprocess.run([chunkplan], input=document, stdout=subprocess.PIPE, check=True, text=True)
    return planned.stdout.splitlines(True)


def random_region(generator, shape):
    """A box of an array and its place in the target, or the whole array; and the shape of the target."""
    if generator.random() < 0.5 or 0 in shape:
        return WHOLE, shape
    size = [generator.randint(1, length) for length in shape]
    at = [generator.randrange(5) for _ in shape]
    start = [generator.randint(0, length - n) for length, n in zip(shape, size)]
    return ([start, size], at), [first + n + generator.randrange(4) for first, n in zip(at, size)]


def moved_arrays(generator, count):
    """Yields arrays of random kinds from each format to each, with chunks missing. Each is a folder with a source and a target, what is
    copied, a function that says whether the target is right, and a text that says what it is."""
    for formats in itertools.product((2, 3) if FORMAT_3 else (2,), repeat=2):
        for number in range(count):
            dtype, fills, name = generator.choice([row for row in TYPES if row[2]])
            dtype, shape, written = numpy.dtype(dtype), shapes(generator), generator.choice(fills)
            fill = numpy.array(written, dtype)[()]
            asked, target_shape = random_region(generator, shape)
            with tempfile.TemporaryDirectory() as room:
                room = pathlib.Path(room)
                elements = random_elements(generator, shape, dtype)
                store(generator, formats[0], room / "source", shape, dtype, name, written, elements)
                elements = forget_some(generator, room / "source", elements, fill)
                held = random_elements(generator, target_shape, dtype)
                store(generator, formats[1], room / "target", target_shape, dtype, name, written, held)
                expected = forget_some(generator, room / "target", held, fill)
                (subset, at) = asked if asked != WHOLE else ([[0] * len(shape), shape], [0] * len(shape))
                expected[(..., *slices(at, subset[1]))] = elements[(..., *slices(*subset))]

                def is_moved():
                    if formats[1] == 2:
                        return same(expected, numpy.asarray(zarr.open_array(str(room / "target"), mode="r")[...]))
                    return same(expected, numpy.asarray(format_3.read(room / "target", dtype, fill)))

                yield room, asked, is_moved, f"{formats}, move {number} of {dtype}, {shape}, {asked}"


def chosen(chunkplan, generator, count):
    """The stages that are chosen under random bounds."""
    os.environ["CHUNKPLAN"] = chunkplan
    for room, asked, is_moved, what in moved_arrays(generator, count):
        here, middle, there = (room / end for end in ("source", "intermediate", "target"))
        source, target = open_array(here), open_array(there)
        region = region_between(source, target, *asked)
        least = sum(sorted([math.prod(target.chunk_shape)] * 2 + [math.prod(source.chunk_shape)])[1:])
        most = generator.choice([0, least // 2, least, generator.randint(least // 3, 2 * least), 10**6])
        what = f"{what}, {most} elements"
        try:
            stages = counts_of(source, target, most, *asked)["stages"]
        except Refused as error:
            yield f"{what}: {error}", "raise it" in str(error) and most < 2 * max(math.prod(end.chunk_shape) for end in (source, target))
            continue
        parts, ends = [asked], [here, there]
        if len(stages) == 2:
            make(middle, metadata_of(source, region.shape, stages[0]["intermediate"]))
            none = [0] * len(region.shape)
            parts = [(asked[0], none if asked[0] else None), ([none, region.shape], region.at)]
            ends = [here, middle, there]
        for number, (part, pair, stage) in enumerate(zip(parts, itertools.pairwise(ends), stages), 1):
            lines = lines_of(chunkplan, source, target, asked, max_elements=most, stage=number)
            read = carry_out(lines, *pair, *part, most=0)
            yield f"{what}: stage {number} reads {read}", (read, len(lines)) == (stage["chunks_read"], stage["tasks"])
            tasks, arrays = [json.loads(line) for line in lines], [*map(open_array, pair)]
            held = max([math.prod(task["buffer"]) for task in tasks], default=0)
            chunk = max(math.prod(array.chunk_shape) for array in arrays)
            yield f"{what}: stage {number} holds {held} and {chunk}", not tasks or held + chunk <= most and held == stage["largest_task"]
            each = stage["task_chunks"]
            yield f"{what}: stage {number} has groups", all(task_of(line, *arrays, region_between(*arrays, *part), each) for line in lines)
        yield what, is_moved()


def given(chunkplan, generator, count):
    """Tasks of random numbers of chunks, of the target and of the source, in any order."""
    for room, asked, is_moved, what in moved_arrays(generator, count):
        source, target = open_array(room / "source"), open_array(room / "target")
        each, members = [generator.randint(1, 4) for _ in source.shape], {}
        if generator.random() < 0.5:
            members["order"] = "source"
        lines = lines_of(chunkplan, source, target, asked, task_chunks=each, **members)
        generator.shuffle(lines)
        tasks = {"counts": each, "by_source": bool(members)}
        read = carry_out(lines, room / "source", room / "target", *asked, most=0, **tasks)
        yield f"{what}, {each} {members}: {read} read", read == sum(len(json.loads(line)["from"]) for line in lines)
        yield f"{what}, {each} {members}", is_moved()


def lines(chunkplan, generator, count):
    """Each line of tasks with one thing changed, and each cut off."""
    with tempfile.TemporaryDirectory() as room:
        ends = [pathlib.Path(room, name) for name in ("source", "target")]
        make_2(ends[0], [12, 9], [5, 4], dtype="<i4")
        make_2(ends[1], [12, 9], [4, 2], dtype="<i4")
        source, target = map(open_array, ends)
        # of the whole array and of a region, by groups of the target's chunks and of the source's
        regions, source_order = (WHOLE, ([[1, 1], [9, 7]], [2, 0])), {"order": "source"}
        for asked, (each, members) in itertools.product(regions, (([2, 3], {}), ([2, 2], {}), ([1, 2], source_order))):
            region = region_between(source, target, *asked)

            def task(text):
                return task_of(text, source, target, region, each, bool(members))

            for text in lines_of(chunkplan, source, target, asked, task_chunks=each, **members):
                line = json.loads(text)
                yield text, task(text).line == line
                for edited in edits(line):
                    told = json.dumps(edited)
                    yield told, is_refused(lambda: task(told), "line")
                for end in range(len(text) - 1):
                    yield text[:end], is_refused(lambda: task(text[:end]), "no line of a plan")


def worker(chunkplan, generator, count):
    """What the worker writes, refuses, keeps and passes over: layers of an array of 60 x 50 elements go to blocks by tasks."""
    with tempfile.TemporaryDirectory() as room:
        room = pathlib.Path(room)
        ends = [room / "source", room / "target"]
        elements = numpy.arange(3000, dtype="<i4").reshape(60, 50)
        make_2(ends[0], [60, 50], [8, 50], dtype="<i4")[...] = elements
        make_2(ends[1], [60, 50], [17, 13], dtype=">i4", fill_value=None, order="F", dimension_separator="/")

        def is_moved():
            return numpy.array_equal(zarr.open_array(str(ends[1]), mode="r")[...], elements)

        def by_tasks(*words):
            document = tool("document_of.py", *ends, *words, check=True).stdout
            return subprocess.run([chunkplan], input=document, stdout=subprocess.PIPE, check=True, text=True).stdout.splitlines(True)

        groups = ["--task-chunks", "2,3"]
        plan = by_tasks(*groups)
        words = [*ends, *groups, "--done", room / "done", "--resume", room / "done", "--verbose"]
        first = tool("copy_chunks.py", *words, input="".join([plan[3], plan[0]]))
        yield "two tasks", first.stdout == "".join(f'{{"number": {number}, "of": 4}}\n' for number in (3, 0))
        yield "each chunk is read once a task", "8 chunks written, 9 read" in first.stderr
        told = tool("check_done.py", ends[1], room / "done", *groups)
        yield "two are missing", (told.returncode, told.stderr) == (1, "check_done.py: 2 of 4 tasks weren't done: 0/3, 2/0\n")
        told = tool("check_done.py", ends[1], room / "done", "--task-chunks", "2,2")
        yield "the same number of other tasks", told.returncode == 1
        told = tool("check_done.py", ends[1], room / "done", "--task-chunks", "1,3")
        yield "other tasks", told.returncode == 1 and "lines of a plan of another length than 8" in told.stderr
        told = tool("check_done.py", ends[1], room / "done")
        yield "no line of one chunk was done", told.returncode == 1 and "lines of a plan of another length than 16" in told.stderr
        told = tool("copy_chunks.py", *ends, "--task-chunks", "2,2", input=plan[1])
        yield "a task of another group", told.returncode == 1 and "it isn't the task of its number" in told.stderr
        for wrong in ("2", "0,1"):
            told = tool("copy_chunks.py", *ends, "--task-chunks", wrong, input=plan[1])
            yield f"tasks of {wrong}", told.returncode == 1 and "in an array of 2 dimensions" in told.stderr
        second = tool("copy_chunks.py", *words, input="".join(reversed(plan)))
        yield "the others", is_whole((first.stdout + second.stdout).splitlines()) and "8 chunks written" in second.stderr
        yield "all elements", is_moved()
        (ends[1] / "2/1").unlink()
        told = tool("check_done.py", ends[1], room / "done", *groups)
        yield "a chunk is lost", (told.returncode, told.stderr) == (1, "check_done.py: 1 of 4 tasks weren't done: 2/0\n")
        told = tool("copy_chunks.py", *words, input="".join(plan))
        yield "its task is done again", told.returncode == 0 and "6 chunks written" in told.stderr and is_moved()
        told = tool("check_done.py", ends[1], room / "done", *groups)
        yield "all were done", (told.returncode, told.stdout) == (0, "all 4 tasks were done\n")
        (ends[0] / "3.0").write_bytes(b"no")
        told = tool("copy_chunks.py", *words, input="".join(plan))
        yield "a broken source", told.returncode == 1 and "chunk 3.0 of" in told.stderr and is_moved()
        zarr.open_array(str(ends[0]))[24:32] = elements[24:32]
        # by engines
        for name in ("xargs_shares", *(["parallel_pipe"] if shutil.which("parallel") else [])):
            shutil.rmtree(ends[1] / "0")
            yield f"by {name}", engine(name)(chunkplan, *ends, room, groups) and is_moved()
        # by groups of the source's chunks, several tasks write one chunk of the target
        plan = by_tasks("--by-source", "--task-chunks", "3,1")
        make_2(ends[1], [60, 50], [17, 13], dtype=">i4", fill_value=None, order="F", dimension_separator="/")
        told = tool("copy_chunks.py", *ends, input="".join(plan))
        yield "refused where others may write", told.returncode == 1 and "other lines write chunk 1/0, too" in told.stderr
        words = [*ends, "--by-source", "--task-chunks", "3,1", "--alone", "--done", room / "alone", "--resume", room / "alone"]
        told = [tool("copy_chunks.py", *words, input="".join(some)) for some in (plan[1:], plan)]
        yield "alone", all(one.returncode == 0 for one in told) and len(told[1].stdout.splitlines()) == 1 and is_moved()
        told = tool("check_done.py", ends[1], room / "alone", "--by-source", ends[0], "--task-chunks", "3,1")
        yield "all of them", (told.returncode, told.stdout) == (0, "all 3 tasks were done\n")
        (ends[1] / "1/1").unlink()
        told = tool("copy_chunks.py", *words, input="".join(plan))
        yield "a chunk of several tasks is lost", told.returncode == 1 and f"chunk 1/1 of {ends[1]} was lost" in told.stderr


def beside(chunkplan, generator, count):
    """A region by tasks, beside zarr-python's own assignment: what chunks hold besides stays, and other chunks keep their bytes."""
    with tempfile.TemporaryDirectory() as room:
        room = pathlib.Path(room)
        source, target = room / "source", room / "target"
        make_2(source, [60, 50], [8, 50], dtype="<i4")[...] = numpy.arange(3000).reshape(60, 50)
        array = make_2(target, [70, 80], [17, 13], dtype=">i4", fill_value=-1, order="F", dimension_separator="/")
        array[...] = -2 - numpy.arange(5600).reshape(70, 80)
        shutil.rmtree(target / "1")  # of some chunks no element is stored
        subset, at = [[5, 6], [20, 31]], [33, 29]
        copied, before = assigned(source, target, subset, at), stored(target)
        words = ["--subset", "5,6", "20,31", "--at", "33,29"]
        yield "by an engine", engine("xargs_shares")(chunkplan, source, target, room, [*words, "--task-chunks", "2,2"])
        yield "its elements", is_assigned(target, copied, before, met(target, subset, at))
        environment = {**os.environ, "CHUNKPLAN": chunkplan, "PYTHON": sys.executable, "REGION": " ".join(words)}
        # as it was before
        shutil.rmtree(target)
        array = make_2(target, [70, 80], [17, 13], dtype=">i4", fill_value=-1, order="F", dimension_separator="/")
        array[...] = -2 - numpy.arange(5600).reshape(70, 80)
        shutil.rmtree(target / "1")
        before = stored(target)
        for most in (700, 10**6):
            told = tool("two_stages.sh", source, target, room / f"room {most}", most, env=environment)
            yield f"by {most} elements", told.returncode == 0 and is_assigned(target, copied, before, met(target, subset, at))


def killed(chunkplan, generator, count):
    """A worker that is killed at a random moment, and one that goes on: each task that was said to be done stays done."""
    for number, by_source in itertools.product(range(3), (False, True)):
        with tempfile.TemporaryDirectory() as room:
            room = pathlib.Path(room)
            ends = [room / "source", room / "target"]
            elements = numpy.arange(12000, dtype="<i4").reshape(120, 100) + 1
            make_2(ends[0], [120, 100], [7, 9], dtype="<i4", compressor=numcodecs.Zlib())[...] = elements
            make_2(ends[1], [120, 100], [17, 20], dtype="<i4", fill_value=0, compressor=numcodecs.Zlib())
            members = {"order": "source"} if by_source else {}
            plan = lines_of(chunkplan, *map(open_array, ends), task_chunks=[2, 2], **members)
            words = [sys.executable, moves.TOOLS / "copy_chunks.py", *ends, "--alone", "--done", room / "done", "--resume", room / "done"]
            with subprocess.Popen(list(map(str, words)), stdin=subprocess.PIPE, stdout=subprocess.PIPE, text=True) as running:
                running.stdin.write("".join(plan))
                running.stdin.close()
                time.sleep(0.2 + generator.random() / 3)
                running.kill()
            got = zarr.open_array(str(ends[1]), mode="r")[...]
            array = open_array(ends[0 if by_source else 1])
            region, groups = region_between(*map(open_array, ends)), grouped(array, [2, 2])
            boxes = [slices(*region.given(region.chunk_at(n, groups), groups)) for n, _ in done_in(room / "done")]
            yield f"killed {number}: {len(boxes)} of {len(plan)} tasks", all(numpy.array_equal(got[box], elements[box]) for box in boxes)
            left = subprocess.run(list(map(str, words)), input="".join(plan), capture_output=True, text=True)
            told = tool("check_done.py", ends[1], room / "done", "--task-chunks", "2,2", *(["--by-source", ends[0]] if by_source else []))
            moved = numpy.array_equal(zarr.open_array(str(ends[1]), mode="r")[...], elements)
            yield f"killed {number}: then all", left.returncode == told.returncode == 0 and moved


def by_keys(chunkplan, generator, count):
    """Tasks and stages that are cut off, and go on from the keys of the arrays that they write."""
    with tempfile.TemporaryDirectory() as room:
        here, middle, there = ends = [pathlib.Path(room, name) for name in ("source", "intermediate", "target")]
        elements = numpy.arange(3000, dtype="<i4").reshape(60, 50)
        make_2(here, [60, 50], [2, 50], dtype="<i4", fill_value=-1)[...] = elements
        make_2(there, [60, 50], [60, 2], dtype=">i4", fill_value=None, order="F", dimension_separator="/")
        os.environ["CHUNKPLAN"] = chunkplan
        counts = counts_of(open_array(here), open_array(there), 400)
        make(middle, metadata_of(open_array(here), [60, 50], counts["stages"][0]["intermediate"]))

        def lines(stage):
            words = ["--max-elements", 400, "--stage", stage, "--keys", *([middle] if stage == 1 else [])]
            document = tool("document_of.py", here, there, *words, check=True).stdout
            return subprocess.run([chunkplan], input=document, stdout=subprocess.PIPE, check=True, text=True).stdout.splitlines(True)

        for stage, pair in enumerate(itertools.pairwise(ends), 1):
            plan = lines(stage)
            yield f"all tasks of stage {stage}", is_whole(plan) and len(plan) == counts["stages"][stage - 1]["tasks"]
            some = sorted(generator.sample(range(len(plan)), len(plan) // 2))
            told = tool("copy_chunks.py", *pair, "--cache", 0, input="".join(plan[number] for number in some))
            left = [line for number, line in enumerate(plan) if number not in some]
            yield f"what is left of stage {stage}", told.returncode == 0 and lines(stage) == left
            told = tool("copy_chunks.py", *pair, "--cache", 0, input="".join(left))
            yield f"nothing is left of stage {stage}", told.returncode == 0 and lines(stage) == []
        yield "all elements", numpy.array_equal(zarr.open_array(str(there), mode="r")[...], elements)


# A planner that removes a chunk before it plans the second stage.
LOSING = """#!/bin/sh
document=$(cat)
case $document in *'"stage": 2'*) rm {intermediate}/c/0/0;; esac
echo "$document" | {chunkplan}
"""


def script(chunkplan, generator, count):
    """What `two_stages.sh` writes, goes on from, removes and refuses: pairs of rows of an array of 60 x 50 elements go to pairs of
    columns."""
    environment = {**os.environ, "CHUNKPLAN": chunkplan, "PYTHON": sys.executable}
    with tempfile.TemporaryDirectory() as room:
        room = pathlib.Path(room)
        ends, work, intermediate = [room / "source", room / "target"], room / "room", room / "room" / "intermediate"
        elements = numpy.arange(3000, dtype="<i4").reshape(60, 50)
        make_2(ends[0], [60, 50], [2, 50], dtype="<i4", fill_value=-1)[...] = elements
        make_2(ends[1], [60, 50], [60, 2], dtype=">i4", fill_value=None, order="F", dimension_separator="/")

        def run(most, room=work, **more):
            return tool("two_stages.sh", *ends, room, most, env={**environment, **more})

        def is_moved():
            return numpy.array_equal(zarr.open_array(str(ends[1]), mode="r")[...], elements)

        told = run(239, room / "other")
        yield "no tasks hold so few", told.returncode == 1 and "`max_elements`: no tasks hold so few elements; raise it" in told.stderr
        told = tool("document_of.py", *ends, "--max-elements", 400).stdout
        planned = subprocess.run([chunkplan], input=told, capture_output=True, text=True)
        yield "two stages", (planned.returncode, planned.stdout) == (1, "") and "`stage`" in planned.stderr
        # stored as no chunk of 2 x 50 elements
        whole = (ends[0] / "13.0").read_bytes()
        (ends[0] / "13.0").write_bytes(b"no")
        told = run(400)
        refused = told.returncode == 1 and "chunk 13.0 of" in told.stderr
        yield "a broken source", refused and not list(ends[1].glob("[0-9]*"))
        (ends[0] / "13.0").write_bytes(whole)
        done = len((work / "done.1").read_text().splitlines())
        told = run(401)
        yield "another bound in its room", told.returncode == 1 and "has another copy" in told.stderr
        told = tool("make_intermediate.py", *ends, intermediate, "--max-elements", 240, env=environment)
        yield "another intermediate array", told.returncode == 1 and "is another array's" in told.stderr
        told = run(400)
        lines = (work / "done.1").read_text().splitlines()
        yield "it goes on", told.returncode == 0 and is_moved() and 0 < done < len(lines) and is_whole(lines)
        counts, *checked = told.stdout.splitlines()
        tasks = [stage["tasks"] for stage in json.loads(counts)["stages"]]
        yield "it tells the counts", len(tasks) == 2 and checked == [f"all {count} tasks were done" for count in tasks]
        yield "what is left", not intermediate.exists() and not (ends[1] / ".unfinished").exists()
        told = run(400)
        yield "once more", told.returncode == 0 and told.stdout == f"{checked[1]}\n" and not intermediate.exists()
        (ends[1] / "0/3").unlink()
        yield "a chunk was lost", run(400).returncode == 0 and is_moved() and not intermediate.exists()
        zarr.open_array(str(ends[1]))[3, 3] = 7
        yield "a chunk was changed", run(400).returncode == 0 and is_moved() and not intermediate.exists()
        (work / "finished").unlink()  # as where a run was killed before its end
        elements[5] = 7
        zarr.open_array(str(ends[0]))[5] = 7
        yield "the source was changed", run(400).returncode == 0 and is_moved()
        # an intermediate chunk is lost when the second stage begins
        (room / "losing").write_text(LOSING.format(intermediate=intermediate, chunkplan=chunkplan))
        (room / "losing").chmod(0o755)
        zarr.open_array(str(ends[1]))[3, 3] = 7
        told = run(400, CHUNKPLAN=str(room / "losing"))
        yield "an intermediate chunk was lost", told.returncode == 1 and f"of {intermediate} isn't stored" in told.stderr
        yield "it is made again", run(400).returncode == 0 and is_moved()
        told = run(10**6, room / "more")
        one = len(json.loads(told.stdout.splitlines()[0])["stages"]) == 1
        yield "where one stage costs less", told.returncode == 0 and one and is_moved() and not (room / "more" / "intermediate").exists()
        told = run(10**6, room / "more")
        yield "one stage once more", (told.returncode, told.stdout) == (0, "all 1 tasks were done\n")
        make_2(room / "texts", [8, 8], [1, 8], dtype="<U3")
        told = tool("make_intermediate.py", room / "texts", room / "texts", intermediate, "--max-elements", 16, env=environment)
        yield "one folder", told.returncode == 1 and "one folder" in told.stderr
        make_2(room / "others", [8, 8], [8, 1], dtype="<U3")
        yield "no type of format 3", is_refused(lambda: metadata_of(open_array(room / "texts"), [8, 8], [2, 2]), "data type str96")
        told = tool("make_intermediate.py", room / "texts", room / "others", intermediate, "--max-elements", 16, env=environment)
        yield "the program", told.returncode == 1 and "data type str96" in told.stderr and not intermediate.exists()
        told = tool("make_intermediate.py", room / "texts", room / "others", intermediate, "--max-elements", 99, env=environment)
        yield "none is needed", told.returncode == 0 and not intermediate.exists()


# 200 MB in elements of four bytes, and chunks of 10 MB.
SHAPE, SOURCE, TARGET = [5000, 10000], [250, 10000], [5000, 500]
FEWER, MORE = 8_000_000, 20_000_000  # elements that a worker holds at most
# Runs a script, and tells on standard error how many kilobytes it may write to, and how many it had in memory at most.
TELLING = """
import pathlib, re, runpy, sys
del sys.argv[0]
sys.path.insert(0, str(pathlib.Path(sys.argv[0]).parent))
try:
    runpy.run_path(sys.argv[0], run_name="__main__")
finally:
    status = pathlib.Path("/proc/self/status").read_text()
    print(*(re.search(f"{name}:\\\\s*(\\\\d+)", status)[1] for name in ("VmData", "VmHWM")), file=sys.stderr)
"""


def measured(source, target, lines):
    """Whether a worker did some lines, keeping no chunk, and the two numbers of kilobytes."""
    words = [moves.TOOLS / "copy_chunks.py", source, target, "--cache", "0", "--no-sync"]
    command = [sys.executable, "-c", TELLING, *map(str, words)]
    done = subprocess.run(command, input="".join(lines), capture_output=True, text=True)
    return done.returncode == 0 and is_whole(done.stdout.splitlines()), *map(int, done.stderr.split()[-2:])


def elements_at(row, rows):
    """The elements of some rows: numbers that a `float32` has exactly, and the next row's are others."""
    indices = numpy.arange(row * SHAPE[1], (row + rows) * SHAPE[1], dtype="u4")
    return (indices % 16777213).astype("<f4").reshape(rows, SHAPE[1])


def memory(chunkplan, generator, count):
    """An array of 200 MB, whose rows become columns under two bounds. The worker holds what the counts say: the largest buffer and one
    chunk. A line of one chunk of the target holds this chunk and one of the source. Under a limit between both bounds the larger tasks
    end without memory, and the smaller ones are right."""
    with tempfile.TemporaryDirectory() as room:
        room = pathlib.Path(room)
        here, there, middle = (room / name for name in ("source", "target", "intermediate"))
        few = [room / "few", room / "fewer"]
        for folder, edges in zip(few, ([2], [4])):
            make_2(folder, [4], edges, dtype="<f4", compressor=None)
        small, limit, least = measured(*few, moves.plan_of(chunkplan, *map(open_array, few)))
        yield "the worker alone", small
        array = make_2(here, SHAPE, SOURCE, dtype="<f4", compressor=None)
        for row in range(0, SHAPE[0], SOURCE[0]):
            array[row : row + SOURCE[0]] = elements_at(row, SOURCE[0])
        make_2(there, SHAPE, TARGET, dtype="<f4", compressor=None)
        source, target = open_array(here), open_array(there)
        os.environ["CHUNKPLAN"] = chunkplan
        runs = [("lines of one chunk", (here, there), moves.plan_of(chunkplan, source, target)[:3], 5_000_000)]
        for most in (FEWER, MORE):
            stages = counts_of(source, target, most)["stages"]
            folders = [here, *(room / f"{middle.name}.{most}" for _ in stages[1:]), there]
            for number, (stage, pair) in enumerate(zip(stages, itertools.pairwise(folders)), 1):
                if stage["intermediate"]:
                    make(pair[1], metadata_of(source, SHAPE, stage["intermediate"]))
                chunk = max(math.prod(open_array(end).chunk_shape) for end in pair)
                lines = lines_of(chunkplan, source, target, max_elements=most, stage=number)
                runs.append((f"{most} elements, stage {number} of {len(stages)}", pair, lines, stage["largest_task"] + chunk))
                yield f"{runs[-1][0]}: {runs[-1][-1]}", runs[-1][-1] <= most
        yield "two stages and more", len(runs) >= 4
        for what, pair, lines, held in runs:
            lines = [json.dumps({**json.loads(line), "number": n, "of": len(lines)}) + "\n" for n, line in enumerate(lines)]
            done, _, peak = measured(*pair, lines)
            # four bytes an element, and 8 MB more or less, since what Python has besides varies
            beside = 1024 * (peak - least) - 4 * held
            yield f"{what}: {1024 * (peak - least) / 4e6:.1f} of {held / 1e6} million elements", done and abs(beside) <= 8e6
        limit = limit * 1024 + 4 * (FEWER + MORE) // 2

        def limited():
            resource.setrlimit(resource.RLIMIT_DATA, (limit, limit))

        for path in there.glob("[0-9]*"):
            path.unlink()
        environment = {**os.environ, "PYTHON": sys.executable}
        told = tool("two_stages.sh", here, there, room / "more", MORE, env=environment, preexec_fn=limited)
        out_of_memory = "MemoryError" in told.stderr or "Unable to allocate" in told.stderr
        yield "more than the limit", told.returncode == 1 and out_of_memory
        told = tool("two_stages.sh", here, there, room / "room", FEWER, env=environment, preexec_fn=limited)
        yield "less than the limit", told.returncode == 0 and not (room / "room" / "intermediate").exists()
        moved = zarr.open_array(str(there), mode="r")
        rows = range(0, SHAPE[0], 500)
        yield "all elements", all(numpy.array_equal(moved[row : row + 500], elements_at(row, 500)) for row in rows)


if __name__ == "__main__":
    moves.main([chosen, given, lines, worker, beside, killed, by_keys, script, memory])
