#!/usr/bin/env python3
"""Moves arrays by the plans of `chunkplan` in the order of the source, and compares with numpy: all elements have to be equal,
byte by byte, and each chunk of the source is read once. Then what has to be refused, and a worker that is killed.

    by_source.py CHUNKPLAN [--seed N] [--moves N] [--checks NAME ..]

CHUNKPLAN is the built program. It needs numpy and zarr-python 2 (Debian: python3-zarr).
"""
import fcntl
import itertools
import json
import pathlib
import shutil
import subprocess
import sys
import tempfile
import time

import numcodecs
import numpy
import zarr

import moves  # which has the folder of the scripts on the path
from copy_chunks import done_in, task_of
from document_of import document_of
from moves import FORMAT_3, TYPES, carry_out, disk_steps, edits, forget_some, is_refused, is_whole, make_2, random_elements, same, shapes, split, store, tool
from region import region_between
from regions import assigned, is_assigned, met, slices, stored
from stored_arrays import open_array

if FORMAT_3:
    import format_3


def plan_of(chunkplan, source, target):
    document = json.dumps({**document_of(source, target), "order": "source"})
    return subprocess.run([chunkplan], input=document, stdout=subprocess.PIPE, check=True, text=True).stdout.splitlines(True)


def kinds(chunkplan, generator, count):
    """Arrays of random kinds, so many from each format to each: lines in any order, into targets that are new or hold something."""
    for formats in itertools.product((2, 3) if FORMAT_3 else (2,), repeat=2):
        for number in range(count):
            dtype, fills, name = generator.choice(TYPES if formats == (2, 2) else [row for row in TYPES if row[2]])
            dtype, shape, written = numpy.dtype(dtype), shapes(generator), generator.choice(fills)
            fill = numpy.array(written, dtype)[()]
            with tempfile.TemporaryDirectory() as room:
                ends = [pathlib.Path(room, end) for end in ("source", "target")]
                elements = random_elements(generator, shape, dtype)
                held = random_elements(generator, shape, dtype) if generator.random() < 0.5 else None
                for form, folder, some in zip(formats, ends, (elements, held)):
                    store(generator, form, folder, shape, dtype, name, written, some)
                elements = forget_some(generator, ends[0], elements, fill)
                plan = plan_of(chunkplan, *map(open_array, ends))
                generator.shuffle(plan)
                read = carry_out(plan, *ends, most=0, by_source=True)
                got = zarr.open_array(str(ends[1]), mode="r")[...] if formats[1] == 2 else format_3.read(ends[1], dtype, fill)
                chunks = int(numpy.prod(open_array(ends[0]).grid()))
                yield f"{formats}, move {number} of {dtype}, {shape}", same(elements, numpy.asarray(got)) and read == len(plan) == chunks


def lines(chunkplan, generator, count):
    """Each line of a plan with one thing changed, and each cut off."""
    with tempfile.TemporaryDirectory() as room:
        ends = [pathlib.Path(room, name) for name in ("source", "target")]
        make_2(ends[0], [12, 9], [5, 4], dtype="<i4")
        make_2(ends[1], [12, 9], [4, 2], dtype="<i4")
        source, target = map(open_array, ends)
        region = region_between(source, target)
        plan = plan_of(chunkplan, source, target)
        wholes = {piece["whole"] for text in plan for piece in json.loads(text)["to"]}
        yield "pieces that are whole, and others", wholes == {True, False}

        def task(text, part=region):
            return task_of(text, source, target, part, [1, 1], True)

        for text in plan:
            line = json.loads(text)
            yield text, task(text).line == line
            for edited in edits(line):
                yield json.dumps(edited), is_refused(lambda: task(json.dumps(edited)), "line")
            for end in range(len(text) - 1):
                yield text[:end], is_refused(lambda: task(text[:end]), "no line of a plan")
        # a line of the whole array isn't one of a region, though all its elements are in it
        part = region_between(source, target, [[0, 0], [12, 8]], [0, 0])
        yield "of a region", is_refused(lambda: task(plan[0], part), "it isn't the task of its number")
        words = ["--by-source", "--task-chunks", "1,1", "--alone", "--subset", "0,0", "12,8"]
        told = tool("copy_chunks.py", *ends, *words, input="".join(plan))
        refused = told.returncode == 1 and "it isn't the task of its number" in told.stderr
        yield "the worker, of a region", refused and not list(ends[1].glob("[0-9]*"))
        yield "a line of the other order", is_refused(lambda: task_of(plan[1], source, target, region, [1, 1]), "it isn't the task of its number")


def by_lines(chunkplan, source, target, *words):
    """document_of .. | chunkplan: the lines."""
    document = tool("document_of.py", source, target, "--by-source", *words, check=True).stdout
    return subprocess.run([chunkplan], input=document, stdout=subprocess.PIPE, check=True, text=True).stdout.splitlines(True)


def worker(chunkplan, generator, count):
    """What the worker writes, refuses and passes over: layers of an array of 60 x 50 elements go to blocks."""
    with tempfile.TemporaryDirectory() as room:
        room = pathlib.Path(room)
        ends = [room / "source", room / "target"]
        elements = numpy.arange(3000, dtype="<i4").reshape(60, 50)
        make_2(ends[0], [60, 50], [8, 50], dtype="<i4")[...] = elements
        make_2(ends[1], [60, 50], [17, 13], dtype=">i4", fill_value=None, order="F", dimension_separator="/")
        plan = by_lines(chunkplan, *ends)
        pieces = [piece for text in plan for piece in json.loads(text)["to"]]
        yield "one line a layer", len(plan) == 8 and {piece["whole"] for piece in pieces} == {False}
        told = tool("copy_chunks.py", *ends, input="".join(plan))
        refused = told.returncode == 1 and "other lines write chunk 0/0, too" in told.stderr and told.stdout == ""
        yield "refused where others may write", refused and stored(ends[1]).keys() == {".zarray"}
        # a part of the lines, one of them once more, and then all
        words = [*ends, "--by-source", "--alone", "--done", room / "done", "--resume", room / "done", "--verbose"]
        first = tool("copy_chunks.py", *words, input="".join([plan[5], plan[2]]))
        yield "two lines", first.stdout == "".join(f'{{"number": {number}, "of": 8}}\n' for number in (5, 2))
        yield "each read once", "12 chunks written, 2 read" in first.stderr
        told = tool("check_done.py", ends[1], room / "done", "--by-source", ends[0])
        yield "six are missing", told.returncode == 1 and "6 of 8 chunks weren't done: 0.0, 1.0, 3.0, 4.0, 6.0, .." in told.stderr
        told = tool("check_done.py", ends[1], room / "done")
        yield "and no line of the other order was done", told.returncode == 1 and "lines of a plan of another length than 16" in told.stderr
        second = tool("copy_chunks.py", *words, input="".join(reversed(plan)))
        yield "the others", is_whole((first.stdout + second.stdout).splitlines()) and "6 read" in second.stderr
        yield "all elements", numpy.array_equal(zarr.open_array(str(ends[1]), mode="r")[...], elements)
        yield "all were done", tool("check_done.py", ends[1], room / "done", "--by-source", ends[0]).stdout == "all 8 chunks were done\n"
        # where a chunk is lost, no line that wrote it is passed over, also where another line began it anew: all are done again
        (ends[1] / "3/2").unlink()
        told = tool("check_done.py", ends[1], room / "done", "--by-source", ends[0])
        yield "a chunk is lost", told.returncode == 1 and "1 chunks of" in told.stderr and told.stderr.endswith("aren't stored: 3/2\n")
        lost = "chunk 3/2 of {} was lost since line {} was done"
        told = tool("copy_chunks.py", *words, input="".join(plan))
        yield "it is seen", told.returncode == 1 and lost.format(ends[1], 6) in told.stderr and not (ends[1] / "3/2").exists()
        (room / "six").write_text("".join(line for line in (room / "done").read_text().splitlines(True) if '"number": 6,' not in line))
        told = tool("copy_chunks.py", *ends, "--alone", "--resume", room / "six", "--verbose", input="".join(plan))
        yield "it is seen behind the line that begins it", told.returncode == 1 and lost.format(ends[1], 7) in told.stderr and (ends[1] / "3/2").exists()
        told = tool("copy_chunks.py", *ends, "--alone", input="".join(plan))
        yield "and made again", told.returncode == 0 and numpy.array_equal(zarr.open_array(str(ends[1]), mode="r")[...], elements)
        again = tool("copy_chunks.py", *ends, "--alone", input=plan[5])
        yield "one line again", again.returncode == 0
        steps = disk_steps(*ends, "--alone", input=plan[5])
        yield "each takes the place of the old one when the disk has it", steps == ["fsync", "rename"] * len(json.loads(plan[5])["to"])
        # two workers alone
        shutil.rmtree(ends[1] / ".unfinished", ignore_errors=True)  # as the end of another run may do
        with open(ends[1] / ".zarray", "rb") as other:
            fcntl.flock(other, fcntl.LOCK_EX)
            told = tool("copy_chunks.py", *ends, "--alone", input="".join(plan))
            yield "beside another worker", told.returncode == 1 and "another worker with --alone may run" in told.stderr and told.stdout == ""
        # one that is broken is refused where it is to be kept, and stays as it is
        (ends[1] / "0/0").write_bytes(b"no")
        told = tool("copy_chunks.py", *ends, "--alone", input=plan[0])
        yield "a broken chunk of the target", told.returncode == 1 and "chunk 0/0 of" in told.stderr and (ends[1] / "0/0").read_bytes() == b"no"
        (ends[0] / "1.0").write_bytes(b"no")
        told = tool("copy_chunks.py", *ends, "--alone", input=plan[1])
        yield "a broken source", told.returncode == 1 and "chunk 1.0 of" in told.stderr and told.stdout == ""
        yield "by keys, a chunk that several lines write is never passed over", by_lines(chunkplan, *ends, "--keys") == plan


def of_region(chunkplan, generator, count):
    """A region in the order of the source, beside zarr-python's own assignment."""
    with tempfile.TemporaryDirectory() as room:
        ends, done = [pathlib.Path(room, name) for name in ("source", "target")], pathlib.Path(room, "done")
        make_2(ends[0], [60, 50], [8, 50], dtype="<i4")[...] = numpy.arange(3000).reshape(60, 50)
        array = make_2(ends[1], [70, 80], [17, 13], dtype=">i4", fill_value=-1, order="F", dimension_separator="/")
        array[...] = -2 - numpy.arange(5600).reshape(70, 80)
        shutil.rmtree(ends[1] / "1")  # of some chunks no element is stored
        subset, at = [[5, 6], [20, 31]], [33, 29]
        copied, before, words = assigned(*ends, subset, at), stored(ends[1]), ["--subset", "5,6", "20,31", "--at", "33,29"]
        plan = by_lines(chunkplan, *ends, *words)
        told = tool("copy_chunks.py", *ends, *words, "--by-source", "--alone", "--done", done, input="".join(reversed(plan)))
        yield "its lines", told.returncode == 0 and len(plan) == 4
        told = tool("check_done.py", ends[1], done, *words, "--by-source", ends[0])
        yield "all were done", (told.returncode, told.stdout) == (0, "all 4 chunks were done\n")
        shutil.rmtree(ends[1] / ".unfinished")
        yield "its elements", is_assigned(ends[1], copied, before, met(ends[1], subset, at))


def made_anew(chunkplan, generator, count):
    """A chunk that several lines write, and that something else writes between two runs: no line that wrote it is passed over."""
    with tempfile.TemporaryDirectory() as room:
        room = pathlib.Path(room)
        ends, done = [room / "source", room / "target"], room / "done"
        elements = numpy.arange(3000, dtype="<i4").reshape(60, 50)
        make_2(ends[0], [60, 50], [8, 50], dtype="<i4")[...] = elements
        make_2(ends[1], [60, 50], [17, 13], dtype="<i4", fill_value=-1)
        plan, words = by_lines(chunkplan, *ends), [*ends, "--alone", "--done", done, "--resume", done]
        chunk = ends[1] / "0.0"

        def all_lines(became):
            """Whether the lines are refused, and are done when the file of what was done is removed."""
            told = tool("copy_chunks.py", *words, input="".join(plan))
            refused = told.returncode == 1 and f"chunk 0.0 of {ends[1]} was {became} since line 0 was done: remove {done}" in told.stderr
            done.unlink()
            told = tool("copy_chunks.py", *words, input="".join(plan))
            return refused and told.returncode == 0 and numpy.array_equal(zarr.open_array(str(ends[1]), mode="r")[...], elements)

        yield "some lines", tool("copy_chunks.py", *words, input="".join(plan[:2])).returncode == 0
        # one that was begun, by a worker that was killed before it had its key
        with open(done, "a") as begun:
            begun.write('{"begun": "0.0", "by": [2, 8], "is": [1, 2, 3]}\n')
        yield "all of them", tool("copy_chunks.py", *words, input="".join(plan)).returncode == 0
        told = tool("copy_chunks.py", *words, "--verbose", input="".join(plan))
        yield "once more", told.returncode == 0 and "0 chunks written, 0 read" in told.stderr
        zarr.open_array(str(ends[1]))[:17, :13] = 7
        yield "by zarr-python", all_lines("changed")
        chunk.write_bytes(chunk.read_bytes())
        yield "in its place", all_lines("changed")
        chunk.write_bytes(b"")
        yield "without a byte", all_lines("lost")
        # a chunk as it was when only some lines were done
        done.unlink()
        first = tool("copy_chunks.py", *words, input=plan[0]).returncode
        (room / "old").hardlink_to(chunk)
        yield "two runs", first == tool("copy_chunks.py", *words, input="".join(plan)).returncode == 0
        (room / "old").replace(chunk)
        yield "as it was", all_lines("changed")
        told = tool("copy_chunks.py", *words[:-2], input="".join(plan))
        yield "not resumed", told.returncode == 1 and f"{done} has lines of another run" in told.stderr and told.stdout == ""


def splits(chunkplan, generator, count):
    """Where chunks are split, all pieces are whole: any worker takes any line. Four at a time, and three shares."""
    with tempfile.TemporaryDirectory() as room:
        room = pathlib.Path(room)
        ends = [room / "source", room / "target"]
        elements = numpy.arange(3000, dtype="<i4").reshape(60, 50)
        make_2(ends[0], [60, 50], [24, 20], dtype="<i4")[...] = elements
        make_2(ends[1], [60, 50], [8, 5], dtype="<i4", fill_value=-1)
        plan = by_lines(chunkplan, *ends)
        command = split([str(word) for word in (sys.executable, moves.TOOLS / "copy_chunks.py", *ends)])
        done = subprocess.run(command, input="".join(plan), capture_output=True, text=True)
        moved = numpy.array_equal(zarr.open_array(str(ends[1]), mode="r")[...], elements)
        yield "four workers", done.returncode == 0 and is_whole(done.stdout.splitlines()) and len(plan) == 9 and moved
        make_2(ends[1], [60, 50], [8, 5], dtype="<i4", fill_value=-1)
        told = []
        for task in range(3):
            told.append(tool("copy_chunks.py", *ends, "--done", room / "done", input="".join(by_lines(chunkplan, *ends, "--share", task, 3))))
        yield "three shares", all(one.returncode == 0 for one in told) and is_whole((room / "done").read_text().splitlines())
        yield "all elements", numpy.array_equal(zarr.open_array(str(ends[1]), mode="r")[...], elements)
        (ends[1] / "0.0").unlink()
        yield "by keys, what is missing", by_lines(chunkplan, *ends, "--keys") == plan[:1]


def killed(chunkplan, generator, count):
    """A worker that is killed at a random moment, and one that goes on: each line that was said to be done stays done."""
    for number in range(4):
        with tempfile.TemporaryDirectory() as room:
            room = pathlib.Path(room)
            ends = [room / "source", room / "target"]
            elements = numpy.arange(12000, dtype="<i4").reshape(120, 100) + 1
            make_2(ends[0], [120, 100], [7, 9], dtype="<i4", compressor=numcodecs.Zlib())[...] = elements
            make_2(ends[1], [120, 100], [17, 20], dtype="<i4", fill_value=0, compressor=numcodecs.Zlib())
            plan = by_lines(chunkplan, *ends)
            words = [sys.executable, moves.TOOLS / "copy_chunks.py", *ends, "--alone", "--done", room / "done", "--resume", room / "done"]
            with subprocess.Popen(list(map(str, words)), stdin=subprocess.PIPE, stdout=subprocess.PIPE, text=True) as running:
                running.stdin.write("".join(plan))
                running.stdin.close()
                # it says what is done at most once a second
                for _ in range(generator.randrange(2) * 40):
                    running.stdout.readline()
                time.sleep(generator.random() / 2)
                running.kill()
            source, got = open_array(ends[0]), zarr.open_array(str(ends[1]), mode="r")[...]
            chunk_of = {n: json.loads(text)["from"][0]["chunk"] for n, text in enumerate(plan)}
            boxes = [slices(*source.held(chunk_of[n])) for n, _ in done_in(room / "done")]
            yield f"killed {number}: {len(boxes)} of {len(plan)} lines", all(numpy.array_equal(got[box], elements[box]) for box in boxes)
            left = subprocess.run(list(map(str, words)), input="".join(plan), capture_output=True, text=True)
            told = tool("check_done.py", ends[1], room / "done", "--by-source", ends[0])
            moved = numpy.array_equal(zarr.open_array(str(ends[1]), mode="r")[...], elements)
            yield f"killed {number}: then all", left.returncode == told.returncode == 0 and moved


if __name__ == "__main__":
    moves.main([kinds, lines, worker, of_region, made_anew, splits, killed])
