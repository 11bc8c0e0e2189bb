#!/usr/bin/env python3
"""Moves an array of 2 GB from maps to series in bounded memory, beside Dask's `rechunk` and a loop of zarr-python.

    real_array.py CHUNKPLAN [--folder FOLDER] [--runs N] [--loop N] [--compressors NAME ..] [--ways NAME ..]

CHUNKPLAN is the built program. The script makes its arrays in FOLDER, which needs 7 GB, and removes them at the end. It needs numpy,
zarr-python 2 and dask (Debian: python3-zarr, python3-dask). The ways are:

- `stages`: `examples/rechunk/two_stages.sh`, with one worker a stage, by tasks of at most MOST elements;
- `dask`: `dask.array.from_zarr(..).rechunk(..).to_zarr(..)`, as it is by default;
- `loop`: for each chunk of the target, `target[box] = source[box]`. It takes `--loop` chunks, and the script scales its seconds to all.

Each way prints seconds, how long the disk takes after it, and processor seconds of all its processes. Audit events of Python count the chunk
files that a process opens to read, and those that it renames to their keys. The peak of resident memory and the bytes that are read are
the kernel's.

The script compares each result with the source, bit by bit. It ends with status 1 if an element differs, or if a worker reads or writes another
number of chunks than counted. It also does if a worker takes more memory than MOST elements and ROOM MB.
"""
import argparse
import ctypes
import itertools
import json
import os
import pathlib
import re
import resource
import runpy
import shutil
import subprocess
import sys
import tempfile
import time

TOOLS = pathlib.Path(__file__).resolve().parent.parent / "examples" / "rechunk"
SHAPE, MAPS, SERIES = (2190, 360, 640), (1, 360, 640), (2190, 8, 8)
ITEM = 4  # bytes of an element
MOST = 2**26  # elements that a task holds: 256 MiB
ROOM = 60  # MB that a worker may take besides
BAND = 40  # rows that are compared at a time
ARRAYS = {"source": "source", "intermediate": "stages/intermediate", "target": "target"}
METADATA = {".zarray", ".zattrs", "zarr.json"}


# In a process of its own.


def make(source, target, compressor):
    """Writes a source as it may be measured: a wave in space and in time, with noise. The target is only begun."""
    import numpy

    array, _ = begin(source, MAPS, compressor), begin(target, SERIES, compressor)
    random = numpy.random.default_rng(2026)
    rows, columns = numpy.linspace(-1.5, 1.5, SHAPE[1])[:, None], numpy.linspace(0, 6.28, SHAPE[2])
    for day in range(SHAPE[0]):
        wave = 280 + 25 * numpy.cos(rows) + 5 * numpy.sin(columns + day / 58)
        array[day] = wave + random.standard_normal(SHAPE[1:], "f4")


def begin(folder, chunks, compressor):
    import zarr

    compressor = {"none": None}.get(compressor, compressor)
    return zarr.open_array(folder, mode="w", shape=SHAPE, chunks=chunks, dtype="<f4", compressor=compressor, dimension_separator="/")


def dask(source, target):
    import dask.array
    import zarr

    target = zarr.open_array(target, mode="r+")
    dask.array.from_zarr(source).rechunk(target.chunks).to_zarr(target)


def loop(source, target, count):
    import zarr

    source, target = zarr.open_array(source, mode="r"), zarr.open_array(target, mode="r+")
    for starts in itertools.islice(boxes(), int(count)):
        box = tuple(slice(start, start + edge) for start, edge in zip(starts, SERIES))
        target[box] = source[box]


def boxes():
    """Where the chunks of the target begin."""
    return itertools.product(*(range(0, size, edge) for size, edge in zip(SHAPE, SERIES)))


def compare(source, target, count):
    """Compares the first chunks of the target, or all of them, bit by bit."""
    import zarr

    source, target = zarr.open_array(source, mode="r"), zarr.open_array(target, mode="r")
    if int(count) < len(list(boxes())):
        for starts in itertools.islice(boxes(), int(count)):
            box = tuple(slice(start, start + edge) for start, edge in zip(starts, SERIES))
            check_same(source[box], target[box], box)
        return
    for row in range(0, SHAPE[1], BAND):
        check_same(source[:, row : row + BAND], target[:, row : row + BAND], row)


def check_same(one, other, place):
    if one.shape != other.shape or not (one.view("i4") == other.view("i4")).all():
        sys.exit(f"other elements at {place}")


def child(seen, name, *words):
    """Runs a function of this script, or another script, and appends to a file what was seen of it."""
    read, renamed, last = {}, {}, [None]
    folders = {array: f"{pathlib.Path(seen).parent / place}/" for array, place in ARRAYS.items()}

    def look(event, values):
        if event == "open":
            is_the_openers = values[1] is None and values[0] == last[0]  # `open` says it already
            last[0] = values[0]
            if not is_the_openers and (values[1] is None or "r" in values[1]):
                count(read, values[0])
        elif event == "os.rename":
            count(renamed, values[1])

    def count(counted, path):
        for array, folder in folders.items():
            if str(path).startswith(folder) and pathlib.PurePath(str(path)).name not in METADATA:
                counted[array] = counted.get(array, 0) + 1

    sys.addaudithook(look)
    began = time.monotonic()
    try:
        if name.endswith(".py"):
            sys.argv, sys.path[0] = [name, *words], str(pathlib.Path(name).parent)
            runpy.run_path(name, run_name="__main__")
        else:
            {"make": make, "dask": dask, "loop": loop, "compare": compare}[name](*words)
    finally:
        peak = resource.getrusage(resource.RUSAGE_SELF).ru_maxrss * 1024
        bytes_read = int(re.search(r"rchar: (\d+)", pathlib.Path("/proc/self/io").read_text())[1])
        told = {"read": read, "renamed": renamed, "peak": peak, "bytes": bytes_read, "seconds": time.monotonic() - began}
        with open(seen, "a") as file:
            print(json.dumps(told), file=file)


# The script. It stays small: what the kernel says of a process counts the memory that its parent had.


class Room:
    def __init__(self, folder, chunkplan, compressor, count):
        self.folder, self.chunkplan, self.compressor, self.count = folder, chunkplan, compressor, count
        self.source, self.target, self.seen = (str(folder / name) for name in ("source", "target", "seen"))
        self.python = folder / "python"
        self.python.write_text(f'#!/bin/sh\ncase "$1" in */copy_chunks.py) exec {self.command()} "$@" ;; esac\nexec {sys.executable} "$@"\n')
        self.python.chmod(0o755)

    def command(self, *words):
        return " ".join([sys.executable, str(pathlib.Path(__file__).resolve()), "--child", self.seen, *words])

    def run(self, command, **words):
        """Runs a command. Returns what it took, what it printed, and what was seen of its processes."""
        pathlib.Path(self.seen).unlink(missing_ok=True)
        synced(self.folder)
        began, before = time.monotonic(), processor_seconds()
        ran = subprocess.run(command, stdout=subprocess.PIPE, text=True, shell=isinstance(command, str), **words)
        ended, spent = time.monotonic(), processor_seconds() - before
        if ran.returncode:
            sys.exit(f"{command}: status {ran.returncode}")
        synced(self.folder)
        took = f"{ended - began:.1f} s, the disk {time.monotonic() - ended:.1f} s, of processors {spent:.1f} s"
        return took, ended - began, ran.stdout, [json.loads(line) for line in pathlib.Path(self.seen).read_text().splitlines()]

    def fresh_target(self):
        for path in pathlib.Path(self.target).iterdir():
            if path.name != ".zarray":
                shutil.rmtree(path)
        shutil.rmtree(self.folder / "stages", ignore_errors=True)

    def compare(self, count):
        self.run(self.command("compare", self.source, self.target, str(count)))

    def stages(self):
        words = [str(TOOLS / "two_stages.sh"), self.source, self.target, str(self.folder / "stages"), str(MOST)]
        took, _, printed, seen = self.run(words, env={**os.environ, "CHUNKPLAN": self.chunkplan, "PYTHON": str(self.python)})
        counts = json.loads(printed.splitlines()[0])
        yield f"{took}, exact {counts['exact']}"
        arrays = list(ARRAYS) if len(counts["stages"]) == 2 else ["source", "target"]
        if len(seen) != len(counts["stages"]):
            sys.exit(f"{len(seen)} workers, and the stages {counts['stages']}")
        for number, (stage, worker, ends) in enumerate(zip(counts["stages"], seen, itertools.pairwise(arrays)), 1):
            told = f"stage {number}: {stage['tasks']} tasks of {stage['task_chunks']} chunks, the largest of {stage['largest_task']} elements"
            told += f", intermediate {stage['intermediate']}, counted {stage['chunks_read']} read and {stage['chunks_written']} written"
            yield f"{told}; {worker['seconds']:.1f} s, {what_was_seen(worker)}"
            if worker["read"] != {ends[0]: stage["chunks_read"]} or worker["renamed"] != {ends[1]: stage["chunks_written"]}:
                sys.exit("the worker read or wrote another number of chunks")
            if worker["peak"] > MOST * ITEM + ROOM * 10**6:
                sys.exit(f"the worker took more than {MOST * ITEM / 1e6:.1f} + {ROOM} MB")
        self.compare(self.all_chunks())

    def dask(self):
        took, _, _, (seen,) = self.run(self.command("dask", self.source, self.target))
        yield f"{took}, {what_was_seen(seen)}"
        self.compare(self.all_chunks())

    def loop(self):
        count, of = min(self.count, self.all_chunks()), self.all_chunks()
        took, seconds, _, (seen,) = self.run(self.command("loop", self.source, self.target, str(count)))
        yield f"{took}, {count} of {of} chunks, all would take {seconds * of / count:.0f} s, {what_was_seen(seen)}"
        self.compare(count)

    @staticmethod
    def all_chunks():
        return len(list(boxes()))


def what_was_seen(seen):
    return f"opened {seen['read']}, renamed {seen['renamed']}, {seen['bytes'] / 1e9:.2f} GB read, peak {seen['peak'] / 1e6:.1f} MB"


def processor_seconds():
    spent = resource.getrusage(resource.RUSAGE_CHILDREN)
    return spent.ru_utime + spent.ru_stime


def synced(folder):
    """Waits until the disk has all that was written."""
    descriptor = os.open(folder, os.O_RDONLY)
    try:
        if ctypes.CDLL(None).syncfs(descriptor) != 0:
            sys.exit(f"{folder} can't be written to the disk")
    finally:
        os.close(descriptor)


def main():
    parser = argparse.ArgumentParser(description="Moves an array of 2 GB from maps to series, in three ways.")
    parser.add_argument("chunkplan", type=lambda path: str(pathlib.Path(path).resolve()))
    parser.add_argument("--folder", help="where the arrays are made, with 7 GB free")
    parser.add_argument("--runs", type=int, default=1, help="how often each way is run (1)")
    parser.add_argument("--loop", type=int, default=40, metavar="N", help="how many chunks of the target the loop takes (40)")
    parser.add_argument("--compressors", nargs="+", choices=["none", "default"], default=["none", "default"])
    parser.add_argument("--ways", nargs="+", choices=["stages", "dask", "loop"], default=["stages", "dask", "loop"])
    words = parser.parse_args()
    for compressor in words.compressors:
        with tempfile.TemporaryDirectory(dir=words.folder) as folder:
            room = Room(pathlib.Path(folder).resolve(), words.chunkplan, compressor, words.loop)
            room.run(room.command("make", room.source, room.target, compressor))
            size = sum(path.stat().st_size for path in pathlib.Path(room.source).rglob("*") if path.is_file())
            print(f"{SHAPE} from {MAPS} to {SERIES}, compressor {compressor}: {size / 1e9:.2f} GB stored, {MOST} elements", flush=True)
            for _, way in itertools.product(range(words.runs), words.ways):
                room.fresh_target()
                for told in getattr(room, way)():
                    print(f"  {way}: {told}, load {os.getloadavg()[0]:.1f}", flush=True)


if __name__ == "__main__":
    if sys.argv[1:2] == ["--child"]:
        child(*sys.argv[2:])
    else:
        main()
