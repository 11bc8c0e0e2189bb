#!/usr/bin/env python3
"""Takes the seconds and the memory of a rechunking of 224 MB, beside a loop of zarr-python and beside Dask's `rechunk`.

    costs.py CHUNKPLAN [--folder FOLDER] [--runs N]

The loop reads and writes a box of the target's chunks at a time; the worker is run alone, and by `xargs` four at a time,
by shares. Each is run in turn, several times; the least seconds count, as the machine may do other work. The memory is the most
that one process had, and that all processes of a run had together at one moment, as far as looking a hundred times a
second sees it.
"""
import argparse
import os
import pathlib
import re
import shutil
import subprocess
import sys
import tempfile
import threading
import time

import numcodecs
import numpy
import zarr

TOOLS = pathlib.Path(__file__).resolve().parent.parent
SHAPE = (56, 1000, 1000)  # of elements of four bytes: 224 MB
CASES = {
    # source and target chunks
    "whole layers to columns": ((1, 1000, 1000), (56, 125, 125)),
    "blocks to blocks": ((14, 250, 250), (28, 125, 500)),
    "layers to pairs of them": ((1, 500, 500), (2, 500, 500)),
}
COMPRESSORS = {"uncompressed": None, "Blosc": numcodecs.Blosc("lz4", 5, 1)}

LOOP = """
import itertools, sys, zarr
source, target = zarr.open_array(sys.argv[1], mode="r"), zarr.open_array(sys.argv[2], mode="r+")
for starts in itertools.product(*map(range, [0] * 3, target.shape, target.chunks)):
    box = tuple(slice(start, start + edge) for start, edge in zip(starts, target.chunks))
    target[box] = source[box]
"""
DASK = """
import sys, dask.array, zarr
target = zarr.open_array(sys.argv[2], mode="r+")
dask.array.from_zarr(sys.argv[1]).rechunk(target.chunks).to_zarr(target)
"""


def commands(chunkplan, room):
    """Each way, as a command that rechunks the source to the target of a room."""
    source, target = str(room / "source"), str(room / "target")
    python = sys.executable
    alone = f"{python} {TOOLS}/document_of.py {source} {target} | {chunkplan} | {python} {TOOLS}/copy_chunks.py {source} {target} --verbose"
    xargs = f"CHUNKPLAN={chunkplan} PYTHON={python} SHARES=4 {TOOLS}/engines/xargs_shares.sh {source} {target} {room}/done"
    return {
        "zarr-python, a loop": [python, "-c", LOOP, source, target],
        "Dask, rechunk": [python, "-c", DASK, source, target],
        "the worker alone": ["bash", "-c", f"{alone} --no-sync"],
        "the worker alone, waiting for the disk": ["bash", "-c", alone],
        "four by xargs, waiting for the disk": ["bash", "-c", xargs],
    }


def memory(session):
    """The resident memory of each process of a session, in MB."""
    for process in pathlib.Path("/proc").glob("[0-9]*"):
        try:
            if os.getsid(int(process.name)) == session:
                pages = int((process / "statm").read_text().split()[1])
                yield pages * os.sysconf("SC_PAGESIZE") / 1e6
        except (OSError, IndexError):
            continue


def timed(command):
    """Seconds, the most memory of one process and of all, and what was written on standard error."""
    began = time.monotonic()
    run = subprocess.Popen(command, stdout=subprocess.DEVNULL, stderr=subprocess.PIPE, start_new_session=True, text=True)
    most = [0, 0]

    def look():
        while run.poll() is None:
            seen = list(memory(run.pid)) or [0]
            most[:] = max(most[0], *seen), max(most[1], sum(seen))
            time.sleep(0.01)

    looking = threading.Thread(target=look)
    looking.start()
    said = run.stderr.read()
    run.wait()
    seconds = time.monotonic() - began
    looking.join()
    if run.returncode:
        sys.exit(f"{command}: {said}")
    return seconds, *most, said


def main():
    parser = argparse.ArgumentParser()
    parser.add_argument("chunkplan", type=lambda path: str(pathlib.Path(path).resolve()))
    parser.add_argument("--folder", help="where the arrays are made")
    parser.add_argument("--runs", type=int, default=3)
    words = parser.parse_args()
    # Values as they are measured: a slope with noise, so that Blosc has something to do.
    elements = (
        (numpy.arange(numpy.prod(SHAPE)) // 1000 + numpy.random.default_rng(1).integers(0, 16, numpy.prod(SHAPE)))
        .astype("<i4")
        .reshape(SHAPE)
    )
    for case, (source_chunks, target_chunks) in CASES.items():
        for stored, compressor in COMPRESSORS.items():
            with tempfile.TemporaryDirectory(dir=words.folder) as room:
                room = pathlib.Path(room)
                zarr.open_array(str(room / "source"), mode="w", shape=SHAPE, chunks=source_chunks, dtype="<i4", compressor=compressor)[
                    ...
                ] = elements
                print(f"{case}, {stored}: {source_chunks} to {target_chunks}", flush=True)
                best = {}
                for _ in range(words.runs):
                    for name, command in commands(words.chunkplan, room).items():
                        shutil.rmtree(room / "done", ignore_errors=True)
                        zarr.open_array(
                            str(room / "target"), mode="w", shape=SHAPE, chunks=target_chunks, dtype="<i4", compressor=compressor
                        )
                        took = timed(command)
                        best[name] = min(best.get(name, took), took)
                        if not numpy.array_equal(zarr.open_array(str(room / "target"), mode="r")[...], elements):
                            sys.exit(f"{name}: other elements")
                for name, (seconds, one, together, said) in best.items():
                    read = re.search(r"(\d+) read", said)
                    print(
                        f"  {name}: {seconds:.2f} s, {one:.0f} MB, together {together:.0f} MB{f', {read[0]}' if read else ''}", flush=True
                    )


main()
