#!/usr/bin/env python3
"""Measures `chunkwhere` beside a Rust program that answers the same documents, and on many chunks beside few.

    python3 measure.py CHUNKWHERE RUST

CHUNKWHERE is the built program, RUST that of the folder `rust` here (`cargo build --release`). For three kinds of grid it makes
a document of 500,000 index lists of three numbers, and sees that both programs print the same. Then it prints, for both and as a
quotient, the instructions (counted by `valgrind --tool=callgrind`, whatever else runs), the seconds (the middle of forty-one runs,
one program after the other) and the peak of the memory that was resident. The same it prints for `chunkwhere` on two documents that
differ in the grid alone: in the first a dimension has four chunks, in the second 10^18 in four runs.
"""
import hashlib
import json
import multiprocessing
import os
import random
import re
import subprocess
import sys
import tempfile
import time

LISTS = 500_000
RUNS = 41


def document(name, shape, configuration):
    """A document that asks a grid for indices all over the array."""
    numbers = random.Random(name)
    return {
        "shape": shape,
        "chunk_grid": {"name": name, "configuration": configuration},
        "chunk_key_encoding": "default",
        "indices": [[numbers.randrange(size) for size in shape] for _ in range(LISTS)],
    }


def documents():
    """A document for each kind of grid, by the grid's name."""
    edges = [50 + 7 * k % 101 for k in range(1000)]
    runs = [[10, 400], [25, 200], 7, [5, 600]]
    length = sum(edges)
    rows = [
        ("regular", [length, 70_000, 9_000], {"chunk_shape": [100, 70, 9]}),
        ("rectangular", [length, 70_000, 9_000], {"chunk_shape": [edges, 70, edges[:100]]}),
        ("rectilinear", [12_007, 70_000, 12_007], {"kind": "inline", "chunk_shapes": [runs, 70, runs]}),
    ]
    for name, shape, configuration in rows:
        if name == "rectangular":
            shape[2] = sum(edges[:100])
        yield name, document(name, shape, configuration)


def few_and_many():
    """Two documents that differ in the grid alone: runs as one chunk each, and as 10^18 chunks in all."""
    runs = [[3, 250 * 10**15], [5, 250 * 10**15], [2, 250 * 10**15], [7, 250 * 10**15]]
    for name, edges in (("few", [edge * count for edge, count in runs]), ("many", runs)):
        length = sum(edge * count for edge, count in runs)
        yield name, document("rectilinear", [length, 70_000, length], {"kind": "inline", "chunk_shapes": [edges, 70, edges]})


def instructions(program, path):
    """How many instructions a run takes."""
    with open(path, "rb") as document:
        run = subprocess.run(
            ["valgrind", "--tool=callgrind", "--callgrind-out-file=/dev/null", program],
            stdin=document, stdout=subprocess.DEVNULL, stderr=subprocess.PIPE, text=True, check=True)
    return int(re.search(r"Collected : (\d+)", run.stderr).group(1))


def run_once(program, path):
    """The seconds and the kilobytes at the peak of one run."""
    with open(path, "rb") as document, open(os.devnull, "wb") as nowhere:
        begun = time.perf_counter()
        child = subprocess.Popen([program], stdin=document, stdout=nowhere)
        _, status, usage = os.wait4(child.pid, 0)
        seconds = time.perf_counter() - begun
    assert status == 0, f"{program} ended with {status}"
    return seconds, usage.ru_maxrss


def output(program, path):
    """The digest of what a run prints."""
    with open(path, "rb") as document:
        run = subprocess.Popen([program], stdin=document, stdout=subprocess.PIPE)
        digest = hashlib.sha256()
        for piece in iter(lambda: run.stdout.read(1 << 16), b""):
            digest.update(piece)
        assert run.wait() == 0, f"{program} ended with {run.returncode}"
    return digest.digest()


def write_documents(folder):
    """Writes all documents, and answers their paths by their names."""
    paths = {}
    for name, made in (*documents(), *few_and_many()):
        paths[name] = os.path.join(folder, name + ".json")
        with open(paths[name], "w") as file:
            json.dump(made, file, separators=(",", ":"))
    return paths


def compare(name, first, second):
    """Prints what two runs cost, each a program and its document."""
    counts = [instructions(*run) for run in (first, second)]
    runs = [(run_once(*first), run_once(*second)) for _ in range(RUNS)]
    seconds = [sorted(run[k][0] for run in runs)[RUNS // 2] for k in (0, 1)]
    peaks = [max(run[k][1] for run in runs) / 1024 for k in (0, 1)]
    for what, pair, form in (
        ("instructions", counts, "{:14,}"), ("seconds", seconds, "{:14.3f}"), ("megabytes", peaks, "{:14.1f}"),
    ):
        print(f"{name:12} {what:13} {form.format(pair[0])} {form.format(pair[1])} {pair[0] / pair[1]:9.2f}")


def main():
    ours, rust = sys.argv[1:]
    with tempfile.TemporaryDirectory() as folder, multiprocessing.Pool(1) as pool:
        # In a process of its own: a program that is started counts the memory of the one that starts it.
        paths = pool.apply(write_documents, (folder,))
        print(f"{'grid':12} {'what':13} {'chunkwhere':>14} {'Rust':>14} {'quotient':>9}")
        for name in ("regular", "rectangular", "rectilinear"):
            assert output(ours, paths[name]) == output(rust, paths[name]), f"different answers on {name}"
            compare(name, (ours, paths[name]), (rust, paths[name]))
        print(f"{'grid':12} {'what':13} {'10^18 chunks':>14} {'4 chunks':>14} {'quotient':>9}")
        compare("rectilinear", (ours, paths["many"]), (ours, paths["few"]))


if __name__ == "__main__":
    main()
