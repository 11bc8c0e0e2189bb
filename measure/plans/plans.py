#!/usr/bin/env python3
"""Measures what a line of a rechunking, and each copy in it, costs `chunkplan`, beside a Rust program that makes the same lines by lists.

    python3 plans.py OURS RUST

OURS is `crates/chunkplan/out/chunkplan`, RUST is `rust.rs`, built by `rustc --edition 2024 -O -C lto=fat -C codegen-units=1 rust.rs`. The
instructions are the difference of two plans under callgrind, by their number of lines, and by that of copies; the seconds are the median of nine runs; the memory
is the peak of resident memory. Both have to write the same lines. Then the first thousand lines of plans of 10^3 and of 10^18 lines.
"""
import json
import pathlib
import re
import statistics
import subprocess
import sys
import tempfile
import time

SOURCE, TARGET = [7, 9, 10], [5, 8, 11]


def regular(edges):
    return {"chunk_grid": {"name": "regular", "configuration": {"chunk_shape": edges}}, "chunk_key_encoding": "default"}


def document(shape, source=SOURCE, target=TARGET):
    return json.dumps({"shape": shape, **regular(source), "target": regular(target)}).encode()


def listed(numbers):
    return ",".join(map(str, numbers))


def runs(ours, rust, shape):
    yield [ours], document(shape)
    yield [rust, listed(shape), listed(SOURCE), listed(TARGET)], b""


def counts(plan):
    """How many lines a plan has, and how many copies: chunks of the source in a line, which writes one chunk of the target."""
    lines = plan.count(b"\n")
    return lines, plan.count(b'"in_buffer"') - lines


def instructions(command, given):
    ran = subprocess.run(["valgrind", "--tool=callgrind", "--callgrind-out-file=/dev/null", *command], input=given, capture_output=True, check=True)
    return int(re.search(rb"Collected : (\d+)", ran.stderr)[1]), counts(ran.stdout)


def peak(process):
    """The peak of resident memory so far, in MiB. (What the kernel tells at the end counts this script's own memory, from before the program began.)"""
    found = re.search(r"VmHWM:\s*(\d+) kB", pathlib.Path(f"/proc/{process}/status").read_text())
    return int(found[1]) / 1024 if found else 0.0


def timed(command, given):
    began = time.monotonic()
    with tempfile.TemporaryFile() as text:
        text.write(given)
        text.seek(0)
        running = subprocess.Popen(command, stdin=text, stdout=subprocess.DEVNULL)
        memory = 0.0
        while running.poll() is None:
            memory = max(memory, peak(running.pid))
            time.sleep(0.01)
    assert running.returncode == 0
    return time.monotonic() - began, memory


def first_thousand(ours, elements):
    began = time.monotonic()
    running = subprocess.Popen([ours], stdin=subprocess.PIPE, stdout=subprocess.PIPE, stderr=subprocess.DEVNULL)
    running.stdin.write(document([elements], [2], [1]))
    running.stdin.close()
    for _ in range(1000):
        running.stdout.readline()
    seconds = time.monotonic() - began
    running.stdout.close()
    running.wait()
    return seconds


def main():
    ours, rust = sys.argv[1:3]
    outputs = [subprocess.run(command, input=given, capture_output=True, check=True).stdout for command, given in runs(ours, rust, [60, 70, 80])]
    assert outputs[0] == outputs[1], "the lines differ"
    for name, small, large, big in zip(("chunkplan", "Rust"), runs(ours, rust, [50, 60, 70]), runs(ours, rust, [100, 110, 120]), runs(ours, rust, [440, 540, 630])):
        (few, less), (many, more) = instructions(*small), instructions(*large)
        a_line, a_copy = ((many - few) / (end - start) for start, end in zip(less, more))
        ran = [timed(*big) for _ in range(9)]
        lines, copies = counts(subprocess.run(big[0], input=big[1], capture_output=True, check=True).stdout)
        print(
            f"{name}: {a_line:.0f} instructions a line, {a_copy:.0f} a copy; {lines} lines of {copies} copies"
            f" in {statistics.median(seconds for seconds, _ in ran):.2f} s and {max(memory for _, memory in ran):.1f} MiB"
        )
    for elements in (10**3, 10**18):
        print(f"the first thousand of {elements} lines: {statistics.median(first_thousand(ours, elements) for _ in range(9)) * 1000:.1f} ms")


if __name__ == "__main__":
    main()
