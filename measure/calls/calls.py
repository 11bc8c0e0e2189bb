#!/usr/bin/env python3
"""Counts the instructions of a call of the libraries, beside those of a Rust program that answers it by lists.

    python3 calls.py OURS RUST [CALL ..]

RUST is `rust.rs`, built by `rustc --edition 2024 -O -C lto=fat -C codegen-units=1 rust.rs`. OURS is the program `main.rt.txt`. Its name
keeps it out of the gate, which would prove it each time; in a copy of the repository, put it at `crates/calls/src/main.rt`, and add to
`crates.txt` the line

    calls: zarrs_chunk_base zarrs_chunk_keys zarrs_chunk_plan zarrs_chunks serde_json

Then `rt run < /dev/null` in `crates/calls` builds `out/calls`. A figure is the difference of two runs, of so many calls and of twice as many,
by their number: `valgrind --tool=callgrind` counts the same each time, whatever else runs. Asking takes some 60 instructions of each figure, on
both sides. Both have to print the same sum of what was answered.
"""
import json
import re
import subprocess
import sys

COUNT = 5000
EDGES = [3, 5, 2, 7, 4, 9, 1, 8, 6, 5, 5] * 91
RUNS = [[25, 4], [10, 200], [3, 1000], 500, [4, 975]]
CALLS = ["chunk_indices", "chunk_element_indices", "chunk_origin", "subset", "cover", "encode", "decode", "locate", "walk", "parts"]


def expanded(elements):
    """The edges that run-length elements stand for."""
    edges = []
    for element in elements:
        edge, count = element if isinstance(element, list) else (element, 1)
        edges += [edge] * count
    return edges


def kinds():
    """For each kind of grid the array shape, the extension's metadata, and what the Rust program is told."""
    equal = {"chunk_shape": [10, 20, 30]}
    rectangular = {"chunk_shape": [EDGES, 20, 30]}
    rectilinear = {"kind": "inline", "chunk_shapes": [RUNS, 20, 30]}
    return {
        "regular": ([1000, 700, 5200], "regular", equal, "regular", "10;20;30"),
        "bounded": ([1000, 700, 5200], "zarrs.regular_bounded", equal, "bounded", "10;20;30"),
        "rectangular": ([sum(EDGES), 700, 5200], "rectangular", rectangular, "listed", f"{EDGES};20;30"),
        "rectilinear": ([9100, 700, 5200], "rectilinear", rectilinear, "listed", f"{expanded(RUNS)};20;30"),
    }


def run(command, text):
    """The instructions of a run, and what it printed."""
    command = ["valgrind", "--tool=callgrind", "--callgrind-out-file=/dev/null", *command]
    done = subprocess.run(command, input=text, capture_output=True, text=True, check=True)
    return int(re.search(r"Collected : (\d+)", done.stderr)[1]), done.stdout


def of_one_call(command, text, call):
    """The instructions of one call, and what was printed."""
    once, _ = run([*command, call, str(COUNT)], text)
    twice, printed = run([*command, call, str(2 * COUNT)], text)
    return (twice - once) / COUNT, printed


def main(ours, rust, calls):
    print("| Grid | Call | Here | Rust, by lists | Quotient |\n|---|---|---|---|---|")
    for kind, (shape, name, configuration, rust_kind, edges) in kinds().items():
        text = json.dumps({
            "shape": shape,
            "chunk_grid": {"name": name, "configuration": configuration},
            "chunk_key_encoding": "default",
        })
        words = [rust_kind, ",".join(map(str, shape)), edges.replace(" ", "")]
        for call in calls:
            here, printed = of_one_call([ours], text, call)
            there, wanted = of_one_call([rust, *words], "", call)
            if printed != wanted:
                sys.exit(f"{kind} {call}: {printed!r} here, {wanted!r} there")
            print(f"| `{name}` | `{call}` | {here:.0f} | {there:.0f} | {here / there:.2f} |", flush=True)


if __name__ == "__main__":
    if len(sys.argv) < 3:
        sys.exit(__doc__)
    main(sys.argv[1], sys.argv[2], sys.argv[3:] or CALLS)
