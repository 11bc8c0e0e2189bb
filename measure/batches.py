#!/usr/bin/env python3
"""Times batches of the shared library beside numpy alone, in one run.

    /usr/bin/python3 measure/batches.py

It needs numpy and what `bindings/build.py` made. A million index lists of three numbers each: in a regular grid beside numpy's division by the chunk
shape, and by one number where that is the edge of all dimensions; along listed edges beside numpy's `searchsorted` in each dimension. The two take turns,
and the least time of each counts. It prints nanoseconds a list, and how many times as long the library takes. At last it prints what a call of one list
takes, the least of as many rounds. `measure/one_list.c` does the same from C.
"""
import os
import pathlib
import sys
import time
import timeit

import numpy as np

TOP = pathlib.Path(__file__).resolve().parent.parent
sys.path[:0] = [str(TOP / "bindings" / "python"), str(TOP / "tools")]
from built import shared_library  # noqa: E402

os.environ.setdefault("ZARRS_CHUNKS_LIBRARY", str(shared_library()))
from zarrs_chunks import Encoding, Grid  # noqa: E402

LISTS, ROUNDS = 1_000_000, 9


def least_times(calls):
    """The least time that each call takes, in nanoseconds a list; the calls take turns."""
    least = [float("inf")] * len(calls)
    for _ in range(ROUNDS):
        for place, call in enumerate(calls):
            begin = time.perf_counter()
            call()
            least[place] = min(least[place], time.perf_counter() - begin)
    return [seconds / LISTS * 1e9 for seconds in least]


def row(what, ours, numpys):
    ours, numpys = least_times([ours, numpys])
    print(f"{what:42} {ours:7.0f} {numpys:7.0f} {ours / numpys:6.2f}", flush=True)


def one_list(what, call):
    """Prints the least time of a call, in nanoseconds."""
    calls = 20_000
    print(f"{what:42} {min(timeit.repeat(call, number=calls, repeat=ROUNDS)) / calls * 1e9:7.0f}", flush=True)


def main():
    rng = np.random.default_rng(0)
    print(f"{'nanoseconds a list of three numbers':42} {'library':>7} {'numpy':>7} {'ratio':>6}")
    size = 1_000_000
    indices = rng.integers(0, size, (LISTS, 3)).astype(np.uint64)
    regular = Grid([size] * 3, {"name": "regular", "configuration": {"chunk_shape": [100, 99, 1024]}})
    chunk_shape = np.array([100, 99, 1024], np.uint64)
    assert (regular.chunk_indices(indices)[0] == indices // chunk_shape).all()
    row("regular, chunk_indices", lambda: regular.chunk_indices(indices), lambda: indices // chunk_shape)
    row("regular, find_home", lambda: regular.find_home(indices), lambda: np.divmod(indices, chunk_shape))
    cubes, edge = Grid([size] * 3, {"name": "regular", "configuration": {"chunk_shape": [100, 100, 100]}}), np.uint64(100)
    assert (cubes.chunk_indices(indices)[0] == indices // edge).all()
    row("cubes, chunk_indices, by one number", lambda: cubes.chunk_indices(indices), lambda: indices // edge)
    for count in (20, 500, 20_000):
        edges = rng.integers(1, 100, count)
        ends = np.cumsum(edges).astype(np.uint64)
        listed = Grid([int(ends[-1])] * 3, {"name": "rectilinear", "configuration": {"kind": "inline", "chunk_shapes": [edges.tolist()] * 3}})
        within = rng.integers(0, int(ends[-1]), (LISTS, 3)).astype(np.uint64)

        def sought():
            return np.searchsorted(ends, within, side="right")

        assert (listed.chunk_indices(within)[0] == sought()).all()
        row(f"rectilinear, {count} edges, chunk_indices", lambda: listed.chunk_indices(within), sought)
    encoding, chunks = Encoding("default"), regular.chunk_indices(indices)[0]
    row("default keys, beside `c/%d/%d/%d` in Python", lambda: encoding.encode_text(chunks), lambda: ["c/%d/%d/%d" % chunk for chunk in map(tuple, chunks.tolist())])
    print("nanoseconds a call of one list of three numbers, from Python")
    index, chunk = indices[0].copy(), chunks[0].copy()
    one_list("regular, chunk_indices", lambda: regular.chunk_indices(index))
    one_list("regular, find_home", lambda: regular.find_home(index))
    one_list("rectilinear, 20000 edges, chunk_indices", lambda: listed.chunk_indices(index))
    one_list("default keys, encode", lambda: encoding.encode(chunk))


if __name__ == "__main__":
    main()
