#!/usr/bin/env python3
"""Gives an array another shape: its metadata, and its chunks by the lines that `chunkplan` writes.

    resize_array.py ARRAY SHAPE [--was SHAPE] [--verbose]

ARRAY is the folder of a Zarr array, of format 2 or 3; SHAPE is a size for each dimension, as in 30,20. `chunkplan` is on
`PATH`, or named in `CHUNKPLAN`. Elements that both shapes have stay; those that come have the fill value.

The whole plan is checked before the first byte changes. A shape that can't be, a missing program, a chunk that needs a fill
value that isn't there, and consolidated metadata that can't follow leave the array as it is. Where the array shrinks its
metadata change first, and where it grows last; where it does both it shrinks and then grows. So a reader finds elements of
the shape that it reads, or the fill value. Consolidated metadata of format 2 (`.zmetadata`), of the array or of a group above
it, change with the array's. After a run that was cut off, run the same again, with the old shape as `--was`: chunks that were
done are done once more, with the same outcome.
"""
import argparse
import contextlib
import json
import os
import shutil
import subprocess
import tempfile
import uuid

from copy_chunks import Store, slices
from document_of import stored
from region import numbers
from stored_arrays import UNFINISHED, Refused, ended_by, open_array

GREATEST = 2**64 - 1


def plan_of(array, was, shape):
    """The lines of a resize from one shape to another."""
    document = {"shape": was, **stored(array), "resize": shape}
    command, count, of = [os.environ.get("CHUNKPLAN", "chunkplan")], 0, 0
    with tempfile.TemporaryFile("w+") as told, subprocess.Popen(command, stdin=subprocess.PIPE, stdout=subprocess.PIPE, stderr=told, text=True) as planner:
        with contextlib.suppress(BrokenPipeError), planner.stdin as given:
            given.write(json.dumps(document))
        for text in planner.stdout:
            line = json.loads(text)
            if line["number"] != count or count and line["of"] != of:
                raise Refused("the plan lacks lines")
            count, of = count + 1, line["of"]
            yield line
        if planner.wait() != 0:
            told.seek(0)
            raise Refused(told.read().strip() or f"{command[0]} ended with status {planner.returncode}")
    if count != of:
        raise Refused("the plan lacks lines")


def check(line, array):
    """Refuses a line that isn't about a chunk of this array: its key, its shape, and where its boxes begin."""
    first = [number * edge for number, edge in zip(line["chunk"], array.chunk_shape)]
    shapes = [line[name] for name in ("was_shape", "now_shape") if line[name] is not None]
    starts = [line[name][0] for name in ("was", "now") if line[name] is not None]
    if line["key"] != array.key(line["chunk"]) or any(shape != array.chunk_shape for shape in shapes) or any(start != first for start in starts):
        raise Refused(f"line {line['number']}: {line['key']} isn't a chunk of the array")
    if line["what"] not in ("rewrite", "delete", "create"):
        raise Refused(f"line {line['number']}: {line['what']} isn't known here")
    if line["what"] == "rewrite" and array.fill is None and array.has(line["chunk"]):
        raise Refused(f"chunk {line['key']} gets places without an element, and there is no fill value")


def write_again(line, array, store):
    """Writes a chunk again: the elements of both boxes stay, and the others have the fill value. One that isn't stored
    stays so."""
    if not array.has(line["chunk"]):
        return
    kept = slices([[0] * len(array.shape), [min(sizes) for sizes in zip(line["was"][1], line["now"][1])]])
    elements, chunk = array.read(line["chunk"]), array.new_chunk()
    chunk[...] = array.fill
    chunk[kept] = elements[kept]
    store.put(line["chunk"], chunk)


def do(line, array, store):
    check(line, array)
    if line["what"] == "rewrite":
        write_again(line, array, store)
    else:  # what an earlier shape left under the key of a new one is none of its elements
        array.path(line["chunk"]).unlink(missing_ok=True)


def write_whole(array, path, text):
    """Writes a file of metadata, whole or not at all."""
    (array.folder / UNFINISHED).mkdir(exist_ok=True)
    unfinished = array.folder / UNFINISHED / uuid.uuid4().hex
    unfinished.write_text(text)
    unfinished.rename(path)


def consolidated(array):
    """The consolidated metadata that name the array, of its folder and of the groups above it: each file with what it holds,
    and the array's name there."""
    folder = array.folder.resolve()
    for above in (folder, *folder.parents):
        path, name = above / ".zmetadata", (folder.relative_to(above) / ".zarray").as_posix()
        if path.exists():
            try:
                held = json.loads(path.read_text())
                named = name in held["metadata"]
            except (ValueError, KeyError, TypeError) as error:
                raise Refused(f"{path} isn't consolidated metadata: {error!r}") from error
            if named:
                yield path, held, name
        path = above / "zarr.json"
        if above != folder and path.exists() and "consolidated_metadata" in json.loads(path.read_text()):
            raise Refused(f"{path} has consolidated metadata, which would keep the old shape: take them out first")


def set_shape(array, shape):
    """Writes the shape into the metadata, and into consolidated metadata."""
    array.written = json.dumps({**json.loads(array.metadata.read_text()), "shape": shape}, indent=4).encode()
    write_whole(array, array.metadata, array.written.decode())
    for path, held, name in consolidated(array):
        held["metadata"][name]["shape"] = shape
        write_whole(array, path, json.dumps(held, indent=4))


def resize(array, was, shape):
    """Shrinks an array, and then lets it grow, as far as either is wanted; answers how many lines were done."""
    smaller = [min(sizes) for sizes in zip(was, shape)]
    steps = [step for step in ((was, smaller), (smaller, shape)) if step[0] != step[1]]
    list(consolidated(array))
    for line in (line for step in steps for line in plan_of(array, *step)):
        check(line, array)
    store, done = Store(array), 0
    for before, after in steps:
        if after == smaller:
            set_shape(array, after)
        for line in plan_of(array, before, after):
            do(line, array, store)
            done += 1
        if after != smaller:
            set_shape(array, after)
    shutil.rmtree(array.folder / UNFINISHED, ignore_errors=True)
    return done


def main():
    parser = argparse.ArgumentParser(description="Gives an array another shape.")
    parser.add_argument("array", metavar="ARRAY")
    parser.add_argument("shape", metavar="SHAPE", type=numbers)
    parser.add_argument("--was", metavar="SHAPE", type=numbers, help="the shape before a run that was cut off")
    parser.add_argument("--verbose", action="store_true", help="say how many lines there were")
    words = parser.parse_args()
    array = open_array(words.array)
    was = words.was or array.shape
    if not len(words.shape) == len(was) == len(array.shape):
        raise Refused(f"a shape has another number of dimensions than {array.shape}")
    if any(not 0 <= size <= GREATEST for size in (*words.shape, *was)):
        raise Refused(f"a size that isn't from 0 to {GREATEST}")
    done = resize(array, was, words.shape)
    if words.verbose:
        print(f"{done} lines")


if __name__ == "__main__":
    ended_by(main)
