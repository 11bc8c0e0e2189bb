#!/usr/bin/env python3
"""Gives arrays other shapes by the plans of `chunkplan`, and compares with what zarr-python's own `resize` leaves, and with
numpy: elements that both shapes have stay, and all others have the fill value, also where an array grows again.

    resizes.py CHUNKPLAN [--seed N] [--moves N] [--checks NAME ..]

CHUNKPLAN is the built program. It needs numpy and zarr-python 2 (Debian: python3-zarr).
"""
import itertools
import json
import os
import pathlib
import shutil
import tempfile

import numpy
import zarr

import moves  # which has the folder of the scripts on the path
from moves import FORMAT_3, TYPES, forget_some, make_2, random_elements, same, store, tool
from regions import slices, stored
from stored_arrays import open_array

if FORMAT_3:
    import format_3

METADATA = (".zarray", "zarr.json", ".zattrs")


def resized(elements, shape, fill):
    """What an array has in another shape."""
    array = numpy.full(shape, fill, elements.dtype)
    both = slices([0] * len(shape), [min(sizes) for sizes in zip(elements.shape, shape)])
    array[both] = elements[both]
    return array


def resize(chunkplan, folder, shape, *words):
    return tool("resize_array.py", folder, ",".join(map(str, shape)), *words, env={**os.environ, "CHUNKPLAN": chunkplan})


def unchanged(before, after, was, shape, array):
    """Whether each chunk that holds the same elements of both shapes has the bytes that it had, and no key is that of none."""
    for key in before.keys() | after.keys():
        if key in METADATA:
            continue
        chunk = [int(number) for number in key.removeprefix("c").replace(".", "/").split("/") if number] if was else []
        start = [number * edge for number, edge in zip(chunk, array.chunk_shape)]
        held = [
            [max(min(edge, size - first), 0) for edge, size, first in zip(array.chunk_shape, sizes, start)] for sizes in (was, shape)
        ]
        if 0 in held[1] and key in after or 0 not in held[0] and held[0] == held[1] and before.get(key) != after.get(key):
            return False
    return True


def random_shapes(generator):
    dimensions = generator.randrange(4)
    return [[generator.randrange(0 if generator.random() < 0.1 else 1, 12) for _ in range(dimensions)] for _ in range(4)]


def resizes(chunkplan, generator, count):
    """Random arrays, which get three other shapes, one after the other."""
    for form, number in itertools.product((2, 3) if FORMAT_3 else (2,), range(count)):
        dtype, fills, name = generator.choice(TYPES if form == 2 else [row for row in TYPES if row[2]])
        dtype, shapes = numpy.dtype(dtype), random_shapes(generator)
        fill = generator.choice([fill for fill in fills if fill == fill or dtype.kind != "c"])
        with tempfile.TemporaryDirectory() as room:
            folder = pathlib.Path(room, "array")
            elements = random_elements(generator, shapes[0], dtype)
            store(generator, form, folder, shapes[0], dtype, name, fill, elements)
            value = numpy.array(fill, dtype)[()]
            elements = forget_some(generator, folder, elements, value)
            for was, shape in zip(shapes, shapes[1:]):
                before, array = stored(folder), open_array(folder)
                told = resize(chunkplan, folder, shape)
                what = f"format {form}, {number}, {dtype} from {was} to {shape} in chunks of {array.chunk_shape}"
                if array.fill is None and told.returncode != 0:
                    break
                elements = resized(elements, shape, value)
                got = zarr.open_array(str(folder), mode="r")[...] if form == 2 else format_3.read(folder, dtype, value)
                yield what, told.returncode == 0 and same(elements, numpy.asarray(got)) and open_array(folder).shape == shape
                yield f"{what}: chunks that stay", unchanged(before, stored(folder), was, shape, array)


def judged(chunkplan, generator, count):
    """Beside zarr-python's `resize` of a copy: from what it wrote itself, one step, and the same keys are there. Where an array
    shrinks and grows again, zarr-python shows in chunks at the border what was there before; here that is the fill value."""
    for number in range(count):
        shapes = random_shapes(generator)[:2]
        edges = [generator.randrange(1, 6) for _ in shapes[0]]
        with tempfile.TemporaryDirectory() as room:
            ours, theirs = pathlib.Path(room, "ours"), pathlib.Path(room, "theirs")
            make_2(ours, shapes[0], edges, dtype="<i4", fill_value=-1)[...] = numpy.arange(numpy.prod(shapes[0])).reshape(shapes[0])
            shutil.copytree(ours, theirs)
            if shapes[0]:
                zarr.open_array(str(theirs)).resize(shapes[1])
            told = resize(chunkplan, ours, shapes[1])
            elements = [numpy.asarray(zarr.open_array(str(folder), mode="r")[...]) for folder in (ours, theirs)]
            keys = [stored(folder).keys() for folder in (ours, theirs)]
            yield f"{number}, from {shapes[0]} to {shapes[1]}", told.returncode == 0 and same(*elements) and keys[0] == keys[1]
    with tempfile.TemporaryDirectory() as room:
        folders = [pathlib.Path(room, name) for name in ("ours", "theirs")]
        for folder in folders:
            make_2(folder, [10], [4], dtype="<i4", fill_value=-1)[...] = numpy.arange(10)
        for size in (5, 10):
            succeeded = resize(chunkplan, folders[0], [size]).returncode == 0
            zarr.open_array(str(folders[1])).resize(size)
            yield f"ten elements, then {size}", succeeded
        ours, theirs = (list(map(int, zarr.open_array(str(folder), mode="r")[...])) for folder in folders)
        yield "ten elements, five, and ten", ours == [0, 1, 2, 3, 4, -1, -1, -1, -1, -1]
        yield "what zarr-python shows of them", theirs == [0, 1, 2, 3, 4, 5, 6, 7, -1, -1]


def faults(chunkplan, generator, count):
    """What is refused, and what is left by a run that was cut off."""
    with tempfile.TemporaryDirectory() as room:
        room = pathlib.Path(room)
        make_2(room / "array", [10, 6], [4, 4], dtype="<i4", fill_value=-1)[...] = numpy.arange(60).reshape(10, 6)
        first = stored(room / "array")
        for words, message in ((["10"], "another number of dimensions"), (["10,6,1"], "another number of dimensions")):
            told = tool("resize_array.py", room / "array", *words, env={**os.environ, "CHUNKPLAN": chunkplan})
            yield f"{words}", told.returncode == 1 and message in told.stderr and stored(room / "array") == first
        for words in ("-5,6", "12,-3", f"12,{2**64}", f"{2**65},6"):
            told = tool("resize_array.py", room / "array", "--was=10,6", "--", words, env={**os.environ, "CHUNKPLAN": chunkplan})
            yield f"the shape {words}", told.returncode == 1 and "a size that isn't from 0 to" in told.stderr and stored(room / "array") == first
        for program in ("/bin/false", "/bin/no_program"):
            for words in ("12,6", "6,9"):
                told = tool("resize_array.py", room / "array", words, env={**os.environ, "CHUNKPLAN": program})
                yield f"{program}, {words}", told.returncode == 1 and "Traceback" not in told.stderr and stored(room / "array") == first
        # a broken chunk at the border ends the run; it is mended, and the same is run again with the old shape
        broken = (room / "array" / "1.0").read_bytes()
        (room / "array" / "1.0").write_bytes(b"no")
        told = resize(chunkplan, room / "array", [6, 9])
        yield "a broken chunk", told.returncode == 1 and "chunk 1.0 of" in told.stderr
        (room / "array" / "1.0").write_bytes(broken)
        for _ in range(2):
            told = resize(chunkplan, room / "array", [6, 9], "--was", "10,6")
            got = numpy.asarray(zarr.open_array(str(room / "array"), mode="r")[...])
            expected = resized(numpy.arange(60, dtype="<i4").reshape(10, 6), [6, 9], -1)
            yield "run again", told.returncode == 0 and same(got, expected)
        # a chunk that an earlier shape left, under the key of one that is new
        make_2(room / "left", [4], [4], dtype="<i4", fill_value=-1)[...] = 7
        shutil.copy(room / "left" / "0", room / "left" / "1")
        told = resize(chunkplan, room / "left", [8], "--verbose")
        yield "what was left", "1 lines" in told.stdout and list(zarr.open_array(str(room / "left"), mode="r")[...]) == [7] * 4 + [-1] * 4
        # without a fill value nothing says what comes
        make_2(room / "none", [5], [4], dtype="<i4", fill_value=0)[...] = 7
        zarray = json.loads((room / "none" / ".zarray").read_text())
        (room / "none" / ".zarray").write_text(json.dumps({**zarray, "fill_value": None}))
        told = resize(chunkplan, room / "none", [6])
        yield "no fill value", told.returncode == 1 and "there is no fill value" in told.stderr and open_array(room / "none").shape == [5]
        # one dimension shrinks and one grows: nothing changes before it is known that all can
        make_2(room / "two", [5, 5], [4, 4], dtype="<i4", fill_value=0)[...] = 7
        (room / "two" / ".zarray").write_text(json.dumps({**json.loads((room / "two" / ".zarray").read_text()), "fill_value": None}))
        before = stored(room / "two")
        told = resize(chunkplan, room / "two", [4, 6])
        yield "no fill value, after shrinking", told.returncode == 1 and "there is no fill value" in told.stderr and stored(room / "two") == before
        # consolidated metadata follow
        group = zarr.open_group(str(room / "group"), mode="w")
        group.create_dataset("inner/array", shape=(7, 7), chunks=(3, 3), dtype="<i4")[...] = 5
        zarr.consolidate_metadata(str(room / "group"))
        told = resize(chunkplan, room / "group" / "inner" / "array", [8, 2])
        seen = zarr.open_consolidated(str(room / "group"), mode="r")["inner/array"].shape
        yield "consolidated metadata", told.returncode == 0 and seen == (8, 2) and open_array(room / "group" / "inner" / "array").shape == [8, 2]
        (room / "group" / ".zmetadata").write_text("{")
        before = stored(room / "group" / "inner" / "array")
        told = resize(chunkplan, room / "group" / "inner" / "array", [3, 3])
        yield "broken consolidated metadata", told.returncode == 1 and ".zmetadata" in told.stderr and stored(room / "group" / "inner" / "array") == before


if __name__ == "__main__":
    moves.main([resizes, judged, faults])
