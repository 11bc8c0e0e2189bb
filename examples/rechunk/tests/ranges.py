#!/usr/bin/env python3
"""Reads boxes of uncompressed arrays by the byte ranges in the lines of `chunkplan`, with seeks and reads of files alone, and
compares with slices of numpy. No byte is read twice, and none that isn't the box's.

    ranges.py CHUNKPLAN [--seed N] [--moves N] [--checks NAME ..]

CHUNKPLAN is the built program. It needs numpy and zarr-python 2 (Debian: python3-zarr).
"""
import itertools
import json
import math
import pathlib
import subprocess
import tempfile

import numpy
import zarr

import moves  # which has the folder of the scripts on the path
from document_of import stored
from moves import TYPES, chunks, forget_some, make_2, random_elements, same, shapes
from regions import slices
from stored_arrays import open_array


def plan_of(chunkplan, array, order, **asked):
    """The lines that read an array's box, with byte ranges; nothing is said of the order where that is row-major."""
    document = {"shape": array.shape, **stored(array), "item_size": array.dtype.itemsize, **asked}
    document |= {"memory_order": order} if order == "F" else {}
    text = subprocess.run([chunkplan], input=json.dumps(document), stdout=subprocess.PIPE, check=True, text=True).stdout
    return [json.loads(line) for line in text.splitlines()]


def counted_out(ranges):
    """The ranges by their counts and strides, each as the byte at which it begins and its length."""
    steps = itertools.product(*(range(count) for count in ranges["counts"]))
    return [[ranges["first"] + sum(k * stride for k, stride in zip(step, ranges["strides"])), ranges["length"]] for step in steps]


def read_box(folder, dtype, fill, shape, lines):
    """What the lines read of a box of this shape, and how many bytes of each file, of which none is read twice."""
    elements, bytes_read = numpy.full(shape, fill, dtype), 0
    for line in lines:
        size = line["in_chunk"][1]
        try:
            with open(folder / line["key"], "rb", buffering=0) as file:
                held, end = b"", -1
                for begin, length in counted_out(line["ranges"]):
                    assert begin > end, "ranges that don't ascend, or can be joined"
                    file.seek(begin)
                    held, end = held + file.read(length), begin + length
        except FileNotFoundError:
            continue
        elements[slices(*line["in_selection"])] = numpy.frombuffer(held, dtype).reshape(size, order=line["ranges"]["memory_order"])
        bytes_read += len(held)
    return elements, bytes_read


def random_box(generator, shape):
    size = [generator.randint(0 if generator.random() < 0.05 else min(1, room), room) for room in shape]
    return [generator.randint(0, room - n) for room, n in zip(shape, size)], size


def boxes(chunkplan, generator, count):
    """Boxes of arrays of random kinds, so many of each order, with chunks missing; some are read by shares."""
    for order, number in itertools.product("CF", range(count)):
        dtype, fills, _ = generator.choice(TYPES)
        dtype, shape, fill = numpy.dtype(dtype), shapes(generator), numpy.array(generator.choice(fills), dtype)[()]
        with tempfile.TemporaryDirectory() as room:
            room = pathlib.Path(room)
            elements = random_elements(generator, shape, dtype)
            make_2(room, shape, chunks(generator, shape), dtype=dtype, fill_value=None, order=order, filters=None, compressor=None,
                   dimension_separator=generator.choice("./"))[...] = elements  # fmt: skip
            array, box = open_array(room), random_box(generator, shape)
            elements = forget_some(generator, room, elements, fill)
            asked, of = {"subset": box, "max_ranges": generator.choice([0, 1, 2, 5, 2**20])}, generator.randint(1, 3)
            lines = [line for task in range(of) for line in plan_of(chunkplan, array, order, **asked, share=[task, of])]
            what = f"{order}, box {number} of {dtype}, {box} of {shape}"
            found, bytes_read = read_box(room, dtype, fill, box[1], lines)
            there = sum(math.prod(line["in_chunk"][1]) for line in lines if (room / line["key"]).exists())
            yield what, same(found, elements[(*slices(*box), ...)]) and bytes_read == there * dtype.itemsize
            listed = [(line["ranges"]["list"], counted_out(line["ranges"])) for line in lines]
            most = asked["max_ranges"]
            yield f"{what}, listed", all(some == (each if len(each) <= most else None) for some, each in listed)


def clipped(chunkplan, generator, count):
    """A box that reaches past the array, in each order: what the array has of it, by few ranges."""
    elements = numpy.arange(60 * 50 * 7, dtype="<f8").reshape(60, 50, 7)
    # rows of 5 elements, 2 and 6 in each of 20 planes; columns of 20, 2 and 6 in each of 5
    for order, counts in (("C", [2 * 20, 6 * 20]), ("F", [2 * 5, 6 * 5])):
        with tempfile.TemporaryDirectory() as room:
            room = pathlib.Path(room)
            make_2(room, [60, 50, 7], [60, 32, 7], dtype="<f8", order=order, filters=None, compressor=None)[...] = elements
            lines = plan_of(chunkplan, open_array(room), order, subset=[[40, 30, 2], [30, 8, 5]], clip=True)
            found, bytes_read = read_box(room, numpy.dtype("<f8"), -1, [30, 8, 5], lines)
            expected = numpy.full([30, 8, 5], -1.0)
            expected[:20] = elements[40:60, 30:38, 2:7]
            yield f"{order}: the elements", numpy.array_equal(found, expected) and bytes_read == 20 * 8 * 5 * 8
            yield f"{order}: how many ranges", [math.prod(line["ranges"]["counts"]) for line in lines] == counts
            yield f"{order}: zarr-python", numpy.array_equal(found[:20], zarr.open_array(str(room), mode="r")[40:60, 30:38, 2:7])


if __name__ == "__main__":
    moves.main([boxes, clipped])
