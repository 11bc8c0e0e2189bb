#!/usr/bin/env python3
"""Compares two arrays, or a region with what it was copied from, a chunk of the second at a time, byte by byte of their elements.

    verify.py SOURCE TARGET [--subset START SHAPE [--at INDEX]]

Arrays of format 2 are read by zarr-python 2, which shares no code with what moved them; those of format 3, which it
doesn't know, by `stored_arrays.py`. It names the first places that differ, and ends with the status 1 where any does, or
where a chunk can't be read.
"""
import argparse
import itertools
import sys

import numpy
import zarr

from region import add_region, region_between
from stored_arrays import Refused, ended_by, open_array

NAMED = 5  # of the places that differ


class Format3:
    """Boxes of an array of format 3, by its chunks."""

    def __init__(self, array):
        self.array = array

    def __getitem__(self, box):
        elements = numpy.empty([part.stop - part.start for part in box], self.array.dtype)
        reached = [range(part.start // edge, -(-part.stop // edge)) for part, edge in zip(box, self.array.chunk_shape)]
        for chunk in itertools.product(*reached):
            start, shape = self.array.held(chunk)
            both = [(max(f, p.start), min(f + n, p.stop), f, p.start) for f, n, p in zip(start, shape, box)]
            there = tuple(slice(first - origin, end - origin) for first, end, _, origin in both)
            here = tuple(slice(first - origin, end - origin) for first, end, origin, _ in both)
            elements[there] = self.array.read(chunk)[here]
        return elements


def reader(array):
    if (array.folder / ".zarray").exists():
        return zarr.open_array(str(array.folder), mode="r")
    return Format3(array)


def bytes_of(elements, dtype):
    """Elements as rows of bytes, in one byte order."""
    return numpy.ascontiguousarray(elements, dtype).reshape(-1).view("u1").reshape(-1, dtype.itemsize)


def box_of(start, shape):
    return tuple(slice(first, first + size) for first, size in zip(start, shape))


def differing(source, target, array, region):
    """The places of the second array where a region differs, in the order of its chunks."""
    native = array.dtype.newbyteorder("=")
    for chunk in region.each(array):
        start, shape = region.given(chunk, array)
        if array.fill is None and not array.has(chunk):
            raise Refused(f"chunk {array.key(chunk)} of {array.folder} isn't stored, and there is no fill value")
        try:
            places = ((source, region.in_source(start)), (target, start))
            both = [bytes_of(elements[box_of(begin, shape)], native) for elements, begin in places]
        except Exception as error:  # each codec has exceptions of its own
            raise Refused(f"the elements of chunk {array.key(chunk)} of {array.folder} can't be read: {error}") from error
        for place in numpy.flatnonzero((both[0] != both[1]).any(axis=1)):
            yield array.key(chunk), [int(first + step) for first, step in zip(start, numpy.unravel_index(place, shape))]


def main():
    parser = argparse.ArgumentParser(description="Compares two arrays, or a region with what it was copied from.")
    parser.add_argument("source", metavar="SOURCE")
    parser.add_argument("target", metavar="TARGET")
    add_region(parser)
    words = parser.parse_args()
    source, target = open_array(words.source), open_array(words.target)
    region = region_between(source, target, words.subset, words.at)
    count = 0
    for key, place in differing(reader(source), reader(target), target, region):
        if count < NAMED:
            print(f"differs at {place}, in chunk {key} of the target", file=sys.stderr)
        count += 1
    if count:
        raise Refused(f"{count} elements differ")
    print("equal")


ended_by(main)
