#!/usr/bin/env python3
"""Sees that each chunk of the target of a rechunking, or of a region, was done, by what `copy_chunks.py` printed or appended.

    check_done.py TARGET FILE.. [--subset START SHAPE [--at INDEX]] [--by-source SOURCE] [--task-chunks COUNTS]

The files have the lines of one plan, in any order, some perhaps twice. If one is missing, or has another `of` than the plan, or
if a chunk isn't stored, it says which, and ends with the status 1. It finds the number of lines in the target's metadata, not in
the lines. With --by-source the lines are of the chunks of SOURCE, and each chunk of the target must be stored. With --task-chunks
each line takes this number of chunks, and without it one.
"""
import argparse
import itertools

from copy_chunks import done_in
from region import Region, add_region, add_task_chunks, grouped
from stored_arrays import Refused, ended_by, open_array

NAMED = 5  # of the chunks that are missing


def main():
    parser = argparse.ArgumentParser(description="Sees that each chunk of the target of a copy was done.")
    parser.add_argument("target", metavar="TARGET")
    parser.add_argument("files", metavar="FILE", nargs="+")
    add_region(parser)
    add_task_chunks(parser)
    parser.add_argument("--by-source", metavar="SOURCE", help="the lines are those of the chunks of this array")
    words = parser.parse_args()
    target = open_array(words.target)
    start, shape = words.subset or ([0] * len(target.shape), target.shape)
    region = Region(start, shape, words.at or [0] * len(target.shape))
    counted, there = (open_array(words.by_source), Region(start, shape, start)) if words.by_source else (target, region)
    groups, what = (counted, "chunks") if words.task_chunks is None else (grouped(counted, words.task_chunks), "tasks")
    count = there.count(groups)
    done = set().union(*(done_in(file) for file in words.files))
    if {of for _, of in done} - {count}:
        raise Refused(f"lines of a plan of another length than {count}, which is how many {what} there are of {counted.folder}")
    numbers = {number for number, _ in done if 0 <= number < count}
    if not words.by_source:
        numbers = {number for number in numbers if all(map(target.has, region.part(number, groups).each(target)))}
    if len(numbers) < count:
        raise Refused(f"{count - len(numbers)} of {count} {what} weren't done: {others(numbers, counted, there, groups)}")
    if words.by_source:
        stored = {number for number, chunk in enumerate(region.each(target)) if target.has(chunk)}
        if len(stored) < region.count(target):
            left = others(stored, target, region, target)
            raise Refused(f"{region.count(target) - len(stored)} chunks of {target.folder} aren't stored: {left}")
    print(f"all {count} {what} were done")


def others(done, array, region, groups):
    """The first groups of chunks that haven't one of these numbers, each by its first chunk's key. There may be more than fit in
    memory."""
    numbers = itertools.islice((number for number in range(region.count(groups)) if number not in done), NAMED + 1)
    keys = [array.key(next(region.part(number, groups).each(array))) for number in numbers]
    return ", ".join(keys[:NAMED]) + (", .." if len(keys) > NAMED else "")


ended_by(main)
