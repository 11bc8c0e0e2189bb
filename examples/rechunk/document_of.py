#!/usr/bin/env python3
"""Prints what `chunkplan` reads for a rechunking, or for the copy of a region, from the metadata of both arrays.

    document_of.py SOURCE TARGET [--subset START SHAPE [--at INDEX]] [--by-source] [--task-chunks COUNTS]
                                 [--max-elements N [--stage S]] [--share T N] [--keys [ARRAY]]

SOURCE and TARGET are folders of Zarr arrays, of format 2 or 3. With --subset a box of the source is copied, to where it
begins at an index in the target. It asks for tasks of one chunk of the target each, with --by-source of one chunk of the source,
and with --task-chunks of this number of chunks. With --max-elements it asks for the cheapest tasks that hold at most N elements,
and with --stage for the tasks of one stage. The first stage of two writes the array of `make_intermediate.py`. With --share it
asks for the share T of N. With --keys the keys that ARRAY has follow the document, without metadata and unfinished files. ARRAY
is the array that the lines write: TARGET, which is the default, or the intermediate array. If the target can't have the source's
elements, or an array is one that isn't moved here, it says so and ends with the status 1.
"""
import argparse
import json

from region import add_region, add_task_chunks, region_between
from stored_arrays import METADATA, Refused, ended_by, files_in, open_array


def stored(array):
    grid = {"name": "regular", "configuration": {"chunk_shape": array.chunk_shape}}
    return {"chunk_grid": grid, "chunk_key_encoding": array.key_encoding}


def document_of(source, target, subset=None, at=None):
    region = region_between(source, target, subset, at)
    document = {"shape": source.shape, **stored(source), "target": stored(target)}
    if subset is None:
        return document
    return {**document, "target": {"shape": target.shape, **stored(target)}, "subset": [region.start, region.shape], "at": region.at}


def keys_in(folder):
    """The keys of what an array's folder holds besides its metadata."""
    for key in sorted(files_in(folder)):
        if not key.isprintable():
            raise Refused(f"{folder} has the file {key!r}, whose name can't be a line")
        if key.rpartition("/")[2] not in METADATA:
            yield key


def main():
    parser = argparse.ArgumentParser(description="Prints what `chunkplan` reads for a rechunking, or for a region.")
    parser.add_argument("source", metavar="SOURCE")
    parser.add_argument("target", metavar="TARGET")
    add_region(parser)
    add_task_chunks(parser)
    parser.add_argument("--by-source", action="store_true", help="ask for tasks of the source's chunks")
    parser.add_argument("--max-elements", type=int, metavar="N", help="ask for tasks that hold at most N elements")
    parser.add_argument("--stage", type=int, metavar="S", help="ask for the tasks of the stage S")
    parser.add_argument("--share", nargs=2, type=int, metavar=("T", "N"), help="ask for the share T of N")
    parser.add_argument("--keys", nargs="?", const="", metavar="ARRAY", help="leave out what TARGET has, or this array that is written")
    words = parser.parse_args()
    source, target = open_array(words.source), open_array(words.target)
    source.check_keys()
    document = document_of(source, target, words.subset, words.at)
    if words.by_source:
        document["order"] = "source"
    asked = {name: getattr(words, name) for name in ("task_chunks", "max_elements", "stage", "share")}
    document |= {name: value for name, value in asked.items() if value is not None}
    keys = []
    if words.keys is not None:
        document["keys"] = True
        keys = list(keys_in(open_array(words.keys).folder if words.keys else target.folder))
    print(json.dumps(document))
    print("".join(f"{key}\n" for key in keys), end="")


if __name__ == "__main__":
    ended_by(main)
