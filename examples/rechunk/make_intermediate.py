#!/usr/bin/env python3
"""Makes the intermediate array of a copy in two stages: an array without elements, of the chunk shape that `chunkplan` chooses.

    make_intermediate.py SOURCE TARGET INTERMEDIATE --max-elements N [--subset START SHAPE [--at INDEX]]

SOURCE and TARGET are folders of Zarr arrays, of format 2 or 3; `chunkplan` is on `PATH`, or named in `CHUNKPLAN`.
INTERMEDIATE becomes the folder of an array of format 3. It has the source's shape, or the region's, and the source's data
type and fill value. If the source is of format 3, it has its codecs, and else none that compress. If INTERMEDIATE is such
an array already, it stays. If one stage costs no more than two, none is made.

It prints the counts of the stages, as `chunkplan` does. If no tasks hold as few as N elements, or format 3 doesn't have the
data type, it says so and ends with the status 1.
"""
import argparse
import json
import os
import pathlib
import subprocess

import numpy

from document_of import document_of
from region import add_region, region_between
from stored_arrays import Refused, dtype_3, ended_by, open_array


def counts_of(source, target, most, *asked):
    """What `chunkplan` counts of a copy in which a worker holds at most so many elements: of the whole array, or of a region."""
    document = {**document_of(source, target, *asked), "max_elements": most, "counts": True}
    command = [os.environ.get("CHUNKPLAN", "chunkplan")]
    counted = subprocess.run(command, input=json.dumps(document), capture_output=True, text=True)
    if counted.returncode != 0:
        raise Refused(counted.stderr.strip())
    return json.loads(counted.stdout)


def metadata_of(source, shape, chunk_shape):
    """The `zarr.json` of an array of the source's elements, of this shape and in chunks of the other one."""
    return {
        "zarr_format": 3, "node_type": "array", "shape": shape, **elements_of(source),
        "chunk_grid": {"name": "regular", "configuration": {"chunk_shape": chunk_shape}},
        "chunk_key_encoding": {"name": "default", "configuration": {"separator": "/"}},
    }  # fmt: skip


def elements_of(source):
    """What metadata of format 3 say of the source's elements."""
    if not (source.folder / ".zarray").exists():
        metadata = json.loads((source.folder / "zarr.json").read_text())
        return {name: metadata[name] for name in ("data_type", "fill_value", "codecs")}
    dtype = source.dtype
    name = f"r{8 * dtype.itemsize}" if dtype.kind == "V" and dtype.names is None else dtype.name
    endian = "big" if dtype.str[0] == ">" else "little"
    fill = numpy.zeros((), dtype) if source.fill is None else numpy.array(source.fill, dtype)
    codecs = [{"name": "bytes", "configuration": {"endian": endian}}]
    dtype_3(name)  # which refuses those that format 3 hasn't
    return {"data_type": name, "fill_value": fill_3(fill), "codecs": codecs}


def fill_3(fill):
    """A fill value as format 3 writes it: the number itself, or its bits."""
    if fill.dtype.kind == "c":
        return [fill_3(fill.real), fill_3(fill.imag)]
    if fill.dtype.kind == "f":
        return "0x" + fill.astype(fill.dtype.newbyteorder(">")).tobytes().hex()
    return list(fill.tobytes()) if fill.dtype.kind == "V" else fill.item()


def make(folder, metadata):
    """Writes the metadata of an array, where the folder doesn't have them."""
    path = pathlib.Path(folder, "zarr.json")
    if path.exists():
        if json.loads(path.read_text()) != metadata:
            raise Refused(f"{path} is another array's: remove {folder}, or name another folder")
        return
    path.parent.mkdir(parents=True, exist_ok=True)
    unfinished = path.with_name("zarr.json.new")
    unfinished.write_text(json.dumps(metadata, indent=4))
    unfinished.rename(path)


def main():
    parser = argparse.ArgumentParser(description="Makes the intermediate array of a copy in two stages.")
    parser.add_argument("source", metavar="SOURCE")
    parser.add_argument("target", metavar="TARGET")
    parser.add_argument("intermediate", metavar="INTERMEDIATE")
    add_region(parser)
    parser.add_argument("--max-elements", metavar="N", type=int, required=True, help="that a worker may hold")
    words = parser.parse_args()
    source, target = open_array(words.source), open_array(words.target)
    region = region_between(source, target, words.subset, words.at)
    counts = counts_of(source, target, words.max_elements, words.subset, words.at)
    for stage in counts["stages"][:-1]:
        make(words.intermediate, metadata_of(source, region.shape, stage["intermediate"]))
    print(json.dumps(counts))


if __name__ == "__main__":
    ended_by(main)
