#!/usr/bin/env python3
"""Counts which flipped bits of a compressed chunk are seen where there is no checksum: a thousand of each compressor.

    flips.py [SEED]

Each chunk is decoded in a process of its own, as a decoder that is given nonsense may crash.
"""
import collections
import os
import pathlib
import random
import sys
import tempfile

import numcodecs
import numpy
import zarr

sys.path.insert(0, str(pathlib.Path(__file__).resolve().parent.parent))
from stored_arrays import Refused, open_array  # noqa: E402

FLIPS = 1000
COMPRESSORS = {
    "Blosc by LZ4": numcodecs.Blosc("lz4", 5, 1),
    "Blosc by Zstandard": numcodecs.Blosc("zstd", 3, 2),
    "LZ4": numcodecs.LZ4(),
    "Zstandard": numcodecs.Zstd(3),
}
ENDINGS = ["the same elements", "other elements", "refused"]


def ending(array, elements):
    """How the decoding of the one chunk ends."""
    child = os.fork()
    if child == 0:
        try:
            os._exit(0 if numpy.array_equal(array.read([0, 0]), elements) else 1)
        except Refused:
            os._exit(2)
    status = os.waitstatus_to_exitcode(os.waitpid(child, 0)[1])
    return ENDINGS[status] if 0 <= status < len(ENDINGS) else f"the status {status}"


def main():
    generator = random.Random(int(sys.argv[1]) if len(sys.argv) > 1 else 1)
    noise = numpy.random.default_rng(1).integers(0, 16, 40000)
    elements = (numpy.arange(40000) // 100 + noise).astype("<i4").reshape(200, 200)
    for name, compressor in COMPRESSORS.items():
        with tempfile.TemporaryDirectory() as room:
            zarr.open_array(room, mode="w", shape=(200, 200), chunks=(200, 200), dtype="<i4", compressor=compressor)[...] = elements
            array, path = open_array(room), pathlib.Path(room, "0.0")
            whole = path.read_bytes()
            endings = collections.Counter()
            for bit in generator.sample(range(len(whole) * 8), FLIPS):
                path.write_bytes(whole[: bit // 8] + bytes([whole[bit // 8] ^ 1 << bit % 8]) + whole[bit // 8 + 1 :])
                endings[ending(array, elements)] += 1
            print(f"{name}: {dict(endings)}")


main()
