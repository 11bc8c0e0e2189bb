"""A writer and a reader of arrays of format 3 for the tests, written from the standard apart from `stored_arrays.py`.

zarr-python 2 doesn't know the final format 3, so nothing else here can judge such arrays. gzip is Python's, Blosc and
Zstandard are Debian's `python3-blosc` and `python3-zstandard`; CRC-32C is written out here.
"""
import gzip
import itertools
import json
import struct

import blosc
import numpy
import zstandard

CRC_TABLE = []
for byte in range(256):
    for _ in range(8):
        byte = byte >> 1 ^ (0x82F63B78 if byte & 1 else 0)
    CRC_TABLE.append(byte)


def crc32c(held):
    crc = 0xFFFFFFFF
    for byte in held:
        crc = CRC_TABLE[(crc ^ byte) & 255] ^ crc >> 8
    return struct.pack("<I", crc ^ 0xFFFFFFFF)


def compressed(codec, held):
    name, members = codec["name"], codec.get("configuration", {})
    if name == "gzip":
        return gzip.compress(held, members["level"])
    if name == "zstd":
        return zstandard.ZstdCompressor(level=members["level"], write_checksum=members["checksum"]).compress(held)
    if name == "crc32c":
        return held + crc32c(held)
    shuffle = {"noshuffle": blosc.NOSHUFFLE, "shuffle": blosc.SHUFFLE, "bitshuffle": blosc.BITSHUFFLE}[members["shuffle"]]
    return blosc.compress(held, members.get("typesize", 1), members["clevel"], shuffle, members["cname"])


def decompressed(codec, held):
    if codec["name"] == "gzip":
        return gzip.decompress(held)
    if codec["name"] == "zstd":
        return zstandard.ZstdDecompressor().decompress(held)
    if codec["name"] == "crc32c":
        assert held[-4:] == crc32c(held[:-4]), "the checksum is another one"
        return held[:-4]
    return blosc.decompress(held)


def keys(metadata):
    """The numbers of each chunk, with its key."""
    edges = metadata["chunk_grid"]["configuration"]["chunk_shape"]
    encoding = metadata["chunk_key_encoding"]
    separator = encoding["configuration"]["separator"]
    for chunk in itertools.product(*[range(-(-size // edge)) for size, edge in zip(metadata["shape"], edges)]):
        numbers = [str(number) for number in chunk]
        key = separator.join(["c"] + numbers) if encoding["name"] == "default" else separator.join(numbers) if numbers else "0"
        yield chunk, key


def chain(metadata, data_type):
    """The transposes, the data type as the bytes have it, and the codecs behind."""
    transposes = [codec["configuration"]["order"] for codec in metadata["codecs"] if codec["name"] == "transpose"]
    (serializer,) = [codec for codec in metadata["codecs"] if codec["name"] == "bytes"]
    order = {"little": "<", "big": ">"}[serializer.get("configuration", {}).get("endian", "little")]
    behind = [codec for codec in metadata["codecs"] if codec["name"] not in ("transpose", "bytes")]
    return transposes, data_type.newbyteorder(order), behind


def write(folder, metadata, elements, fill):
    """Writes an array; beyond it, its chunks have the fill value."""
    folder.mkdir()
    (folder / "zarr.json").write_text(json.dumps(metadata))
    edges = metadata["chunk_grid"]["configuration"]["chunk_shape"]
    transposes, stored, behind = chain(metadata, elements.dtype)
    for chunk, key in keys(metadata):
        held = elements[tuple(slice(number * edge, number * edge + edge) for number, edge in zip(chunk, edges))]
        padded = numpy.full(edges, fill, elements.dtype)
        padded[tuple(map(slice, held.shape))] = held
        for order in transposes:
            padded = numpy.transpose(padded, order)
        text = padded.astype(stored).tobytes()
        for codec in behind:
            text = compressed(codec, text)
        path = folder / key
        path.parent.mkdir(parents=True, exist_ok=True)
        path.write_bytes(text)


def read(folder, data_type, fill):
    """All elements of an array."""
    metadata = json.loads((folder / "zarr.json").read_text())
    edges = metadata["chunk_grid"]["configuration"]["chunk_shape"]
    transposes, stored, behind = chain(metadata, data_type)
    elements = numpy.full(metadata["shape"], fill, data_type)
    for chunk, key in keys(metadata):
        if not (folder / key).exists():
            continue
        text = (folder / key).read_bytes()
        for codec in reversed(behind):
            text = decompressed(codec, text)
        shape = numpy.empty(edges, "V0")
        for order in transposes:
            shape = numpy.transpose(shape, order)
        held = numpy.frombuffer(text, stored).reshape(shape.shape)
        for order in reversed(transposes):
            held = numpy.transpose(held, [order.index(dimension) for dimension in range(len(order))])
        box = tuple(slice(number * edge, number * edge + edge) for number, edge in zip(chunk, edges))
        there = elements[(*box, ...)]
        there[...] = held[tuple(map(slice, there.shape))]
    return elements
