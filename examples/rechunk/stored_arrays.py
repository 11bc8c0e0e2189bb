"""Zarr arrays in folders: what their metadata say, the keys of their chunks, and their chunks' elements as bytes.

Format 2 (`.zarray`) and format 3 (`zarr.json`), by their standards. What isn't known here is refused, in words.
"""
import base64
import bz2
import dataclasses
import json
import lzma
import math
import os
import pathlib
import re
import stat
import struct
import sys
import typing
import zlib

import numcodecs
import numpy
from numcodecs.compat import ensure_contiguous_ndarray

UNFINISHED = ".unfinished"  # the folder in an array's folder that has what isn't yet under its key
METADATA = {".zarray", ".zattrs", "zarr.json"}


class Refused(Exception):
    """What can't be done, in words."""


@dataclasses.dataclass
class StoredArray:
    folder: pathlib.Path
    shape: list
    chunk_shape: list
    dtype: numpy.dtype  # with the byte order of the stored chunks
    fill: typing.Any  # None where the array has no fill value
    key_encoding: dict
    permutation: list  # the dimensions of a chunk in the order in which its elements are stored
    codecs: list  # those that a chunk's elements go through on their way to the store
    metadata: pathlib.Path = None  # the file of its metadata
    written: bytes = b""  # what that file held when the array was opened

    def grid(self):
        """How many chunks there are along each dimension."""
        return [-(-size // edge) for size, edge in zip(self.shape, self.chunk_shape)]

    def key(self, chunk):
        """The key of a chunk."""
        separator = self.key_encoding["configuration"]["separator"]
        if self.key_encoding["name"] == "v2":
            return separator.join(map(str, chunk)) or "0"
        return separator.join(["c", *map(str, chunk)])

    def path(self, chunk):
        return self.folder / self.key(chunk)

    def has(self, chunk):
        """Whether a chunk is stored. A file without a byte is no chunk."""
        return self.identity(chunk) is not None

    def identity(self, chunk):
        """What differs if another chunk takes the place of a stored one. None if it isn't stored."""
        try:
            return identity_of(self.path(chunk))
        except (FileNotFoundError, NotADirectoryError):
            return None

    def is_key(self, key):
        """Whether a text is the key of a chunk of the array."""
        numbers = [int(number) for number in re.findall("[0-9]+", key)]
        return len(numbers) >= len(self.shape) and any(
            self.key(chunk) == key and all(number < count for number, count in zip(chunk, self.grid()))
            for chunk in (numbers[: len(self.shape)], numbers[len(numbers) - len(self.shape) :])
        )

    def check_keys(self):
        """Refuses an array whose folder has files and no chunk. Its metadata then say other keys, as if the separator is missing,
        and each chunk would be read as the fill value."""
        others = (key for key in files_in(self.folder) if key.rpartition("/")[2] not in METADATA)
        first = next(others, None)
        if first is None or 0 in self.shape or self.is_key(first) or any(map(self.is_key, others)):
            return
        raise Refused(
            f"{self.folder} has files, {first!r} among them, and none is under a key of its chunks, such as {self.key([0] * len(self.shape))!r}"
        )

    def check_is_there(self):
        """Refuses an array whose metadata are gone or changed since it was opened: its chunks may be gone, too."""
        try:
            if self.metadata.read_bytes() == self.written:
                return
        except OSError:
            pass
        raise Refused(f"{self.metadata} is gone, or was changed since the array was opened")

    def held(self, chunk):
        """What a chunk has of the array: its first element there, and how many along each dimension."""
        start = [number * edge for number, edge in zip(chunk, self.chunk_shape)]
        return start, [min(edge, size - first) for edge, size, first in zip(self.chunk_shape, self.shape, start)]

    def new_chunk(self):
        """Memory for a chunk, in which its elements lie as they are stored."""
        stored = numpy.empty([self.chunk_shape[dimension] for dimension in self.permutation], self.dtype)
        return stored.transpose(numpy.argsort(self.permutation))

    def encode(self, chunk):
        encoded = numpy.ascontiguousarray(chunk.transpose(self.permutation)).reshape(-1)
        for codec in self.codecs:
            encoded = codec.encode(encoded)
        return ensure_contiguous_ndarray(encoded).reshape(-1).view("u1").data

    def most(self):
        """How many bytes a chunk may have on its way from the store: it may be compressed, or widened by a filter."""
        return 8 * math.prod(self.chunk_shape) * self.dtype.itemsize + 2**16

    def stored(self, chunk):
        """The bytes that are stored of a chunk. Only a file in the array's folder is read, and no more than may belong to a chunk."""
        path = self.path(chunk)
        with open(path, "rb", opener=lambda name, flags: os.open(name, flags | os.O_NONBLOCK)) as file:
            status = os.fstat(file.fileno())
            if not stat.S_ISREG(status.st_mode):
                raise OSError("it isn't a file")
            if status.st_size > self.most():
                raise OSError(f"it has more than {self.most()} bytes")
            if not path.resolve().is_relative_to(self.folder.resolve()):
                raise OSError("it lies in another folder")
            return file.read()

    def decode(self, stored):
        expected = math.prod(self.chunk_shape) * self.dtype.itemsize
        for codec in reversed(self.codecs):
            stored = codec.decode(stored, **({"most": self.most()} if hasattr(codec, "is_bounded") else {}))
        elements = ensure_contiguous_ndarray(stored).reshape(-1).view("u1")
        if elements.nbytes != expected:
            raise ValueError(f"{elements.nbytes} bytes where {expected} belong")
        shape = [self.chunk_shape[dimension] for dimension in self.permutation]
        return elements.view(self.dtype).reshape(shape).transpose(numpy.argsort(self.permutation))

    def read(self, chunk):
        """A chunk's elements. One that isn't stored has the fill value throughout."""
        try:
            stored = self.stored(chunk)
        except FileNotFoundError:
            self.check_is_there()
            if self.fill is None:
                raise Refused(f"chunk {self.key(chunk)} of {self.folder} isn't stored, and there is no fill value") from None
            return numpy.broadcast_to(numpy.array(self.fill, self.dtype), self.chunk_shape)
        except OSError as error:
            raise Refused(f"chunk {self.key(chunk)} of {self.folder} can't be read: {error}") from error
        try:
            return self.decode(stored)
        except Exception as error:  # each codec has exceptions of its own
            raise Refused(f"chunk {self.key(chunk)} of {self.folder} can't be decoded: {error}") from error


def open_array(folder):
    """The array in a folder."""
    folder = pathlib.Path(folder)
    for name, read in ((".zarray", read_format_2), ("zarr.json", read_format_3)):
        path = folder / name
        if path.exists():
            try:
                written = path.read_bytes()
                array = checked(read(folder, json.loads(written)))
                return dataclasses.replace(array, metadata=path, written=written)
            except Refused as error:
                raise Refused(f"{path}: {error}") from None
            except (KeyError, TypeError, ValueError, AttributeError, RecursionError) as error:
                raise Refused(f"{path} isn't the metadata of an array: {error!r}") from error
    raise Refused(f"{folder} has no .zarray and no zarr.json")


def identity_of(path):
    """What differs if another file takes the place of one, or if it gets other bytes. None if it has no byte."""
    status = path.stat()
    return [status.st_size, status.st_mtime_ns, status.st_ino] if status.st_size > 0 else None


def files_in(folder):
    """The files in an array's folder, as they would be keys, but for those that aren't finished. They come as they are found."""
    folders = [(str(folder), "")]
    while folders:
        place, begins = folders.pop()
        with os.scandir(place) as entries:
            for entry in entries:
                key = f"{begins}{entry.name}"
                if entry.is_dir(follow_symlinks=False):
                    if key != UNFINISHED:
                        folders.append((entry.path, f"{key}/"))
                elif entry.is_file() and entry.stat().st_size > 0:
                    yield key


def checked(array):
    if len(array.shape) != len(array.chunk_shape) or sorted(array.permutation) != list(range(len(array.shape))):
        raise Refused("the shape, the chunk shape and the order have different dimensions")
    if not all(type(number) is int for number in array.shape + array.chunk_shape) or min(array.shape, default=0) < 0:
        raise Refused("a size that is no whole number")
    if min(array.chunk_shape, default=1) < 1:
        raise Refused("an edge of a chunk that is less than 1")
    if math.prod(array.chunk_shape) * array.dtype.itemsize > sys.maxsize:
        raise Refused(f"a chunk of more than {sys.maxsize} bytes")
    if array.key_encoding["configuration"]["separator"] not in (".", "/"):
        raise Refused("a separator other than '.' and '/'")
    if array.dtype.hasobject or array.dtype.itemsize == 0:
        raise Refused(f"the data type {array.dtype}, whose elements have no bytes of their own, isn't moved")
    return array


def check_movable(source, target):
    """Refuses a target that can't have the source's elements."""
    if source.folder.resolve() == target.folder.resolve():
        raise Refused("source and target are one folder")
    if source.dtype.newbyteorder("=") != target.dtype.newbyteorder("="):
        raise Refused(f"another data type: {source.dtype} in {source.folder}, {target.dtype} in {target.folder}")


# Format 2.


def read_format_2(folder, metadata):
    if metadata["zarr_format"] != 2:
        raise Refused(f"zarr_format {metadata['zarr_format']}")
    if metadata["order"] not in ("C", "F"):
        raise Refused(f"order {metadata['order']}")
    dtype = dtype_2(metadata["dtype"])
    dimensions = list(range(len(metadata["shape"])))
    return StoredArray(
        folder=folder,
        shape=metadata["shape"],
        chunk_shape=metadata["chunks"],
        dtype=dtype,
        fill=fill_2(metadata["fill_value"], dtype),
        key_encoding={"name": "v2", "configuration": {"separator": metadata.get("dimension_separator", ".")}},
        permutation=dimensions if metadata["order"] == "C" else dimensions[::-1],
        codecs=[codec_2(codec) for codec in [*(metadata["filters"] or []), metadata["compressor"]] if codec],
    )


def dtype_2(written):
    if isinstance(written, str):
        return numpy.dtype(written)
    return numpy.dtype([(name, dtype_2(kind), *map(tuple, shape)) for name, kind, *shape in written])


def fill_2(written, dtype):
    if written is not None and dtype.kind in "SV":
        return from_bytes(base64.b64decode(written, validate=True), dtype)
    return number(written, dtype)


COMPRESSORS_2 = {"blosc", "bz2", "gzip", "lz4", "lzma", "zlib", "zstd"}
FILTERS_2 = {"adler32", "astype", "bitround", "crc32", "delta", "fixedscaleoffset", "packbits", "quantize", "shuffle"}


def codec_2(configuration):
    if configuration["id"] not in COMPRESSORS_2 | FILTERS_2:  # not `pickle`, say, whose chunks are programs
        raise Refused(f"the codec {configuration['id']} isn't known here")
    if configuration["id"] == "blosc":
        return Blosc(**{name: value for name, value in configuration.items() if name != "id"})
    if configuration["id"] in WholeStreams.DECOMPRESSORS:
        return WholeStreams(configuration)
    codec = numcodecs.get_codec(dict(configuration))
    return {"lz4": LZ4, "zstd": Zstd}[configuration["id"]](codec) if configuration["id"] in ("lz4", "zstd") else codec


# Format 3.


def read_format_3(folder, metadata):
    known = {"zarr_format", "node_type", "shape", "data_type", "chunk_grid", "chunk_key_encoding", "fill_value", "codecs"}
    silent = {"attributes", "dimension_names"}
    for name in metadata.keys() - known - silent:
        if metadata[name] and not (isinstance(metadata[name], dict) and metadata[name].get("must_understand") is False):
            raise Refused(f"the member {name} isn't known here")
    if (metadata["zarr_format"], metadata["node_type"]) != (3, "array"):
        raise Refused("no array of format 3")
    grid, edges = named(metadata["chunk_grid"])
    encoding, separated = named(metadata["chunk_key_encoding"])
    if grid != "regular" or encoding not in ("default", "v2"):
        raise Refused(f"chunk grid {grid} with keys {encoding}: only regular ones with default or v2 are moved here")
    separator = separated.get("separator", "/" if encoding == "default" else ".")
    dtype = dtype_3(metadata["data_type"])
    dtype, permutation, codecs = codecs_3(metadata["codecs"], dtype, len(metadata["shape"]))
    return StoredArray(
        folder=folder,
        shape=metadata["shape"],
        chunk_shape=edges["chunk_shape"],
        dtype=dtype,
        fill=fill_3(metadata["fill_value"], dtype),
        key_encoding={"name": encoding, "configuration": {"separator": separator}},
        permutation=permutation,
        codecs=codecs,
    )


def named(extension):
    """The name and the configuration of an extension, which may be its name alone."""
    if isinstance(extension, str):
        return extension, {}
    return extension["name"], extension.get("configuration", {})


def dtype_3(written):
    numbers = {f"{kind}{bits}" for kind in ("int", "uint") for bits in (8, 16, 32, 64)}
    if written in numbers | {"bool", "float16", "float32", "float64", "complex64", "complex128"}:
        return numpy.dtype(written)
    if isinstance(written, str) and written[:1] == "r" and written[1:].isdecimal() and int(written[1:]) % 8 == 0:
        return numpy.dtype(f"V{int(written[1:]) // 8}")
    raise Refused(f"the data type {written} isn't known here")


def fill_3(written, dtype):
    if written is not None and dtype.kind == "V":
        return from_bytes(bytes(written), dtype)
    return number(written, dtype)


def codecs_3(chain, dtype, dimensions):
    """The data type with its byte order, the order of the dimensions, and what the bytes go through."""
    chain = [named(codec) for codec in chain]
    permutation = list(range(dimensions))
    while chain and chain[0][0] == "transpose":
        order = chain.pop(0)[1]["order"]
        if sorted(order) != list(range(dimensions)):
            raise Refused(f"the codec transpose has the order {order}")
        permutation = [permutation[dimension] for dimension in order]
    if not chain or chain[0][0] != "bytes":
        raise Refused(f"the codec {chain[0][0] if chain else 'bytes'} isn't known here, or not in its place")
    endian = chain.pop(0)[1].get("endian")
    if endian not in ("little", "big") and (endian is not None or dtype.itemsize > 1 and dtype.kind != "V"):
        raise Refused(f"the codec bytes has the endian {endian}")
    if endian:
        dtype = dtype.newbyteorder(endian)
    return dtype, permutation, [codec_3(*codec) for codec in chain]


def codec_3(name, configuration):
    if name == "blosc":
        shuffle = {"noshuffle": 0, "shuffle": 1, "bitshuffle": 2}[configuration["shuffle"]]
        return Blosc(configuration["cname"], configuration["clevel"], shuffle, configuration["blocksize"], configuration.get("typesize"))
    if name == "gzip":
        return WholeStreams({"id": "gzip", **configuration})
    if name == "zstd":
        return CheckedZstd(configuration["level"]) if configuration.get("checksum") else Zstd(numcodecs.Zstd(configuration["level"]))
    if name == "crc32c":
        return Crc32c()
    raise Refused(f"the codec {name} isn't known here, or not in its place")


# Of both formats.


def from_bytes(held, dtype):
    """A fill value whose bytes are written, without the zeros at their end."""
    if len(held) > dtype.itemsize:
        raise Refused(f"the fill value has {len(held)} bytes, an element {dtype.itemsize}")
    return numpy.frombuffer(held.ljust(dtype.itemsize, b"\0"), dtype)[0]


def number(written, dtype):
    """A fill value as both formats write it. Format 3 also has a float's bits, as hexadecimal digits."""
    if written is None:
        return None
    if dtype.kind == "c":
        parts = numpy.dtype(f"{dtype.byteorder}f{dtype.itemsize // 2}")
        return numpy.array([number(part, parts) for part in written], parts).view(dtype)[0]
    if dtype.kind == "f" and isinstance(written, str) and written.startswith("0x"):
        return from_bytes(bytes.fromhex(written[2:]), dtype.newbyteorder(">"))
    if dtype.kind == "f" and isinstance(written, str) and written not in ("NaN", "Infinity", "-Infinity"):
        raise Refused(f"the fill value {written}")
    value = numpy.array(written).astype(dtype)[()]
    if dtype.kind in "iu" and int(value) != written:
        raise Refused(f"the fill value {written} is none of {dtype}")
    return value


class Sized:
    """A compressor of numcodecs. It takes the memory that the first bytes of a chunk ask for: these are looked at before."""

    is_bounded = True

    def __init__(self, codec):
        self.codec, self.encode = codec, codec.encode

    def decode(self, stored, most):
        stored = ensure_contiguous_ndarray(stored).view("u1").data
        if self.size(stored) > most:
            raise ValueError(f"more than {most} bytes")
        return self.codec.decode(stored)


class Blosc(Sized):
    """Blosc by numcodecs, which reads past the end of a chunk that was cut off: both lengths are looked at before."""

    def __init__(self, cname="lz4", clevel=5, shuffle=1, blocksize=0, typesize=None):
        self.codec, self.typesize = numcodecs.Blosc(cname, clevel, shuffle, blocksize), typesize

    def encode(self, elements):
        elements = ensure_contiguous_ndarray(elements)
        if self.typesize and elements.nbytes % self.typesize == 0:
            elements = elements.view("u1").view(f"V{self.typesize}")  # Blosc shuffles the bytes of elements of this size
        return self.codec.encode(elements)

    def size(self, stored):
        if len(stored) < 16 or struct.unpack_from("<I", stored, 12)[0] != len(stored):
            raise ValueError(f"{len(stored)} bytes aren't what Blosc wrote")
        return struct.unpack_from("<I", stored, 4)[0]


class LZ4(Sized):
    def size(self, stored):
        return int.from_bytes(stored[:4], "little")


class Zstd(Sized):
    def size(self, stored):
        """The size of the content, as the header of a frame says it (RFC 8878, section 3.1.1.1). If it doesn't, numcodecs refuses the chunk."""
        if len(stored) < 5 or stored[:4] != b"\x28\xb5\x2f\xfd":
            raise ValueError("it doesn't begin as a frame of Zstandard")
        is_single = stored[4] >> 5 & 1
        width = (is_single, 2, 4, 8)[stored[4] >> 6]
        begins = 5 + (1 - is_single) + (0, 1, 2, 4)[stored[4] & 3]
        return int.from_bytes(stored[begins : begins + width], "little") + 256 * (width == 2)


def lzma_decompressor(written, most):
    """A decompressor of LZMA that takes as much memory as may belong to a chunk, and the dictionary of any preset (at most 64 MB).
    A few bytes, or the filters in the metadata, may ask for a dictionary of 4 GB."""
    form, filters, room = written.get("format", lzma.FORMAT_XZ), written.get("filters") or [], most + 2**27
    if form != lzma.FORMAT_RAW:
        return lzma.LZMADecompressor(form, memlimit=room)
    if any(one.get("dict_size", 0) > room for one in filters):
        raise ValueError(f"a dictionary of more than {room} bytes")
    return lzma.LZMADecompressor(form, filters=filters)


class WholeStreams:
    """zlib, gzip, bz2 and LZMA. numcodecs makes gigabytes of a few bytes, and passes over what follows a stream. Both are refused here.
    A chunk of gzip may have several members."""

    DECOMPRESSORS = {
        "zlib": lambda *_: zlib.decompressobj(),
        "gzip": lambda *_: zlib.decompressobj(wbits=31),
        "bz2": lambda *_: bz2.BZ2Decompressor(),
        "lzma": lzma_decompressor,
    }
    is_bounded = True

    def __init__(self, configuration):
        self.encode = numcodecs.get_codec(dict(configuration)).encode
        self.decompressor = lambda most: self.DECOMPRESSORS[configuration["id"]](configuration, most)
        self.has_members = configuration["id"] == "gzip"

    def decode(self, stored, most):
        decoded, rest = b"", bytes(ensure_contiguous_ndarray(stored).view("u1"))
        while True:
            decompressor = self.decompressor(most)
            decoded += decompressor.decompress(rest, most + 1 - len(decoded))
            if len(decoded) > most:
                raise ValueError(f"more than {most} bytes")
            rest = decompressor.unused_data
            if not decompressor.eof or rest and not self.has_members:
                raise ValueError("the compressed stream doesn't end where the chunk does")
            if not rest:
                return decoded


class Crc32c:
    """The CRC-32C of some bytes behind them."""

    def __init__(self):
        self.crc32c = imported("crc32c", "python3-crc32c", "the codec crc32c").crc32c

    def encode(self, elements):
        held = ensure_contiguous_ndarray(elements).view("u1").data
        return b"".join([held, struct.pack("<I", self.crc32c(held))])

    def decode(self, stored):
        held = ensure_contiguous_ndarray(stored).view("u1").data
        if len(held) < 4 or struct.unpack("<I", held[-4:])[0] != self.crc32c(held[:-4]):
            raise ValueError("the checksum is another one")
        return held[:-4]


class CheckedZstd(Zstd):
    """Zstandard with a checksum, which numcodecs reads and Debian's doesn't write."""

    def __init__(self, level):
        super().__init__(numcodecs.Zstd(level))
        zstandard = imported("zstandard", "python3-zstandard", "the codec zstd with a checksum")
        self.encode = zstandard.ZstdCompressor(level=level, write_checksum=True).compress


def imported(module, package, wanted_by):
    try:
        return __import__(module)
    except ImportError:
        raise Refused(f"{wanted_by} needs the module {module} (Debian: {package})") from None


def on_a_line(told):
    """A text for standard error. Line feeds in it, and signs that steer a terminal, are escaped."""
    return "".join(sign if sign.isprintable() else repr(sign)[1:-1] for sign in str(told))


def ended_by(main):
    """Runs the main function of a script. What it refuses, and what the system refuses it, goes to standard error, on a line."""
    try:
        if None in (sys.stdin, sys.stdout):
            raise Refused("standard input or standard output is closed")
        main()
    except (Refused, OSError, MemoryError) as error:
        sys.exit(f"{pathlib.Path(sys.argv[0]).name}: {on_a_line(str(error) or repr(error))}")
