#!/usr/bin/env python3
"""Moves arrays by the plans of `chunkplan`, and opens the results with zarr-python, or with a reader of format 3 written
apart: they have to be equal, byte by byte of their elements. Then what has to be refused.

    moves.py CHUNKPLAN [--seed N] [--moves N] [--checks NAME ..]

CHUNKPLAN is the built program. It needs numpy and zarr-python 2 (Debian: python3-zarr).
"""
import argparse
import base64
import importlib.util
import itertools
import json
import os
import pathlib
import pty
import random
import resource
import shlex
import subprocess
import sys
import tempfile

import numcodecs
import numpy
import zarr
from numcodecs.bitround import BitRound

TOOLS = pathlib.Path(__file__).resolve().parent.parent
sys.path.insert(0, str(TOOLS))
from copy_chunks import Sources, filled, task_of  # noqa: E402
from document_of import document_of, keys_in  # noqa: E402
from region import region_between  # noqa: E402
from stored_arrays import Refused, open_array  # noqa: E402

FORMAT_3 = all(map(importlib.util.find_spec, ("blosc", "crc32c", "zstandard")))
if FORMAT_3:
    import format_3


# Line by line and by shares, on other engines than those of `engines`.


def xargs(worker):
    """Each line goes to a worker of its own."""
    return ["xargs", "-d", "\\n", "-n", "1", "-P", "4", "sh", "-c", f'printf "%s\\n" "$1" | {shlex.join(worker)}', "-"]


def split(worker):
    """Four workers read the lines in turn."""
    return ["split", "-n", "r/4", f"--filter={shlex.join(worker)}"]


def one_worker(worker):
    """A worker reads all lines, as in a task of a job array."""
    return worker


CASES = [
    # shape, of source and target the edges of a chunk and the separator of keys, how many tasks share the plan out, and
    # the engine of each
    ((100, 70), ((30, 20), "."), ((17, 33), "/"), 1, xargs),
    ((100, 70), ((17, 33), "/"), ((100, 1), "."), 1, split),
    ((11, 13, 17), ((4, 5, 6), "/"), ((3, 13, 2), "."), 1, split),
    ((11, 13, 17), ((20, 1, 17), "."), ((5, 5, 5), "/"), 1, one_worker),
    # two lines of 2,000 sources, each longer than an argument may be
    ((50, 80), ((1, 1), "/"), ((25, 80), "."), 1, split),
    # 18 lines for four tasks, and 12 for twenty
    ((100, 70), ((30, 20), "."), ((17, 33), "/"), 4, one_worker),
    ((100, 70), ((17, 33), "/"), ((30, 31), "."), 20, one_worker),
]


def is_whole(lines):
    """Whether lines have all numbers of one plan, each once: of the plan, or of what was done of it."""
    numbers = sorted((line["of"], line["number"]) for line in map(json.loads, lines))
    return numbers != [] and numbers == [(len(numbers), number) for number in range(len(numbers))]


def tool(name, *words, **options):
    command = [sys.executable, TOOLS / name] if name.endswith(".py") else [TOOLS / name]
    return subprocess.run([*command, *map(str, words)], capture_output=True, text=True, **options)


# A worker that says on standard error when it waits for the disk to have a file, and when it renames one.
TOLD = """
import os, pathlib, runpy, sys
fsync, rename = os.fsync, pathlib.Path.rename
os.fsync = lambda file: (print("fsync", file=sys.stderr), fsync(file))
pathlib.Path.rename = lambda path, to: (print("rename", file=sys.stderr), rename(path, to))
sys.argv = sys.argv[1:]
sys.path.insert(0, os.path.dirname(sys.argv[0]))
runpy.run_path(sys.argv[0], run_name="__main__")
"""


def disk_steps(*words, **options):
    """What a worker does with its files, step by step."""
    command = [sys.executable, "-c", TOLD, TOOLS / "copy_chunks.py", *words]
    return subprocess.run(list(map(str, command)), capture_output=True, text=True, check=True, **options).stderr.split()


def by_engine(engine, chunkplan, source, target, words):
    """document_of .. | chunkplan | .. copy_chunks.py, the lines that it prints, and whether it succeeded."""
    worker = list(map(str, [sys.executable, TOOLS / "copy_chunks.py", source, target]))
    document = tool("document_of.py", source, target, *words, check=True).stdout
    plan = subprocess.Popen([chunkplan], stdin=subprocess.PIPE, stdout=subprocess.PIPE)
    copying = subprocess.Popen(engine(worker), stdin=plan.stdout, stdout=subprocess.PIPE)
    plan.stdout.close()
    plan.stdin.write(document.encode())
    plan.stdin.close()
    done = copying.stdout.read().splitlines()
    return done, [plan.wait(), copying.wait()] == [0, 0]


def move_by_tasks(room, chunkplan, shape, source, target, tasks, engine):
    """Whether each task succeeded in its share, each line was done, and the arrays are equal."""
    here, there = room / "source", room / "target"
    elements = numpy.arange(numpy.prod(shape), dtype="<i4").reshape(shape)
    for folder, (chunks, separator) in ((here, source), (there, target)):
        make_2(folder, shape, chunks, dtype="<i4", fill_value=-1, compressor=None, dimension_separator=separator)
    zarr.open_array(str(here))[...] = elements
    asked = [("--share", task, tasks) for task in range(tasks)] if tasks > 1 else [()]
    done, succeeded = zip(*(by_engine(engine, chunkplan, here, there, words) for words in asked))
    whole = all(succeeded) and is_whole([line for lines in done for line in lines])
    return whole and numpy.array_equal(zarr.open_array(str(there), mode="r")[...], elements)


def engines(chunkplan, generator, moves):
    for case in CASES:
        with tempfile.TemporaryDirectory() as room:
            yield f"{case[:3]}, {case[3]} x {case[4].__name__}", move_by_tasks(pathlib.Path(room), chunkplan, *case)


# Arrays of all kinds, from here on in this process.


def make_2(folder, shape, chunks, **stored):
    return zarr.open_array(str(folder), mode="w", shape=shape, chunks=chunks, write_empty_chunks=True, **stored)


def plan_of(chunkplan, source, target, *asked):
    document = json.dumps(document_of(source, target, *asked))
    return subprocess.run([chunkplan], input=document, stdout=subprocess.PIPE, check=True, text=True).stdout.splitlines(True)


def move(chunkplan, here, there, *asked):
    """Writes the target, as `copy_chunks.py` does, in this process: the whole array, or the region that is asked for."""
    carry_out(plan_of(chunkplan, open_array(here), open_array(there), *asked), here, there, *asked)


def carry_out(lines, here, there, *asked, most=10**6, **tasks):
    """Does the lines, and keeps decoded chunks up to a number of bytes. Returns how many chunks were read. `tasks` says which
    chunks a task takes, as for `task_of`."""
    source, target = open_array(here), open_array(there)
    region = region_between(source, target, *asked)
    sources = Sources(source, target, region, most)
    for text in lines:
        for to, chunk in filled(task_of(text, source, target, region, **tasks), sources, target):
            path = target.path(to["chunk"])
            path.parent.mkdir(parents=True, exist_ok=True)
            path.write_bytes(target.encode(chunk))
    return sources.decoded


TYPES = [
    # a data type, its fill values, and that of format 3, where there is one
    ("|b1", [True, False], "bool"),
    ("|i1", [-128, 5], "int8"),
    ("|u1", [255, 0], "uint8"),
    ("<i2", [-2], "int16"),
    (">i4", [2**31 - 1], "int32"),
    ("<u8", [2**64 - 1, 2**53 + 1], "uint64"),
    (">i8", [-(2**63)], "int64"),
    ("<f2", [1.5], "float16"),
    ("<f4", [float("nan"), 0.1], "float32"),
    (">f8", [float("nan"), float("inf"), float("-inf"), 0.1], "float64"),
    ("<c8", [complex(1, -2), complex(float("nan"), float("inf"))], "complex64"),
    (">c16", [complex(float("-inf"), 0.1)], "complex128"),
    ("|V3", [b"\x00\xff\x01"], "r24"),
    ("|S5", [b"ab", b"\xff\xfe"], None),
    ("<U3", ["é\U0001f600", ""], None),
    (">U2", ["xy"], None),
    ("<M8[ns]", [numpy.datetime64("2020-02-02"), numpy.datetime64("NaT")], None),
    (">m8[s]", [numpy.timedelta64(-7, "s")], None),
    ([("a", "<i2"), ("b", "|S3")], [(7, b"ab")], None),
    ([("a", ">f4", (2,)), ("b", [("c", "|u1")])], [([1.0, 2.0], (3,))], None),
]
COMPRESSORS = [
    None, numcodecs.Zlib(1), numcodecs.GZip(1), numcodecs.BZ2(1), numcodecs.LZMA(), numcodecs.LZ4(), numcodecs.Zstd(3),
    numcodecs.Blosc("lz4", 5, 1), numcodecs.Blosc("zstd", 3, 2), numcodecs.Blosc("zlib", 1, 0, 64),
]  # fmt: skip
CODECS_3 = [
    [], ["gzip"], ["crc32c"], ["zstd"], ["zstd", "crc32c"], ["blosc"], ["gzip", "crc32c"],
]  # fmt: skip


def random_elements(generator, shape, dtype):
    """Elements of any bytes, but that texts have letters of Unicode."""
    dtype, count = numpy.dtype(dtype), int(numpy.prod(shape))
    if dtype.kind == "U":
        letters = ["".join(generator.choices("aé€\U0001f600 ", k=generator.randrange(4))) for _ in range(count)]
        return numpy.array(letters, dtype).reshape(shape)
    if dtype.kind == "b":
        return numpy.array([generator.random() < 0.5 for _ in range(count)], dtype).reshape(shape)
    return numpy.frombuffer(generator.randbytes(count * dtype.itemsize), dtype).reshape(shape)


def filters(generator, dtype):
    """Filters of format 2 that lose nothing."""
    some = [None, [numcodecs.CRC32()], [numcodecs.Adler32()]]
    if numpy.dtype(dtype).kind in "iu":
        some += [[numcodecs.Delta(dtype)], [numcodecs.Delta(dtype), numcodecs.CRC32()]]
    if numpy.dtype(dtype).itemsize in (2, 4, 8):
        some += [[numcodecs.Shuffle(numpy.dtype(dtype).itemsize)]]
    return generator.choice(some)


def swapped(generator, dtype):
    """A data type, perhaps with the other byte order."""
    return generator.choice([numpy.dtype(dtype), numpy.dtype(dtype).newbyteorder()])


def random_2(generator, folder, shape, dtype, fill):
    """An array of format 2 without elements. zarr-python 2 writes no fill value of bytes with numpy 1.24, so it is written here."""
    dtype = swapped(generator, dtype)
    make_2(
        folder, shape, chunks(generator, shape), dtype=dtype, fill_value=None if dtype.kind == "V" else fill,
        order=generator.choice("CF"), filters=filters(generator, dtype), compressor=generator.choice(COMPRESSORS),
        dimension_separator=generator.choice("./"),
    )  # fmt: skip
    if dtype.kind == "V":
        written = base64.standard_b64encode(numpy.array(fill, dtype).tobytes()).decode()
        metadata = json.loads((folder / ".zarray").read_text())
        (folder / ".zarray").write_text(json.dumps({**metadata, "fill_value": written}))


def chunks(generator, shape):
    return [generator.randint(1, size + 2) for size in shape]


def codec_3(generator, name, itemsize):
    configurations = {
        "gzip": {"level": 1},
        "zstd": {"level": 1, "checksum": generator.random() < 0.5},
        "blosc": {
            "cname": "lz4",
            "clevel": 5,
            "shuffle": generator.choice(["noshuffle", "shuffle", "bitshuffle"]),
            "typesize": itemsize,
            "blocksize": 0,
        },
    }
    return {"name": name, "configuration": configurations[name]} if name in configurations else {"name": name}


def fill_3(fill, dtype):
    """A fill value as format 3 writes it."""
    if dtype.kind == "c":
        return [fill_3(part, numpy.dtype("f8")) for part in (fill.real, fill.imag)]
    if dtype.kind == "f" and not numpy.isfinite(fill):
        return "NaN" if numpy.isnan(fill) else "Infinity" if fill > 0 else "-Infinity"
    return list(fill) if dtype.kind == "V" else fill


def random_3(generator, shape, dtype, name, fill):
    """The metadata of an array of format 3."""
    orders = [generator.sample(range(len(shape)), len(shape)) for _ in range(generator.randrange(3))]
    transposes = [{"name": "transpose", "configuration": {"order": order}} for order in orders]
    behind = [codec_3(generator, codec, dtype.itemsize) for codec in generator.choice(CODECS_3)]
    return {
        "zarr_format": 3, "node_type": "array", "shape": shape, "data_type": name, "fill_value": fill_3(fill, dtype),
        "chunk_grid": {"name": "regular", "configuration": {"chunk_shape": chunks(generator, shape)}},
        "chunk_key_encoding": {"name": generator.choice(["default", "v2"]), "configuration": {"separator": generator.choice("./")}},
        "codecs": [*transposes, {"name": "bytes", "configuration": {"endian": generator.choice(["little", "big"])}}, *behind],
        "attributes": {"a": 1},
    }  # fmt: skip


def same(first, second):
    """Whether elements are the same, in bytes of one byte order."""
    dtype = first.dtype.newbyteorder("=")
    return first.shape == second.shape and first.astype(dtype).tobytes() == second.astype(dtype).tobytes()


def forget_some(generator, folder, elements, fill):
    """Removes some chunks of a source: there the array has its fill value."""
    array = open_array(folder)
    elements = elements.copy()
    for chunk in itertools.product(*map(range, array.grid())):
        if generator.random() < 0.2:
            array.path(chunk).unlink()
            start, shape = array.held(chunk)
            elements[tuple(slice(first, first + size) for first, size in zip(start, shape))] = fill
    return elements


def shapes(generator):
    return generator.choice([[], [7], [13], [6, 9], [10, 3], [5, 4, 6], [3, 2, 4, 3], [0, 4], [4, 0]])


def kinds(chunkplan, generator, moves):
    """Arrays of random kinds, so many from each format to each."""
    for formats in itertools.product((2, 3) if FORMAT_3 else (2,), repeat=2):
        for count in range(moves):
            dtype, fills, name = generator.choice(TYPES if formats == (2, 2) else [row for row in TYPES if row[2]])
            dtype, shape = numpy.dtype(dtype), shapes(generator)
            with tempfile.TemporaryDirectory() as room:
                ends = [pathlib.Path(room, name) for name in ("source", "target")]
                elements = random_elements(generator, shape, dtype)
                written = generator.choice(fills)
                fill = numpy.array(written, dtype)[()]
                for form, folder in zip(formats, ends):
                    held = elements if folder is ends[0] else None
                    store(generator, form, folder, shape, dtype, name, written, held)
                elements = forget_some(generator, ends[0], elements, fill)
                move(chunkplan, *ends)
                got = zarr.open_array(str(ends[1]), mode="r")[...] if formats[1] == 2 else format_3.read(ends[1], dtype, fill)
                yield f"{formats}, move {count} of {dtype}, {shape}", same(elements, numpy.asarray(got))


def broken_off(chunkplan, generator, moves):
    """Targets that lack some of their chunks, and have another file. With their keys, the tasks of these chunks are planned, and the
    file is reported. After these tasks each target is what it was. Shares do the same."""
    for count in range(moves):
        dtype, fills, name = generator.choice(TYPES)
        shape, of = shapes(generator), generator.randint(1, 3)
        each = ["--task-chunks", ",".join(str(generator.randint(1, 2)) for _ in shape)] if generator.random() < 0.5 else []
        with tempfile.TemporaryDirectory() as room:
            ends = [pathlib.Path(room, name) for name in ("source", "target")]
            fill = generator.choice(fills)
            for folder, elements in zip(ends, (random_elements(generator, shape, dtype), None)):
                store(generator, 2, folder, shape, dtype, name, fill, elements)
            move(chunkplan, *ends)
            stored = held_by_keys(ends[1])
            lost = {key for key in stored if generator.random() < 0.4}
            for key in lost:
                (ends[1] / key).unlink()
            other = generator.choice(["other", "0.0.bak", "c/0", "é"])
            (ends[1] / other).parent.mkdir(exist_ok=True)
            (ends[1] / other).write_bytes(b"x")
            planned = []
            for task in range(of):
                words = ["--keys", "--share", task, of] if of > 1 else ["--keys"]
                document = tool("document_of.py", *ends, *each, *words, check=True).stdout
                lines = subprocess.run([chunkplan], input=document, stdout=subprocess.PIPE, check=True, text=True).stdout.splitlines(True)
                yield f"broken off {count}: the other file", lines[-1] == json.dumps({"unexpected": other}, ensure_ascii=False, separators=(",", ":")) + "\n"
                planned += lines[:-1]
            written = [{to["key"] for to in json.loads(line)["to"]} for line in planned]
            yield f"broken off {count}: what is missing", all(keys & lost for keys in written) and lost <= set().union(*written)
            yield f"broken off {count}: nothing else", bool(each) or sum(map(len, written)) == len(lost)
            if count % 10 == 0:
                told = tool("copy_chunks.py", *ends, input="".join([*planned, lines[-1]]))
                yield f"broken off {count}: by the worker", told.returncode == 0 and "a key that isn't its own" in told.stderr
            carry_out(planned, *ends)
            (ends[1] / other).unlink()
            yield f"broken off {count}: what it was", held_by_keys(ends[1]) == stored


def held_by_keys(folder):
    """What each chunk of an array holds, by its key. It is decoded: gzip's bytes tell the time, too."""
    array = open_array(folder)
    return {key: array.decode((folder / key).read_bytes()).tobytes() for key in keys_in(folder)}


def store(generator, form, folder, shape, dtype, name, fill, elements):
    """Makes an array of a format, with elements where there are any."""
    if form == 2:
        random_2(generator, folder, shape, dtype, fill)
        if elements is not None:
            zarr.open_array(str(folder))[...] = elements
    elif elements is None:
        folder.mkdir()
        (folder / "zarr.json").write_text(json.dumps(random_3(generator, shape, dtype, name, fill)))
    else:
        format_3.write(folder, random_3(generator, shape, dtype, name, fill), elements, fill)


# Chunks of format 3 that are written by hand, from the standard and from RFC 3720.

BYTES, LITTLE, BIG = {"name": "bytes"}, *({"name": "bytes", "configuration": {"endian": end}} for end in ("little", "big"))
TURNED = {"name": "transpose", "configuration": {"order": [1, 0]}}
ROLLED = {"name": "transpose", "configuration": {"order": [1, 2, 0]}}
HAND = [
    # data type, chunk shape, codecs, the stored bytes, the elements
    ("int16", [2, 3], [BIG], "0001 0002 0003 0004 0005 0006", [[1, 2, 3], [4, 5, 6]]),
    ("int16", [2, 3], [LITTLE], "0100 0200 0300 0400 0500 0600", [[1, 2, 3], [4, 5, 6]]),
    ("int16", [2, 3], [TURNED, BIG], "0001 0004 0002 0005 0003 0006", [[1, 2, 3], [4, 5, 6]]),
    # encoded[j, k, i] is decoded[i, j, k]
    ("uint8", [2, 1, 3], [ROLLED, BYTES], "01 04 02 05 03 06", [[[1, 2, 3]], [[4, 5, 6]]]),
    # twice: encoded[k, i, j] is decoded[i, j, k]
    ("uint8", [2, 1, 3], [ROLLED, ROLLED, BYTES], "01 04 02 05 03 06", [[[1, 2, 3]], [[4, 5, 6]]]),
    ("uint8", [2, 2, 2], [ROLLED, BYTES], "01 05 02 06 03 07 04 08", [[[1, 2], [3, 4]], [[5, 6], [7, 8]]]),
    ("uint8", [2, 2, 2], [ROLLED, ROLLED, BYTES], "01 03 05 07 02 04 06 08", [[[1, 2], [3, 4]], [[5, 6], [7, 8]]]),
    ("bool", [2], [BYTES], "01 00", [True, False]),
    ("float32", [2], [BIG], "3fc00000 ff800000", [1.5, float("-inf")]),
    # RFC 3720, B.4: 32 bytes of 0, of 255, from 0 on, and from 31 down
    ("uint8", [32], [BYTES, {"name": "crc32c"}], "00" * 32 + "aa36918a", [0] * 32),
    ("uint8", [32], [BYTES, {"name": "crc32c"}], "ff" * 32 + "43aba862", [255] * 32),
    ("uint8", [32], [BYTES, {"name": "crc32c"}], bytes(range(32)).hex() + "4e79dd46", list(range(32))),
    ("uint8", [32], [BYTES, {"name": "crc32c"}], bytes(range(31, -1, -1)).hex() + "5cdb3f11", list(range(31, -1, -1))),
]
FILLS = [
    # data type, the fill value as it is written, its bytes in the order "big"
    ("float32", "NaN", "7fc00000"),
    ("float32", "0x7fc00001", "7fc00001"),
    ("float32", "-Infinity", "ff800000"),
    ("float64", "0x3ff8000000000000", "3ff8000000000000"),
    ("float16", 1.5, "3e00"),
    ("complex64", [1.0, "Infinity"], "3f8000007f800000"),
    ("complex64", ["0x7fc00001", -2], "7fc00001c0000000"),
    ("uint64", 18446744073709551615, "ffffffffffffffff"),
    ("int64", -9223372036854775808, "8000000000000000"),
    ("int8", -1, "ff"),
    ("bool", True, "01"),
    ("r24", [1, 2, 255], "0102ff"),
]


def metadata_3(shape, data_type, codecs, fill):
    return {
        "zarr_format": 3, "node_type": "array", "shape": shape, "data_type": data_type, "fill_value": fill, "codecs": codecs,
        "chunk_grid": {"name": "regular", "configuration": {"chunk_shape": shape}},
        "chunk_key_encoding": {"name": "default", "configuration": {"separator": "/"}},
    }  # fmt: skip


def by_hand(chunkplan, generator, moves):
    for data_type, shape, codecs, stored, elements in HAND:
        if {"name": "crc32c"} in codecs and not FORMAT_3:
            continue
        with tempfile.TemporaryDirectory() as room:
            pathlib.Path(room, "zarr.json").write_text(json.dumps(metadata_3(shape, data_type, codecs, 0)))
            array, stored = open_array(room), bytes.fromhex(stored)
            elements = numpy.array(elements, array.dtype)
            yield f"decoded: {data_type} {codecs}", same(array.decode(stored), elements)
            yield f"encoded: {data_type} {codecs}", bytes(array.encode(elements)) == stored
    for data_type, fill, stored in FILLS:
        with tempfile.TemporaryDirectory() as room:
            pathlib.Path(room, "zarr.json").write_text(json.dumps(metadata_3([2], data_type, [BIG], fill)))
            elements = open_array(room).read([0])
            yield f"fill value: {data_type} {fill}", elements.tobytes().hex() == stored * 2


# What has to be refused.

METADATA = [
    # what is changed in a target's metadata, and what the message has to say
    ({"shape": [12, 10]}, "another shape"),
    ({"dtype": "<i8"}, "another data type"),
    ({"dtype": "<f4"}, "another data type"),
    ({"dtype": "|O"}, "no bytes of their own"),
    ({"dtype": "<x9"}, "isn't the metadata of an array"),
    ({"order": "X"}, "order X"),
    ({"zarr_format": 1}, "zarr_format 1"),
    ({"compressor": {"id": "secret"}}, "secret"),
    ({"filters": [{"id": "secret"}]}, "secret"),
    ({"filters": [{"id": "pickle"}]}, "pickle"),
    ({"chunks": [5]}, "different dimensions"),
    ({"chunks": [5, 0]}, "less than 1"),
    ({"chunks": [5, 2.5]}, "no whole number"),
    ({"shape": [-12, 9]}, "no whole number"),
    ({"dimension_separator": "_"}, "separator"),
    ({"fill_value": 2**40}, "fill value"),
    ({"fill_value": "AAAA"}, "isn't the metadata of an array"),
    ({"dtype": "|S4", "fill_value": "?"}, "isn't the metadata of an array"),
    ({"dtype": "|S4", "fill_value": "QUJDREVG"}, "the fill value has 6 bytes"),
    ({"chunks": None}, "isn't the metadata of an array"),
]
METADATA_3 = [
    ({"data_type": "int64"}, "another data type"),
    ({"data_type": "string"}, "data type string"),
    ({"data_type": "r12"}, "data type r12"),
    ({"chunk_grid": {"name": "rectilinear", "configuration": {}}}, "chunk grid rectilinear"),
    ({"chunk_key_encoding": {"name": "other"}}, "keys other"),
    ({"codecs": [{"name": "sharding_indexed", "configuration": {}}]}, "codec sharding_indexed"),
    ({"codecs": [LITTLE, {"name": "sharding_indexed"}]}, "codec sharding_indexed"),
    ({"codecs": [LITTLE, TURNED]}, "codec transpose"),
    ({"codecs": [BYTES]}, "endian None"),
    ({"codecs": []}, "codec bytes"),
    ({"codecs": [{"name": "transpose", "configuration": {"order": [0, 0]}}, LITTLE]}, "the order [0, 0]"),
    ({"storage_transformers": [{"name": "secret"}]}, "storage_transformers"),
    ({"secret": {"name": "x"}}, "secret"),
    ({"node_type": "group"}, "no array"),
    ({"fill_value": "yes"}, "isn't the metadata of an array"),
]


def is_refused(what, message):
    try:
        what()
    except Refused as error:
        return message in str(error)
    return False


def metadata(chunkplan, generator, moves):
    """Targets that can't have the source's elements, or can't be written."""
    with tempfile.TemporaryDirectory() as room:
        source, target = pathlib.Path(room, "source"), pathlib.Path(room, "target")
        make_2(source, [12, 9], [5, 4], dtype="<i4")
        for name, rows in ((".zarray", METADATA), ("zarr.json", METADATA_3)):
            for change, message in rows:
                target.mkdir()
                whole = json.loads((source / name).read_text()) if name == ".zarray" else metadata_3([12, 9], "int32", [LITTLE], 0)
                (target / name).write_text(json.dumps({**whole, **change}))
                yield f"{change}", is_refused(lambda: document_of(open_array(source), open_array(target)), message)
                (target / name).unlink()
                target.rmdir()
        yield "no array", is_refused(lambda: open_array(target), "has no .zarray and no zarr.json")
        yield "one folder", is_refused(lambda: document_of(*map(open_array, [source, source])), "one folder")
        told = tool("document_of.py", source, source)
        yield "the program", (told.returncode, told.stdout) == (1, "") and "one folder" in told.stderr
        told = tool("copy_chunks.py", source, source, input="")
        yield "the worker", (told.returncode, told.stdout) == (1, "") and "one folder" in told.stderr


def edits(value):
    """A line with one number in it one greater or less, a boolean turned, a text longer, or an element of a list left out."""
    if isinstance(value, bool):
        yield not value
    elif isinstance(value, int):
        yield from (value + 1, value - 1, str(value), None)
    elif isinstance(value, str):
        yield value + "0"
    elif isinstance(value, list):
        yield from (value[:-1], value + value[-1:])
        for place, element in enumerate(value):
            yield from (value[:place] + [other] + value[place + 1 :] for other in edits(element))
    else:
        for name, member in value.items():
            yield {other: member for other, member in value.items() if other != name}
            yield from ({**value, name: other} for other in edits(member))


def lines(chunkplan, generator, moves):
    """Each line of a plan with one thing changed, and each cut off."""
    with tempfile.TemporaryDirectory() as room:
        ends = [pathlib.Path(room, name) for name in ("source", "target")]
        make_2(ends[0], [12, 9], [5, 4], dtype="<i4")
        make_2(ends[1], [12, 9], [4, 6], dtype="<i4")
        source, target = map(open_array, ends)
        # of the whole array, and of a region that gives some chunks of the target all they hold, and others a part
        for asked, words in (((), ()), (([[1, 1], [9, 7]], [2, 0]), ("--subset", "1,1", "9,7", "--at", "2,0"))):
            region = region_between(source, target, *asked)
            for text in plan_of(chunkplan, source, target, *asked):
                line = json.loads(text)
                yield text, task_of(text, source, target, region).line == task_of(text, source, target, region, [1, 1]).line == line
                for edited in edits(line):
                    yield json.dumps(edited), is_refused(lambda: task_of(json.dumps(edited), source, target, region, [1, 1]), "line")
                    if edited.get("of") == line["of"]:  # and else it is one of tasks of other numbers of chunks, as far as a line tells
                        yield f"so {json.dumps(edited)}", is_refused(lambda: task_of(json.dumps(edited), source, target, region), "line")
                for end in range(len(text) - 1):
                    yield text[:end], is_refused(lambda: task_of(text[:end], source, target, region), "no line of a plan")
            [to] = line["to"]
            told = tool("copy_chunks.py", *ends, *words, input=json.dumps({**line, "to": [{**to, "whole": not to["whole"]}]}) + "\n")
            yield "the worker", (told.returncode, told.stdout, sorted(path.name for path in ends[1].iterdir())) == (1, "", [".zarray"])


BROKEN = [(compressor, None) for compressor in COMPRESSORS] + [(None, [numcodecs.CRC32()]), (None, [numcodecs.Adler32()])]
SEES_FLIPS = ("zlib", "gzip", "bz2", "lzma", "crc32", "adler32")


def broken_sources(chunkplan, generator, moves):
    """Chunks that were cut off, are too long or have a bit flipped. A flipped bit has to be refused where there is a checksum, or has
    changed no element."""
    for compressor, some in BROKEN:
        with tempfile.TemporaryDirectory() as room:
            array = make_2(room, [40, 30], [40, 30], dtype="<i4", compressor=compressor, filters=some)
            array[...] = elements = numpy.arange(1200, dtype="<i4").reshape(40, 30) ** 2
            name = compressor.codec_id if compressor else some[0].codec_id if some else "uncompressed"
            stored, path = open_array(room), pathlib.Path(room, "0.0")
            whole = path.read_bytes()
            for broken in [whole[:end] for end in (0, 1, 15, 16, len(whole) // 2, len(whole) - 1)] + [whole + b"\1", whole * 2]:
                path.write_bytes(broken)
                if name == "gzip" and broken == whole * 2:
                    continue  # two streams, one behind the other, are one by the standard of gzip
                yield f"{name}: {len(broken)} bytes of {len(whole)}", is_refused(lambda: stored.read([0, 0]), "chunk 0.0 of")
            for bit in generator.sample(range(len(whole) * 8), 100) if name in SEES_FLIPS else []:
                flipped = bytearray(whole)
                flipped[bit // 8] ^= 1 << bit % 8
                path.write_bytes(flipped)
                yield f"{name}: bit {bit}", is_refused(lambda: stored.read([0, 0]), "chunk 0.0 of") or same(stored.read([0, 0]), elements)
            if name == "uncompressed":
                path.write_bytes(whole[:-1] + bytes([whole[-1] ^ 1]))
                yield "a flipped bit that nobody can see", numpy.count_nonzero(stored.read([0, 0]) != elements) == 1
            path.unlink()
            yield f"{name}: missing", not stored.read([0, 0]).any()
            zarray = pathlib.Path(room, ".zarray")
            zarray.write_text(json.dumps({**json.loads(zarray.read_text()), "fill_value": None}))
            yield f"{name}: missing, no fill value", is_refused(lambda: open_array(room).read([0, 0]), "no fill value")


def worker(chunkplan, generator, moves):
    """What the worker prints, passes over, keeps and leaves behind."""
    with tempfile.TemporaryDirectory() as room:
        room = pathlib.Path(room)
        ends = [room / "source", room / "target"]
        make_2(ends[0], [40, 40], [4, 40], dtype="<i4", compressor=numcodecs.Zlib())[...] = numpy.arange(1600).reshape(40, 40)
        make_2(ends[1], [40, 40], [40, 4], dtype="<i4", fill_value=None)
        plan = plan_of(chunkplan, *map(open_array, ends))
        words = [*ends, "--done", room / "done", "--resume", room / "done", "--verbose"]
        first = tool("copy_chunks.py", *words, input="".join(plan[:4]))
        yield "four lines", first.stdout == "".join(f'{{"number": {number}, "of": 10}}\n' for number in range(4))
        yield "each chunk is read once", "4 chunks written, 10 read" in first.stderr
        kept = list(map(json.loads, (room / "done").read_text().splitlines()))
        marks = {line.pop("mark") for line in kept}
        yield "what was done", kept == list(map(json.loads, first.stdout.splitlines())) and len(marks) == 4
        told = tool("check_done.py", ends[1], room / "done")
        yield "six are missing", told.returncode == 1 and "6 of 10 chunks weren't done: 0.4, 0.5, 0.6, 0.7, 0.8, .." in told.stderr
        told = tool("verify.py", *ends)
        yield "verify sees it", told.returncode == 1 and "chunk 0.4 of" in told.stderr and "isn't stored" in told.stderr
        with open(room / "done", "a") as done:
            done.write('{"number": 5, "o')  # cut off
        (ends[1] / "0.2").unlink()
        second = tool("copy_chunks.py", *words, "--cache", 0, input="".join(plan))
        yield "the rest, and one that isn't stored", second.stdout == "".join(
            f'{{"number": {n}, "of": 10}}\n' for n in (2, 4, 5, 6, 7, 8, 9)
        )
        yield "without a cache", "7 chunks written, 70 read" in second.stderr
        yield "all were done", tool("check_done.py", ends[1], room / "done").returncode == 0
        yield "verify sees it too", tool("verify.py", *ends).stdout == "equal\n"
        (room / "other").write_text('{"number": 10, "of": 11}\n')
        yield "another plan", "another length" in tool("check_done.py", ends[1], room / "done", room / "other").stderr
        target = zarr.open_array(str(ends[1]))
        target[3, 17] += 1
        told = tool("verify.py", *ends)
        yield "one element", told.returncode == 1 and "differs at [3, 17], in chunk 0.4 of the target" in told.stderr and "1 elements" in told.stderr
        source, target = map(open_array, ends)
        sources = Sources(source, target, region_between(source, target), 1000)
        sizes = [(sources.chunk([number % 3, 0]).nbytes, sources.size)[1] for number in range(9)]
        yield "a bounded cache", max(sizes) <= 1000 and sources.decoded == 9
        (ends[0] / "3.0").write_bytes(b"no")
        told = tool("copy_chunks.py", *ends, input=plan[0])
        yield "a broken source", told.returncode == 1 and "chunk 3.0 of" in told.stderr and told.stdout == ""
        yield "nothing unfinished is left", list((ends[1] / ".unfinished").iterdir()) == []
        yield "zarr-python counts its chunks", zarr.open_array(str(ends[1])).nchunks_initialized == 10
        (ends[0] / "3.0").unlink()
        (ends[1] / "0.1").unlink()
        small = lambda: resource.setrlimit(resource.RLIMIT_FSIZE, (100, 100))  # bytes, less than a chunk
        told = tool("copy_chunks.py", *ends, input=plan[1], preexec_fn=small)
        left = (ends[1] / "0.1").exists(), list((ends[1] / ".unfinished").iterdir())
        yield "a file that can't be written", told.returncode == 1 and told.stdout == "" and left == (False, [])
        yield "a terminal sees how far it is", "10 chunks done here, of 10 in the plan" in on_terminal("".join(plan), *ends)


LOSSY = [
    # a data type, and a filter that loses some of it: what is left is moved
    ("<f8", numcodecs.FixedScaleOffset(offset=10, scale=10, dtype="<f8", astype="<i2")),
    ("<f8", numcodecs.Quantize(digits=1, dtype="<f8")),
    ("<f4", numcodecs.AsType(encode_dtype="<f2", decode_dtype="<f4")),
    ("<f4", BitRound(keepbits=3)),
    ("|b1", numcodecs.PackBits()),
]


def lossy(chunkplan, generator, moves):
    """Sources with filters that lose something, beside what zarr-python reads there."""
    for dtype, some in LOSSY:
        with tempfile.TemporaryDirectory() as room:
            ends = [pathlib.Path(room, name) for name in ("source", "target")]
            make_2(ends[0], [12, 9], [5, 4], dtype=dtype, filters=[some])[...] = numpy.arange(108).reshape(12, 9) / 7
            make_2(ends[1], [12, 9], [4, 6], dtype=dtype)
            move(chunkplan, *ends)
            both = [zarr.open_array(str(end), mode="r")[...] for end in ends]
            yield f"{some.codec_id}", same(*both) and both[0].any()


def corners(chunkplan, generator, moves):
    """Arrays without dimensions, and without elements, by an engine; `verify.py` on format 3."""
    for shape, count in (([], 1), ([0, 4], 0)):
        with tempfile.TemporaryDirectory() as room:
            room = pathlib.Path(room)
            for name, edge in (("source", 3), ("target", 2)):
                make_2(room / name, shape, [edge] * len(shape), dtype="<i4", fill_value=0)
            zarr.open_array(str(room / "source"))[...] = 7
            environment = {**os.environ, "CHUNKPLAN": chunkplan, "PYTHON": sys.executable, "SHARES": "3"}
            told = tool("engines/xargs_shares.sh", room / "source", room / "target", room / "done", env=environment)
            yield f"by an engine: {shape}", (told.returncode, told.stdout) == (0, f"all {count} chunks were done\n")
            yield f"verified: {shape}", tool("verify.py", room / "source", room / "target").stdout == "equal\n"
            zarr.open_array(str(room / "target"), mode="w", shape=shape, chunks=[5] * len(shape), dtype="<i4")
            told = tool("engines/xargs_shares.sh", room / "source", room / "target", room / "done", env={**environment, "SHARES": "4"})
            yield f"a room of another rechunking: {shape}", told.returncode == 1 and "another rechunking" in told.stderr
    with tempfile.TemporaryDirectory() as room:
        ends = [pathlib.Path(room, name) for name in ("source", "target")]
        make_2(ends[0], [12, 9], [5, 4], dtype=">i4")[...] = numpy.arange(108).reshape(12, 9)
        ends[1].mkdir()
        whole = {**metadata_3([12, 9], "int32", [TURNED, LITTLE], 0)}
        whole["chunk_grid"]["configuration"]["chunk_shape"] = [7, 6]
        (ends[1] / "zarr.json").write_text(json.dumps(whole))
        told = tool("copy_chunks.py", *ends, input="".join(plan_of(chunkplan, *map(open_array, ends))))
        yield "to format 3", told.returncode == 0 and len(told.stdout.splitlines()) == 4
        yield "verified", tool("verify.py", *ends).stdout == tool("verify.py", *ends[::-1]).stdout == "equal\n"
        path = ends[1] / "c/1/0"
        stored = bytearray(path.read_bytes())
        stored[4 * (7 * 2 + 3)] ^= 1  # the place [3, 2] of the chunk, stored as [2, 3], is [10, 2] of the array
        path.write_bytes(stored)
        for words, key in ((ends, "c/1/0"), (ends[::-1], "2.0")):
            told = tool("verify.py", *words)
            yield f"seen in {key}", told.returncode == 1 and f"differs at [10, 2], in chunk {key} of the target" in told.stderr


def on_terminal(text, *words):
    """What the worker writes on a terminal."""
    ours, theirs = pty.openpty()
    run = subprocess.run([sys.executable, TOOLS / "copy_chunks.py", *words], input=text.encode(), stdout=subprocess.DEVNULL, stderr=theirs)
    os.close(theirs)
    seen = os.read(ours, 10**5).decode()
    os.close(ours)
    return seen if run.returncode == 0 else ""


CHECKS = [engines, kinds, broken_off, by_hand, metadata, lines, broken_sources, worker, lossy, corners]


def main(checks):
    parser = argparse.ArgumentParser()
    parser.add_argument("chunkplan", type=lambda path: str(pathlib.Path(path).resolve()))
    parser.add_argument("--seed", type=int, default=1)
    parser.add_argument("--moves", type=int, default=150, help="of arrays of random kinds, from each format to each")
    parser.add_argument("--checks", nargs="+", default=[check.__name__ for check in checks], choices=[check.__name__ for check in checks])
    words = parser.parse_args()
    failed = 0
    for check in checks:
        if check.__name__ in words.checks:
            failed += count_failed(check, words)
    if not FORMAT_3:
        print("no array of format 3 was moved: python3-blosc, python3-crc32c and python3-zstandard aren't all there")
    sys.exit(bool(failed))


def count_failed(check, words):
    results = []
    try:
        results += check(words.chunkplan, random.Random(words.seed), words.moves)
    except Exception as error:  # a check that can't go on has failed, and the others are still run
        results.append((repr(error), False))
    wrong = [what for what, right in results if not right]
    print(f"{check.__name__}: {len(results)} checks, {len(wrong)} failed", flush=True)
    for what in wrong[:10]:
        print(f"  FAILED: {what}")
    return len(wrong)


if __name__ == "__main__":
    main(CHECKS)
