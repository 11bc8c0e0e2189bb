#!/usr/bin/env python3
"""Takes away a source, or what tells its chunks, in each way that once left a target of fill values without a word.

    lost.py CHUNKPLAN [--checks NAME ..]

CHUNKPLAN is the built program. It needs numpy and zarr-python 2 (Debian: python3-zarr).
"""
import json
import lzma
import os
import pathlib
import re
import resource
import shlex
import shutil
import subprocess
import sys
import tempfile
import time
import zlib

import numcodecs
import numpy
import zarr

import moves  # which has the folder of the scripts on the path
from copy_chunks import done_in
from moves import TOOLS, make_2, plan_of, tool
from stored_arrays import open_array

CALLING = TOOLS.parent.parent / "crates" / "chunkplan" / "CALLING.md"


def two_arrays(room):
    """A source of ten rows, a chunk each, and a target of which each chunk gets two rows."""
    ends = [room / "source", room / "target"]
    make_2(ends[0], [10, 4], [1, 4], dtype="<i4", fill_value=-1, dimension_separator="/")[...] = numpy.arange(40).reshape(10, 4)
    make_2(ends[1], [10, 4], [2, 4], dtype="<i4", fill_value=-1)
    return ends


def in_mid_run(chunkplan, generator, moves):
    """A worker that has done a line, and then the source is gone, or its metadata are others."""

    def gone(source):
        source.rename(source.with_name("elsewhere"))

    def emptied(source):
        gone(source)
        source.mkdir()

    def changed(source):
        written = json.loads((source / ".zarray").read_text())
        (source / ".zarray").write_text(json.dumps({**written, "dimension_separator": "."}))
        (source / "2" / "0").unlink()

    for happens in (gone, emptied, changed):
        with tempfile.TemporaryDirectory() as folder:
            ends = two_arrays(pathlib.Path(folder))
            plan = plan_of(chunkplan, *map(open_array, ends))
            command = [sys.executable, TOOLS / "copy_chunks.py", *ends, "--no-sync"]
            worker = subprocess.Popen(command, stdin=subprocess.PIPE, stdout=subprocess.PIPE, stderr=subprocess.PIPE, text=True)
            worker.stdin.write(plan[0])
            worker.stdin.flush()
            first = worker.stdout.readline()
            happens(ends[0])
            told = worker.communicate(plan[1])
            yield f"{happens.__name__}: the first line is done", json.loads(first)["number"] == 0
            yield f"{happens.__name__}: the second is refused", worker.returncode == 1 and told[0] == "" and "is gone, or was changed" in told[1]
            yield f"{happens.__name__}: and writes nothing", not (ends[1] / "1.0").exists()


def other_keys(chunkplan, generator, moves):
    """A source whose metadata lack the separator of its keys, and one that has no file."""
    with tempfile.TemporaryDirectory() as folder:
        ends = two_arrays(pathlib.Path(folder))
        plan = plan_of(chunkplan, *map(open_array, ends))
        written = json.loads((ends[0] / ".zarray").read_text())
        (ends[0] / ".zarray").write_text(json.dumps({name: value for name, value in written.items() if name != "dimension_separator"}))
        for name, given in (("document_of.py", ""), ("copy_chunks.py", "".join(plan))):
            told = tool(name, *ends, input=given)
            yield name, told.returncode == 1 and "none is under a key of its chunks, such as '0.0'" in told.stderr and told.stdout == ""
        (ends[0] / "0.0").write_bytes(b"\0" * 16)
        yield "one key is enough", tool("document_of.py", *ends).returncode == 0
    with tempfile.TemporaryDirectory() as folder:
        ends = [pathlib.Path(folder, name) for name in ("source", "target")]
        for end in ends:
            make_2(end, [4], [2], dtype="<i4", fill_value=-1)
        told = tool("copy_chunks.py", *ends, input="".join(plan_of(chunkplan, *map(open_array, ends))))
        yield "a source without a chunk", told.returncode == 0 and len(told.stdout.splitlines()) == 2


def missing_chunks(chunkplan, generator, moves):
    """A source that must be whole, and files without a byte."""
    with tempfile.TemporaryDirectory() as folder:
        ends = two_arrays(pathlib.Path(folder))
        plan = plan_of(chunkplan, *map(open_array, ends))
        (ends[0] / "3" / "0").unlink()
        told = tool("copy_chunks.py", *ends, "--missing-is-an-error", input="".join(plan))
        yield "a missing chunk", told.returncode == 1 and "chunk 3/0 of" in told.stderr and len(told.stdout.splitlines()) == 1
        environment = {**on_path(chunkplan, pathlib.Path(folder)), "WORDS": "--missing-is-an-error"}
        told = tool("engines/xargs_shares.sh", *ends, pathlib.Path(folder, "room"), env=environment)
        yield "by an engine", told.returncode == 1 and "chunk 3/0 of" in told.stderr
        yield "it has the fill value else", tool("copy_chunks.py", *ends, "--done", pathlib.Path(folder, "done"), input="".join(plan)).returncode == 0
        yield "all were done", tool("check_done.py", ends[1], pathlib.Path(folder, "done")).returncode == 0
        (ends[1] / "2.0").write_bytes(b"")
        told = tool("check_done.py", ends[1], pathlib.Path(folder, "done"))
        yield "a chunk without a byte", told.returncode == 1 and "1 of 5 chunks weren't done: 2.0" in told.stderr
        beside = tool("document_of.py", *ends, "--keys").stdout.splitlines()[1:]
        yield "it is no key", sorted(beside) == ["0.0", "1.0", "3.0", "4.0"]


def finished_rooms(chunkplan, generator, moves):
    """A room in which a run ended well, and then the source was changed: a chunk of it, or its metadata."""
    scripts = [("engines/xargs_shares.sh", []), ("two_stages.sh", [100])]
    scripts += [("engines/parallel_shares.sh", [])] if shutil.which("parallel") else []
    for script, more in scripts:
        with tempfile.TemporaryDirectory() as folder:
            environment = {**on_path(chunkplan, pathlib.Path(folder)), "SHARES": "2"}
            ends = two_arrays(pathlib.Path(folder))
            run = lambda *words: tool(script, *ends, pathlib.Path(folder, "room"), *more, *words, env=environment)
            moved = lambda: numpy.asarray(zarr.open_array(str(ends[1]), mode="r")[...]).tolist()
            yield f"{script}: the first run", run().returncode == 0 and moved() == numpy.arange(40).reshape(10, 4).tolist()
            yield f"{script}: the source is as it was", run().returncode == 0
            zarr.open_array(str(ends[0]), mode="r+")[...] = 9
            told = run()
            yield f"{script}: it was changed", told.returncode == 1 and "was changed since: give another folder, or --again" in told.stderr
            yield f"{script}: another word", run("--anew").returncode == 1
            yield f"{script}: again", run("--again").returncode == 0 and moved() == [[9] * 4] * 10
            yield f"{script}: and once more", run().returncode == 0


# A planner that changes a chunk of a source, when it has planned.
CHANGING = """#!/bin/sh
{chunkplan}
cp {changed} {changed}.$$ && mv {changed}.$$ {chunk}
"""


def changed_in_run(chunkplan, generator, moves):
    """A source that is changed while an engine reads it."""
    for script, more in (("engines/xargs_shares.sh", []), ("two_stages.sh", [100])):
        with tempfile.TemporaryDirectory() as folder:
            room = pathlib.Path(folder)
            ends, planner, elements = two_arrays(room), room / "planner", numpy.arange(40).reshape(10, 4)
            array, chunk = zarr.open_array(str(ends[0]), mode="r+"), ends[0] / "9" / "0"
            held, array[9], elements[9] = chunk.read_bytes(), 7, 7
            shutil.copy(chunk, room / "changed")
            chunk.write_bytes(held)
            planner.write_text(CHANGING.format(chunkplan=chunkplan, changed=room / "changed", chunk=chunk))
            planner.chmod(0o755)
            run = lambda program: tool(script, *ends, room / "room", *more, env={**on_path(program, room), "SHARES": "2"})
            told = run(str(planner))
            yield f"{script}: it is refused", told.returncode == 1 and "was changed while it was read: run the same again" in told.stderr
            told = run(chunkplan)
            yield f"{script}: again", told.returncode == 0 and zarr.open_array(str(ends[1]), mode="r")[...].tolist() == elements.tolist()


def by_page(chunkplan, room, words):
    """Runs the commands of a page's block that has some words, on the arrays of a room."""
    pages = ((TOOLS / "README.md").read_text(), CALLING.read_text())
    [block] = (block for page in pages for block in re.findall(r"^```sh\n(?!\$)(.*?)^```$", page, re.DOTALL | re.MULTILINE) if words in block)
    for name, path in (("SOURCE", "source"), ("TARGET", "target"), ("DONE", "done")):
        block = re.sub(rf"\b{name}\b", shlex.quote(str(room / path)), block)
    return subprocess.run(["bash", "-c", block], cwd=TOOLS, env=on_path(chunkplan, room), capture_output=True, text=True)


def on_path(chunkplan, room):
    """An environment that has both programs, on `PATH` too, by links in a room."""
    links = room / "bin"
    for name, program in (("chunkplan", chunkplan), ("python3", sys.executable)):
        links.mkdir(exist_ok=True)
        (links / name).unlink(missing_ok=True)
        (links / name).symlink_to(program)
    return {**os.environ, "PATH": f"{links}:{os.environ['PATH']}", "CHUNKPLAN": chunkplan, "PYTHON": sys.executable}


def done_files(chunkplan, generator, moves):
    """A file of what was done, used again when the arrays are others: their elements, metadata, or the region."""
    for words in ("TARGET | chunkplan", "--by-source |"):
        with tempfile.TemporaryDirectory() as folder:
            room = pathlib.Path(folder)
            ends = two_arrays(room)
            run = lambda: by_page(chunkplan, room, words)
            moved = lambda: numpy.asarray(zarr.open_array(str(ends[1]), mode="r")[...]).tolist()
            yield f"{words}: the first run", run().returncode == 0 and moved() == numpy.arange(40).reshape(10, 4).tolist()
            written = (ends[1] / "2.0").stat()
            yield f"{words}: nothing was changed", run().returncode == 0 and (ends[1] / "2.0").stat() == written
            zarr.open_array(str(ends[0]), mode="r+")[5] = 9
            changed = numpy.arange(40).reshape(10, 4)
            changed[5] = 9
            yield f"{words}: a chunk of the source", run().returncode == 0 and moved() == changed.tolist()
            (ends[0] / "5" / "0").write_bytes(b"no")
            told = run()
            yield f"{words}: a broken one", told.returncode == 1 and "chunk 5/0 of" in told.stderr and "were done" not in told.stdout
            (ends[0] / "5" / "0").unlink()
            changed[5] = -1
            yield f"{words}: a missing one", run().returncode == 0 and moved() == changed.tolist()
            (ends[0] / ".zarray").write_text((ends[0] / ".zarray").read_text().replace('"fill_value": -1', '"fill_value": -2'))
            changed[5] = -2
            yield f"{words}: the fill value", run().returncode == 0 and moved() == changed.tolist()
    with tempfile.TemporaryDirectory() as folder:
        ends, done = two_arrays(pathlib.Path(folder)), pathlib.Path(folder, "done")
        for start in ("0,0", "4,0"):
            words = [*ends, "--subset", start, "4,4"]
            plan = subprocess.run([chunkplan], input=tool("document_of.py", *words).stdout, capture_output=True, text=True).stdout
            yield f"the region at {start}", tool("copy_chunks.py", *words, "--done", done, "--resume", done, input=plan).returncode == 0
        yield "the second region", zarr.open_array(str(ends[1]), mode="r")[:4].tolist() == numpy.arange(16, 32).reshape(4, 4).tolist()
        zarr.open_array(str(ends[1]), mode="r+")[:2] = 0
        told = tool("copy_chunks.py", *words, "--done", done, "--resume", done, "--verbose", input=plan)
        moved = zarr.open_array(str(ends[1]), mode="r")[:4].tolist()
        yield "a chunk of the target", "1 chunks written" in told.stderr and moved == numpy.arange(16, 32).reshape(4, 4).tolist()


def by_keys(chunkplan, generator, moves):
    """Runs by keys, as the page has them: a chunk of other elements, under a key that is there, is seen after the run."""
    with tempfile.TemporaryDirectory() as folder:
        room = pathlib.Path(folder)
        ends = two_arrays(room)
        run = lambda: by_page(chunkplan, room, "--keys |")
        told = run()
        yield "the first run", (told.returncode, told.stdout) == (0, "equal\n")
        (ends[1] / "1.0").unlink()
        (ends[1] / "3.0").write_bytes(b"")
        told = run()
        yield "two are missing", (told.returncode, told.stdout) == (0, "equal\n")
        zarr.open_array(str(ends[0]), mode="r+")[5] = 9
        told = run()
        yield "another source", told.returncode == 1 and "differs at [5, 0]" in told.stderr
        (ends[1] / "2.0").unlink()
        (ends[1] / "junk\n2.0").write_bytes(b"1")
        told = run()
        yield "a name of two lines", told.returncode == 1 and "whose name can't be a line" in told.stderr


def keys_of_page(chunkplan, generator, moves):
    """The keys of a folder as the page of `chunkplan` has them listed: no name of a file is two lines."""
    [command] = re.findall(r"`(find [^`]*)`", CALLING.read_text())
    with tempfile.TemporaryDirectory() as folder:
        ends = two_arrays(pathlib.Path(folder))
        plan = plan_of(chunkplan, *map(open_array, ends))
        tool("copy_chunks.py", *ends, input="".join(plan[1:3]))
        for name, held in (("junk\n0.0", b"1"), ("3.0\r", b"1"), ("4.0", b"")):
            (ends[1] / name).write_bytes(held)
        listed = subprocess.run(["bash", "-c", command], cwd=ends[1], capture_output=True, check=True).stdout
        document = json.dumps({**json.loads(tool("document_of.py", *ends).stdout), "keys": True}) + "\n"
        told = subprocess.run([chunkplan], input=document.encode() + listed, capture_output=True, check=True).stdout
        lines = list(map(json.loads, told.splitlines()))
        yield "the lines", [to["key"] for line in lines for to in line.get("to", [])] == ["0.0", "3.0", "4.0"]
        yield "the other files", sorted(line["unexpected"] for line in lines if "to" not in line) == [".zarray", "3.0\r", "junk\0" "0.0"]


def file_names(chunkplan, generator, moves):
    """A file of the target whose name would be two lines."""
    for name in ("junk\n0.0", "junk\r0.0", "junk\u20280.0"):
        with tempfile.TemporaryDirectory() as folder:
            ends = two_arrays(pathlib.Path(folder))
            (ends[1] / name).write_bytes(b"1")
            told = tool("document_of.py", *ends, "--keys")
            yield repr(name), told.returncode == 1 and "whose name can't be a line" in told.stderr and told.stdout == ""


def odd_files(chunkplan, generator, moves):
    """A pipe, a folder, a file of a gigabyte of holes, and a link to another folder under the key of a chunk."""

    def pipe(path, _room):
        os.mkfifo(path)

    def folder(path, _room):
        path.mkdir()

    def holes(path, _room):
        with open(path, "wb") as file:
            file.truncate(2**30)

    def link(path, room):
        (room / "elsewhere").write_bytes(bytes(16))
        path.symlink_to(room / "elsewhere")

    for odd, why in ((pipe, "isn't a file"), (folder, "Is a directory"), (holes, "has more than"), (link, "lies in another folder")):
        with tempfile.TemporaryDirectory() as made:
            room = pathlib.Path(made)
            ends = two_arrays(room)
            plan = plan_of(chunkplan, *map(open_array, ends))
            (ends[0] / "3" / "0").unlink()
            odd(ends[0] / "3" / "0", room)
            told = tool("copy_chunks.py", *ends, input="".join(plan), timeout=30)
            yield odd.__name__, told.returncode == 1 and "chunk 3/0 of" in told.stderr and why in told.stderr and len(told.stdout.splitlines()) == 1


def bombs(chunkplan, generator, moves):
    """Chunks of a few bytes that would be decoded to many: no more is decoded than may belong to them."""
    zeros = 2**23
    gzip, plain, bz2 = numcodecs.GZip(9), numcodecs.Zlib(9), numcodecs.BZ2(9)
    thrice = gzip.encode(gzip.encode(of_zeros(zeros, 31)))
    rows = [
        ("gzip, three times", [gzip, gzip], gzip, thrice),
        ("zlib", [], plain, of_zeros(zeros, 15)),
        ("bz2", [plain], bz2, bz2.encode(of_zeros(zeros, 15))),
        *(
            (codec.codec_id, [], codec, codec.encode(bytes(zeros)))
            for codec in (numcodecs.LZMA(), numcodecs.LZ4(), numcodecs.Zstd(), numcodecs.Blosc())
        ),
    ]
    for what, filters, compressor, stored in rows:
        with tempfile.TemporaryDirectory() as folder:
            ends = [pathlib.Path(folder, name) for name in ("source", "target")]
            make_2(ends[0], [4], [4], dtype="<i4", fill_value=-1, filters=filters, compressor=compressor)
            make_2(ends[1], [4], [2], dtype="<i4", fill_value=-1)
            (ends[0] / "0").write_bytes(stored)
            told = tool("copy_chunks.py", *ends, input="".join(plan_of(chunkplan, *map(open_array, ends))))
            yield f"{what}: {len(stored)} bytes", told.returncode == 1 and "can't be decoded: more than" in told.stderr and told.stdout == ""


def dictionaries(chunkplan, generator, moves):
    """Chunks of LZMA that ask for a dictionary of gigabytes, in a stream of each kind; one by the greatest preset is decoded."""
    elements = numpy.arange(4, dtype="<i4")
    greatest = bytearray(lzma.compress(elements.tobytes()))
    end = 12 + 4 * (greatest[12] + 1)  # of the header of the first block: its size, flags, filter, 1, and the dictionary
    assert greatest[14:16] == b"\x21\x01"
    greatest[16] = 40  # 4 GB
    greatest[end - 4 : end] = zlib.crc32(greatest[12 : end - 4]).to_bytes(4, "little")
    alone = lzma.compress(elements.tobytes(), lzma.FORMAT_ALONE)
    raw = [{"id": lzma.FILTER_LZMA2, "dict_size": 2**20}]
    small = lzma.compress(elements, lzma.FORMAT_RAW, filters=raw)
    rows = [
        ("xz", numcodecs.LZMA(), bytes(greatest), "Memory usage limit exceeded"),
        ("alone", numcodecs.LZMA(lzma.FORMAT_ALONE), alone[:1] + (2**32 - 1).to_bytes(4, "little") + alone[5:], "Memory usage limit exceeded"),
        ("raw", numcodecs.LZMA(lzma.FORMAT_RAW, filters=[{**raw[0], "dict_size": 2**30}]), small, "a dictionary of"),
        ("raw, small", numcodecs.LZMA(lzma.FORMAT_RAW, filters=raw), small, None),
        ("preset 9", numcodecs.LZMA(preset=9), lzma.compress(elements, preset=9), None),
    ]
    for what, compressor, stored, why in rows:
        with tempfile.TemporaryDirectory() as folder:
            ends = [pathlib.Path(folder, name) for name in ("source", "target")]
            for end, codec in zip(ends, (compressor, None)):
                make_2(end, [4], [4], dtype="<i4", fill_value=-1, compressor=codec)
            (ends[0] / "0").write_bytes(stored)
            told = tool("copy_chunks.py", *ends, input="".join(plan_of(chunkplan, *map(open_array, ends))))
            if why:
                yield what, told.returncode == 1 and f"can't be decoded: {why}" in told.stderr and told.stdout == ""
            else:
                yield what, told.returncode == 0 and (ends[1] / "0").read_bytes() == elements.tobytes()


def many_chunks(chunkplan, generator, moves):
    """An array of a hundred thousand million chunks: each script streams, or says a line, in little memory."""
    limited = lambda: resource.setrlimit(resource.RLIMIT_DATA, (2**30, resource.getrlimit(resource.RLIMIT_DATA)[1]))
    limits = {"preexec_fn": limited, "timeout": 60, "env": {**os.environ, "CHUNKPLAN": chunkplan}}
    with tempfile.TemporaryDirectory() as folder:
        room = pathlib.Path(folder)
        ends, done, count = [room / "source", room / "target"], room / "done", 10**11
        for end, edge in zip(ends, (1, 2)):
            make_2(end, [count], [edge], dtype="<i4", fill_value=7)
        told = tool("document_of.py", *ends, **limits)
        with subprocess.Popen([chunkplan], stdin=subprocess.PIPE, stdout=subprocess.PIPE, text=True) as planner:
            planner.stdin.write(told.stdout)
            planner.stdin.close()
            plan = [planner.stdout.readline() for _ in range(3)]
            planner.kill()
        told = tool("copy_chunks.py", *ends, "--done", done, input="".join(plan), **limits)
        yield "three lines", (told.returncode, told.stderr) == (0, "") and len(done_in(done)) == 3
        (room / "nothing").touch()
        for words, file, of, left in (([], done, count // 2, 3), (["--by-source", ends[0]], room / "nothing", count, 0)):
            told = tool("check_done.py", ends[1], file, *words, **limits)
            expected = f"check_done.py: {of - left} of {of} chunks weren't done: {', '.join(map(str, range(left, left + 5)))}, ..\n"
            yield f"check_done.py {words[:1]}", (told.returncode, told.stderr) == (1, expected)
        told = tool("make_intermediate.py", *ends, room / "intermediate", "--max-elements", 4, **limits)
        read = [stage["chunks_read"] for stage in json.loads(told.stdout)["stages"]]
        yield "make_intermediate.py", (told.returncode, told.stderr, read) == (0, "", [count])
        told = tool("make_intermediate.py", *ends, room / "none", "--max-elements", 3, **limits)
        yield "make_intermediate.py of 3", told.returncode == 1 and "raise it" in told.stderr and len(told.stderr.splitlines()) == 1
        told = tool("check_done.py", ends[1], room / "nothing", "--task-chunks", 2, **limits)
        yield "check_done.py of tasks", told.stderr == f"check_done.py: {count // 4} of {count // 4} tasks weren't done: 0, 2, 4, 6, 8, ..\n"
        yield "fingerprint.py", tool("fingerprint.py", ends[1], **limits).returncode == 0
        told = tool("resize_array.py", ends[1], count + 1, **limits)
        yield "resize_array.py", (told.returncode, told.stderr) == (0, "") and open_array(ends[1]).shape == [count + 1]
        told = tool("resize_array.py", ends[1], count, **limits)
        zarr.open_array(str(ends[1]), mode="r+")[3] = 8
        command = [sys.executable, TOOLS / "verify.py", *ends]
        with subprocess.Popen(command, stderr=subprocess.PIPE, text=True, preexec_fn=limited) as verifying:
            yield "verify.py", verifying.stderr.readline() == "differs at [3], in chunk 1 of the target\n"
            time.sleep(1)
            yield "it goes on", verifying.poll() is None
            verifying.kill()
        told = by_page(chunkplan, room, "--keys |")
        yield "by keys", told.returncode == 1 and "536870911" in told.stderr and "Traceback" not in told.stderr
        for edge, why in ((2**40, "Unable to allocate"), (2**61, "a chunk of more than")):
            make_2(room / "wide", [4], [2], dtype="<i4", fill_value=7)
            (room / "wide" / ".zarray").write_text((room / "wide" / ".zarray").read_text().replace("2\n", f"{edge}\n", 1))
            make_2(room / "few", [4], [2], dtype="<i4", fill_value=7)
            document = tool("document_of.py", room / "few", room / "wide").stdout
            plan = subprocess.run([chunkplan], input=document, capture_output=True, text=True).stdout
            told = tool("copy_chunks.py", room / "few", room / "wide", input=plan, **limits)
            yield f"a chunk of {edge} elements", told.returncode == 1 and why in told.stderr and len(told.stderr.splitlines()) == 1


def hostile_texts(chunkplan, generator, moves):
    """JSON that is nested more deeply than it can be read, signs that steer a terminal, and closed streams: one line says so."""
    with tempfile.TemporaryDirectory() as folder:
        ends = two_arrays(pathlib.Path(folder))
        deep, stored = "[" * 10**5, (ends[0] / ".zarray").read_text()
        told = tool("copy_chunks.py", *ends, input=deep)
        yield "a line", told.returncode == 1 and "this is no line of a plan" in told.stderr and len(told.stderr.splitlines()) == 1
        told = tool("copy_chunks.py", *ends, input='{"unexpected":"a\x1b[2J\x85"}\n')
        yield "a key", told.stderr.splitlines()[0].endswith(r"""a key that isn't its own: {"unexpected":"a\x1b[2J\x85"}""")
        for stream in (0, 1):
            told = tool("document_of.py", *ends, preexec_fn=lambda: os.close(stream))
            yield f"stream {stream}", (told.returncode, told.stderr) == (1, "document_of.py: standard input or standard output is closed\n")
        (ends[0] / ".zarray").write_text(deep)
        told = tool("document_of.py", *ends)
        yield "metadata", told.returncode == 1 and "isn't the metadata of an array" in told.stderr and len(told.stderr.splitlines()) == 1
        (ends[0] / ".zarray").write_text(json.dumps({**json.loads(stored), "compressor": {"id": "\n\r\x1b[2J\x85\u2028\u2029"}}))
        told = tool("document_of.py", *ends)
        yield "signs that steer", told.returncode == 1 and r"the codec \n\r\x1b[2J\x85\u2028\u2029 isn't known here" in told.stderr
        yield "one line", told.stderr.endswith("\n") and told.stderr[:-1].isprintable()
        (ends[0] / ".zarray").write_text(stored)
        yield "as it was", tool("document_of.py", *ends).returncode == 0


def of_zeros(count, window):
    """So many zero bytes, compressed piece by piece."""
    compressor, piece = zlib.compressobj(9, wbits=window), bytes(2**20)
    return b"".join([*(compressor.compress(piece) for _ in range(count // len(piece))), compressor.flush()])


if __name__ == "__main__":
    moves.main(
        [
            in_mid_run, other_keys, missing_chunks, finished_rooms, changed_in_run, done_files, by_keys, keys_of_page, file_names, odd_files,
            dictionaries, many_chunks, hostile_texts, bombs,
        ]
    )  # fmt: skip
