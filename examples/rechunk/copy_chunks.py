#!/usr/bin/env python3
"""Writes chunks of the target of a rechunking, or of the copy of a region, by the lines that `chunkplan` wrote, from
standard input.

    copy_chunks.py SOURCE TARGET [--subset START SHAPE [--at INDEX]] [--by-source] [--task-chunks COUNTS] [--alone]
                   [--done FILE] [--resume FILE] [--cache MB] [--missing-is-an-error] [--no-sync]

SOURCE and TARGET are folders of Zarr arrays, of format 2 or 3; --subset and --at tell the region, as for `document_of.py`.
A chunk of the target that holds elements beside the region is read first, and keeps them: two plans that give something
to one chunk have to run one after the other.

A line is a task. The worker fills a buffer from chunks of the source, each read once, and writes it to chunks of the target. It
refuses a line that isn't the task of its number. It takes --task-chunks and --by-source as `document_of.py` does. Without
--task-chunks, it checks the number if the plan has a line for each chunk.

With --by-source, several lines may write one chunk of the target. The worker reads that chunk, or begins it with the fill value,
and writes it again. It does so only with --alone, since two workers that do so at once lose elements: a second worker with
--alone is refused. Without it such a line is refused before anything of it is written.

When a line's chunks are in their places, its `number` and `of` are printed, as JSON. With --done the worker appends the same to
a file, with a mark of what the line read and wrote. With --resume it passes over the lines that such a file has, which may be the
same file. It does a line again if the line's chunks or the metadata were changed since. It refuses the line if another program
changed a chunk that several lines write. The option --cache bounds the decoded chunks of the source that are kept for later
lines. Only lines that write one chunk keep them, and with --cache 0 none.

Numbers are said when the disk has the chunks too, some hundred at a time or once a second. With --no-sync they are said
at once: then chunks that were done may be lost where the machine crashes, but not where a process does. If several lines write
one chunk, begin anew then, without --resume: a chunk that is there may lack what a line gave it.

A chunk of the source that isn't stored has the fill value, and with --missing-is-an-error it is refused. The run stops if
the source's metadata are gone or changed then. It doesn't begin if the source's folder has files and none is a chunk, since
its metadata then say other keys.

A line that isn't one of these two arrays is refused, and so is a chunk of the source that can't be read whole. It ends
with the status 1 then, and a message that names the line or the chunk.
"""
import argparse
import collections
import contextlib
import ctypes
import fcntl
import functools
import hashlib
import json
import math
import os
import signal
import socket
import sys
import time
import uuid

import numpy

from region import Region, add_region, add_task_chunks, grouped, region_between
from stored_arrays import UNFINISHED, Refused, ended_by, identity_of, on_a_line, open_array


M_MMAP_THRESHOLD = -3  # of glibc


class Sources:
    """The chunks of the source, decoded. One is kept until each chunk of the target that it meets was asked for, or until
    those that were read after it take so many bytes."""

    BESIDE = 500  # bytes that a chunk takes besides its elements

    def __init__(self, source, target, region, most, must_be_whole=False):
        self.source, self.target, self.region, self.most, self.must_be_whole = source, target, region, most, must_be_whole
        self.kept, self.size, self.decoded = collections.OrderedDict(), 0, 0
        self.seen = []  # the identity of each chunk that was asked for, from before it was read

    def chunk(self, numbers):
        numbers = tuple(numbers)
        if numbers in self.kept:
            elements, uses, seen = self.kept.pop(numbers)
            self.size -= elements.nbytes + self.BESIDE
            self.seen.append(seen)
        else:
            elements, uses = self.once(numbers), self.region.uses(numbers, self.source, self.target)
        if uses > 1:
            self.kept[numbers] = elements, uses - 1, self.seen[-1]
            self.size += elements.nbytes + self.BESIDE
        while self.size > self.most:
            self.size -= self.kept.popitem(last=False)[1][0].nbytes + self.BESIDE
        return elements

    def once(self, numbers):
        """A chunk that isn't kept."""
        if self.must_be_whole and not self.source.has(numbers):
            raise Refused(f"chunk {self.source.key(numbers)} of {self.source.folder} isn't stored")
        self.decoded += 1
        self.seen.append(self.source.identity(numbers))
        return self.source.read(numbers)


def is_box(box, dimensions):
    """Whether a box of a line is one of so many dimensions."""
    start, size = box
    return len(start) == len(size) == dimensions and all(type(number) is int for number in [*start, *size])


def is_within(box, other):
    """Whether a box, in which are elements, lies within another one."""
    return all(least <= begin < begin + length <= least + room for begin, length, least, room in zip(*box, *other))


def is_chunk(array, named):
    """Whether a line names a chunk of an array as it is: by its numbers, its key and its shape."""
    numbers = named["chunk"]
    return (
        len(numbers) == len(array.shape)
        and all(type(number) is int and 0 <= number < count for number, count in zip(numbers, array.grid()))
        and named["key"] == array.key(numbers)
        and named["shape"] == array.chunk_shape
    )


# How the line begins of a key that is none of the target's.
UNEXPECTED = '{"unexpected":'


def in_array(array, chunk, box):
    """A box of a chunk as one of the array."""
    return [first + step for first, step in zip(array.held(chunk)[0], box[0])], box[1]


class Task:
    """A line: a buffer is filled from chunks of the source and written to chunks of the target. Each chunk is a dictionary with
    its `chunk`, `key`, `shape`, and two boxes of one shape, `in_chunk` and `in_buffer`. In a chunk of the target, `whole` says
    whether the line has all its elements, `shared` whether other lines write it too. `kept` says whether it has elements
    beside the region."""

    def __init__(self, line, source, target, region, counts=None, by_source=False):
        self.line, self.number, self.of = line, line["number"], line["of"]
        self.target, self.region = target, region
        self.buffer, self.read, self.written = line["buffer"], line["from"], [dict(to) for to in line["to"]]
        self.check_chunks(self.read, source, "source")
        self.check_chunks(self.written, target, "target")
        self.check(is_box((self.buffer, self.buffer), len(region.shape)), "its buffer isn't one of the array")
        self.check(0 not in self.buffer and self.read and self.written, "it moves nothing")
        self.check_pieces([*self.read, *self.written])
        self.check_boxes(source)
        self.check_number(source if by_source else target, by_source, counts)
        for to in self.written:
            given, box = region.given(to["chunk"], target), in_array(target, to["chunk"], to["in_chunk"])
            to["shared"], to["kept"] = box != given, given != target.held(to["chunk"])

    def check(self, is_right, fault):
        if not is_right:
            raise Refused(f"line {self.number}: {fault}")

    def check_chunks(self, pieces, array, name):
        is_numbered = type(self.number) is int and type(self.of) is int and 0 <= self.number < self.of
        self.check(is_numbered, "a number that is none of the plan's")
        for piece in pieces:
            self.check(is_chunk(array, piece), f"{piece['key']} isn't a chunk of the {name}")
        self.check(len({tuple(piece["chunk"]) for piece in pieces}) == len(pieces), f"it names a chunk of the {name} twice")

    def check_pieces(self, pieces):
        for piece in pieces:
            boxes = all(is_box(piece[box], len(self.target.shape)) for box in ("in_chunk", "in_buffer"))
            self.check(boxes and piece["in_chunk"][1] == piece["in_buffer"][1], f"a box of {piece['key']} isn't one of the array")

    def check_number(self, array, is_source, counts):
        """The line is the task of its number, in a plan whose tasks take `counts` chunks of an array. Without `counts`, only a plan of
        one chunk a task is known, by how many lines it has."""
        region, box = self.region, self.box
        if is_source:
            region, box = Region(region.start, region.shape, region.start), (region.in_source(box[0]), box[1])
        groups = grouped(array, counts or [1] * len(array.shape))
        group = [first // edge for first, edge in zip(box[0], groups.chunk_shape)]
        is_numbered = self.number == region.number_of(group, groups) and self.of == region.count(groups)
        is_known = counts is not None or self.of == region.count(groups)
        self.check(not is_known or is_numbered and box == region.given(group, groups), "it isn't the task of its number")
        self.check(self.of <= max(math.prod(region.shape), 1), "it has another number of lines than the plan")

    def check_boxes(self, source):
        """What is read fills the buffer, and what is written empties it. The boxes lie in different chunks, at the places of the
        region, and have as many elements together as the buffer."""
        region, target = self.region, self.target
        first = self.written[0]
        begin, whole = in_array(target, first["chunk"], first["in_chunk"])[0], ([0] * len(self.buffer), self.buffer)
        place = [index - step for index, step in zip(begin, first["in_buffer"][0])]  # of the buffer in the target's array
        self.box = place, self.buffer
        self.check(is_within(self.box, (region.at, region.shape)), "its buffer isn't inside the region")
        for pieces, array in ((self.read, source), (self.written, target)):
            for piece in pieces:
                box = in_array(array, piece["chunk"], piece["in_chunk"])
                inside = is_within(box, array.held(piece["chunk"])) and is_within(piece["in_buffer"], whole)
                self.check(inside, f"a box of {piece['key']} isn't inside the chunk and the buffer")
                index = [first + step for first, step in zip(place, piece["in_buffer"][0])]
                index = region.in_source(index) if array is source else index
                self.check(box[0] == index, f"a box of {piece['key']} isn't the same elements in the target")
            count = sum(math.prod(piece["in_buffer"][1]) for piece in pieces)
            self.check(count == math.prod(self.buffer), "its boxes haven't each element of the buffer")
        for to in self.written:
            has_all = in_array(target, to["chunk"], to["in_chunk"]) == target.held(to["chunk"])
            self.check(to["whole"] is has_all, f"`whole` doesn't say whether {to['key']} has elements besides, which would be lost")


def task_of(text, source, target, region, counts=None, by_source=False):
    """A line of a plan, checked against both arrays, and against how many chunks a task takes, if that is known."""
    try:
        return Task(json.loads(text), source, target, region, counts, by_source)
    except (ValueError, KeyError, TypeError, IndexError, AttributeError, RecursionError) as error:
        raise Refused(f"this is no line of a plan: {text[:60]!r}: {error!r}") from error


def slices(box):
    """A box as an index of numpy, which gives an array also if there are no dimensions."""
    return (..., *(slice(first, first + size) for first, size in zip(*box)))


def begin(chunk, to, target):
    """Gives a chunk the elements that it keeps. If it has none, it gets the fill value beyond the array, and if other lines
    write it too, everywhere."""
    if to["kept"] or to["shared"] and target.has(to["chunk"]):
        chunk[...] = target.read(to["chunk"])
    elif to["shared"] or target.held(to["chunk"])[1] != target.chunk_shape:
        chunk[...] = numpy.zeros((), target.dtype) if target.fill is None else target.fill


def fill(buffer, task, read):
    for part in task.read:
        buffer[slices(part["in_buffer"])] = read(part["chunk"])[slices(part["in_chunk"])]


def filled(task, sources, target):
    """Makes each chunk of the target that a task writes, one after another, and yields which one it is. A chunk that is all of
    the buffer is made in its place, so a worker never holds both."""
    read = sources.chunk if len(task.written) == 1 else sources.once
    if len(task.written) == 1 and task.buffer == target.chunk_shape:
        to, chunk = task.written[0], target.new_chunk()
        begin(chunk, to, target)
        fill(chunk[slices(to["in_chunk"])], task, read)
        yield to, chunk
        return
    if len(task.read) == 1:
        buffer = read(task.read[0]["chunk"])[slices(task.read[0]["in_chunk"])]
    else:
        buffer = numpy.empty(task.buffer, target.dtype)
        fill(buffer, task, read)
    chunk = target.new_chunk()
    for to in task.written:
        begin(chunk, to, target)
        chunk[slices(to["in_chunk"])] = buffer[slices(to["in_buffer"])]
        yield to, chunk


class Store:
    """Puts chunks of an array in their places: each whole, or not at all."""

    def __init__(self, array):
        self.array, self.unfinished = array, array.folder / UNFINISHED
        self.beginning = f".{socket.gethostname()}.{os.getpid()}"

    def put(self, numbers, chunk, lasting=False, announce=lambda identity: None):
        """With `lasting`, what stood under the key before stays there until the disk has the chunk. What the chunk's identity
        will be is announced before it has its key."""
        path = self.array.path(numbers)
        path.parent.mkdir(parents=True, exist_ok=True)
        self.unfinished.mkdir(exist_ok=True)
        unfinished = self.unfinished / f"{self.beginning}.{uuid.uuid4().hex}"
        try:
            with open(unfinished, "xb") as file:
                file.write(self.array.encode(chunk))
                if lasting:
                    file.flush()
                    os.fsync(file.fileno())
            announce(identity_of(unfinished))
            unfinished.rename(path)
        except BaseException:
            unfinished.unlink(missing_ok=True)
            raise

    def lock(self):
        """Keeps other workers from changing chunks that several lines give elements to, until this one ends. The lock is one of
        the array's metadata, which no run removes or writes."""
        self.locked = open(self.array.metadata, "rb")
        try:
            fcntl.flock(self.locked, fcntl.LOCK_EX | fcntl.LOCK_NB)
        except OSError as error:
            raise Refused(f"{self.array.folder} can't be written alone, another worker with --alone may run: {error}") from error


class Record:
    """Says which lines are done, on standard output and perhaps in a file, when the disk has their chunks."""

    MOST, SECONDS = 256, 1  # of lines that wait for the disk together

    def __init__(self, folder, file, sync):
        self.folder, self.sync = folder, sync
        self.file = None if file is None else opened_behind(file)
        self.waiting, self.last = [], time.monotonic()

    def begin(self, task, to, identity):
        """Says what a chunk that several lines write will be, so that a later run knows it even if this one is killed."""
        self.append({"begun": to["key"], "by": [task.number, task.of], "is": identity})
        if self.sync and self.file is not None:
            os.fsync(self.file)

    def append(self, what):
        if self.file is not None:
            say(self.file, json.dumps(what).encode() + b"\n")

    def add(self, task, mark):
        self.waiting.append(({"number": task.number, "of": task.of}, mark))
        if not self.sync or len(self.waiting) >= self.MOST or time.monotonic() - self.last > self.SECONDS:
            self.say_all()

    def say_all(self):
        if self.sync and self.waiting:
            sync_file_system(self.folder)
        for line, mark in self.waiting:
            self.append({**line, "mark": mark})
            say(1, json.dumps(line).encode() + b"\n")
        self.waiting, self.last = [], time.monotonic()


def sync_file_system(folder):
    """Waits until the disk has all that was written to the file system of a folder."""
    descriptor = os.open(folder, os.O_RDONLY)
    try:
        if ctypes.CDLL(None, use_errno=True).syncfs(descriptor) != 0:
            raise OSError(ctypes.get_errno(), f"{folder} can't be written to the disk")
    finally:
        os.close(descriptor)


def opened_behind(file):
    """A file to be appended to, behind the line feed that its last line may lack where a disk was full."""
    descriptor = os.open(file, os.O_RDWR | os.O_CREAT | os.O_APPEND, 0o666)
    size = os.fstat(descriptor).st_size
    if size and os.pread(descriptor, 1, size - 1) != b"\n":
        say(descriptor, b"\n")
    return descriptor


def say(descriptor, text):
    """Writes a text in one piece, since several workers may write to one pipe or file."""
    if os.write(descriptor, text) != len(text):
        raise OSError(f"the disk is full: {text.decode().strip()} was written in part")


def lines_in(file):
    """The lines of a file of what was done. One that was cut off isn't counted."""
    with contextlib.suppress(FileNotFoundError), open(file, errors="replace") as lines:
        for text in lines:
            with contextlib.suppress(ValueError, RecursionError):
                line = json.loads(text)
                if isinstance(line, dict):
                    yield line


def done_in(file):
    """The `number` and `of` of each line that was done, each with its mark, by the lines of a file."""
    numbered = (line for line in lines_in(file) if all(type(line.get(name)) is int for name in ("number", "of")))
    return {(line["number"], line["of"]): line.get("mark") for line in numbered}


def left_in(file):
    """The identities that chunks which several lines write may have, by key. They are of the last line that was done, and of
    lines that were begun since."""
    left, begun = {}, collections.defaultdict(list)
    for line in lines_in(file):
        if "begun" in line:
            left.setdefault(line["begun"], []).append(line["is"])
            begun[tuple(line["by"])].append((line["begun"], line["is"]))
        else:
            for key, identity in begun.pop((line.get("number"), line.get("of")), []):
                if identity in left[key]:
                    del left[key][: left[key].index(identity)]
    return left


def mark_of(task, source, target, read, written):
    """By what a later run knows that a line would read and write the same: the line, the metadata, and the chunks' identities."""
    marked = [json.dumps(task.line), source.written, target.written, read, written]
    return hashlib.blake2b(repr(marked).encode(), digest_size=8).hexdigest()


class Resumed:
    """Which lines were done before, by a file, and whether they would read and write the same."""

    def __init__(self, file, source, target):
        self.file, self.source, self.target = file, source, target
        self.done = done_in(file) if file else {}
        self.left = left_in(file) if file else {}
        self.became = {}  # of chunks that several lines write: nothing, or that it was lost or changed before this run

    def became_of(self, to):
        if to["key"] not in self.became:
            identity = self.target.identity(to["chunk"])
            is_left = identity in self.left.get(to["key"], [])
            self.became[to["key"]] = "" if is_left else "changed" if identity else "lost"
        return self.became[to["key"]]

    def passes_over(self, task):
        """Whether a line needn't be done again. If a chunk that several lines write was lost or changed, all of them must be."""
        mark = self.done.get((task.number, task.of))
        gone = {to["key"]: self.became_of(to) for to in task.written if to["shared"] and self.done}
        if mark is None:
            return False
        for key, became in gone.items():
            if became:
                told = f"chunk {key} of {self.target.folder} was {became} since line {task.number} was done"
                raise Refused(f"{told}: remove {self.file} and do all lines again")
        read = [self.source.identity(part["chunk"]) for part in task.read]
        written = [self.target.identity(to["chunk"]) for to in task.written if not to["shared"]]
        return mark == mark_of(task, self.source, self.target, read, written)


class Progress:
    """How many lines were done, on a terminal, a few times a second."""

    def __init__(self):
        self.shown, self.last = sys.stderr.isatty(), 0.0

    def show(self, done, of, now=False):
        if self.shown and (now or time.monotonic() - self.last > 0.2):
            self.last = time.monotonic()
            print(f"\r{done} chunks done here, of {of} in the plan", end="\n" if now else "", file=sys.stderr, flush=True)


def copy(lines, source, target, region, words):
    """Does each line of a plan."""
    sources, store, progress = Sources(source, target, region, words.cache * 10**6, words.missing_is_an_error), Store(target), Progress()
    record = Record(target.folder, words.done, not words.no_sync)
    if words.alone:
        store.lock()
        if words.done and words.done != words.resume and any(lines_in(words.done)):
            raise Refused(f"{words.done} has lines of another run: go on from it by --resume, or name another file")
    resumed = Resumed(words.resume, source, target)
    done, written, of = 0, 0, 0
    try:
        for text in lines:
            if text.startswith(UNEXPECTED):
                print(on_a_line(f"copy_chunks.py: {target.folder} has a key that isn't its own: {text.strip()}"), file=sys.stderr)
                continue
            task = task_of(text, source, target, region, words.task_chunks, words.by_source)
            of = task.of
            if resumed.passes_over(task):
                continue
            shared = [to["key"] for to in task.written if to["shared"]]
            if shared and not words.alone:
                raise Refused(f"line {task.number}: other lines write chunk {shared[0]}, too: one worker has to do them all, with --alone")
            sources.seen.clear()
            identities = []  # of the chunks that this line alone writes
            for to, chunk in filled(task, sources, target):
                announce = functools.partial(record.begin, task, to) if to["shared"] else identities.append
                try:
                    store.put(to["chunk"], chunk, not to["whole"] and not words.no_sync, announce)
                except OSError as error:
                    raise Refused(f"chunk {to['key']} of {target.folder} can't be written: {error}") from error
                written += 1
            del chunk  # before the next line takes memory
            record.add(task, mark_of(task, source, target, sources.seen, identities))
            done += 1
            progress.show(done, of)
    finally:
        record.say_all()  # of a run that fails too, what was done stays done
    progress.show(done, of, now=True)
    if words.verbose:
        print(f"{written} chunks written, {sources.decoded} read", file=sys.stderr)


def main():
    parser = argparse.ArgumentParser(description="Writes chunks of the target of a copy, by the lines of `chunkplan`.")
    parser.add_argument("source", metavar="SOURCE")
    parser.add_argument("target", metavar="TARGET")
    add_region(parser)
    add_task_chunks(parser)
    parser.add_argument("--by-source", action="store_true", help="the lines are tasks of the source's chunks")
    parser.add_argument("--alone", action="store_true", help="also change chunks that several lines give elements to: no other worker does")
    parser.add_argument("--done", metavar="FILE", help="append the number of each line that is done")
    parser.add_argument("--resume", metavar="FILE", help="pass over the lines that were done, by such a file")
    parser.add_argument("--missing-is-an-error", action="store_true", help="refuse a chunk of the source that isn't stored")
    parser.add_argument("--cache", metavar="MB", type=int, default=256, help="of decoded chunks of the source (256)")
    parser.add_argument("--no-sync", action="store_true", help="say what is done without waiting for the disk")
    parser.add_argument("--verbose", action="store_true", help="say at the end how many chunks were written and read")
    words = parser.parse_args()
    source, target = open_array(words.source), open_array(words.target)
    region = region_between(source, target, words.subset, words.at)
    source.check_keys()
    with contextlib.suppress(AttributeError):  # a large chunk's memory goes back to the system when it is freed
        ctypes.CDLL(None).mallopt(M_MMAP_THRESHOLD, 2**20)
    signal.signal(signal.SIGTERM, lambda *_: sys.exit("copy_chunks.py: terminated"))  # so that nothing unfinished is left
    copy(sys.stdin, source, target, region, words)


if __name__ == "__main__":
    ended_by(main)
