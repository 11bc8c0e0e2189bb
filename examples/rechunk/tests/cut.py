#!/usr/bin/env python3
"""Cuts moves and resizes off at random points, or lets something go wrong there, and runs them again. A run that ends with
status 0 must leave the right elements.

    cut.py CHUNKPLAN [--seed N] [--moves N] [--checks NAME ..]

A fault comes before a random step of a script with a file: it opens, renames or removes it, or makes a folder. The fault kills
the script or all processes of the run. Or it removes, cuts off or edits a chunk of the source, renames the source, or makes the
target's disk read-only or full. Between two runs the source may get other elements, or another program may write or remove a
chunk of the target. All elements are compared with numpy's. CHUNKPLAN is the built program. It needs numpy and zarr-python 2
(Debian: python3-zarr).
"""
import concurrent.futures
import contextlib
import dataclasses
import math
import os
import pathlib
import random
import shutil
import subprocess
import tempfile
import time

import numcodecs
import numpy
import zarr

import moves  # which has the folder of the scripts on the path
from lost import on_path
from moves import TOOLS, make_2
from regions import slices
from resizes import resized
from stored_arrays import open_array

# Each Python of a run begins with this. The first script with a name that reaches a step runs a command before it.
HOOK = """
import os, subprocess, sys

def step(event, args):
    if event in ("open", "os.rename", "os.remove", "os.mkdir") and str(args[0]).startswith(os.environ["CUT_ROOM"]):
        step.count += 1
        if step.count == int(os.environ["CUT_STEP"]) and os.path.basename(sys.argv[0]) == os.environ["CUT_SCRIPT"]:
            try:
                os.rmdir(os.environ["CUT_TOKEN"])
            except FileNotFoundError:
                return
            ended = subprocess.run(["sh", "-c", os.environ["CUT_COMMAND"], "-", str(os.getpid()), str(os.getpgid(0))])
            if ended.returncode != 0:
                os.mkdir(os.environ["CUT_TOKEN"])

step.count = 0
sys.addaudithook(step)
"""
PLAN = './document_of.py "$SOURCE" "$TARGET" $REGION {} | "$CHUNKPLAN"'
WORKER = './copy_chunks.py "$SOURCE" "$TARGET" $REGION $WORDS {} > /dev/null'
RESUMED = '--done "$ROOM/done" --resume "$ROOM/done"'
TASKS = "--task-chunks 2,3"
PIPES = {
    "target": f'{PLAN.format("")} | {WORKER.format(RESUMED)} && ./check_done.py "$TARGET" "$ROOM/done" $REGION',
    "source": f'{PLAN.format("--by-source")} | {WORKER.format("--by-source --alone " + RESUMED)} && ./check_done.py "$TARGET" "$ROOM/done" $REGION --by-source "$SOURCE"',
    "tasks": f'{PLAN.format(TASKS)} | {WORKER.format(f"{TASKS} {RESUMED}")} && ./check_done.py "$TARGET" "$ROOM/done" $REGION {TASKS}',
    "keys": f'{PLAN.format("--keys")} | {WORKER.format("")} && ./verify.py "$SOURCE" "$TARGET"',
}
ENGINES = [name for name in ("xargs_shares", "parallel_shares", "parallel_pipe") if "parallel" not in name or shutil.which("parallel")]
WAYS = {
    **PIPES,
    **{name: f'engines/{name}.sh "$SOURCE" "$TARGET" "$ROOM" $AGAIN' for name in ENGINES},
    "two_stages": './two_stages.sh "$SOURCE" "$TARGET" "$ROOM" 400 $AGAIN',
}
WITH_REGION = ["target", "source", "tasks", "two_stages", *ENGINES]
PATIENCE = 120  # seconds, for a run
KILLS, IN_SOURCE, BETWEEN = ["process", "all"], ["removed", "cut", "edited"], ["next_day", "other_program", "lost"]
IN_RUN = [*KILLS, *IN_SOURCE, "gone", "full", "read_only"]


@dataclasses.dataclass
class Ending:
    was_killed: bool = False
    was_refused: bool = False
    wrong: str = ""
    is_silent: bool = False


class Cut:
    """What a run has in its environment: the step of a script, and what happens there."""

    def __init__(self, room, chunkplan, **more):
        self.room, self.token = room, room / "token"
        (room / "hook").mkdir()
        (room / "hook" / "sitecustomize.py").write_text(HOOK)
        self.environment = {**on_path(chunkplan, room), "PYTHONPATH": str(room / "hook"), **more}

    def run(self, script, step=0, command=":", name="copy_chunks.py", **more):
        """The status of a run, what it wrote on standard error, and whether the command was run."""
        self.token.mkdir(exist_ok=True)
        cut = {"CUT_ROOM": str(self.room), "CUT_STEP": str(step), "CUT_SCRIPT": name, "CUT_TOKEN": str(self.token), "CUT_COMMAND": command}
        with tempfile.TemporaryFile("w+") as told:
            words = ["bash", "-c", f"set -o pipefail; {script}"]
            environment = {**self.environment, **cut, **more}
            run = subprocess.Popen(words, cwd=TOOLS, env=environment, stdout=subprocess.DEVNULL, stderr=told, start_new_session=True)
            status = run.wait(PATIENCE)
            self.wait_for_all()
            told.seek(0)
            return status, told.read(), not self.token.exists()

    def wait_for_all(self):
        """Waits for what was left running where an engine was killed."""
        mark, end = f"CUT_TOKEN={self.token}".encode(), time.monotonic() + PATIENCE
        while any(mark in held for held in environments()):
            if time.monotonic() > end:
                raise TimeoutError("processes of a run don't end")
            time.sleep(0.05)


def environments():
    for process in pathlib.Path("/proc").glob("[0-9]*"):
        with contextlib.suppress(OSError):
            yield (process / "environ").read_bytes()


class Move:
    """An array or a region that is moved in one of the ways."""

    def __init__(self, room, chunkplan, generator):
        self.generator, self.way = generator, generator.choice(list(WAYS))
        self.source, self.target, self.disk = room / "source", room / "disk" / "target", room / "disk"
        self.disk.mkdir()
        self.shape = [generator.randrange(20, 60) for _ in range(2)]
        self.region = [[0, 0], self.shape, [0, 0]]
        words = ""
        if self.way in WITH_REGION and generator.random() < 0.5:
            size = [generator.randrange(10, length) for length in self.shape]
            self.region = [[generator.randrange(length - n) for length, n in zip(self.shape, size)], size, [generator.randrange(9) for _ in size]]
            words = "--subset {} {} --at {}".format(*(",".join(map(str, numbers)) for numbers in self.region))
        more = "--missing-is-an-error" + generator.choice(["", " --no-sync", " --cache 0"])
        ends = {"SOURCE": str(self.source), "TARGET": str(self.target), "ROOM": str(room), "REGION": words, "WORDS": more, "AGAIN": ""}
        self.cut = Cut(room, chunkplan, **ends, SHARES="3", WORKERS="2")
        self.compressor = generator.choice([numcodecs.Zlib(1), numcodecs.GZip(1), numcodecs.BZ2(1), numcodecs.LZMA(preset=1)])
        self.edges = [[generator.randrange(4, 20) for _ in self.shape] for _ in range(2)]
        if self.way == "two_stages":  # rows go to columns
            self.edges = [[2, self.shape[1]], [self.shape[0], 2]]
        array = make_2(self.source, self.shape, self.edges[0], dtype="<i4", fill_value=-1, compressor=self.compressor)
        array[...] = self.elements = numpy.arange(math.prod(self.shape), dtype="<i4").reshape(self.shape)

    def make_target(self):
        shutil.rmtree(self.target, ignore_errors=True)
        _, size, at = self.region
        shape = self.shape if size == self.shape else [n + first + self.generator.randrange(5) for n, first in zip(size, at)]
        array = make_2(self.target, shape, self.edges[1], dtype=">i4", fill_value=-2, compressor=self.generator.choice([None, self.compressor]))
        self.beside = numpy.full(shape, -2, "<i4")
        if size != self.shape:
            array[...] = self.beside = -3 - numpy.arange(math.prod(shape), dtype="<i4").reshape(shape)

    def is_right(self):
        start, size, at = self.region
        expected = self.beside.copy()
        expected[slices(at, size)] = self.elements[slices(start, size)]
        with contextlib.suppress(Exception):  # one that can't be read isn't right
            return numpy.array_equal(zarr.open_array(str(self.target), mode="r")[...], expected)

    def chunk_of(self, folder):
        return self.generator.choice(sorted(path for path in folder.iterdir() if path.name[0].isdigit()) or [None])

    def steps(self):
        """About how many steps a script has."""
        count = sum(math.prod(-(-size // edge) for size, edge in zip(self.shape, edges)) for edges in self.edges)
        return 3 * count if self.way in PIPES or self.way == "two_stages" else count

    def run(self, fault=None, **more):
        """A run with a fault, which is mended then: the status, what it said, and whether the fault came."""
        generator, step = self.generator, self.generator.randrange(1, self.steps())
        name = "copy_chunks.py"
        if fault in KILLS and generator.random() < 0.2:
            name, step = generator.choice(["document_of.py", "check_done.py", "fingerprint.py", "make_intermediate.py"]), generator.randrange(1, 6)
        with contextlib.ExitStack() as mended:
            command = self.happens(fault, mended) if fault else ":"
            return self.cut.run(WAYS[self.way], step, command, name, **more)

    def happens(self, fault, mended):
        """The command by which a fault comes. What mends it is called after the run."""
        path, aside = self.chunk_of(self.source), self.source.with_name("aside")
        held = path.read_bytes()
        if fault in IN_SOURCE:
            mended.callback(lambda: path.exists() and path.read_bytes() == held or path.write_bytes(held))
        if fault == "edited":
            bit = self.generator.randrange(16, 8 * len(held))
            aside.write_bytes(held[: bit // 8] + bytes([held[bit // 8] ^ 1 << bit % 8]) + held[bit // 8 + 1 :])
        if fault == "gone":
            mended.callback(lambda: aside.exists() and aside.rename(self.source))
        if fault == "read_only":
            mended.callback(subprocess.run, ["mount", "-o", "remount,rw", self.disk], check=True)
        if fault == "full":
            disk = os.statvfs(self.disk)
            most = (disk.f_blocks - disk.f_bfree) * disk.f_frsize // 1024 + self.generator.randrange(4, 80)
            subprocess.run(["mount", "-o", f"remount,size={most}k", self.disk], check=True)
            mended.callback(subprocess.run, ["mount", "-o", "remount,size=64m", self.disk], check=True)
        return {
            "process": "kill -9 $1", "all": "kill -9 -$2", "removed": f"rm {path}", "edited": f"cp {aside} {path}",
            "cut": f"truncate -s {self.generator.randrange(len(held))} {path}", "gone": f"mv {self.source} {aside}", "full": ":",
            "read_only": f"mount -o remount,ro {self.disk}",
        }[fault]  # fmt: skip

    def change(self, fault):
        """What is done between two runs."""
        if fault == "next_day":
            some = slices([0, 0], [self.generator.randrange(1, size + 1) for size in self.shape])
            self.elements[some] += 10**6
            zarr.open_array(str(self.source))[some] = self.elements[some]
        if fault == "other_program":
            _, size, at = self.region
            place = [first + self.generator.randrange(n) for first, n in zip(at, size)]
            zarr.open_array(str(self.target))[tuple(place)] = 7
        if fault == "lost" and self.region[1] == self.shape and self.chunk_of(self.target):
            self.chunk_of(self.target).unlink()

    def anew(self):
        """The status of a run that does all lines, whatever was done before, and what it said."""
        self.cut.environment["AGAIN"] = "--again"
        (self.cut.room / "done").unlink(missing_ok=True)
        if self.way == "keys":
            self.make_target()
        return self.run()


def ways(move, faults):
    """Runs with faults, one after another, and then without one: how they ended."""
    ending, changed = Ending(), False
    for fault in [*faults, None]:
        if fault in BETWEEN:
            move.change(fault)
            changed = True
            continue
        status, told, came = move.run(fault)
        changed |= came and fault in IN_SOURCE  # which is mended after the run
        ending.was_killed |= came and fault in KILLS
        is_refused = status != 0 and not (came and fault in KILLS)
        ending.was_refused |= is_refused
        if fault is None and is_refused and changed:
            status, told, _ = move.anew()
        if status == 0 and not move.is_right():
            ending.wrong, ending.is_silent = f"{fault}: the status 0, and other elements", True
        elif status == 0 and came and fault == "all":
            ending.wrong = "the status 0, and all processes were killed"
        elif status != 0 and (fault is None or is_refused and not told):
            ending.wrong = f"{fault}: the status {status}: {told}"
    return ending


def random_faults(generator):
    """A fault in a run, and perhaps in the next one, or between them."""
    faults = [generator.choice(IN_RUN if generator.random() < 0.5 else KILLS)]
    if generator.random() < 0.5:
        faults.append(generator.choice(BETWEEN))
    if generator.random() < 0.3:
        faults.append(generator.choice(KILLS))
    return faults if generator.random() < 0.9 else [None, *faults[1:]]


def a_run(chunkplan, seed):
    generator = random.Random(seed)
    with tempfile.TemporaryDirectory() as folder, contextlib.ExitStack() as mounted:
        move = Move(pathlib.Path(folder), chunkplan, generator)
        faults = random_faults(generator)
        if os.geteuid() != 0:  # a small disk and one that can't be written want root
            faults = ["all" if fault in ("full", "read_only") else fault for fault in faults]
        elif {"full", "read_only"} & {*faults}:
            subprocess.run(["mount", "-t", "tmpfs", "-o", "size=64m", "tmpfs", move.disk], check=True)
            mounted.callback(subprocess.run, ["umount", move.disk], check=True)
        move.make_target()
        return f"{move.way} {move.cut.environment['REGION']}, {faults}", ways(move, faults)


def a_resize(chunkplan, seed):
    """A resize that is killed, perhaps twice, and run again; then the array grows, and must show nothing that it had once."""
    generator = random.Random(seed)
    with tempfile.TemporaryDirectory() as folder:
        room, ending = pathlib.Path(folder), Ending()
        array, cut = room / "array", Cut(room, chunkplan)
        shapes = [[generator.randrange(1, 40) for _ in range(2)] for _ in range(2)]
        was, shape = shapes
        grown, common = ([each(sizes) for sizes in zip(*shapes)] for each in (lambda sizes: max(sizes) + 5, min))
        elements = numpy.arange(math.prod(was), dtype="<i4").reshape(was)
        make_2(array, was, [generator.randrange(2, 9) for _ in was], dtype="<i4", fill_value=-1)[...] = elements
        words = lambda shape, *more: " ".join(["./resize_array.py", str(array), ",".join(map(str, shape)), *more])
        again = ["--was", ",".join(map(str, was))]
        for number in range(generator.choice([1, 1, 2])):
            step = generator.randrange(1, 3 * math.prod(open_array(array).grid()) + 9)
            status, told, came = cut.run(words(shape, *again[: 2 * number]), step, "kill -9 $1", "resize_array.py")
            ending.was_killed |= came
            if status == 0 and not is_resized(array, elements, shape):
                ending.wrong, ending.is_silent = "the status 0, and other elements", True
            elif status != 0 and not came:
                ending.wrong = f"the status {status}: {told}"
            if not has_kept(array, elements, common):
                ending.wrong = "what both shapes have is lost"
        for to, more in ((shape, again), (grown, [])):
            status, told, _ = cut.run(words(to, *more))
            elements = resized(elements, to, -1)
            if status == 0 and not is_resized(array, elements, to):
                ending.wrong, ending.is_silent = f"to {to}: the status 0, and other elements", True
            elif status != 0:
                ending.wrong = f"to {to}: the status {status}: {told}"
        return f"from {was} to {shape}", ending


def is_resized(array, elements, shape):
    with contextlib.suppress(Exception):  # one that can't be read isn't right
        return numpy.array_equal(zarr.open_array(str(array), mode="r")[...], resized(elements, shape, -1))


def has_kept(array, elements, common):
    """Whether an array has what both shapes have, as a reader finds it when the resize was killed."""
    both = slices([0] * len(common), common)
    return numpy.array_equal(zarr.open_array(str(array), mode="r")[both], elements[both])


def tried(one, chunkplan, seed):
    try:
        return one(chunkplan, seed)
    except Exception as error:  # the other runs still count
        return repr(error), Ending(wrong="it couldn't go on")


def counted(what, one, chunkplan, generator, count):
    """Whether each of some runs ended right; how many were killed and refused is printed."""
    seeds = [f"{generator.random()} {number}" for number in range(count)]
    with concurrent.futures.ThreadPoolExecutor(len(os.sched_getaffinity(0))) as pool:
        endings = list(pool.map(lambda seed: tried(one, chunkplan, seed), seeds))
    sums = [sum(getattr(ending, name) for _, ending in endings) for name in ("was_killed", "was_refused", "is_silent")]
    print("{} {}, {} killed, {} refused, {} silent".format(count, what, *sums))
    return [(f"{number}: {told}: {ending.wrong}", not ending.wrong) for number, (told, ending) in enumerate(endings)]


def runs(chunkplan, generator, count):
    return counted("runs", a_run, chunkplan, generator, count)


def resizes(chunkplan, generator, count):
    return counted("resizes", a_resize, chunkplan, generator, count)


if __name__ == "__main__":
    moves.main([runs, resizes])
