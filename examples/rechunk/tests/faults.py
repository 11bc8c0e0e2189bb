#!/usr/bin/env python3
"""Runs each engine while something goes wrong, and then once more: nothing may be lost without a word.

    faults.py CHUNKPLAN [--seed N] [--rounds N] [--engines NAME ..] [--faults NAME ..]

A planner, a worker or a part of the engine is killed at a random moment, or all of them at once; the target's disk is
full; a chunk of the source is cut off, has a bit flipped, or is missing. While this lasts each chunk that stands under a
key has to be whole and right, and so has each whose number is said to be done. Where the run ends with the status 0 the
arrays have to be equal, by zarr-python; where it doesn't, a second run has to make them so.
"""
import argparse
import contextlib
import importlib.util
import itertools
import os
import pathlib
import random
import shutil
import signal
import subprocess
import sys
import tempfile
import time
import uuid

import numcodecs
import numpy
import zarr

TOOLS = pathlib.Path(__file__).resolve().parent.parent
sys.path.insert(0, str(TOOLS))
from copy_chunks import done_in  # noqa: E402
from stored_arrays import UNFINISHED, Refused, open_array  # noqa: E402

SHAPE, SOURCE_CHUNKS, TARGET_CHUNKS = (60, 80), (7, 9), (2, 8)
PATIENCE = 60  # seconds, for a run
MARK = "RECHUNK_RUN"  # in the environment of each process of a run

ENGINES = {
    # what an engine wants to be there
    "xargs_shares": lambda: True,
    "parallel_shares": lambda: shutil.which("parallel"),
    "parallel_pipe": lambda: shutil.which("parallel"),
    "dask": lambda: importlib.util.find_spec("distributed"),
    "slurm": lambda: os.geteuid() == 0 and shutil.which("slurmd") and shutil.which("munged"),
}

# Of the planners of a run one is killed, when it has written so much of its plan: up to any byte, or up to a line's end.
KILLED_PLANNER = """#!{python}
import os, pathlib, random, signal, subprocess, sys
plan = subprocess.run([{chunkplan!r}], stdin=sys.stdin, stdout=subprocess.PIPE, check=True).stdout
try:
    pathlib.Path({token!r}).unlink()
except FileNotFoundError:
    sys.stdout.buffer.write(plan)
else:
    end = int({part} * len(plan))
    sys.stdout.buffer.write(plan[:plan.rfind(b"\n", 0, end) + 1 if {whole_lines} else end])
    sys.stdout.flush()
    os.kill(os.getpid(), signal.SIGKILL)
"""


class Run:
    """A rechunking by an engine, in a room of its own."""

    def __init__(self, room, engine, chunkplan, compressor=numcodecs.Zlib(1)):
        self.room, self.engine, self.mark = room, engine, uuid.uuid4().hex
        self.source, self.target = room / "source", room / "disk" / "target"
        self.environment = {
            **os.environ, MARK: self.mark, "CHUNKPLAN": chunkplan, "PYTHON": sys.executable, "SHARES": "4", "WORKERS": "3",
        }  # fmt: skip
        self.hung = False
        self.target.parent.mkdir()
        array = zarr.open_array(str(self.source), mode="w", shape=SHAPE, chunks=SOURCE_CHUNKS, dtype="<i4", compressor=compressor)
        array[...] = numpy.arange(numpy.prod(SHAPE), dtype="<i4").reshape(SHAPE) ** 2
        self.elements = array[...]

    def make_target(self):
        zarr.open_array(
            str(self.target),
            mode="w",
            shape=SHAPE,
            chunks=TARGET_CHUNKS,
            dtype="<i4",
            fill_value=-1,
            order="F",
            compressor=numcodecs.GZip(1),
        )

    def start(self):
        words = [TOOLS / "engines" / f"{self.engine}.sh", self.source, self.target, self.room / "done"]
        self.errors = tempfile.TemporaryFile("w+", dir=self.room)
        self.process = subprocess.Popen(words, env=self.environment, stdout=subprocess.DEVNULL, stderr=self.errors, start_new_session=True)

    def end(self):
        """The status of a run, and what it wrote on standard error. One that doesn't end is killed."""
        try:
            status = self.process.wait(PATIENCE)
        except subprocess.TimeoutExpired:
            self.hung = True
            for pid, _ in list(self.processes()):
                with contextlib.suppress(ProcessLookupError):
                    os.kill(pid, signal.SIGKILL)
            status = self.process.wait()
        self.errors.seek(0)
        return status, self.errors.read()

    def run(self):
        self.start()
        return self.end()

    def processes(self):
        """The processes of this run, each with its command."""
        for process in pathlib.Path("/proc").glob("[0-9]*"):
            with contextlib.suppress(OSError):
                if f"{MARK}={self.mark}".encode() in (process / "environ").read_bytes().split(b"\0"):
                    yield int(process.name), (process / "cmdline").read_bytes()

    def is_running(self):
        queued = self.engine == "slurm" and subprocess.run(["squeue", "-h"], stdout=subprocess.PIPE, check=True).stdout
        return bool(queued) or any(command for _, command in self.processes())

    def wait_for_all(self):
        """Waits for what an engine that was killed left running."""
        end = time.monotonic() + PATIENCE
        while self.is_running():
            if time.monotonic() > end:
                raise TimeoutError(f"processes of {self.engine} don't end")
            time.sleep(0.05)

    def faults(self):
        """What is wrong with the target as it stands: each chunk that is stored, each that is said to be done, other files."""
        array = open_array(self.target)
        done = {number for file in (self.room / "done").glob("done.*") for number, _ in done_in(file)}
        for number, chunk in enumerate(itertools.product(*map(range, array.grid()))):
            if array.path(chunk).exists():
                start, shape = array.held(chunk)
                box = tuple(slice(first, first + size) for first, size in zip(start, shape))
                try:
                    right = numpy.array_equal(array.read(chunk)[tuple(map(slice, shape))], self.elements[box])
                except Refused:
                    right = False
                if not right:
                    yield f"chunk {array.key(chunk)} isn't right"
            elif number in done:
                yield f"chunk {array.key(chunk)} isn't stored, and is said to be done"
        keys = set(map(array.key, itertools.product(*map(range, array.grid()))))
        for path in self.target.rglob("*"):
            if path.name != ".zarray" and UNFINISHED not in (path.name, path.parent.name) and path.name not in keys:
                yield f"{path.name} is no chunk"

    def is_equal(self):
        return numpy.array_equal(zarr.open_array(str(self.target), mode="r")[...], self.elements)


def kill(run, generator, seconds, is_victim, count=1):
    """Kills processes of a run at a random moment, and waits for its end. Where there is none yet, it looks again."""
    run.start()
    time.sleep(generator.uniform(0, seconds / 2))
    hit = False
    while not hit and run.process.poll() is None:
        time.sleep(0.01)
        victims = sorted(pid for pid, command in run.processes() if is_victim(command))
        for pid in generator.sample(victims, min(count, len(victims))):
            with contextlib.suppress(ProcessLookupError):
                os.kill(pid, signal.SIGKILL)
                hit = True
    return *run.end(), hit


def is_worker(command):
    return b"copy_chunks.py" in command and b"python" in command.split(b"\0")[0]


def is_engine(command):
    return bool(command) and not is_worker(command) and b"document_of.py" not in command and b"chunkplan" not in command


def worker(run, generator, seconds):
    return kill(run, generator, seconds, is_worker)


def engine(run, generator, seconds):
    return kill(run, generator, seconds, is_engine)


def everything(run, generator, seconds):
    return kill(run, generator, seconds, bool, count=1000)


def planner(run, generator, seconds):
    script, token, chunkplan = run.room / "chunkplan", run.room / "token", run.environment["CHUNKPLAN"]
    at = {"part": generator.random(), "whole_lines": generator.random() < 0.5}
    script.write_text(KILLED_PLANNER.format(python=sys.executable, chunkplan=chunkplan, token=str(token), **at))
    script.chmod(0o755)
    token.touch()
    run.environment["CHUNKPLAN"] = str(script)
    status, said = run.run()
    run.environment["CHUNKPLAN"] = chunkplan
    return status, said, status != 0


def full_disk(run, generator, seconds):
    status, said = run.run()
    mount("remount,size=64m", run.target.parent)
    return status, said, status != 0 and "No space left" in said


def mount(options, folder):
    subprocess.run(["mount", "-t", "tmpfs", "-o", options, "tmpfs", folder], check=True)


def broken(run, generator, edit):
    """A run with one chunk of the source edited, which is mended then. It has to be named."""
    path = generator.choice(sorted(path for path in run.source.iterdir() if path.name[0] != "."))
    whole = path.read_bytes()
    path.write_bytes(edit(whole))
    status, said = run.run()
    path.write_bytes(whole)
    return status, said, status != 0 and f"chunk {path.name} of" in said


def cut_source(run, generator, seconds):
    return broken(run, generator, lambda whole: whole[: generator.randrange(len(whole))])


def flipped_source(run, generator, seconds):
    """A bit of zlib's data; its first two bytes may say another size of the window."""

    def flip(whole):
        bit = generator.randrange(16, len(whole) * 8)
        return whole[: bit // 8] + bytes([whole[bit // 8] ^ 1 << bit % 8]) + whole[bit // 8 + 1 :]

    return broken(run, generator, flip)


def missing_source(run, generator, seconds):
    """By the standard such a chunk has the fill value throughout: this is no fault."""
    path = generator.choice(sorted(path for path in run.source.iterdir() if path.name[0] != "."))
    path.unlink()
    run.elements = zarr.open_array(str(run.source), mode="r")[...]
    status, said = run.run()
    return status, said, status == 0


FAULTS = [planner, worker, engine, everything, full_disk, cut_source, flipped_source, missing_source]
ALWAYS_SEEN = [planner, full_disk, cut_source, flipped_source, missing_source]


def trial(engine, fault, chunkplan, generator, seconds):
    """Whether a fault did something, whether the engine hung, and what is wrong then."""
    with tempfile.TemporaryDirectory(prefix="a room ") as room, contextlib.ExitStack() as mounted:
        run = Run(pathlib.Path(room), engine, chunkplan)
        if fault is full_disk:
            mount(f"size={generator.randrange(40, 1000)}k", run.target.parent)
            mounted.callback(subprocess.run, ["umount", run.target.parent], check=True)
        run.make_target()
        status, said, seen = fault(run, generator, seconds)
        wrong = list(run.faults())
        if status == 0 and not run.is_equal():
            wrong.append("the status 0, and other elements")
        if status > 0 and not said:
            wrong.append(f"the status {status}, and not a word")
        if fault in ALWAYS_SEEN and not seen:
            wrong.append(f"the fault wasn't told: {status} {said}")
        if generator.random() < 0.5:  # else what was left running works beside the second run
            run.wait_for_all()
        status, said = run.run()
        run.wait_for_all()
        wrong += run.faults()
        if status or not run.is_equal():
            wrong.append(f"the second run ended with the status {status}: {said}")
        return seen, run.hung, wrong


def clean(engine, chunkplan):
    """The seconds of a run in which nothing goes wrong, and what is wrong then."""
    with tempfile.TemporaryDirectory(prefix="a room ") as room:
        run = Run(pathlib.Path(room), engine, chunkplan)
        run.make_target()
        began = time.monotonic()
        status, said = run.run()
        seconds = time.monotonic() - began
        left = [path.name for path in run.target.iterdir() if path.name == ".unfinished"]
        return seconds, [] if status == 0 and run.is_equal() and not left else [f"{status} {said} {left}"]


@contextlib.contextmanager
def slurm():
    """A Slurm of this machine alone, for as long as it lasts."""
    with tempfile.TemporaryDirectory() as folder:
        subprocess.run([TOOLS / "tests" / "slurm_up.sh", folder], check=True)
        os.environ["SLURM_CONF"] = f"{folder}/slurm.conf"
        try:
            yield
        finally:
            for pid in map(int, pathlib.Path(folder, "pids").read_text().split()):
                os.kill(pid, signal.SIGTERM)
                while pathlib.Path(f"/proc/{pid}").exists():
                    time.sleep(0.05)


def faults_of(engine, words):
    """Goes through the faults of an engine, and prints a line for each. How many trials weren't right."""
    seconds, wrong = clean(engine, words.chunkplan)
    print(f"{engine}, nothing: {seconds:.1f} seconds, {'right' if not wrong else wrong}", flush=True)
    failed = bool(wrong)
    for fault in FAULTS:
        if fault.__name__ not in words.faults:
            continue
        if fault is full_disk and os.geteuid() != 0:
            print(f"{engine}, full_disk: not run, it wants root to make a small disk")
            continue
        hits = hung = 0
        for count in range(words.rounds):
            seen, was_hung, wrong = trial(
                engine, fault, words.chunkplan, random.Random(f"{words.seed} {engine} {fault.__name__} {count}"), seconds
            )
            hits += seen
            hung += was_hung
            failed += bool(wrong)
            for what in wrong:
                print(f"  WRONG: {engine}, {fault.__name__}, round {count}: {what}")
        print(f"{engine}, {fault.__name__}: {words.rounds} runs, {hits} hit, {hung} hung", flush=True)
    return failed


def main():
    parser = argparse.ArgumentParser()
    parser.add_argument("chunkplan", type=lambda path: str(pathlib.Path(path).resolve()))
    parser.add_argument("--seed", type=int, default=1)
    parser.add_argument("--rounds", type=int, default=1)
    parser.add_argument("--engines", nargs="+", default=list(ENGINES), choices=list(ENGINES))
    parser.add_argument("--faults", nargs="+", default=[fault.__name__ for fault in FAULTS], choices=[fault.__name__ for fault in FAULTS])
    words = parser.parse_args()
    failed = 0
    for engine in words.engines:
        if not ENGINES[engine]():
            print(f"{engine}: not run, its packages aren't here, or it wants root")
            continue
        with slurm() if engine == "slurm" else contextlib.nullcontext():
            failed += faults_of(engine, words)
    print(f"{failed} trials weren't right")
    sys.exit(bool(failed))


main()
