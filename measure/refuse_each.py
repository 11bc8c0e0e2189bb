#!/usr/bin/env python3
"""Runs a program again and again, each time with another of its allocations refused, and prints how the runs ended.

    python3 refuse_each.py PROGRAM [ARGUMENT ..] < INPUT

PROGRAM is one that the kit built: `out/chunkwhere` of its crate, or the tests of a crate, `out/CRATE_tests`, with the name of one test. It prints
the number of allocations of a whole run, and for each kind of ending how many runs had it: the status, and the last line of what the run printed.
"""
import collections
import concurrent.futures
import os
import pathlib
import subprocess
import sys
import tempfile

SOURCE = pathlib.Path(__file__).resolve().with_name("refuse.c")
# A run that takes longer, in seconds, is ended; it then has this status.
LONGEST = 120
TOO_LONG = f"none within {LONGEST} seconds"


class Refusing:
    """Runs of programs of which one allocation is refused. It needs a C compiler, and a folder that is removed afterwards."""

    def __init__(self, folder):
        self.folder = pathlib.Path(folder)
        self.library = self.folder / "refuse.so"
        subprocess.run(["cc", "-O1", "-shared", "-fPIC", "-o", self.library, SOURCE, "-ldl"], check=True)

    def run(self, command, given, **settings):
        environment = {**os.environ, "LD_PRELOAD": str(self.library), **settings}
        try:
            return subprocess.run(command, input=given, env=environment, stdout=subprocess.PIPE, stderr=subprocess.PIPE, timeout=LONGEST)
        except subprocess.TimeoutExpired:
            return subprocess.CompletedProcess(command, TOO_LONG, b"", b"")

    def whole(self, command, given):
        """A run of which nothing is refused, and the number of its allocations."""
        with tempfile.NamedTemporaryFile(dir=self.folder) as counted:
            ended = self.run(command, given, COUNT_FILE=counted.name)
            return ended, int(pathlib.Path(counted.name).read_text() or 0)

    def each(self, command, given, allocations):
        """The runs of which the first allocation is refused, the second, and so on."""
        with concurrent.futures.ThreadPoolExecutor(os.cpu_count()) as pool:
            yield from pool.map(lambda number: self.run(command, given, FAIL_AT=str(number)), range(1, allocations + 1))


def last_line(ended):
    """The last line in which a run speaks of memory; where none does, its last line."""
    lines = (ended.stdout + ended.stderr).decode(errors="replace").splitlines()
    of_memory = [line for line in lines if "memory" in line or "Alloc" in line or "Memory" in line]
    return (of_memory or lines or [""])[-1]


def main():
    command, given = sys.argv[1:], b"" if sys.stdin.isatty() else sys.stdin.buffer.read()
    with tempfile.TemporaryDirectory() as folder:
        refusing = Refusing(folder)
        _, allocations = refusing.whole(command, given)
        print(f"{allocations} allocations")
        endings = collections.Counter((str(ended.returncode), last_line(ended)) for ended in refusing.each(command, given, allocations))
        for (status, line), runs in endings.most_common():
            print(f"{runs:6} runs: status {status}, {line}")


if __name__ == "__main__":
    main()
