"""Runs of a program on inputs, beside what they should write."""
import itertools
import subprocess

LONGEST = 120  # seconds


def run(program, given):
    """How a run ends: the status, and the bytes on standard output and on standard error."""
    ended = subprocess.run([program], input=given, capture_output=True, timeout=LONGEST)
    return ended.returncode, ended.stdout, ended.stderr


def difference(found, expected):
    """The status, standard error, and the first line of standard output that differs."""
    lines = itertools.zip_longest(found[1].splitlines(), expected[1].splitlines(), fillvalue=b"nothing")
    place, (one, other) = next(((n, pair) for n, pair in enumerate(lines, 1) if pair[0] != pair[1]), (0, (b"", b"")))
    told = (("found   ", found, one), ("expected", expected, other))
    return "\n".join(f"{what} status {run[0]}, {run[2][:300]}, line {place}: {line[:1000]}" for what, run, line in told)


def count_differences(program, rows):
    """How many inputs, each with how its run should end, end otherwise; the first ten are printed."""
    differ = 0
    for given, expected in rows:
        found = run(program, given)
        if found != expected:
            differ += 1
            if differ <= 10:
                print(f"{program.name} on {given[:1000]}\n{difference(found, expected)}")
    return differ
