#!/usr/bin/env python3
"""Runs the gate, and prints how many processor minutes each crate took of it: its proofs, its tests, and the edits that
have to be refused.

    python3 measure/gate.py [--keep] [--table FILE] [COMMAND ..]        without a command, rt ci

`.ci/run` runs `rt ci` by it. The table goes to FILE, or to standard error, and the status is the command's. Beside each
figure stands by how much it differs from the one in `measure/gate.tsv`; a crate that the kept table doesn't have differs
by all that it took. A crate that `rt ci` kept from an earlier run takes no time, so a figure of 0 isn't compared.
`--keep` writes the figures of this run there, if the command ended well: give it a whole run, `rt ci --anew`.

What runs beside isn't counted, but slows the gate down. It looks twice a second at what the kit's compiler and its
helpers have used so far, so of each of them the last half second is missing. On Linux.
"""
import argparse
import collections
import contextlib
import os
import pathlib
import subprocess
import sys
import time

KEPT = pathlib.Path(__file__).resolve().with_name("gate.tsv")
TICKS = os.sysconf("SC_CLK_TCK") * 60
KINDS = ("proofs", "tests", "edits")


def processes():
    """Each process: its number and start, its parent's number, the processor minutes that it has used, its words, and
    where it runs."""
    for folder in pathlib.Path("/proc").iterdir():
        if not folder.name.isdigit():
            continue
        try:
            fields = (folder / "stat").read_text().rpartition(")")[2].split()
            words = (folder / "cmdline").read_bytes().decode(errors="replace").split("\0")
            where = os.readlink(folder / "cwd")
        except OSError:
            continue
        yield (folder.name, fields[19]), fields[1], (int(fields[11]) + int(fields[12])) / TICKS, words, where


def descends(process, parents, ancestor):
    while process in parents:
        process = parents[process]
        if process == ancestor:
            return True
    return False


def belongs_to(words, where):
    """The crate that a run of the compiler is about, and what it does with it."""
    if "--crate-name" not in words:
        return None
    crate = words[words.index("--crate-name") + 1]
    if "rt-edit" in where:
        return crate, "edits"
    return crate, "tests" if "--test" in words else "proofs"


def run(command):
    """The status of a command, and the processor minutes of each crate, by kind."""
    gate = subprocess.Popen(command)
    used = {}
    while gate.poll() is None:
        running = list(processes())
        parents = {process[0]: parent for process, parent, *_ in running}
        for process, _, minutes, words, where in running:
            about = belongs_to(words, where)
            if about and descends(process[0], parents, str(gate.pid)):
                used[process] = (about, minutes)
        time.sleep(0.5)
    spent = collections.defaultdict(collections.Counter)
    for (crate, kind), minutes in used.values():
        spent[crate][kind] += minutes
    return gate.returncode, spent


def kept():
    """The figures of the run that was kept; none where there is no file."""
    lines = KEPT.read_text().splitlines()[1:] if KEPT.exists() else []
    rows = (line.split("\t") for line in lines)
    return {crate: dict(zip(KINDS, map(float, figures))) for crate, *figures in rows}


def keep(spent):
    rows = ["\t".join(["crate", *KINDS])]
    rows += ["\t".join([crate, *(f"{spent[crate][kind]:.1f}" for kind in KINDS)]) for crate in sorted(spent)]
    KEPT.write_text("".join(f"{row}\n" for row in rows))


def table(spent, before):
    """A row for each crate and one for all, each figure with what it adds to the one before."""

    def row(name, crates):
        figures = [[sum(spent[crate][kind] for crate in crates)] for kind in KINDS]
        for kind, figure in zip(KINDS, figures):
            figure.append(sum(before.get(crate, {}).get(kind, 0) for crate in crates if spent[crate][kind] > 0))
        figures.append([sum(column) for column in zip(*figures)])
        cells = (f"{now:8.1f} {f'{now - then:+.1f}' if before and now else '':>7}" for now, then in figures)
        return f"{name:24}" + "".join(cells).rstrip()

    yield f"{'processor minutes':24}" + "".join(f"{kind:>8}{'':8}" for kind in (*KINDS, "sum")).rstrip()
    yield from (row(crate, [crate]) for crate in sorted(spent, key=lambda crate: -spent[crate].total()))
    yield row("all crates", list(spent))


def main():
    parser = argparse.ArgumentParser(usage=__doc__.split("\n\n")[1].strip())
    parser.add_argument("--keep", action="store_true")
    parser.add_argument("--table", type=pathlib.Path)
    parser.add_argument("command", nargs=argparse.REMAINDER)
    chosen = parser.parse_args()
    began = time.monotonic()
    status, spent = run(chosen.command or ["rt", "ci"])
    lines = [*table(spent, kept()), f"in {(time.monotonic() - began) / 60:.0f} minutes"]
    with chosen.table.open("w") if chosen.table else contextlib.nullcontext(sys.stderr) as told:
        print("\n".join(lines), file=told)
    if chosen.keep and status == 0:
        keep(spent)
    sys.exit(status)


if __name__ == "__main__":
    main()
