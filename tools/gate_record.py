#!/usr/bin/env python3
"""Records the commit of a run of the gate, and the checksum of each binary that a release packs.

    tools/gate_record.py begin GATE_OUTPUT    writes the commit to GATE_OUTPUT.record
    tools/gate_record.py end GATE_OUTPUT      adds the checksums, and the commit if it is another one

`.ci/run` does the first before `rt ci`, and the second after the scripts that build and try the binaries. `tools/release` compares the record with the
checkout and with what it packs. If this folder is no checkout of git, there is no record.
"""
import hashlib
import pathlib
import subprocess
import sys

sys.path.insert(0, str(pathlib.Path(__file__).resolve().parent))
from built import TOP, builds, shared_library  # noqa: E402

PROGRAMS = ("chunkcalls", "chunkplan", "chunkwhere")
CHANGED = ", with changes"


def git(*words):
    return subprocess.run(["git", *words], cwd=TOP, capture_output=True, text=True).stdout.strip()


def commit():
    """Returns the commit that is checked out, and whether files differ from it; an empty text outside of git."""
    head = git("rev-parse", "HEAD")
    return f"{head}{CHANGED}" if head and git("--no-optional-locks", "status", "--porcelain") else head


def checksums():
    """Returns the lines of `sha256sum` for the binaries that are packed."""
    shared = shared_library()
    libraries = [*sorted(shared.parent.glob(f"{shared.name}.*")), shared.with_suffix(".a")]
    packed = [*(builds(program)[0] for program in PROGRAMS), *libraries]
    return [f"{hashlib.sha256(path.read_bytes()).hexdigest()}  {path.relative_to(TOP)}" for path in packed if path.exists()]


def record_of(gate_output):
    return gate_output.with_name(f"{gate_output.name}.record")


def fault_of(gate_output):
    """Returns why no release can be made of what a run of the gate left, or `None`."""
    record, now = record_of(gate_output), commit()
    if now.endswith(CHANGED):
        return "the checkout has changes that are in no commit"
    if not record.exists():
        return f"{record} is missing: run the gate by `GATE_OUTPUT={gate_output} .ci/run`"
    was, *built = record.read_text().splitlines()
    if was != now:
        return f"the gate ran over commit {was}, and {now} is checked out: run the gate again"
    others = [line.split()[1] for line in checksums() if line not in built]
    return f"{others[0]} isn't the file that the gate built: {record} has another checksum or none" if others else None


def main():
    when, gate_output = sys.argv[1], pathlib.Path(sys.argv[2])
    record, now = record_of(gate_output), commit()
    if not now:
        return
    lines = [now]
    if when == "end":
        was = record.read_text().strip()
        lines = [was if was == now else f"{was}, then {now}", *checksums()]
    record.write_text("".join(f"{line}\n" for line in lines))


if __name__ == "__main__":
    main()
