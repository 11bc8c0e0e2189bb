"""The wrong bodies that the prover must refuse: those that `rt ci` tries, in `crates/CRATE/must-fail`, and the others, in `wrong-bodies/CRATE`."""
import hashlib
import re

from built import CRATES, TOP

OUTSIDE = TOP / "wrong-bodies"
TRIED = OUTSIDE / "tried.tsv"
COLUMNS = ("crate", "sources", "tried", "refused")


def libraries():
    """Each crate of this repository, with the crates of it that it names in `crates.txt`."""
    lines = re.findall(r"^(\w+)[^:\n]*:(.*)$", (TOP / "crates.txt").read_text(), re.MULTILINE)
    own = {crate for crate, _ in lines}
    return {crate: [name for name in below.split() if name in own] for crate, below in lines}


def edits():
    """The edits of each crate that has some."""
    found = {}
    for path in sorted([*CRATES.glob("*/must-fail/*.edit"), *OUTSIDE.glob("*/*.edit")], key=lambda path: path.name):
        crate = path.relative_to(CRATES).parts[0] if path.is_relative_to(CRATES) else path.parent.name
        found.setdefault(crate, []).append(path)
    return dict(sorted(found.items()))


def fault_of(crate, path):
    """Why an edit can't be applied to the sources as they are; `None` if it can."""
    texts, file, old = {}, None, None
    for line in path.read_text().splitlines():
        word, _, text = line.partition(": ")
        if word == "file":
            file = CRATES / crate / text
            if not file.is_file():
                return f"there is no file {text}"
            texts.setdefault(file, file.read_text())
        elif word == "old":
            old = text
        elif word in ("new", "new:"):
            if text == old:
                return f"it changes nothing: {old.strip()}"
            if texts[file].count(old) != 1:
                return f"its text stands {texts[file].count(old)} times in {file.relative_to(TOP)}: {old.strip()}"
            texts[file] = texts[file].replace(old, text)
    return None


def sources(crate):
    """A checksum of what decides whether the wrong bodies of a crate are refused: the edits, and the sources and definitions of the crate and of those below it."""
    below, waiting = set(), [crate]
    while waiting:
        name = waiting.pop()
        if name not in below:
            below.add(name)
            waiting += libraries()[name]
    files = [*edits().get(crate, [])]
    files += [path for name in sorted(below) for part in ("src", "specs") for path in sorted((CRATES / name / part).rglob("*")) if path.is_file()]
    total = hashlib.sha256()
    for path in files:
        # The place of an edit doesn't matter.
        name = path.name if path.suffix == ".edit" else str(path.relative_to(TOP))
        total.update(f"{name} {hashlib.sha256(path.read_bytes()).hexdigest()}\n".encode())
    return total.hexdigest()[:16]


def tried():
    """The rows of the file that says what was tried, by crate."""
    lines = TRIED.read_text().splitlines()[1:] if TRIED.exists() else []
    return {row[0]: row for row in (line.split("\t") for line in lines)}


def write_tried(rows):
    TRIED.write_text("".join("\t".join(map(str, row)) + "\n" for row in (COLUMNS, *(rows[crate] for crate in sorted(rows)))))


def untried():
    """The crates whose wrong bodies weren't all tried and refused over the sources as they are."""
    rows = tried()
    return [crate for crate, paths in edits().items() if rows.get(crate, [])[1:] != [sources(crate), str(len(paths)), str(len(paths))]]
