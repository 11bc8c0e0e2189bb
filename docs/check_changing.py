#!/usr/bin/env python3
"""Sees that `CHANGING.md` names each file that a further grid or a further encoding takes.

    python3 docs/check_changing.py

Such a file names every kind of grid, or every encoding, that there is, an encoding by its kind, by its case of
`Encoding` or by the relation that its keys are; in `zarrs_chunk_base`, every one that has a configuration of its own. The sources, definitions and proofs are searched, but for those of tests and of callers. On
the page a path stands in the folder of the crate that is named last before it, or begins with a crate; one that ends in
a slash names the files beneath it. The script prints each file that isn't named, and each path of those sections that
isn't there, where it has no placeholder such as NAME; and ends with the status 1 where it printed any.
"""
import pathlib
import re
import sys

ROOT = pathlib.Path(__file__).resolve().parent.parent
CRATES = ROOT / "crates"
sys.path.insert(0, str(ROOT / "tools"))
from extensions import ENCODINGS, GRIDS  # noqa: E402

CONFIGURATION = "A further configuration or value in JSON"
# The kinds that there are, and the sections that are about a further one.
FURTHER = [
    (GRIDS, ["A further grid over kinds of dimension that are there", CONFIGURATION]),
    (ENCODINGS, ["A further encoding", CONFIGURATION]),
]


def sources():
    for folder in ("src", "specs", "proofs"):
        for path in sorted(CRATES.glob(f"*/{folder}/**/*.*t")):
            crate = path.relative_to(CRATES).parts[0]
            if crate != "callers" and not crate.endswith("_tests"):
                yield crate, path


def words_of_keys():
    """Of each kind of encoding, by name, its case of `Encoding` and the relation that its keys are."""
    specs = CRATES / "zarrs_chunk_keys" / "specs"
    relations = dict(re.findall(r"^IsKey \((\w+).*?\) = (\w+)", (specs / "ChunkKey.antt").read_text(), re.M))
    cases = re.findall(r"^kind_of \((\w+).*?\) = (\w+)", (specs / "KeyKinds.antt").read_text(), re.M)
    return {kind: {case, relations[case]} for case, kind in cases}


WORDS = words_of_keys()


def named_in(text, kinds):
    """The kinds that a text names, as `default_suffix` or `DefaultSuffix`; a longer name is no shorter one."""
    words = set(re.findall(r"\w+", text))
    found = {kind for kind, others in WORDS.items() if kind in kinds and words & others}
    for kind in sorted(kinds, key=len, reverse=True):
        text, count = re.subn(kind.replace("_", "_?"), " ", text, flags=re.IGNORECASE)
        found |= {kind} if count else set()
    return found


def takers(names):
    """The files that name every kind."""
    kinds = {name.removeprefix("zarrs.") for name in names}
    configurations = CRATES / "zarrs_chunk_base" / "src" / "json"
    configured = {kind for kind in kinds if (configurations / f"{kind}_configuration.rt").exists()}
    for crate, path in sources():
        wanted = configured if crate == "zarrs_chunk_base" else kinds
        if named_in(path.read_text(), kinds) >= wanted:
            yield path


def places(section):
    """The paths that a section names."""
    crate = None
    for quoted in re.findall(r"`([^`\s]+)`", section):
        if (CRATES / quoted.split("/")[0]).is_dir():
            crate, _, quoted = quoted.partition("/")
        if crate and re.match(r"(src|specs|proofs)/", quoted):
            yield f"{crate}/{quoted}"


def main():
    parts = re.split(r"^## (.*)\n", (ROOT / "docs" / "CHANGING.md").read_text(), flags=re.M)
    sections = dict(zip(parts[1::2], parts[2::2]))
    faults = []
    for names, headings in FURTHER:
        named = [place for heading in headings for place in places(sections[heading])]
        for path in takers(names):
            place = str(path.relative_to(CRATES))
            if not any(place == name or name.endswith("/") and place.startswith(name) for name in named):
                faults.append(f"CHANGING.md, {headings[0]}: {place} names every kind, and isn't named")
        for name in named:
            if not re.search("[A-Z]{4}", name) and not (CRATES / name).exists():
                faults.append(f"CHANGING.md, {headings[0]}: there is no {name}")
    for fault in sorted(set(faults)):
        print(fault)
    sys.exit(1 if faults else 0)


if __name__ == "__main__":
    main()
