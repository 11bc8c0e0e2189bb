#!/usr/bin/env python3
"""Sees that `DEFINITIONS.md` and the definitions in `specs/` agree.

    python3 docs/check_definitions.py

A table of the page is about the crate in its heading, or about a part of a crate, `CRATE::PART`, whose definitions stand in the folder
`specs/PART`. In a row the names before a file stand in that file; names after which no file comes
stand in the file that was named last. The script prints each public definition, and each case of one, that its crate's tables don't name, each
definition of the repository that one of them uses and the page doesn't name, each name that its file doesn't define, and each file that isn't there. Of
the folders `seen` and `lemmas` it prints what the page doesn't name though the contract of a public function uses it, or such a definition. It ends
with the status 1 where it printed any. The crates of tests and of callers have definitions of their own and are passed over.
"""
import pathlib
import re
import sys

ROOT = pathlib.Path(__file__).resolve().parent.parent
PAGE = ROOT / "docs" / "DEFINITIONS.md"

# A definition stands at the left margin, or further right inside modules of parameters.
DEFINITION = re.compile(
    r"^ *(?:abbrev pub|pub abbrev|pub data|pub record|pub unfoldable|unfoldable pub) ([^\s({:]+)|^pub (?!use |mod )([^\s({:]+) *[:({]", re.M)
# A case of a `data` type.
CASE = re.compile(r"^  (?!pub )([^\s({:]+) : ", re.M)
HEADING = re.compile(r"^## .*: `(\w+(?:::\w+)?)`$")
# What a file takes from another file of a `specs/` folder: the crate, the path to the file, and the names.
TAKEN = re.compile(r"^use Rattle\.(\w+)\.specs\.([\w.]+)\.\{([^}]*)\}", re.M)
QUOTED = re.compile(r"`([^`\s]+)`(?: of `([\w:]+)`)?")
# What a file takes from a folder `seen` or `lemmas`.
INNER = re.compile(r"^ *(?:ghost )?(?:pub )?use Rattle\.(\w+)\.specs\.((?:\w+\.)*(?:seen|lemmas)\.(?!declared)[\w.]+)\.\{([^}]*)\}", re.M)
# A walk, and what its `next` promises.
WALK = re.compile(r"^impl.* Iterator for ")
GHOST = re.compile(r"    ghost \w+ = \{")
# The first line of a public function; in a public trait, of any function.
PUBLIC = re.compile(r'( *)pub (?:const |unsafe |extern "C" )*fn ')
IN_TRAIT = re.compile(r"(    )(?:final )?fn ")
WORD = re.compile(r"[^\s(){}\[\],;λ.]+")
# What the tables are about.
TABLES = {found[1] for found in map(HEADING.match, PAGE.read_text().splitlines()) if found}


def specs(crate):
    crate, _, part = crate.partition("::")
    return ROOT / "crates" / crate / "specs" / part


def definitions(path):
    """The names of the public definitions of a file."""
    return [one or other for one, other in DEFINITION.findall(path.read_text())]


def taken(path):
    """The crate and the name of each definition of the repository that a file takes from another one."""
    for crate, place, names in TAKEN.findall(path.read_text()):
        source = specs(crate) / (place.replace(".", "/") + ".antt")
        part = f"{crate}::{place.split('.')[0]}"
        if source.exists():
            wanted = {name.split(" as ")[0] for name in re.split(r",\s*", names)}
            table = part if part in TABLES else crate
            yield from ((table, name) for name in definitions(source) if name in wanted)


def rows():
    """The crate of each row of the page, and its cell of names."""
    crate = None
    for line in PAGE.read_text().splitlines():
        heading = HEADING.match(line)
        if line.startswith("#"):
            crate = heading.group(1) if heading else None
        elif crate and line.startswith("| ") and not line.startswith("| In words"):
            yield crate, line.split(" | ")[1]


def places():
    """The crate of the table, the name, and the file in which the page says that the name stands."""
    last = {}
    for crate, cell in rows():
        waiting = []
        for quoted, elsewhere in QUOTED.findall(cell):
            if not quoted.endswith(".antt"):
                waiting.append(quoted)
                continue
            last[crate] = specs(elsewhere or crate) / quoted
            yield from ((crate, name, last[crate]) for name in waiting)
            waiting = []
        yield from ((crate, name, last[crate]) for name in waiting)


def public_contracts(path):
    """The text of each public function of a source, up to its body, and what each walk's `next` promises."""
    contract, indent, in_trait, in_walk = None, "", False, False
    for line in path.read_text().splitlines():
        in_trait = line.startswith("pub trait ") or (in_trait and line != "}")
        in_walk = bool(WALK.match(line)) or (in_walk and line != "}")
        if in_walk and GHOST.match(line):
            yield line
        begins = PUBLIC.match(line) or (in_trait and IN_TRAIT.match(line))
        if begins and contract is None:
            contract, indent = [], begins[1]
        if contract is None:
            continue
        contract.append(line)
        if line in (indent + "{", indent + "{}") or line.endswith((" {", " {}", "};")) and line.startswith((indent + "p", indent + "f", indent + ")", indent + "    ensures")):
            yield "\n".join(contract)
            contract = None


def inner(path, text):
    """The file and the name of each definition of a folder `seen` or `lemmas` that a text of this file uses, taken or its own."""
    words = set(WORD.findall(text))
    for crate, place, names in INNER.findall(path.read_text()):
        for name, _, here in (one.partition(" as ") for one in re.split(r",\s*", names)):
            if (here or name) in words:
                yield specs(crate) / (place.replace(".", "/") + ".antt"), name
    if path.parent.name in ("seen", "lemmas"):
        yield from ((path, name) for name in definitions(path) if name in words)


def text_of(path, name):
    """The text of a definition."""
    begins = re.search(rf"^ *(?:\w+ )*pub (?:\w+ )*{re.escape(name)}[ ({{:]", path.read_text(), re.M)
    return path.read_text()[begins.start():].split("\n\n")[0] if begins else ""


def believed(crate):
    """What the public contracts of a crate and its definitions outside of folders `seen` and `lemmas` use of these folders, and what that uses."""
    outer = [path for path in crate.glob("specs/**/*.antt") if not {"seen", "lemmas"} & set(path.parts)]
    new = {found for path in outer for found in inner(path, path.read_text())}
    new |= {found for path in crate.glob("src/**/*.rt") for text in public_contracts(path) for found in inner(path, text)}
    seen = set()
    while new:
        path, name = new.pop()
        seen.add((path, name))
        if path.exists():
            new |= set(inner(path, text_of(path, name))) - seen
    return seen


def main():
    faults = []
    named = set()
    for crate, name, path in places():
        named.add((crate, name))
        where = path.relative_to(ROOT)
        if not path.exists():
            faults.append(f"DEFINITIONS.md: there is no file {where}")
        elif name not in definitions(path) + CASE.findall(path.read_text()):
            faults.append(f"DEFINITIONS.md: {where} doesn't define {name}")
    for crate in sorted({crate for crate, _ in rows()}):
        for path in sorted(specs(crate).glob("*.antt")):
            for name in definitions(path) + CASE.findall(path.read_text()):
                if (crate, name) not in named:
                    faults.append(f"{path.relative_to(ROOT)}: {name} isn't in the tables of {crate}")
            for used in taken(path):
                if used not in named:
                    faults.append(f"{path.relative_to(ROOT)}: {used[1]} of {used[0]}, which it uses, isn't on the page")
    for folder in sorted(ROOT.glob("crates/*/specs")):
        crate = folder.parent.name
        if crate.endswith("_tests") or crate == "callers":
            continue
        parts = [f"{crate}::{part.name}" for part in folder.iterdir() if part.is_dir() and part.name not in ("seen", "lemmas")]
        for path, name in sorted(believed(folder.parent)):
            if (path.relative_to(ROOT / "crates").parts[0], name) not in named:
                faults.append(f"{path.relative_to(ROOT)}: {name}, which the public contracts of {crate} use, isn't on the page")
        own = [crate] if any(definitions(path) for path in folder.glob("*.antt")) else []
        for about in sorted({*own, *parts} - TABLES):
            faults.append(f"{folder.relative_to(ROOT)}: no table of DEFINITIONS.md is about {about}")
    for fault in faults:
        print(fault)
    sys.exit(1 if faults else 0)


if __name__ == "__main__":
    main()
