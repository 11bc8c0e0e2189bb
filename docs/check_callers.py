#!/usr/bin/env python3
"""Sees that the callers on the pages stand word for word in the crate `callers`.

    python3 docs/check_callers.py

Each block of Rattle or antt on a page of `docs/` or on the page of a crate has to be a whole file of `crates/callers`, and each file there but its
root has to be on a page. A block of `LIBRARY.md` has to be lines of such a file that follow one another. It prints what isn't, and ends with the status 1 where
it printed anything.
"""
import pathlib
import re
import sys

ROOT = pathlib.Path(__file__).resolve().parent.parent
CALLERS = ROOT / "crates" / "callers"
LIBRARY = ROOT / "docs" / "LIBRARY.md"
PAGES = [ROOT / "README.md", *sorted(ROOT.glob("docs/*.md")), *sorted(ROOT.glob("crates/*/CALLING.md"))]
# A block, whatever else its first line says, even where it is indented.
BLOCK = re.compile(r"^ *```+ *(?:rust|rs|rt|rattle|antt)\b[^\n]*\n(.*?)^ *```+ *$", re.M | re.S | re.I)
NOT_PRINTED = {"lib.rt", "Lib.antt"}


def main():
    files = [path for folder in ("src", "specs") for path in sorted((CALLERS / folder).rglob("*.*t")) if path.name not in NOT_PRINTED]
    texts = {path: path.read_text() for path in files}
    blocks = [(page, block) for page in PAGES for block in BLOCK.findall(page.read_text())]
    faults = []
    for page, block in blocks:
        is_part = page == LIBRARY and any(f"\n{block}" in f"\n{text}" for text in texts.values())
        if block not in texts.values() and not is_part:
            first = block.splitlines()[0] if block else "an empty one"
            faults.append(f"{page.relative_to(ROOT)}: no file of callers is this block: {first}")
    printed = {block for _, block in blocks}
    faults += [f"{path.relative_to(ROOT)}: on no page" for path, text in texts.items() if text not in printed]
    for fault in faults:
        print(fault)
    sys.exit(1 if faults else 0)


if __name__ == "__main__":
    main()
