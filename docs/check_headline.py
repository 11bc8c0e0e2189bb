#!/usr/bin/env python3
"""Sees that the blocks of `HEADLINE.md` stand in the sources.

    python3 docs/check_headline.py

Each block stands word for word in the file that is named last before it; where it has a line `..`, the parts before and after that line stand there in
this order. It prints what doesn't, and ends with the status 1 where it printed anything.
"""
import pathlib
import re
import sys

ROOT = pathlib.Path(__file__).resolve().parent.parent
PAGE = ROOT / "docs" / "HEADLINE.md"
# What is named, and each block.
PARTS = re.compile(r"`(crates/[^`\s]+)`|^```text\n(.*?)^```$", re.M | re.S)


def faults():
    path = None
    blocks = 0
    for named, block in PARTS.findall(PAGE.read_text()):
        if named:
            path = ROOT / named
            continue
        blocks += 1
        if path is None or not path.exists():
            yield f"no file is named before: {block.splitlines()[0]}"
            continue
        # Each part is whole lines, behind those of the part before it.
        rest = "\n" + path.read_text()
        for part in re.split(r"^\.\.\n", block, flags=re.M):
            _, found, rest = rest.partition("\n" + part)
            rest = "\n" + rest
            if not found:
                yield f"{path.relative_to(ROOT)} hasn't in this place: {part.splitlines()[0]}"
                break
    if blocks == 0:
        yield "there is no block"


def main():
    found = list(faults())
    for fault in found:
        print(f"HEADLINE.md: {fault}")
    sys.exit(1 if found else 0)


if __name__ == "__main__":
    main()
