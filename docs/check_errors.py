#!/usr/bin/env python3
"""Sees that `ERRORS.md` has each text that is told of something wrong, and no other.

    python3 docs/check_errors.py

The texts are those of `#[error(..)]`, and of the sentences that are printed or kept as constants, in the sources of the libraries and the programs; what stands in
braces there is `..` on the page, and those of questions have there what a line puts before them. The first cell of a row of the page is such a text. The script prints each text that the page hasn't, each row whose text no source
has, and each text with two rows, and ends with the status 1 where it printed any.
"""
import pathlib
import re
import sys

ROOT = pathlib.Path(__file__).resolve().parent.parent
PAGE = ROOT / "docs" / "ERRORS.md"
TEXT = r'"((?:[^"\\]|\\.)*)"'
PRINTED = [
    rf"#\[error\(\s*{TEXT}",
    rf"write(?:ln)?!\(\s*\w+,\s*{TEXT}",
    rf"write_str\(\s*{TEXT}",
    rf"const \w+: &(?:'static )?str\s*=\s*{TEXT}",
    rf"const \w+: &\[u8\]\s*=\s*b{TEXT}",
]
# What stands before them in a line of `chunkcalls`.
BEFORE = {"unreadable.rt": "unreadable: ", "line_fault.rt": "refused: "}
ROW = re.compile(r"^\| (`+) ?(.*?) ?\1 \|", re.M)


def sources():
    for path in sorted(ROOT.glob("crates/*/src/**/*.rt")):
        crate = path.relative_to(ROOT / "crates").parts[0]
        if not crate.endswith("_tests") and crate != "callers":
            yield path


def told():
    """Each text of a source that is a sentence, with its file."""
    for path in sources():
        for pattern in PRINTED:
            for text in re.findall(pattern, path.read_text()):
                text = BEFORE.get(path.name, "") + re.sub(r"\{[^{}]*\}", "..", text).removesuffix("\\n")
                if " " in text and re.search("[a-z]{2}", text):
                    yield text, path.relative_to(ROOT)


def main():
    page = [text for _, text in ROW.findall(PAGE.read_text())]
    texts = dict(told())
    faults = [f"{path}: `{text}` isn't in ERRORS.md" for text, path in texts.items() if text not in page]
    faults += [f"ERRORS.md: no source has `{text}`" for text in page if text not in texts]
    faults += [f"ERRORS.md: two rows have `{text}`" for text in sorted(set(page)) if page.count(text) > 1]
    if not texts:
        faults.append("no source has a text")
    for fault in faults:
        print(fault)
    sys.exit(1 if faults else 0)


if __name__ == "__main__":
    main()
