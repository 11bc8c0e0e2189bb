#!/usr/bin/env python3
"""Sees that each call that a question may name stands once in the code, in the definitions, on the page and in the list of the scripts.

    python3 docs/check_calls.py

In the code it is a row of `Call::named`, in the definitions one of `specs/Calls.antt`, on the page of `chunkcalls` in the first cell of a row of the
table of calls, and in `tools/call_names.py` in `CALLS`. The script prints each name that one of these has not or twice, and ends with the status 1
where it printed any.
"""
import pathlib
import re
import sys

ROOT = pathlib.Path(__file__).resolve().parent.parent
sys.path.insert(0, str(ROOT / "tools"))
from call_names import CALLS  # noqa: E402

QUESTIONS = ROOT / "crates" / "zarrs_chunk_questions"


def between(text, begin, end):
    return text.split(begin, 1)[1].split(end, 1)[0]


def in_code():
    return re.findall(r'^ *"(\w+)" =>', (QUESTIONS / "src" / "call.rt").read_text(), re.M)


def in_definitions():
    return re.findall(r'^\w+_\w+ .* = codes "(\w+)"$', (QUESTIONS / "specs" / "Calls.antt").read_text(), re.M)


def on_page():
    page = (ROOT / "crates" / "chunkcalls" / "CALLING.md").read_text()
    rows = re.findall(r"^\| (.*?) \|", between(page, "| Calls | What they are asked of |", "\n\n"), re.M)
    return [name for row in rows for name in re.findall(r"`(\w+)`", row.split(", of ")[0])]


def main():
    places = {
        "call.rt": in_code(),
        "Calls.antt": in_definitions(),
        "the page of chunkcalls": on_page(),
        "call_names.py": CALLS,
    }
    faults = [
        f"{place}: {name} stands there {names.count(name)} times, and not once"
        for place, names in places.items()
        for name in sorted(set().union(*places.values()))
        if names.count(name) != 1
    ]
    for fault in faults:
        print(fault)
    sys.exit(1 if faults or not CALLS else 0)


if __name__ == "__main__":
    main()
