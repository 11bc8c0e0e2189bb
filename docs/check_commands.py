#!/usr/bin/env python3
"""Sees that the first commands that `README.md` shows of a release stand on the release's own page, whose commands are tried.

    python3 docs/check_commands.py

It prints each command that isn't there, and then ends with the status 1.
"""
import pathlib
import re
import sys

ROOT = pathlib.Path(__file__).resolve().parent.parent


def main():
    page = (ROOT / "tools" / "release_files" / "README.md").read_text()
    tried = {command.strip() for command in re.findall(r"^```sh\n(.*?)^```", page, re.MULTILINE | re.DOTALL)}
    # The rows of the table whose last cell is a number of seconds.
    shown = re.findall(r"^\| .* \| `([^`]*)` \| [\d.]+ \|$", (ROOT / "README.md").read_text(), re.MULTILINE)
    faults = [f"README.md: the page of a release hasn't this command: {command}" for command in shown if command.replace("\\|", "|") not in tried]
    if not shown:
        faults.append("README.md: it shows no command of a release")
    print("\n".join(faults), end="\n" if faults else "")
    sys.exit(1 if faults else 0)


if __name__ == "__main__":
    main()
