"""The rows of `chunkplan`: documents, each with the lines or the error that the program has to answer.

A file of `crates/chunkplan/rows` has rows of one subject. Each line of it is a JSON object with these members:

    note      what the row shows; absent: the same as the row before it
    document  the document that is asked for
    keys      the lines behind the document, as a list, if there are any
    text      in place of these two: the whole input, if its spaces or bytes matter. A byte that isn't UTF-8 is
              written as `\\udc..`, as Python's `surrogateescape` does
    lines     the lines that are printed, as objects. The program prints them compactly, with sorted members
    error     in place of `lines`: the text behind `chunkplan: ` on standard error. The status is 1, and nothing is printed

The lines of a resize may come in any order. They are listed here by chunk, without `number` and `of`.
"""
import json
import re
import sys

from built import CRATES
from runs import difference, run

FOLDER = CRATES / "chunkplan" / "rows"
# Either, and one of the answers.
ASKED, ANSWERED = [{"document"}, {"document", "keys"}, {"text"}], [{"lines"}, {"error"}]


class Row:
    """A document, and what the program has to answer."""

    def __init__(self, place, note, members):
        if members.keys() not in [asked | answered for asked in ASKED for answered in ANSWERED]:
            sys.exit(f"{place} has the members {', '.join(sorted(members))}")
        self.place, self.note = place, note
        self.document, self.lines, self.error = (members.get(name) for name in ("document", "lines", "error"))
        self.given = input_of(members)

    def fault(self, build):
        """How the answer of a build differs, or None."""
        if self.document is not None and "resize" in self.document and self.error is None:
            return fault_of_changes(build, self.given, self.lines)
        found = run(build, self.given)
        expected = (0, text_of(self.lines).encode(), b"") if self.error is None else error_of(self.error)
        return None if found == expected else difference(found, expected)


def input_of(members):
    """The bytes that the program reads."""
    if "text" in members:
        return members["text"].encode(errors="surrogateescape")
    keys = "".join(f"\n{key}" for key in [*members["keys"], ""]) if "keys" in members else ""
    return (json.dumps(members["document"]) + keys).encode()


def error_of(text):
    """How a run ends that is refused with a text."""
    return 1, b"", f"chunkplan: {text}\n".encode()


def text(value):
    """A value as the program prints it: no character in it breaks the line for some reader."""
    printed = json.dumps(value, separators=(",", ":"), ensure_ascii=False, sort_keys=True)
    return re.sub("[\x7f-\x9f\u2028\u2029]", lambda found: f"\\u{ord(found[0]):04x}", printed)


def text_of(lines):
    return "".join(text(line) + "\n" for line in lines)


def rows_of(path):
    """The rows of a file, in order."""
    note = None
    for number, line in enumerate(path.read_text().splitlines(), 1):
        place = f"{path.name}:{number}"
        members = json.loads(line)
        note = members.pop("note", note)
        if note is None:
            sys.exit(f"{place} has no note")
        yield Row(place, note, members)


def all_rows(*subjects):
    """All rows, or those of some subjects."""
    paths = sorted(FOLDER.glob("*.jsonl")) if not subjects else [FOLDER / f"{subject}.jsonl" for subject in subjects]
    return [row for path in paths for row in rows_of(path)]


def fault_of_changes(build, given, expected):
    """How the plan of a resize differs from these changes by chunk, or None. Its lines may come in any order, and are
    numbered as they come."""
    status, lines, told = run(build, given)
    if (status, told) != (0, b""):
        return f"status {status}, {told[:300]}"
    lines = lines.decode().splitlines(keepends=True)
    found = [json.loads(line) for line in lines]
    if [text(line) + "\n" for line in found] != lines:
        return "the lines aren't compact JSON with the members by name"
    if [(line.pop("number"), line.pop("of")) for line in found] != [(number, len(lines)) for number in range(len(lines))]:
        return "the lines aren't numbered as they come"
    if sorted(found, key=lambda line: line["chunk"]) != expected:
        return f"other changes: {found}\nexpected {expected}"
    return None
