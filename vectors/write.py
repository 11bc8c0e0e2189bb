#!/usr/bin/env python3
"""Writes the vectors of this folder from the questions and answers of `chunkcalls`.

    python3 vectors/write.py            writes the files
    python3 vectors/write.py --check    compares them, and runs the example of README.md on them

The source is `crates/chunkcalls/stdin` and `stdout`, a question and an answer a line, which were written by hand and
which the program is tested by. Each question becomes one line of one file here, byte for byte, with two more members:
its answer, and what that rests on, which `basis.py` says. `--check` goes the other way: it takes question and answer
out of each vector, and compares them with the two files. It prints what differs, and then ends with the status 1.
"""
import collections
import json
import pathlib
import re
import subprocess
import sys

HERE = pathlib.Path(__file__).resolve().parent
sys.path[:0] = [str(HERE), str(HERE.parent / "tools")]
from basis import OWN, STANDARD, ZARRS, basis_of  # noqa: E402
from built import vectors as questions_and_answers  # noqa: E402

# The file of each call whose question is answered.
SUBJECTS = {
    "grids": ["dimensionality", "array_shape", "grid_shape"],
    "chunks": ["chunk_shape", "chunk_shape_u64", "chunk_origin", "subset"],
    "elements": ["chunk_indices", "chunk_element_indices", "locate"],
    "boxes": ["chunks_subset", "chunks_in_array_subset"],
    "bounds": ["chunk_indices_inbounds", "array_indices_inbounds"],
    "walks": ["iter_chunk_indices", "iter_chunk_subsets", "iter_chunk_indices_and_subsets"],
    "plans": ["parts", "tasks"],
    "counts": ["task_counts"],
    "resizes": ["changed_chunks"],
    "keys": ["encode", "decode"],
    "bytes": ["byte_ranges"],
    "metadata": ["configuration", "metadata"],
    "runs": ["runs", "chunk_indices_counted"],
}
FILES = [*SUBJECTS, "refused", "unreadable"]
# How a line of `stdout` begins that is no JSON, and the member that stands for it.
REASONS = {"refused: ": "refused", "unreadable: ": "unreadable"}
BASIS, BEHIND = ',"basis":', ',"answer":'


def members(line):
    """The question of a line, or nothing where the line is no JSON object."""
    try:
        question = json.loads(line)
    except ValueError:
        return None
    return question if isinstance(question, dict) else None


def answer_of(printed):
    """The answer as JSON."""
    for beginning, member in REASONS.items():
        if printed.startswith(beginning):
            return json.dumps({member: printed.removeprefix(beginning)}, separators=(",", ":"))
    answer = json.loads(printed)
    if isinstance(answer, dict) and not answer.keys().isdisjoint(REASONS.values()):
        sys.exit(f"an answer has the form of a refusal: {printed}")
    return printed


def printed_of(answer):
    """The line that `chunkcalls` prints of an answer."""
    found = json.loads(answer)
    for beginning, member in REASONS.items():
        if isinstance(found, dict) and found.keys() == {member}:
            return beginning + found[member]
    return answer


def file_of(question, answer):
    found = json.loads(answer)
    for member in REASONS.values():
        if isinstance(found, dict) and member in found:
            return member
    for subject, calls in SUBJECTS.items():
        if question["call"] in calls:
            return subject
    sys.exit(f"no file here is about the call `{question['call']}`: give it one in SUBJECTS")


def vector_of(line, question, answer, note):
    """A question and its answer as one object. A question without a note has that of the one before it."""
    if question is None:
        line = json.dumps({"note": "a line that is no JSON object", "line": line}, separators=(",", ":"))
    elif not question.keys().isdisjoint({"answer", "basis", "line"}):
        sys.exit(f"a question has a member that vectors have: {line}")
    elif "note" not in question:
        line = '{"note":' + json.dumps(note, ensure_ascii=False) + ("," if question else "") + line.lstrip()[1:]
    asks, answers = line.rstrip()[:-1], BEHIND + answer + "}"
    return asks + BASIS + json.dumps(basis_of(json.loads(asks + answers))) + answers


def vectors():
    """The text of each file."""
    texts = {name: [] for name in FILES}
    note = ""
    for line, printed in questions_and_answers():
        question, answer = members(line), answer_of(printed)
        note = (question or {}).get("note", note)
        texts[file_of(question, answer)].append(vector_of(line, question, answer, note))
    return {name: "".join(f"{vector}\n" for vector in texts[name]) for name in FILES}


def asked(vector):
    """The line that a vector asks, without its note, and the line that answers it."""
    before, answer = vector[:-1].rsplit(BEHIND, 1)
    question, basis = before.rsplit(BASIS, 1)
    found = json.loads(vector)
    if (json.dumps(json.loads(answer)), json.loads(basis)) != (json.dumps(found["answer"]), found["basis"]):
        sys.exit(f"basis and answer don't stand last: {vector}")
    line = found["line"] if "line" in found else without_note(question + "}")
    return line, printed_of(answer)


def without_note(line):
    return re.sub(r'^\{"note":"(?:[^"\\]|\\.)*",?', "{", line)


def written():
    """Each line of the files that there are."""
    for path in (HERE / f"{name}.jsonl" for name in FILES):
        yield from path.read_text().splitlines() if path.exists() else []


def differences():
    for name, text in vectors().items():
        path = HERE / f"{name}.jsonl"
        if not path.exists() or path.read_text() != text:
            yield f"vectors/{name}.jsonl isn't what vectors/write.py writes"
    for path in HERE.glob("*.jsonl"):
        if path.stem not in FILES:
            yield f"vectors/{path.name} is written by nothing"
    here = [asked(line) for line in written()]
    rows = questions_and_answers()
    there = [(line if members(line) is None else without_note(line), answer) for line, answer in rows]
    if sorted(here) != sorted(there):
        yield "the vectors and the files of chunkcalls don't say the same"


def faults_of_page():
    page = (HERE / "README.md").read_text()
    for name in FILES:
        if f"`{name}.jsonl`" not in page:
            yield f"vectors/README.md doesn't name {name}.jsonl"
    for call in sum(SUBJECTS.values(), []):
        if f"`{call}`" not in page:
            yield f"vectors/README.md doesn't name the call {call}"
    for line in re.findall(r"^```json\n(.*?)\n```$", page, re.M):
        if line not in written():
            yield f"vectors/README.md shows what is no vector: {line}"
    counts = collections.Counter(json.loads(line)["basis"] for line in written())
    for basis in (STANDARD, ZARRS, OWN):
        if f"| `{basis}` | {counts[basis]} |" not in page:
            yield f"vectors/README.md doesn't say that {counts[basis]} vectors have the basis {basis}"
    example = re.search(r"^```python\n(.*?)^```$", page, re.M | re.S).group(1)
    printed = re.search(r"^```text\n(.*?)^```$", page, re.M | re.S).group(1)
    if run(example) != (0, printed):
        yield f"the example of vectors/README.md: {run(example)}"
    # The example can find a difference, in an answer and in a refusal.
    for right, wrong in (("index // edge", "index // edge + 1"), ("return REFUSED", "return []")):
        turned = example.replace(right, wrong)
        if turned == example or ", 0 wrong" in run(turned)[1]:
            yield f"the example of vectors/README.md finds no wrong answer where it says {wrong}"


def run(program):
    command = [sys.executable, "-c", program]
    ended = subprocess.run(command, cwd=HERE.parent, stdout=subprocess.PIPE, stderr=subprocess.STDOUT, text=True)
    return ended.returncode, ended.stdout


def main():
    if sys.argv[1:] == ["--check"]:
        faults = [*differences(), *faults_of_page()]
        for fault in faults:
            print(fault)
        sys.exit(1 if faults else 0)
    for name, text in vectors().items():
        (HERE / f"{name}.jsonl").write_text(text)


if __name__ == "__main__":
    main()
