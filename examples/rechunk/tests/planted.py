#!/usr/bin/env python3
"""Plants mistakes in copies of these scripts, one at a time: the tests have to fail on each.

    planted.py CHUNKPLAN [WORD]

With WORD only the mistakes are planted that have it in what is wrong or in the test. It takes some minutes. It ends with the
status 1 where the tests accept a mistake.
"""
import pathlib
import shutil
import subprocess
import sys
import tempfile

TOOLS = pathlib.Path(__file__).resolve().parent.parent

PLANTED = [
    # what is wrong, the edits of files that make it so, and the test that has to fail
    (
        "a chunk stands under its key before it is written",
        [
            ("copy_chunks.py", 'with open(unfinished, "xb") as file:', 'with open(path, "wb") as file:'),
            ("copy_chunks.py", "            unfinished.rename(path)\n", ""),
        ],
        "faults.py full_disk",
    ),
    (
        "a number is said to be done before its chunk is in its place",
        [
            ("copy_chunks.py", "            record.add(task, mark_of(task, source, target, sources.seen, identities))\n", ""),
            ("copy_chunks.py", "            for to, chunk in filled(", "            record.add(task, None)\n            for to, chunk in filled("),
        ],
        "faults.py full_disk",
    ),
    ("the check of numbers always passes", [("check_done.py", "    if len(numbers) < count:", "    if False:")], "moves.py worker"),
    (
        "a planner's end is told by nothing",
        [("check_done.py", "    if len(numbers) < count:", "    if False:"), ("engines/share.sh", "set -euo pipefail", "set -eu")],
        "faults.py planner",
    ),
    (
        "a worker's end is told by nothing",
        [("check_done.py", "    if len(numbers) < count:", "    if False:"), ("engines/xargs_shares.sh", "|| status=$?", "|| true")],
        "faults.py cut_source",
    ),
    (
        "what was done is passed over though it isn't stored",
        [("copy_chunks.py", "        return mark == mark_of(task, self.source, self.target, read, written)\n", "        return True\n")],
        "moves.py worker",
    ),
    ("what is unfinished is left", [("copy_chunks.py", "            unfinished.unlink(missing_ok=True)\n", "")], "moves.py worker"),
    ("a line's boxes are taken as they are", [("copy_chunks.py", "self.check(box[0] == index", "self.check(box")], "moves.py lines"),
    ("a box that is left out isn't missed", [("copy_chunks.py", "count == math.prod(self.buffer)", "count <= math.prod(self.buffer)")], "moves.py lines"),
    ("a task isn't that of its number", [("copy_chunks.py", "is_numbered and box ==", "box ==")], "two_stages.py lines"),
    ("a key is taken as it is", [("copy_chunks.py", 'named["key"] == array.key(numbers)', 'named["key"] != ""')], "moves.py lines"),
    ("the order F is forgotten", [("stored_arrays.py", 'if metadata["order"] == "C" else dimensions[::-1]', "")], "moves.py kinds"),
    (
        "a byte order is forgotten",
        [("stored_arrays.py", "        dtype = dtype.newbyteorder(endian)\n", "        pass\n")],
        "moves.py by_hand",
    ),
    (
        "a fill value of the source is forgotten",
        [("stored_arrays.py", "numpy.array(self.fill, self.dtype)", "numpy.zeros((), self.dtype)")],
        "moves.py kinds",
    ),
    (
        "orders are put together the wrong way",
        [("stored_arrays.py", "[permutation[dimension] for dimension in order]", "[order[dimension] for dimension in permutation]")],
        "moves.py kinds",
    ),
    (
        "the length of a chunk isn't looked at",
        [
            ("stored_arrays.py", "if elements.nbytes != expected:", "if elements.nbytes < expected:"),
            ("stored_arrays.py", "elements.view(self.dtype)", "elements[:expected].view(self.dtype)"),
        ],
        "moves.py broken_sources",
    ),
    ("a filter is forgotten", [("stored_arrays.py", '*(metadata["filters"] or [])', "*[]")], "moves.py kinds"),
    ("another data type is moved", [("stored_arrays.py", "source.dtype.newbyteorder", "target.dtype.newbyteorder")], "moves.py metadata"),
    ("verify sees only elements all of whose bytes differ", [("verify.py", ".any(axis=1)", ".all(axis=1)")], "moves.py worker"),
    ("`whole` is taken as it is", [("copy_chunks.py", 'self.check(to["whole"] is has_all', 'self.check(to["whole"] is not None')], "moves.py lines"),
    (
        "what a chunk holds beside a region is lost",
        [("copy_chunks.py", '        chunk[...] = target.read(to["chunk"])\n', "        chunk[...] = 0\n")],
        "regions.py copies",
    ),
    (
        "a chunk that a crash may lose takes the place of what it keeps",
        [("copy_chunks.py", 'not to["whole"] and not words.no_sync', 'to["shared"] and not words.no_sync')],
        "regions.py faults",
    ),
    ("a region's chunks are counted from the array's first", [("region.py", " + step - first", " + step")], "regions.py copies"),
    (
        "elements that left stay in a chunk at the border",
        [("resize_array.py", "    chunk[kept] = elements[kept]\n", "    chunk[...] = elements\n")],
        "resizes.py resizes",
    ),
    (
        "a chunk that is new keeps what was there",
        [("resize_array.py", "    else:  # what an earlier", '    elif line["what"] == "delete":  # what an earlier')],
        "resizes.py faults",
    ),
    ("an array only shrinks", [("resize_array.py", "if step[0] != step[1]]", "if step[0] != step[1]][:1]")], "resizes.py resizes"),
    (
        "a resize begins before it is known that it can",
        [("resize_array.py", "        check(line, array)\n    store, done", "        pass\n    store, done")],
        "resizes.py faults",
    ),
    ("a source that is gone has the fill value", [("stored_arrays.py", "            self.check_is_there()\n", "")], "lost.py in_mid_run"),
    (
        "a source under other keys has the fill value",
        [("document_of.py", "    source.check_keys()\n", ""), ("copy_chunks.py", "    source.check_keys()\n", "")],
        "lost.py other_keys",
    ),
    (
        "a chunk without a byte is stored",
        [("stored_arrays.py", "if status.st_size > 0 else None", "if status.st_size >= 0 else None")],
        "lost.py missing_chunks",
    ),
    (
        "a link out of the array's folder is followed",
        [("stored_arrays.py", "if not path.resolve().is_relative_to", "if False and path.is_relative_to")],
        "lost.py odd_files",
    ),
    ("a chunk's file is read whatever its length", [("stored_arrays.py", "if status.st_size > self.most():", "if False:")], "lost.py odd_files"),
    ("a fault's text steers the terminal", [("stored_arrays.py", "if sign.isprintable()", "if sign")], "lost.py hostile_texts"),
    ("the memory that a chunk asks for isn't looked at", [("stored_arrays.py", "if self.size(stored) > most:", "if False:")], "lost.py bombs"),
    (
        "a chunk is decoded to its end",
        [
            ("stored_arrays.py", "rest, most + 1 - len(decoded))", "rest)"),
            ("stored_arrays.py", "            if len(decoded) > most:", "            if False:"),
        ],
        "lost.py bombs",
    ),
    ("what was done of another source stays done", [("finished.sh", '"$(cat "$finished")" != "$mark" ]', "no = yes ]")], "lost.py finished_rooms"),
    (
        "a source may change while an engine runs",
        [("finished.sh", 'if [ "$(fingerprint)" != "$mark" ]; then', "if false; then")],
        "lost.py changed_in_run",
    ),
    (
        "a line stays done whatever it would read",
        [("copy_chunks.py", "        return mark == mark_of(task, self.source, self.target, read, written)\n", "        return None not in written\n")],
        "lost.py done_files",
    ),
    (
        "a line stays done though its chunks of the source are others",
        [("copy_chunks.py", "source.written, target.written, read, written]", "source.written, target.written, written]")],
        "cut.py runs",
    ),
    (
        "a line stays done under other metadata",
        [("copy_chunks.py", "source.written, target.written, read, written]", "read, written]")],
        "lost.py done_files",
    ),
    (
        "the page's commands forget that the worker failed",
        [("README.md", " &&\n    ./check_done.py TARGET DONE\n", "\n    ./check_done.py TARGET DONE\n")],
        "lost.py done_files",
    ),
    ("nothing is compared behind a run by keys", [("README.md", " && ./verify.py SOURCE TARGET\n", "\n")], "lost.py by_keys"),
    (
        "a file's name that is two lines hides a chunk",
        [("../../crates/chunkplan/CALLING.md", r"-size +0 -printf '%P\0' | tr '\n\0' '\0\n'", "-size +0 | cut -c 3-")],
        "lost.py keys_of_page",
    ),
    ("a few bytes take a dictionary of gigabytes", [("stored_arrays.py", "(form, memlimit=room)", "(form)")], "lost.py dictionaries"),
    (
        "all chunks of an array are held at once",
        [("region.py", "return (self.chunk_at(", "return list(self.chunk_at(")],
        "lost.py many_chunks",
    ),
    (
        "two stages are done though the target was changed",
        [("two_stages.sh", '"$PYTHON" "$tools/fingerprint.py" "$target" | cmp -s - "$room/left" &&\n', "\n")],
        "two_stages.py script",
    ),
    (
        "a chunk that was lost between two stages has the fill value",
        [("two_stages.sh", '"$target" --missing-is-an-error', '"$target"')],
        "two_stages.py script",
    ),
    (
        "a chunk that is rewritten is away for a moment",
        [("resize_array.py", "    store.put(line[", "    array.path(line[\"chunk\"]).unlink()\n    store.put(line[")],
        "cut.py resizes",
    ),
    (
        "what other lines gave a chunk is lost",
        [("copy_chunks.py", '        chunk[...] = target.read(to["chunk"])\n', "        chunk[...] = 0\n")],
        "by_source.py kinds",
    ),
    (
        "a chunk that this run wrote is taken for another program's",
        [("copy_chunks.py", 'if to["key"] not in self.became:', "if True:")],
        "by_source.py worker",
    ),
    (
        "a chunk that another program wrote is passed over",
        [("copy_chunks.py", 'is_left = identity in self.left.get(to["key"], [])', "is_left = identity is not None")],
        "by_source.py made_anew",
    ),
    (
        "a chunk as it was before some lines is passed over",
        [("copy_chunks.py", "                if identity in left[key]:", "                if False:")],
        "by_source.py made_anew",
    ),
    (
        "two runs that weren't one stand in a file",
        [("copy_chunks.py", "words.done != words.resume and any(lines_in(words.done))", "False")],
        "by_source.py made_anew",
    ),
    ("several workers may change one chunk", [("copy_chunks.py", "    if shared and not words.alone:", "    if False:")], "by_source.py worker"),
    ("two workers are alone", [("copy_chunks.py", "    if words.alone:\n", "    if False:\n")], "by_source.py worker"),
    (
        "`whole` of a piece is taken as it is",
        [("copy_chunks.py", 'self.check(to["whole"] is has_all', 'self.check(to["whole"] is not None')],
        "by_source.py lines",
    ),
    ("a piece that is left out isn't missed", [("copy_chunks.py", "count == math.prod(self.buffer)", "count <= math.prod(self.buffer)")], "by_source.py lines"),
    ("a line of the other order is taken", [("copy_chunks.py", "source if by_source else target, by_source", "target, False")], "by_source.py lines"),
    (
        "the keys of a stage are those of the target",
        [("document_of.py", "open_array(words.keys).folder if words.keys else target.folder", "target.folder")],
        "two_stages.py by_keys",
    ),
    ("both stages are the second one", [("two_stages.sh", '--stage "$1"', "--stage 2")], "two_stages.py script"),
    ("the intermediate array is left", [("two_stages.sh", 'rm -rf "$intermediate" ', "rm -rf ")], "two_stages.py script"),
    (
        "what was done under another bound is passed over",
        [("two_stages.sh", "&& ! cmp -s", "&& false && ! cmp -s")],
        "two_stages.py script",
    ),
    (
        "another intermediate array is taken",
        [("make_intermediate.py", "if json.loads(path.read_text()) != metadata:", "if False:")],
        "two_stages.py script",
    ),
    (
        "the intermediate array has another fill value",
        [("make_intermediate.py", "if source.fill is None else", "if True else")],
        "two_stages.py chosen",
    ),
    (
        "a worker keeps a chunk that it read",
        [("copy_chunks.py", "while self.size > self.most:", "while self.size - elements.nbytes - self.BESIDE > self.most:")],
        "two_stages.py memory",
    ),
    (
        "a chunk is held while the next line is done",
        [("copy_chunks.py", "            del chunk  # before the next line takes memory\n", "")],
        "two_stages.py memory",
    ),
    ("the cache has no bound", [("copy_chunks.py", "while self.size > self.most:", "while False:")], "moves.py worker"),
]


def planted(folder, edits):
    """A copy of the scripts, and of the page that they name, with some edits, each of which has to be one."""
    shutil.copytree(TOOLS, folder, ignore=shutil.ignore_patterns("__pycache__"))
    page = pathlib.Path("..", "..", "crates", "chunkplan", "CALLING.md")
    (folder / page).parent.mkdir(parents=True)
    shutil.copy(TOOLS / page, folder / page)
    for name, old, new in edits:
        text = (folder / name).read_text()
        assert text.count(old) == 1, f"{old!r} stands {text.count(old)} times in {name}"
        (folder / name).write_text(text.replace(old, new))


def main():
    accepted, word = 0, (sys.argv[2:] or [""])[0]
    chosen = [row for row in PLANTED if word in row[0] or word in row[2]]
    for what, edits, test in chosen:
        with tempfile.TemporaryDirectory() as room:
            copied = pathlib.Path(room, "examples", "rechunk")
            planted(copied, edits)
            script, part = test.split()
            words = ["--engines", "xargs_shares", "--rounds", "4", "--faults", part] if script == "faults.py" else ["--checks", part]
            words += ["--moves", "30"] if script == "cut.py" else []
            run = subprocess.run([sys.executable, copied / "tests" / script, sys.argv[1], *words], capture_output=True, text=True)
            told = [line for line in run.stdout.splitlines() if "WRONG" in line or "FAILED" in line]
            accepted += not told
            print(f"{'refused' if told else 'ACCEPTED'} by {test}: {what}", *told[:1], sep="\n    ", flush=True)
    print(f"{len(chosen)} mistakes, {accepted} accepted")
    sys.exit(bool(accepted))


main()
