#!/usr/bin/env python3
"""Sees that the vectors ask every call of every kind of grid at the ends of numbers, along a size of 0, without
dimensions, and with a list of a wrong length, and that the answer is one of the call's; and so of a chunk's shape, which
takes the place of grid and shape where bytes are asked for. The calls are those of
`tools/call_names.py`, which it compares with those that the sources of `zarrs_chunk_questions` tell apart. It prints
each call that is missing somewhere, and then ends with the status 1.
"""
import json
import pathlib
import re
import sys

sys.path.insert(0, str(pathlib.Path(__file__).resolve().parent.parent / "tools"))
from built import CRATES, vectors  # noqa: E402
from call_names import CALLS, OF_BOX, OF_BYTES, OF_CHUNK, OF_INDEX, OF_NOTHING, OF_RECTILINEAR, OF_RESIZE, OF_TASKS, WALKS  # noqa: E402
from extensions import GRIDS  # noqa: E402

OF_A_LIST = OF_CHUNK + OF_INDEX
OF_LISTS = OF_BOX + OF_TASKS
# From this number on, twice a number is past the greatest.
GREAT = 2**63
ENDS, ZERO, NONE = "at the ends of numbers", "along a size of 0", "without dimensions"
LENGTH = "with a list of a wrong length"
OF_LENGTH = ("refused: incompatible dimensionality", "refused: the region: incompatible dimensionality", "false", "refused: field `resize`: ")


def is_great(value):
    if isinstance(value, list):
        return any(map(is_great, value))
    return isinstance(value, int) and value >= GREAT


def is_list_of_lists(value):
    return isinstance(value, list) and all(isinstance(item, list) for item in value)


def has_a_wrong_length(call, of, shape):
    lists = of if call in OF_LISTS + OF_BYTES else [of]
    return is_list_of_lists(lists) and len(lists) > 0 and all(len(numbers) != len(shape) for numbers in lists)


def calls_of_sources():
    """The names of the calls, as the source tells them apart."""
    source = CRATES / "zarrs_chunk_questions" / "src" / "call.rt"
    return re.findall(r'^ +"(\w+)" =>', source.read_text(), re.MULTILINE)


def questions():
    """Each question to a grid, or of a chunk's shape, with its answer."""
    for line, answer in vectors():
        try:
            question = json.loads(line)
        except ValueError:
            continue
        if not isinstance(question, dict):
            continue
        is_of_grid = isinstance(question.get("chunk_grid"), dict) and isinstance(question.get("shape"), list)
        if is_of_grid or question.get("call") in OF_BYTES and isinstance(question.get("chunk_shape"), list):
            yield question, answer


def points(question, answer):
    """Where a question asks its call, if the answer is one of the call's."""
    call = question.get("call")
    shape = question["chunk_shape" if call in OF_BYTES else "shape"]
    of = question.get("subset" if call in OF_TASKS else "resize" if call in OF_RESIZE else "of")
    if has_a_wrong_length(call, of, shape) and answer.startswith(OF_LENGTH):
        yield LENGTH
    if answer.startswith(("refused: ", "unreadable: ")):
        return
    if is_great(shape) or is_great(of):
        yield ENDS
    if 0 in shape:
        yield ZERO
    if not shape:
        yield NONE


def wanted():
    for grid in GRIDS:
        for call in [*OF_NOTHING, *WALKS, *OF_A_LIST, *OF_LISTS, *OF_RESIZE, "runs"]:
            if call in OF_RECTILINEAR and grid != "rectilinear":
                continue
            yield from ((grid, call, point) for point in (ENDS, ZERO, NONE))
            if call in OF_A_LIST + OF_LISTS + OF_RESIZE:
                yield grid, call, LENGTH
    yield from ((None, call, point) for call in OF_BYTES for point in (ENDS, ZERO, NONE, LENGTH))


def main():
    asked = set()
    for question, answer in questions():
        call = str(question.get("call"))
        grid = None if call in OF_BYTES else question["chunk_grid"].get("name")
        asked.update((grid, call, point) for point in points(question, answer))
    unknown = set(calls_of_sources()) ^ set(CALLS)
    missing = [row for row in wanted() if row not in asked]
    for grid, call, point in missing:
        print(f"no vector asks `{call}`{f' of a {grid} grid' if grid else ''} {point}")
    for call in sorted(unknown):
        where = "the sources" if call in CALLS else "tools/call_names.py"
        print(f"the call `{call}` isn't in {where}")
    sys.exit(1 if missing or unknown else 0)


if __name__ == "__main__":
    main()
