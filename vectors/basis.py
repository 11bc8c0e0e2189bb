"""What each vector rests on: the standard alone, zarrs where the standard is silent, or a choice of this library.

    python3 vectors/basis.py        prints how many vectors rest on what, by the reason

The reasons are in the table `REASONS`. A vector rests on the weakest of those that apply to it, and on the standard
where none does. The standard is the text that defines the extension: Zarr V3 core for `regular`, `default` and `v2`,
ZEP 3 for `rectangular`, zarr-extensions for `rectilinear`, and the extension's own page where `zarrs.` begins its name.
"""
import collections
import json
import pathlib
import re
import sys

HERE = pathlib.Path(__file__).resolve().parent
sys.path.insert(0, str(HERE.parent / "tools"))
from call_names import OF_BYTES, OF_CHUNK, OF_INDEX, OF_KEYS, OF_RECTILINEAR, OF_RESIZE, OF_TASKS, WALKS  # noqa: E402
from chunk_grids import Grid  # noqa: E402
from extensions import GREATEST  # noqa: E402

# From the weakest on.
OWN, ZARRS, STANDARD = "own", "zarrs", "standard"
# Calls that zarrs hasn't, so that nobody else refuses them.
NOT_IN_ZARRS = {"locate", "parts", *OF_TASKS, *OF_RESIZE, *OF_BYTES, "decode", *OF_RECTILINEAR}
# Refusals in the words of zarrs; docs/DIFFERENCES.md says which texts this library has made itself.
WORDS_OF_ZARRS = re.compile("incompatible dimensionality|(regular|`regular_bounded`) chunk shape and array shape have")
BOUNDS = {"chunk_indices_inbounds", "array_indices_inbounds"}


class Row:
    """A vector, and what its question is about."""

    def __init__(self, vector):
        self.vector, self.answer = vector, vector["answer"]
        self.call, self.of = vector.get("call"), vector.get("of")
        self.is_object = isinstance(self.answer, dict)
        self.is_refused = self.is_object and "refused" in self.answer
        self.is_unreadable = self.is_object and "unreadable" in self.answer
        is_of_grid = not (self.is_refused or self.is_unreadable) and self.call not in OF_KEYS + OF_BYTES
        self.grid = Grid(vector["chunk_grid"], vector["shape"]) if is_of_grid else None
        self.dimensions = self.grid.dimensions if is_of_grid else []

    def numbers(self):
        """The chunks, or the indices, that the question names: its list, or the first and the last one of its box."""
        if self.call in OF_CHUNK or self.call in OF_INDEX:
            return [self.of]
        if self.call in ("chunks_subset", "chunks_in_array_subset") and not self.is_of_empty_box():
            start, shape = self.of
            return [start, [s + n - 1 for s, n in zip(start, shape)]]
        return []

    def is_of_empty_box(self):
        return self.call in ("chunks_subset", "chunks_in_array_subset") and 0 in self.of[1]

    def is_of_indices(self):
        return self.call in OF_INDEX or self.call == "chunks_in_array_subset"

    def is_of_wrong_length(self):
        return any(len(numbers) != len(self.dimensions) for numbers in self.numbers())

    def is_outside(self):
        """A number is none of the array's elements, or of its counted chunks."""
        most = self.grid.shape if self.is_of_indices() else self.grid.grid_shape()
        return any(n >= size for numbers in self.numbers() for n, size in zip(numbers, most))

    def has_chunks_past_the_array(self):
        return any(d.listed and d.start(d.count - 1) >= d.size for d in self.dimensions)

    def names_such_a_chunk(self):
        """A chunk or an index past the array, along listed edges."""
        asked = [(d, n) for numbers in self.numbers() for d, n in zip(self.dimensions, numbers) if d.listed]
        return any((n if self.is_of_indices() else d.start(n)) >= d.size for d, n in asked)

    def is_past_the_greatest_number(self):
        """A chunk that is asked for begins there, or it has no box; or a walk over boxes passes over a chunk."""
        if self.call in WALKS:
            return self.call != "iter_chunk_indices" and any(d.with_a_box() != d.count for d in self.dimensions)
        if self.is_of_indices():
            return False
        asked = [(d, n) for numbers in self.numbers() for d, n in zip(self.dimensions, numbers)]
        has_no_box = self.answer is None and all(d.has(n) for d, n in asked)
        return has_no_box or any(not d.listed and n * d.first_edge() > GREATEST for d, n in asked)


# Each reason: what it makes a vector rest on, in words, and when it applies.
REASONS = [
    (OWN, "a line that `chunkcalls` can't read", lambda row: row.is_unreadable),
    (OWN, "a refusal in words of this library", lambda row: row.is_refused and not is_in_words_of_zarrs(row)),
    (OWN, "a refusal of a call that zarrs hasn't", lambda row: row.is_refused and row.call in NOT_IN_ZARRS),
    (OWN, "`runs` and `chunk_indices_counted`: one way to search", lambda row: row.call in OF_RECTILINEAR),
    (OWN, "`parts`: in which order they come, and their pages", lambda row: row.call == "parts"),
    (OWN, "`tasks`: in which groups, in which order they come, and their pages", lambda row: row.call == "tasks"),
    (OWN, "`task_counts`: which numbers, as factors, and the shares", lambda row: row.call == "task_counts"),
    (OWN, "resizes: which numbers tell of the chunks", lambda row: row.call in OF_RESIZE),
    (OWN, "`byte_ranges`: how the ranges are told, and where there are none", lambda row: row.call in OF_BYTES),
    (OWN, "`first`: a page of a walk", lambda row: "first" in row.vector),
    (OWN, "a chunk that begins or ends past the greatest number", lambda row: row.grid
     and row.is_past_the_greatest_number()),
    (OWN, "a key with a number past the greatest", lambda row: row.call == "decode" and has_a_greater_number(row)),
    (OWN, "chunks past the array along listed edges are counted", lambda row: row.has_chunks_past_the_array()
     and row.call != "array_indices_inbounds"
     and (row.call in WALKS or row.call in ("grid_shape", "chunk_indices_inbounds") or row.names_such_a_chunk())),
    (OWN, "an index in bounds of listed edges that may grow", lambda row: row.call == "array_indices_inbounds"
     and any(d.listed and d.size == 0 for d in row.dimensions)),
    (OWN, "a bounded dimension of size 0", lambda row: row.grid and row.grid.name == "zarrs.regular_bounded"
     and 0 in row.grid.shape and row.numbers() != [] and not row.is_of_wrong_length()),
    (OWN, "run-length elements in their shortest form", lambda row: row.call in ("configuration", "metadata")
     and any(d.listed for d in row.dimensions) and row.grid.name == "rectilinear"),
    (OWN, "metadata without what says nothing", lambda row: row.call == "metadata"
     and row.answer != row.vector["chunk_grid"]),
    (ZARRS, "a refusal in words of zarrs", lambda row: row.is_refused),
    (ZARRS, "walks: in which order they go", lambda row: row.call in WALKS),
    (ZARRS, "an empty box", lambda row: row.grid and row.is_of_empty_box()),
    (ZARRS, "in bounds: the wrong length, or along a size of 0", lambda row: row.call in BOUNDS and row.grid
     and (row.is_of_wrong_length() or 0 in row.grid.shape)),
    (ZARRS, "a chunk or an index outside the array", lambda row: row.grid and row.call not in BOUNDS
     and row.is_outside()),
]  # fmt: skip


def is_in_words_of_zarrs(row):
    return WORDS_OF_ZARRS.match(row.answer["refused"]) is not None


def has_a_greater_number(row):
    return any(int(digits) > GREATEST for digits in re.findall("[0-9]+", row.of))


def reason_of(vector):
    """What a vector rests on, and why."""
    row = Row(vector)
    found = next(((basis, why) for basis, why, applies in REASONS if applies(row)), None)
    return found or (STANDARD, "nothing but the standard")


def basis_of(vector):
    return reason_of(vector)[0]


def main():
    counts = collections.Counter()
    for path in sorted(HERE.glob("*.jsonl")):
        counts.update(reason_of(json.loads(line)) for line in path.read_text().splitlines())
    for basis in (STANDARD, ZARRS, OWN):
        print(f"{sum(count for (of, _), count in counts.items() if of == basis):5} {basis}")
        for (of, why), count in counts.items():
            if of == basis:
                print(f"      {count:5} {why}")


if __name__ == "__main__":
    main()
