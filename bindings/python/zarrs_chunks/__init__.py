"""Zarr chunk grids and chunk keys, by the library of this repository: in which chunk of an array an element lies, and under which key that
chunk is stored. `Grid` and `Encoding` answer many questions at once, over numpy arrays.

    >>> import numpy as np
    >>> from zarrs_chunks import Encoding, Grid
    >>> grid = Grid([5, 7, 52], {"name": "regular", "configuration": {"chunk_shape": [1, 2, 3]}})
    >>> chunks, found = grid.chunk_indices(np.array([[3, 5, 50], [0, 0, 0]]))
    >>> chunks.tolist(), found.tolist()
    ([[3, 2, 16], [0, 0, 0]], [True, True])
    >>> Encoding("default").encode(chunks)
    ['c/3/2/16', 'c/0/0/0']

A grid and an encoding are made of metadata, or of a stored array by `Grid.of` and `Encoding.of`. `Grid.box` makes a box of elements of a selection,
as in `grid.parts(encoding, *grid.box(np.s_[3:6, ..., -1]))`. Calls whose argument is one chunk, one element or one box take one at a time. All other
calls take many at once.

Lists of numbers are arrays whose last axis has a number for each dimension; the other axes are the axes of the answer. Numbers are whole ones from 0
to 18446744073709551615: ints, numpy's integers, what has `__index__`, and arrays of any integer type. Floats are refused, and so are arrays of
truth values; an array without items may be of any type. Answers are `uint64`. An array that isn't `uint64`, contiguous and aligned is copied. Each
answer is a new array, so it overlaps nothing. `found` says which lists have an answer; for the others the numbers are 0.

A `Grid` and an `Encoding` keep copies of what they are made of, and never change, so any number of threads may ask them at once. An answer takes
as much memory as its numbers and keys.

The calls of one list and the walks answer in Python's own numbers, in tuples, and None if there is no answer. A walk is read page by page.

What the library refuses is raised as a ValueError with its own words. An argument of the wrong type raises a TypeError, and a wrong value a
ValueError; both say in which argument. Too little memory raises a MemoryError, after which all objects can be used as before.
"""

from ._answer import answer
from ._boxes import Box
from ._bytes import ByteRanges, byte_ranges
from ._changed import ChangedChunks
from ._encoding import Encoding
from ._grid import Counted, Grid, Located, Parts
from ._task_counts import TaskCounts
from ._tasks import Destination, Source, Task
from ._version import __version__

__all__ = [
    "Box", "ByteRanges", "ChangedChunks", "Counted", "Destination", "Encoding", "Grid", "Located", "Parts", "Source", "Task", "TaskCounts",
    "__version__", "answer", "byte_ranges",
]  # fmt: skip
