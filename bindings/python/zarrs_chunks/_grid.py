"""Chunk grids."""

from __future__ import annotations

import itertools
from collections.abc import Iterator, Mapping, Sequence
from typing import Any, NamedTuple, SupportsIndex

import numpy as np
import numpy.typing as npt

from . import _library, _questions
from ._answer import refuse
from ._boxes import Box, as_box, given_box, selected_box, slabs
from ._changed import ChangedChunks, changed_of
from ._encoding import Encoding, keys_between, usual_length
from ._metadata import Metadata
from ._numbers import GREATEST, Marks, Numbers, list_of_numbers, lists_of_numbers, whole_number
from ._prepared import PreparedGrid
from ._stored import Description, Stored
from ._task_counts import TaskCounts, counts_of
from ._tasks import Task, ends_of_share, given_chunks, given_order, given_share, groups_of, task_of

# How much a single answer of `parts` holds at most, which then takes some gigabytes of memory. It is this many numbers of each kind; each part
# counts as four numbers more.
_MOST_NUMBERS = 2**25
# The encoding of questions whose answer doesn't depend on it.
_ANY_ENCODING = b'"default"'


class Parts(NamedTuple):
    """Parts of the plan of reading a box of elements, each in a row of its own."""

    chunks: Numbers
    """The chunk of each part."""
    in_chunk: Numbers
    """The part's first element, counted from the chunk's."""
    in_selection: Numbers
    """The same, counted from the first element of the box."""
    shapes: Numbers
    """How many elements the part has along each dimension."""
    keys: list[str]
    """The key of each chunk."""
    in_all: int
    """How many parts the plan has in all, or 18446744073709551615 if it has more."""


class Located(NamedTuple):
    """The place where an element is stored."""

    chunk: tuple[int, ...]
    """The chunk that holds it."""
    element: tuple[int, ...]
    """Its place there, counted from the chunk's first element."""
    key: str
    """The chunk's key."""


class Counted(NamedTuple):
    """What a look-up finds, and what it takes."""

    chunk: tuple[int, ...] | None
    """The chunk, or None if there is no chunk."""
    comparisons: int
    """How many comparisons the look-up makes."""


class Grid:
    """A chunk grid: the chunks into which an array of this shape is cut. It never changes. Two are equal if made of the same shape and metadata.

    `shape` is a list of the array's sizes, in elements, and `chunk_grid` what the member `chunk_grid` of the array's `zarr.json` holds: an object
    as a `dict`, or a name alone.

    >>> Grid([100], {"name": "rectilinear", "configuration": {"kind": "inline", "chunk_shapes": [[[25, 4]]]}}).grid_shape
    (4,)
    >>> Grid([3, 3], {"name": "rectangular", "configuration": {"chunk_shape": [[1, 1], 3]}})
    Traceback (most recent call last):
    ValueError: rectangular chunk grid configuration: [[1, 1], 3] not compatible with array shape [3, 3]
    """

    def __init__(self, shape: npt.ArrayLike, chunk_grid: str | Mapping[str, Any]) -> None:
        self._shape = list_of_numbers("shape", shape)
        self._shape.flags.writeable = False
        self._dimensionality = self._shape.size
        self._metadata = Metadata("chunk_grid", chunk_grid)
        self._prepared = PreparedGrid(self._shape, self._metadata.text)
        self._grid_shape = tuple(self._prepared.grid_shape(self._shape.size).tolist())

    @classmethod
    def of(cls, array: Stored) -> Grid:
        """The grid of a stored array. `array` is the path of its folder with a `zarr.json` (format 3) or a `.zarray` (format 2), or an array of
        zarr-python 2. Raises FileNotFoundError if the folder has neither, and ValueError if its metadata aren't an array's.

        >>> import pathlib, tempfile
        >>> with tempfile.TemporaryDirectory() as folder:
        ...     _ = pathlib.Path(folder, ".zarray").write_text('{"zarr_format": 2, "shape": [5, 7], "chunks": [2, 3]}')
        ...     Grid.of(folder)
        Grid([5, 7], {'name': 'regular', 'configuration': {'chunk_shape': [2, 3]}})
        """
        described = Description(array)
        return cls(described.shape(), described.chunk_grid())

    def __repr__(self) -> str:
        return f"Grid({list(self.array_shape)}, {self.metadata!r})"

    def __eq__(self, other: object) -> bool:
        if not isinstance(other, Grid):
            return NotImplemented
        return self._identity() == other._identity()

    def __hash__(self) -> int:
        return hash(self._identity())

    def __reduce__(self) -> tuple[Any, ...]:
        return type(self), (self.array_shape, self.metadata)

    def _identity(self) -> tuple[tuple[int, ...], str]:
        return self.array_shape, self._metadata.canonical()

    @property
    def metadata(self) -> str | dict[str, Any]:
        """The `chunk_grid` that the grid was made of, as a new `dict` or the name alone.

        >>> Grid([5, 7], {"name": "regular", "configuration": {"chunk_shape": (2, 3)}}).metadata
        {'name': 'regular', 'configuration': {'chunk_shape': [2, 3]}}
        """
        value: str | dict[str, Any] = self._metadata.value()
        return value

    @property
    def name(self) -> str:
        """The name of the grid, as it was given.

        >>> Grid([5, 7], {"name": "regular", "configuration": {"chunk_shape": [2, 3]}}).name
        'regular'
        """
        return self._metadata.name()

    @property
    def configuration(self) -> dict[str, Any] | None:
        """The configuration, as it was given, as a new `dict`; None if there was none.

        >>> Grid([5, 7], {"name": "regular", "configuration": {"chunk_shape": [2, 3]}}).configuration
        {'chunk_shape': [2, 3]}
        """
        return self._metadata.configuration()

    @property
    def dimensionality(self) -> int:
        """The number of dimensions.

        >>> Grid([5, 7], {"name": "regular", "configuration": {"chunk_shape": [2, 3]}}).dimensionality
        2
        """
        return self._dimensionality

    @property
    def array_shape(self) -> tuple[int, ...]:
        """The sizes of the array, in elements.

        >>> Grid([5, 7], {"name": "regular", "configuration": {"chunk_shape": [2, 3]}}).array_shape
        (5, 7)
        """
        return tuple(self._shape.tolist())

    @property
    def grid_shape(self) -> tuple[int, ...]:
        """How many chunks are counted along each dimension.

        >>> Grid([5, 7], {"name": "regular", "configuration": {"chunk_shape": [2, 3]}}).grid_shape
        (3, 3)
        """
        return self._grid_shape

    def chunk_indices(self, indices: npt.ArrayLike) -> tuple[Numbers, Marks]:
        """The chunk that holds each element, and whether a chunk does.

        >>> grid = Grid([5, 7], {"name": "zarrs.regular_bounded", "configuration": {"chunk_shape": [2, 3]}})
        >>> chunks, found = grid.chunk_indices([[4, 6], [4, 7]])
        >>> chunks.tolist(), found.tolist()
        ([[2, 2], [0, 0]], [True, False])
        """
        return self._prepared.ask("zarrs_prepared_chunk_indices_of", 1, lists_of_numbers("indices", indices, self._dimensionality))

    def chunk_element_indices(self, indices: npt.ArrayLike) -> tuple[Numbers, Marks]:
        """The place of each element in the chunk that holds it, counted from the chunk's first element, and whether a chunk does.

        >>> grid = Grid([5, 7], {"name": "regular", "configuration": {"chunk_shape": [2, 3]}})
        >>> grid.chunk_element_indices([4, 5])[0].tolist()
        [0, 2]
        """
        _chunks, places, found = self.find_home(indices)
        return places, found

    def find_home(self, indices: npt.ArrayLike) -> tuple[Numbers, Numbers, Marks]:
        """The chunk that holds each element, the element's place there, and whether a chunk does.

        >>> grid = Grid([5, 7], {"name": "regular", "configuration": {"chunk_shape": [2, 3]}})
        >>> chunks, places, found = grid.find_home([[4, 5]])
        >>> chunks.tolist(), places.tolist(), found.tolist()
        ([[2, 1]], [[0, 2]], [True])
        """
        return self._prepared.ask("zarrs_prepared_homes_of", 2, lists_of_numbers("indices", indices, self._dimensionality))

    def subset(self, chunks: npt.ArrayLike) -> tuple[Numbers, Numbers, Marks]:
        """The box of each chunk, as its origin and its shape, and whether there is such a chunk that ends at 18446744073709551615 or before.

        >>> grid = Grid([5, 7], {"name": "zarrs.regular_bounded", "configuration": {"chunk_shape": [2, 3]}})
        >>> origins, shapes, found = grid.subset([[2, 2]])
        >>> origins.tolist(), shapes.tolist(), found.tolist()
        ([[4, 6]], [[1, 1]], [True])
        """
        return self._prepared.ask("zarrs_prepared_chunk_boxes_of", 2, lists_of_numbers("chunks", chunks, self._dimensionality))

    def chunks_in_array_subset(self, starts: npt.ArrayLike, shapes: npt.ArrayLike) -> tuple[Numbers, Numbers, Marks]:
        """The cover of each box of elements, which is given as its start and its shape. It is the first of the chunks that hold some of the elements,
        and how many of these chunks there are along each dimension. The marks say whether the first and the last element lie in chunks.

        >>> grid = Grid([6, 6], {"name": "regular", "configuration": {"chunk_shape": [4, 3]}})
        >>> first, counts, found = grid.chunks_in_array_subset([3, 2], [3, 2])
        >>> first.tolist(), counts.tolist(), bool(found)
        ([0, 0], [2, 2], True)
        """
        lists, counts = lists_of_numbers("starts", starts, self._dimensionality), lists_of_numbers("shapes", shapes, self._dimensionality)
        if lists.shape != counts.shape:
            raise ValueError(f"shapes: there are to be as many as starts, and the arrays' shapes are {counts.shape} and {lists.shape}")
        return self._prepared.ask("zarrs_prepared_covers_of", 2, lists, counts)

    def parts(
        self, encoding: Encoding, start: npt.ArrayLike, shape: npt.ArrayLike, first: SupportsIndex = 0, most: SupportsIndex | None = None
    ) -> Parts | None:
        """The plan of reading a box of elements, which is given as its start and its shape. It has the parts of the chunks that hold some of the
        elements, in row-major order of the chunks. The answer begins with the part with the number `first`, and has at most `most` parts. `None` if the
        first or the last element of the box lies in no chunk. Raises MemoryError if more parts are asked for than one answer holds, some millions.

        >>> from zarrs_chunks import Encoding
        >>> grid = Grid([6, 6], {"name": "regular", "configuration": {"chunk_shape": [4, 3]}})
        >>> parts = grid.parts(Encoding("default"), [3, 2], [3, 2])
        >>> parts.keys, parts.in_chunk.tolist(), parts.in_selection.tolist(), parts.shapes.tolist()
        (['c/0/0', 'c/0/1', 'c/1/0', 'c/1/1'], [[3, 2], [3, 0], [0, 2], [0, 0]], [[0, 0], [0, 1], [1, 0], [1, 1]], [[1, 1], [1, 1], [2, 1], [2, 1]])
        >>> parts = grid.parts(Encoding("default"), [3, 2], [3, 2], first=3, most=1)
        >>> parts.chunks.tolist(), parts.in_all
        ([[1, 1]], 4)
        """
        _check_encoding("encoding", encoding)
        box = {"start": list_of_numbers("start", start), "shape": list_of_numbers("shape", shape)}
        if [numbers.size for numbers in box.values()] != [self.dimensionality] * 2:
            raise ValueError(f"start and shape: one box is asked for, with {self.dimensionality} numbers each")
        number, limit = whole_number("first", first), GREATEST if most is None else whole_number("most", most)
        counted = self._some_parts(encoding, box, number, 0)
        if counted is None:
            return None
        room = min(max(0, counted.in_all - number), limit)
        most_at_once = _MOST_NUMBERS // (self.dimensionality + 4)
        if room > most_at_once:
            raise MemoryError(f"out of memory: {room} parts are asked for, and at most {most_at_once} fit into one answer: give `first` and `most`")
        return self._some_parts(encoding, box, number, room)

    def _some_parts(self, encoding: Encoding, box: dict[str, Numbers], first: int, room: int) -> Parts | None:
        """`room` parts of the plan of a box, or fewer if it has fewer; None if there is no plan. Nobody else has the box's arrays."""
        lists = {name: _library.room((room, self.dimensionality)) for name in ("chunks", "in_chunk", "in_selection", "shapes")}
        offsets, length, code = _library.room(room + 1), usual_length(room, self.dimensionality), _library.SHORT_BUFFER
        array = {"shape": self._shape, "chunk_grid": self._metadata.text, "chunk_key_encoding": encoding._metadata.text}
        while code == _library.SHORT_BUFFER:
            text = _library.text_room(length)
            buffers = {**lists, "text": text, "offsets": offsets}
            code, told = _library.call("zarrs_parts_of", array=array, elements=box, first=first, buffers=buffers)
            length = told["needed"]
        if code != _library.OK:
            refuse(code)
        if not told["found"]:
            return None
        keys = keys_between(text[:length].tobytes(), offsets[: told["count"] + 1])
        return Parts(**{name: numbers[: told["count"]] for name, numbers in lists.items()}, keys=keys, in_all=told["in_all"])

    def box(self, selection: Any) -> Box:
        """The box of elements that a basic selection of numpy's stands for, as the calls of a box take it. A selection is an int, a slice, an ellipsis,
        or a tuple of these. Negative numbers count from the end, and a slice ends with the array. A box has the dimensions of the array, so an int
        selects one element and keeps its dimension, with the size 1. Raises IndexError if an int lies outside of the array, or if there are more items
        than dimensions. Refuses what selects no box: other steps than 1, `newaxis`, lists, arrays and truth values.

        >>> grid = Grid([5, 7], {"name": "regular", "configuration": {"chunk_shape": [2, 3]}})
        >>> grid.box(np.s_[1:, -2])
        Box(start=(1, 5), shape=(4, 1))
        >>> first, counts, found = grid.chunks_in_array_subset(*grid.box(np.s_[3:6, -2:]))
        >>> first.tolist(), counts.tolist()
        ([1, 1], [2, 2])
        """
        return selected_box(selection, self.array_shape)

    def chunk_shape(self, chunk: npt.ArrayLike) -> tuple[int, ...] | None:
        """How many elements one chunk has along each dimension; None if there is no such chunk. `subset` returns it for many chunks at once, if
        they end at 18446744073709551615 or before. The questions `chunk_shape` and `chunk_shape_u64` have this one answer.

        >>> grid = Grid([5, 7], {"name": "zarrs.regular_bounded", "configuration": {"chunk_shape": [2, 3]}})
        >>> grid.chunk_shape([2, 2]), grid.chunk_shape([3, 0])
        ((1, 1), None)
        """
        return self._side_of_chunk("chunk_shape", chunk, 1)

    def chunk_origin(self, chunk: npt.ArrayLike) -> tuple[int, ...] | None:
        """The first element of one chunk; None if there is no such chunk, or if it begins past 18446744073709551615. `subset` returns it for many
        chunks at once, if they end there or before.

        >>> grid = Grid([5, 7], {"name": "regular", "configuration": {"chunk_shape": [2, 3]}})
        >>> grid.chunk_origin([2, 2]), grid.chunk_origin([2**63, 0])
        ((4, 6), None)
        """
        return self._side_of_chunk("chunk_origin", chunk, 0)

    def _side_of_chunk(self, call: str, chunk: npt.ArrayLike, side: int) -> tuple[int, ...] | None:
        """What the box of a chunk has on this side. If the chunk has no box, it is the answer to the question, which takes longer."""
        numbers = list_of_numbers("chunk", chunk)
        if numbers.size == self._dimensionality:
            *sides, found = self._prepared.ask("zarrs_prepared_chunk_boxes_of", 2, numbers)
            if found:
                return tuple(sides[side].tolist())
        answer = self._ask(call, of=numbers.tolist())
        return None if answer is None else tuple(answer)

    def chunks_subset(self, start: npt.ArrayLike, shape: npt.ArrayLike) -> Box | None:
        """The box of elements that one box of chunks holds. The box of chunks is given as its start and its shape. None if its first or its last chunk
        has no box of elements.

        >>> grid = Grid([5, 7], {"name": "zarrs.regular_bounded", "configuration": {"chunk_shape": [2, 3]}})
        >>> grid.chunks_subset([1, 1], [2, 2])
        Box(start=(2, 3), shape=(3, 4))
        """
        lists = [list_of_numbers(name, numbers).tolist() for name, numbers in (("start", start), ("shape", shape))]
        answer = self._ask("chunks_subset", of=lists)
        return None if answer is None else as_box(answer)

    def chunk_indices_inbounds(self, chunk: npt.ArrayLike) -> bool:
        """Whether one chunk is among those that are counted: below the grid's shape along each dimension. Along a dimension without chunks, all are.

        >>> grid = Grid([5, 7], {"name": "regular", "configuration": {"chunk_shape": [2, 3]}})
        >>> grid.chunk_indices_inbounds([2, 2]), grid.chunk_indices_inbounds([3, 0]), grid.chunk_indices_inbounds([0])
        (True, False, False)
        """
        return bool(self._ask("chunk_indices_inbounds", of=list_of_numbers("chunk", chunk).tolist()))

    def array_indices_inbounds(self, index: npt.ArrayLike) -> bool:
        """Whether one element lies in the array: below its shape along each dimension. Along a dimension of size 0 all do, or if its edges are
        listed, those that lie in a chunk.

        >>> grid = Grid([5, 7], {"name": "regular", "configuration": {"chunk_shape": [2, 3]}})
        >>> grid.array_indices_inbounds([4, 6]), grid.array_indices_inbounds([5, 0]), grid.array_indices_inbounds([0])
        (True, False, False)
        """
        return bool(self._ask("array_indices_inbounds", of=list_of_numbers("index", index).tolist()))

    def locate(self, encoding: Encoding, index: npt.ArrayLike) -> Located | None:
        """The place where one element is stored: its chunk, its place there, and the chunk's key; None if no chunk holds it. `find_home` and `encode`
        return it for many elements at once.

        >>> grid = Grid([5, 7], {"name": "regular", "configuration": {"chunk_shape": [2, 3]}})
        >>> grid.locate(Encoding("default"), [4, 5])
        Located(chunk=(2, 1), element=(0, 2), key='c/2/1')
        """
        _check_encoding("encoding", encoding)
        numbers = list_of_numbers("index", index)
        if numbers.size != self._dimensionality:
            # It is refused, in the library's own words.
            self._ask("locate", of=numbers.tolist(), chunk_key_encoding=encoding._metadata.text)
        chunk, element, found = self._prepared.ask("zarrs_prepared_homes_of", 2, numbers)
        return Located(tuple(chunk.tolist()), tuple(element.tolist()), encoding.encode(chunk)) if found else None

    def runs(self, dimension: SupportsIndex) -> int | None:
        """How many runs of equal edges the chunks of a `rectilinear` grid are along a dimension, counted from 0. None if there is no such
        dimension, or if all its chunks have one edge. Raises ValueError for a grid of another name.

        >>> grid = Grid([100], {"name": "rectilinear", "configuration": {"kind": "inline", "chunk_shapes": [[[5, 3], [15, 2], 20, 35]]}})
        >>> grid.runs(0), grid.runs(1)
        (4, None)
        """
        answer: int | None = self._ask("runs", of=whole_number("dimension", dimension))
        return answer

    def chunk_indices_counted(self, index: npt.ArrayLike) -> Counted:
        """The chunk that holds one element of a `rectilinear` grid, and how many comparisons it takes to look it up. Raises ValueError for a grid of
        another name.

        >>> grid = Grid([100], {"name": "rectilinear", "configuration": {"kind": "inline", "chunk_shapes": [[[5, 3], [15, 2], 20, 35]]}})
        >>> grid.chunk_indices_counted([99])
        Counted(chunk=(6,), comparisons=2)
        """
        answer = self._ask("chunk_indices_counted", of=list_of_numbers("index", index).tolist())
        return Counted(None if answer["answer"] is None else tuple(answer["answer"]), answer["comparisons"])

    def written_metadata(self) -> dict[str, Any]:
        """The `chunk_grid` as the library writes it, for a `zarr.json`: with a name and a configuration and nothing else, and listed edges of a
        `rectilinear` grid in runs. Its configuration is the answer to the question `configuration`. `metadata` is what was given.

        >>> given = {"name": "rectilinear", "configuration": {"kind": "inline", "chunk_shapes": [[5, 5, [7, 1]]]}}
        >>> Grid([17], given).written_metadata()
        {'configuration': {'chunk_shapes': [[[5, 2], 7]], 'kind': 'inline'}, 'name': 'rectilinear'}
        """
        answer: dict[str, Any] = self._ask("metadata")
        return answer

    def iter_chunk_indices(self, first: SupportsIndex = 0) -> Iterator[tuple[int, ...]]:
        """The chunks that are counted, in row-major order, from the one with the number `first` on. They are read page by page, so the memory that
        is needed doesn't grow with their number.

        >>> grid = Grid([5, 7], {"name": "regular", "configuration": {"chunk_shape": [2, 3]}})
        >>> list(grid.iter_chunk_indices(first=6))
        [(2, 0), (2, 1), (2, 2)]
        """
        return (tuple(chunk) for chunk in self._walk("iter_chunk_indices", whole_number("first", first)))

    def iter_chunk_subsets(self, first: SupportsIndex = 0) -> Iterator[Box]:
        """The boxes of these chunks, read likewise. A chunk that ends past 18446744073709551615 has no box, and is skipped; `first` counts it.

        >>> grid = Grid([5, 7], {"name": "regular", "configuration": {"chunk_shape": [2, 3]}})
        >>> next(grid.iter_chunk_subsets(first=7))
        Box(start=(4, 3), shape=(2, 3))
        """
        return (as_box(box) for box in self._walk("iter_chunk_subsets", whole_number("first", first)))

    def iter_chunk_indices_and_subsets(self, first: SupportsIndex = 0) -> Iterator[tuple[tuple[int, ...], Box]]:
        """These chunks, each with its box.

        >>> grid = Grid([5, 7], {"name": "regular", "configuration": {"chunk_shape": [2, 3]}})
        >>> next(grid.iter_chunk_indices_and_subsets(first=7))
        ((2, 1), Box(start=(4, 3), shape=(2, 3)))
        """
        walk = self._walk("iter_chunk_indices_and_subsets", whole_number("first", first))
        return ((tuple(chunk), as_box(box)) for chunk, box in walk)

    def tasks(
        self,
        encoding: Encoding,
        target: Grid,
        target_encoding: Encoding,
        subset: tuple[npt.ArrayLike, npt.ArrayLike] | None = None,
        at: npt.ArrayLike | None = None,
        *,
        task_chunks: npt.ArrayLike | None = None,
        order: str = "target",
        first: SupportsIndex = 0,
        most: SupportsIndex | None = None,
        share: tuple[SupportsIndex, SupportsIndex] | None = None,
    ) -> Iterator[Task]:
        """Returns the tasks that copy the array, or a box of its elements, to the array of `target`. Each fills a buffer from chunks of this array,
        and writes it to chunks of the target. The array of `target` may have another shape, or be this array.

        `subset` is the box that is copied, as its start and its shape; by default it is the whole array. It begins at the index `at` of the target's
        array, by default at 0 in each dimension. Raises ValueError if the box isn't in one of the arrays; it is never clipped. An empty box has no
        tasks.

        A task writes one chunk of the target. With `task_chunks` it writes that many neighbouring chunks along each dimension, counted from the
        first chunk of the array. So it needs more memory, and reads fewer chunks. With `order="source"`, a task reads one chunk of this array, or
        `task_chunks` of them. Then several tasks may write one chunk.

        Tasks come in row-major order of their chunks: the one with the number `first`, and those after it, at most `most`. In place of both, `share`
        is the number of a worker, counted from 0, and how many workers there are. The shares of all workers are together all tasks, and have equally
        many tasks or one more. They are the shares of `chunkplan`.

        Tasks are read page by page. A task holds all its sources and targets.

        >>> grid, target = (Grid([4], {"name": "regular", "configuration": {"chunk_shape": [edge]}}) for edge in (3, 2))
        >>> for task in grid.tasks(Encoding("default"), target, Encoding("v2")):
        ...     print(task.buffer, [(part.key, part.in_chunk, part.in_buffer) for part in task.sources], [part.key for part in task.targets])
        (2,) [('c/0', Box(start=(0,), shape=(2,)), Box(start=(0,), shape=(2,)))] ['0']
        (2,) [('c/0', Box(start=(2,), shape=(1,)), Box(start=(0,), shape=(1,))), ('c/1', Box(start=(0,), shape=(1,)), Box(start=(1,), shape=(1,)))] ['1']
        >>> [task] = grid.tasks(Encoding("default"), target, Encoding("v2"), task_chunks=[2])
        >>> task.buffer, [part.key for part in task.sources], [(part.key, part.in_buffer, part.whole) for part in task.targets]
        ((4,), ['c/0', 'c/1'], [('0', Box(start=(0,), shape=(2,)), True), ('1', Box(start=(2,), shape=(2,)), True)])

        The last six elements go to an array of twelve, from the index 4 on:

        >>> grid = Grid([7], {"name": "regular", "configuration": {"chunk_shape": [3]}})
        >>> target = Grid([12], {"name": "regular", "configuration": {"chunk_shape": [5]}})
        >>> for task in grid.tasks(Encoding("default"), target, Encoding("v2"), grid.box(np.s_[1:]), at=[4]):
        ...     print([part.key for part in task.sources], [(part.key, part.in_chunk, part.whole) for part in task.targets])
        ['c/0'] [('0', Box(start=(4,), shape=(1,)), False)]
        ['c/0', 'c/1', 'c/2'] [('1', Box(start=(0,), shape=(5,)), True)]
        """
        _check_encoding("encoding", encoding)
        _check_grid("target", target)
        _check_encoding("target_encoding", target_encoding)
        number, limit = whole_number("first", first), GREATEST if most is None else whole_number("most", most)
        copy = _given_copy(subset, at, task_chunks, order)
        stored = {"chunk_key_encoding": encoding._metadata.text, "target": target._array_text(target_encoding._metadata.text)}
        # What the library refuses is raised at once, and not with the first task.
        self._ask("tasks", items=0, **stored, **copy)
        if share is None:
            return map(task_of, self._walk("tasks", number, limit, **stored, **_texts(copy)))
        if number > 0 or most is not None:
            raise ValueError("share: it is given in place of `first` and `most`, and not beside them")
        pieces = self._pieces(target, copy, given_share(share))
        walks = (self._walk("tasks", number, count, **stored, **_texts(piece)) for piece, number, count in pieces)
        return map(task_of, itertools.chain.from_iterable(walks))

    def _pieces(self, target: Grid, copy: dict[str, Any], share: tuple[int, int]) -> Iterator[tuple[dict[str, Any], int, int]]:
        """Yields copies that have the tasks of a share, each with the number of the first task and how many there are. It is the copy itself if a number
        of 64 bits counts its tasks, and copies of parts of its box if not."""
        zeros, ones = [0] * self._dimensionality, [1] * self._dimensionality
        (start, shape), at, each = copy.get("subset", (zeros, self.array_shape)), copy.get("at", zeros), copy.get("task_chunks", ones)
        grouped, begin = (self, start) if copy["order"] == "source" else (target, at)
        first, count, _found = grouped.chunks_in_array_subset(list(begin), list(shape))
        chunks = Box(tuple(first.tolist()), tuple(count.tolist()))
        groups = groups_of(chunks, each)
        number, end = ends_of_share(groups, share)
        if end <= GREATEST:
            yield copy, number, end - number
            return
        for slab, number, count in slabs(groups, number, end - number):
            starts, ends = grouped._steps_of(slab, chunks, each, begin, shape)
            sizes = [end - start for start, end in zip(starts, ends)]
            yield {**copy, "subset": [_sums(start, starts), sizes], "at": _sums(at, starts)}, number, count

    def _steps_of(self, groups: Box, chunks: Box, each: Sequence[int], begin: Sequence[int], shape: Sequence[int]) -> tuple[list[int], list[int]]:
        """Returns where the groups of a box begin and end along each dimension, counted from the first element of a region with these chunks."""
        along = [*zip(*groups, *chunks, each)]
        firsts = [max(group * k, first) for group, _groups, first, _count, k in along]
        behind = [(group + count) * k for group, count, _first, _count, k in along]
        is_last = [chunk >= first + count for chunk, first, count in zip(behind, *chunks)]
        starts = self.chunk_origin(firsts)
        ends = self.chunk_origin([first if last else chunk for chunk, first, last in zip(behind, chunks.start, is_last)])
        assert starts is not None and ends is not None
        return (
            [max(start - index, 0) for start, index in zip(starts, begin)],
            [size if last else end - index for end, index, size, last in zip(ends, begin, shape, is_last)],
        )

    def task_counts(
        self,
        target: Grid,
        subset: tuple[npt.ArrayLike, npt.ArrayLike] | None = None,
        at: npt.ArrayLike | None = None,
        *,
        task_chunks: npt.ArrayLike | None = None,
        order: str = "target",
    ) -> TaskCounts:
        """Returns how much the tasks of a copy read, decode and write, without walking over them: the counts of what `tasks` returns for these
        arguments. Raises ValueError if a grid isn't regular along some dimension and the copy has more than 1048576 chunks along a dimension.

        >>> grid, target = (Grid([4], {"name": "regular", "configuration": {"chunk_shape": [edge]}}) for edge in (3, 2))
        >>> grid.task_counts(target)
        TaskCounts(chunks_read=3, chunks_written=2, elements_decoded=9, elements_moved=4, largest_task=2, tasks=2)
        >>> grid.task_counts(target, task_chunks=[2])
        TaskCounts(chunks_read=2, chunks_written=2, elements_decoded=6, elements_moved=4, largest_task=4, tasks=1)
        """
        _check_grid("target", target)
        copy = _given_copy(subset, at, task_chunks, order)
        return counts_of(self._ask("task_counts", chunk_key_encoding=_ANY_ENCODING, target=target._array_text(_ANY_ENCODING), **copy))

    def changed_chunks(self, shape: npt.ArrayLike) -> ChangedChunks:
        """Returns what becomes of the chunks if the array gets another shape and keeps its `chunk_grid`. Raises ValueError if the `chunk_grid` makes no
        grid of that shape, as listed edges of another sum.

        >>> grid = Grid([5, 7], {"name": "regular", "configuration": {"chunk_shape": [2, 3]}})
        >>> grid.changed_chunks([8, 4])
        ChangedChunks(before=(3, 3), after=(4, 2), kept=(2, 1))
        """
        return changed_of(self._ask("changed_chunks", resize=list_of_numbers("shape", shape).tolist()))

    def _array_text(self, encoding: bytes) -> bytes:
        """The array itself, as JSON: its shape, this grid and an encoding."""
        shape = _questions.plain_text(self._shape.tolist())
        return _questions.object_text(shape=shape, chunk_grid=self._metadata.text, chunk_key_encoding=encoding)

    def _ask(self, call: str, **members: Any) -> Any:
        """The answer to a question about this grid, whose members are plain numbers and lists, or JSON already."""
        texts = {name: member if isinstance(member, bytes) else _questions.plain_text(member) for name, member in members.items()}
        return _questions.ask(call, shape=_questions.plain_text(self._shape.tolist()), chunk_grid=self._metadata.text, **texts)

    def _walk(self, call: str, first: int, most: int = GREATEST, **members: bytes) -> Iterator[Any]:
        """The items of a walk over this grid."""
        shape = _questions.plain_text(self._shape.tolist())
        return _questions.walk(call, first, most, shape=shape, chunk_grid=self._metadata.text, **members)


def _check_grid(argument: str, grid: object) -> None:
    if not isinstance(grid, Grid):
        raise TypeError(f"{argument}: a Grid is wanted, and not a {type(grid).__name__}")


def _given_copy(subset: Any, at: Any, task_chunks: Any, order: Any) -> dict[str, Any]:
    """Returns the members of a question that say what a copy and its tasks are. What isn't given isn't among them."""
    copy: dict[str, Any] = {} if subset is None else {"subset": given_box("subset", subset)}
    if at is not None:
        copy["at"] = list_of_numbers("at", at).tolist()
    if task_chunks is not None:
        copy["task_chunks"] = given_chunks(task_chunks)
    return {**copy, "order": given_order(order)}


def _texts(members: dict[str, Any]) -> dict[str, bytes]:
    return {name: _questions.plain_text(value) for name, value in members.items()}


def _sums(numbers: Sequence[int], steps: Sequence[int]) -> list[int]:
    return [number + step for number, step in zip(numbers, steps)]


def _check_encoding(argument: str, encoding: object) -> None:
    if not isinstance(encoding, Encoding):
        raise TypeError(f"{argument}: an Encoding is wanted, and not a {type(encoding).__name__}")
