"""The shared library: its place, its calls, and how each call is made.

Every argument passes through `call`, except those for the lists of a prepared grid or encoding, which `_prepared` passes. `call` takes arrays and
bytes that are fit for the library, and makes pointers and lengths of them. What a caller of the package gives becomes such an array or bytes in
`_numbers`, `_texts` and `_metadata`.
"""

from __future__ import annotations

import ctypes
import os
import pathlib
from typing import Any

import numpy as np
import numpy.typing as npt

from . import _processor

# The version of zarrs_chunks.h that has the calls below.
VERSION = 3

OK, OUT_OF_MEMORY, WRONG_LENGTH, NOT_JSON, NOT_METADATA, REFUSED, NOT_A_BOX, WRONG_OFFSETS, SHORT_BUFFER, NOT_PREPARED = range(0, -10, -1)


class _Array:
    """The type in C of an array's pointer. ctypes makes it by `from_param`, and only of an array that is fit."""

    def __init__(self, kind: npt.DTypeLike, is_written: bool) -> None:
        self.kind, self.is_written = np.dtype(kind), is_written

    def is_fit(self, array: Any) -> bool:
        """Whether the library may read an array, or write to it. If it may write, the array is one that `room` or `text_room` made, whole."""
        if type(array) is not np.ndarray or array.dtype != self.kind:
            return False
        flags = array.flags
        return flags.c_contiguous and flags.aligned and (not self.is_written or (flags.writeable and flags.owndata))

    def from_param(self, array: Any) -> ctypes.c_void_p:
        if not self.is_fit(array):
            raise TypeError(f"the library can't be given this {type(array).__name__}")
        return ctypes.c_void_p(array.__array_interface__["data"][0])


# What an argument may be, as its types in C. An array is passed as a pointer and a length.
NUMBERS = (_Array(np.uint64, is_written=False), ctypes.c_size_t)
BYTES = (ctypes.c_char_p, ctypes.c_size_t)
WRITTEN_NUMBERS = (_Array(np.uint64, is_written=True), ctypes.c_size_t)
WRITTEN_BYTES = (_Array(np.uint8, is_written=True), ctypes.c_size_t)
NUMBER, SIZE, CODE, TOLD_SIZE = (ctypes.c_uint64,), (ctypes.c_size_t,), (ctypes.c_int32,), (ctypes.POINTER(ctypes.c_size_t),)

_GRID: dict[str, Any] = {"shape": NUMBERS, "chunk_grid": BYTES}
_ENCODING: dict[str, Any] = {"chunk_key_encoding": BYTES}
_PREPARED: dict[str, Any] = {"numbers": NUMBERS}


def _struct(**kinds: Any) -> Any:
    """A struct of the header. It has the pointer and the length of an array; any other field is a number, which a call writes."""
    fields: list[Any] = []
    for name, kind in kinds.items():
        fields += [(name, ctypes.c_void_p), (f"{name}_len", ctypes.c_size_t)] if len(kind) == 2 else [(name, *kind)]
    return type("Struct", (ctypes.Structure,), {"_fields_": fields, "KINDS": kinds})


StoredArray, ElementBox = _struct(**_GRID, **_ENCODING), _struct(start=NUMBERS, shape=NUMBERS)
PartBuffers = _struct(
    chunks=WRITTEN_NUMBERS, in_chunk=WRITTEN_NUMBERS, in_selection=WRITTEN_NUMBERS, shapes=WRITTEN_NUMBERS,
    text=WRITTEN_BYTES, offsets=WRITTEN_NUMBERS, needed=SIZE, count=SIZE, in_all=NUMBER, found=(ctypes.c_uint8,),
)  # fmt: skip
# A struct is passed as a pointer to it.
STORED_ARRAY, ELEMENT_BOX, PART_BUFFERS = ((ctypes.POINTER(struct),) for struct in (StoredArray, ElementBox, PartBuffers))
_STRUCTS = {STORED_ARRAY: StoredArray, ELEMENT_BOX: ElementBox, PART_BUFFERS: PartBuffers}

# The calls of zarrs_chunks.h, with the names and the order of their arguments there. Each returns a code, and the first one the version.
CALLS: dict[str, dict[str, Any]] = {
    "zarrs_abi_version": {},
    "zarrs_version": {"version": WRITTEN_BYTES, "needed": TOLD_SIZE},
    "zarrs_prepare_grid": {**_GRID, "numbers": WRITTEN_NUMBERS, "needed": TOLD_SIZE},
    "zarrs_prepared_grid_shape": {**_PREPARED, "grid_shape": WRITTEN_NUMBERS},
    "zarrs_prepared_chunk_indices_of": {**_PREPARED, "indices": NUMBERS, "chunks": WRITTEN_NUMBERS, "found": WRITTEN_BYTES},
    "zarrs_prepared_homes_of": {**_PREPARED, "indices": NUMBERS, "chunks": WRITTEN_NUMBERS, "places": WRITTEN_NUMBERS, "found": WRITTEN_BYTES},
    "zarrs_prepared_chunk_boxes_of": {**_PREPARED, "chunks": NUMBERS, "origins": WRITTEN_NUMBERS, "shapes": WRITTEN_NUMBERS, "found": WRITTEN_BYTES},
    "zarrs_prepared_covers_of": {
        **_PREPARED, "starts": NUMBERS, "shapes": NUMBERS,
        "first_chunks": WRITTEN_NUMBERS, "chunk_counts": WRITTEN_NUMBERS, "found": WRITTEN_BYTES, "wrong": TOLD_SIZE,
    },
    "zarrs_prepare_encoding": {**_ENCODING, "numbers": WRITTEN_NUMBERS, "needed": TOLD_SIZE},
    "zarrs_prepared_keys_of": {
        **_PREPARED, "dimensionality": SIZE, "chunks": NUMBERS,
        "text": WRITTEN_BYTES, "offsets": WRITTEN_NUMBERS, "needed": TOLD_SIZE,
    },
    "zarrs_prepared_chunks_of_keys": {
        **_PREPARED, "dimensionality": SIZE, "text": BYTES, "offsets": NUMBERS,
        "chunks": WRITTEN_NUMBERS, "found": WRITTEN_BYTES, "wrong": TOLD_SIZE,
    },
    "zarrs_parts_of": {"array": STORED_ARRAY, "elements": ELEMENT_BOX, "first": NUMBER, "buffers": PART_BUFFERS},
    "zarrs_answer": {"question": BYTES, "line": WRITTEN_BYTES, "needed": TOLD_SIZE},
    "zarrs_grid_fault": {**_GRID, "words": WRITTEN_BYTES, "needed": TOLD_SIZE},
    "zarrs_encoding_fault": {**_ENCODING, "words": WRITTEN_BYTES, "needed": TOLD_SIZE},
    "zarrs_code_words": {"code": CODE, "words": WRITTEN_BYTES, "needed": TOLD_SIZE},
}  # fmt: skip

# What each call, and each struct, is given, by name: all but the numbers that a call writes.
_GIVEN_TO: dict[Any, set[str]] = {name: {argument for argument, kind in kinds.items() if kind is not TOLD_SIZE} for name, kinds in CALLS.items()}
_GIVEN_TO |= {struct: {field for field, kind in struct.KINDS.items() if len(kind) == 2} for struct in _STRUCTS.values()}


def path() -> pathlib.Path:
    """Returns where the library lies: the file that ZARRS_CHUNKS_LIBRARY names, or else the one beside this module."""
    named = os.environ.get("ZARRS_CHUNKS_LIBRARY")
    return pathlib.Path(named).absolute() if named else pathlib.Path(__file__).resolve().with_name(f"libzarrs_chunks.so.{VERSION}")


def _load() -> tuple[ctypes.CDLL, dict[str, Any]]:
    """The library, and its functions by name, each with the types of its arguments."""
    _processor.check()
    place = path()
    if not place.exists():
        raise ImportError(f"{place} is missing: set ZARRS_CHUNKS_LIBRARY to the path of libzarrs_chunks.so.{VERSION}")
    functions: dict[str, Any] = {}
    try:
        library = ctypes.CDLL(str(place))
        for name, arguments in CALLS.items():
            functions[name] = getattr(library, name)
            functions[name].argtypes = [kind for kinds in arguments.values() for kind in kinds]
            functions[name].restype = ctypes.c_int32
    except (OSError, AttributeError) as error:
        raise ImportError(f"{place} can't be used: {error}") from error
    version = functions["zarrs_abi_version"]()
    if version != VERSION:
        raise ImportError(f"{place} has the version {version} of the calls, and this package is for the version {VERSION}")
    return library, functions


_LIBRARY, _FUNCTIONS = _load()


def function(name: str, kinds: list[Any] | None = None) -> Any:
    """A call of the library that takes other types of C than `call` passes, or any types if `kinds` is None. What it is given isn't tested."""
    found: Any = _LIBRARY[name]
    found.argtypes, found.restype = kinds, ctypes.c_int32
    return found


def room(shape: int | tuple[int, ...], kind: npt.DTypeLike = np.uint64) -> npt.NDArray[Any]:
    """A new array of zeros, which a call may write to. Raises MemoryError if there is no room for it."""
    return _new(np.zeros, shape, kind)


def room_for_all(shape: int | tuple[int, ...]) -> npt.NDArray[Any]:
    """A new array of numbers that hold anything, for answers of which each is written or set to 0. A call fills it sooner than one of `room`."""
    return _new(np.empty, shape, np.uint64)


def text_room(length: int) -> npt.NDArray[np.uint8]:
    """A new array of bytes for a text, which hold anything. What a call has written is at its front, and nothing else of it is given out."""
    return _new(np.empty, length, np.uint8)


def _new(make: Any, shape: int | tuple[int, ...], kind: npt.DTypeLike) -> npt.NDArray[Any]:
    try:
        made: npt.NDArray[Any] = make(shape, kind)
    except (MemoryError, OverflowError, ValueError) as error:
        raise MemoryError(f"out of memory: there is no room for an array of the shape {shape}") from error
    return made


def call(name: str, **arguments: Any) -> tuple[int, dict[str, int]]:
    """Makes a call, with its arguments by the names of zarrs_chunks.h, a struct as a dict of its arrays. Arguments to which it writes a number aren't
    given. Returns the code and, by name, the numbers that it wrote."""
    _check_names(name, name, arguments)
    sizes: dict[str, Any] = {}
    structs: list[Any] = []
    passed: list[Any] = []
    for argument, kind in CALLS[name].items():
        if kind is TOLD_SIZE:
            sizes[argument] = ctypes.c_size_t()
            passed.append(ctypes.byref(sizes[argument]))
        elif kind in _STRUCTS:
            structs.append(_filled(argument, _STRUCTS[kind], arguments[argument]))
            passed.append(ctypes.byref(structs[-1]))
        else:
            passed += _passed(argument, kind, arguments[argument])
    code = _FUNCTIONS[name](*passed)
    told = {argument: size.value for argument, size in sizes.items()}
    return code, told | {field: getattr(struct, field) for struct in structs for field in struct.KINDS.keys() - _GIVEN_TO[type(struct)]}


def _filled(argument: str, struct: Any, arrays: dict[str, Any]) -> Any:
    """A struct of these arrays, which the caller keeps."""
    _check_names(argument, struct, arrays)
    made = struct()
    for name, array in arrays.items():
        kind = struct.KINDS[name]
        value, length = _passed(name, kind, array)
        setattr(made, name, ctypes.cast(value, ctypes.c_void_p) if kind is BYTES else kind[0].from_param(value))
        setattr(made, f"{name}_len", length)
    return made


def _check_names(what: str, named: Any, arguments: dict[str, Any]) -> None:
    if arguments.keys() != _GIVEN_TO[named]:
        raise TypeError(f"{what} takes {', '.join(sorted(_GIVEN_TO[named]))}, and was given {', '.join(arguments)}")


def _passed(argument: str, kind: Any, value: Any) -> list[Any]:
    """An argument as it is passed. Raises TypeError if it isn't fit for the library."""
    if kind is NUMBER or kind is SIZE:
        if type(value) is int and 0 <= value < 2**64:
            return [value]
    elif kind is CODE:
        if type(value) is int and -(2**31) <= value < 2**31:
            return [value]
    elif kind is BYTES:
        if type(value) is bytes:
            return [value, len(value)]
    elif kind[0].is_fit(value):
        return [value, value.size]
    raise TypeError(f"{argument}: the library can't be given this {type(value).__name__}")
