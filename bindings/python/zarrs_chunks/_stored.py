"""What a stored array says of its grid and of its keys: in the metadata of its folder, or as an array of zarr-python 2."""

from __future__ import annotations

import json
import os
import pathlib
from typing import Any, NoReturn, Protocol, Union

import numpy as np

from ._reading import reading


class ZarrArray(Protocol):
    """An array of zarr-python 2, as far as it is read here."""

    @property
    def shape(self) -> tuple[int, ...]: ...

    @property
    def chunks(self) -> tuple[int, ...]: ...


# The place where an array is stored: its folder, or the array itself.
Stored = Union[str, os.PathLike[str], ZarrArray]


class Description:
    """What a `zarr.json` says of a stored array under these names."""

    def __init__(self, array: Stored) -> None:
        if isinstance(array, (str, os.PathLike)):
            self.where, self.members = _of_folder(array)
        else:
            self.where, self.members = type(array).__name__, _of_zarr_array(array)

    def shape(self) -> Any:
        shape = self._member("shape")
        if not isinstance(shape, (list, tuple)) or not all(isinstance(size, (int, np.integer)) and not isinstance(size, bool) for size in shape):
            _refuse(self.where, "the member `shape` is no list of whole numbers")
        return shape

    def chunk_grid(self) -> Any:
        return self._member("chunk_grid")

    def chunk_key_encoding(self) -> Any:
        return self._member("chunk_key_encoding")

    def _member(self, name: str) -> Any:
        if name not in self.members:
            _refuse(self.where, f"there is no member `{name}`")
        return self.members[name]


def _refuse(where: object, words: str) -> NoReturn:
    raise ValueError(f"array: {where}: {words}")


def _of_folder(given: str | os.PathLike[str]) -> tuple[str, dict[str, Any]]:
    """The path of the metadata in a folder, and what they say."""
    with reading("array"):
        folder = pathlib.Path(given)
    for name, members_of in (("zarr.json", _of_format_3), (".zarray", _of_format_2)):
        path = folder / name
        try:
            text = path.read_bytes()
        except (FileNotFoundError, NotADirectoryError):
            continue
        except ValueError as error:
            raise ValueError(f"array: {error}") from error
        try:
            written = json.loads(text)
        except (ValueError, RecursionError) as error:
            raise ValueError(f"array: {path}: it is not JSON: {error}") from error
        if not isinstance(written, dict):
            _refuse(path, "it is not an object")
        return str(path), members_of(path, written)
    raise FileNotFoundError(f"array: {folder} has no zarr.json and no .zarray")


def _of_format_3(path: pathlib.Path, written: dict[str, Any]) -> dict[str, Any]:
    if written.get("node_type") == "group":
        _refuse(path, "it is a group's, and no array's")
    if written.get("node_type") != "array":
        _refuse(path, "its node_type isn't `array`")
    if written.get("zarr_format") != 3:
        _refuse(path, "its zarr_format isn't 3")
    return written


def _of_format_2(path: pathlib.Path, written: dict[str, Any]) -> dict[str, Any]:
    if written.get("zarr_format") != 2:
        _refuse(path, "its zarr_format isn't 2")
    if "chunks" not in written:
        _refuse(path, "there is no member `chunks`")
    shape = {"shape": written["shape"]} if "shape" in written else {}
    return {**shape, **_as_format_3(written["chunks"], written.get("dimension_separator"))}


def _as_format_3(chunks: Any, separator: Any) -> dict[str, Any]:
    """What a `zarr.json` says of the chunks of an array of format 2, which has a separator or None."""
    return {
        "chunk_grid": {"name": "regular", "configuration": {"chunk_shape": chunks}},
        "chunk_key_encoding": {"name": "v2", "configuration": {"separator": "." if separator is None else separator}},
    }


def _of_zarr_array(array: Any) -> dict[str, Any]:
    """The same for an array of zarr-python 2, which isn't imported: it is known by its attributes."""
    with reading("array"):
        try:
            shape, chunks, separator = array.shape, array.chunks, array._dimension_separator
        except AttributeError:
            wanted = "the path of an array's folder, or an array of zarr-python 2, is wanted"
            raise TypeError(f"{wanted}, and not a {type(array).__name__}") from None
        if getattr(array, "_version", 2) != 2:
            raise ValueError("it is of a draft of format 3, whose keys are others")
    return {"shape": shape, **_as_format_3(chunks, separator)}
