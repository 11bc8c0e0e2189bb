"""The library's calls as a C program makes them, with any pointers and lengths, for tests of what it answers then."""
import ctypes

import numpy as np
from zarrs_chunks import _library, answer
from zarrs_chunks._library import NOT_JSON, NOT_PREPARED, OUT_OF_MEMORY, REFUSED, SHORT_BUFFER, WRONG_LENGTH

__all__ = ["NOT_JSON", "NOT_PREPARED", "OUT_OF_MEMORY", "REFUSED", "SHORT_BUFFER", "WRONG_LENGTH", "answer", "call", "parts_of"]

# Beside the package's own, so that the types of arguments that it declares don't hold here.
_LIBRARY = ctypes.CDLL(str(_library.path()))


def pointer_and_length(array):
    if isinstance(array, bytes):
        return ctypes.cast(array, ctypes.c_void_p).value, len(array)
    return array.ctypes.data, array.size


def filled(struct, values):
    """A struct of arrays, bytes and numbers, by the names of its fields."""
    made = struct()
    for name in struct.KINDS.keys() & values.keys():
        value = values[name]
        if isinstance(value, int):
            setattr(made, name, value)
        else:
            for field, part in zip((name, f"{name}_len"), pointer_and_length(value)):
                setattr(made, field, part)
    return made


def parts_of(asked, before=0):
    """Makes the call of a plan, with its arguments by name, where the box's shape is `box_shape`, and with numbers to be
    told that are `before` yet. Gives its code, those numbers by name, and which pointers and lengths it changed."""
    told = ("needed", "count", "in_all", "found")
    array, box = filled(_library.StoredArray, asked), filled(_library.ElementBox, {"start": asked["start"], "shape": asked["box_shape"]})
    buffers, kept = (filled(_library.PartBuffers, {**asked, **dict.fromkeys(told, before)}) for _ in range(2))
    code = call("zarrs_parts_of", ctypes.byref(array), ctypes.byref(box), ctypes.c_uint64(asked["first"]), ctypes.byref(buffers))
    moved = [name for name, _kind in buffers._fields_ if name not in told and getattr(buffers, name) != getattr(kept, name)]
    return code, {name: getattr(buffers, name) for name in told}, moved


def call(name, *arguments):
    """Makes a call. An array or bytes are passed as a pointer and a length, a whole number as `size_t`, and else what
    ctypes takes."""
    passed = []
    for argument in arguments:
        if isinstance(argument, (np.ndarray, bytes)):
            place, length = pointer_and_length(argument)
            passed += [ctypes.c_void_p(place), ctypes.c_size_t(length)]
        elif isinstance(argument, int):
            passed.append(ctypes.c_size_t(argument))
        else:
            passed.append(argument)
    function = getattr(_LIBRARY, name)
    function.restype = ctypes.c_int32
    return function(*passed)
