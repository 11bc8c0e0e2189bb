#!/usr/bin/env python3
"""Runs the shared library of `bindings/build.py`, from both of the kit's compilers, and tells what it answers otherwise
than it should.

    bindings/test.py [--thorough]

It needs numpy, a C compiler `cc`, and `valgrind`; where one is missing it says so and ends with the status 1. Cargo is
used where it is there. LLVM's build is asked all of this; the one by Rattle's own compiler, unless `--thorough` asks for
all, each tenth vector, batches, plans and the examples. What is compared:

- every vector of `chunkcalls`, through `zarrs_answer`, and each tenth, with `--thorough` each, by a program in C;
- batches and plans with the same questions one by one, and batches with numpy's own division and `searchsorted`;
- each call at one to three hundred dimensions with plain arithmetic, and each fault of each call, alone and with a
  later one, with what lies behind each buffer (`faults.py`);
- no lists, null, lists of very many numbers, and other layouts of arrays;
- what the Python package takes, refuses and keeps, also while another thread changes it (`python_test.py`), and any
  values for all its arguments (`fuzz.py`);
- its methods with all vectors, with models in plain arithmetic, with numpy and with zarr-python, and the package as a
  program (`python_calls_test.py`);
- what a call says of a refusal, and walks that are longer than their buffer (`words_and_bounds.py`);
- the stack that a call needs, and traps for floats;
- memory that is refused: under an address space that gets smaller, and allocation by allocation;
- the examples in C and Python, the C one under memcheck, those of the docstrings, and the tests of the crate for Rust.
"""
import argparse
import ctypes
import doctest
import importlib
import json
import os
import pathlib
import random
import shutil
import subprocess
import sys
import tempfile

HERE = pathlib.Path(__file__).resolve().parent
TOP = HERE.parent
sys.path[:0] = [str(HERE / "python"), str(TOP / "measure"), str(TOP / "tools")]
sys.dont_write_bytecode = True
from built import IS_THOROUGH, shared_library, vectors as questions_and_answers  # noqa: E402
from extensions import GREATEST, GRIDS, grid_metadata, regular  # noqa: E402
from memory import at_most, used  # noqa: E402
from random_arrays import Generator  # noqa: E402

BACKENDS = ("llvm", "rattle")
REGULAR = regular(2, 3)
EXAMPLE = (HERE / "c" / "example.stdout").read_bytes()


class Tally:
    """How many comparisons there were, and those that differ."""

    def __init__(self):
        self.made, self.faults = 0, []

    def same(self, what, found, expected):
        self.made += 1
        if found != expected:
            self.faults.append(f"{what}: expected {str(expected)[:300]}\n  found {str(found)[:300]}")

    def raises(self, what, kind, words, call):
        try:
            found = call()
        except Exception as raised:
            self.same(what, (type(raised), str(raised)), (kind, words))
        else:
            self.same(what, found, f"{kind.__name__}: {words}")


# ---- the vectors


def vectors(tally, library, rows):
    """Vectors, each with a buffer that its answer fills."""
    needed = ctypes.c_size_t()
    for question, answer in ((question.encode(), answer.encode() + b"\n") for question, answer in rows):
        line = np.full(len(answer) + 1, 7, np.uint8)
        code = library.call("zarrs_answer", np.frombuffer(question, np.uint8), line[:-1], ctypes.byref(needed))
        tally.same(question, (code, line.tobytes(), needed.value), (0, answer + b"\7", len(answer)))
    return len(rows)


# ---- batches


def grids(generator):
    """Grids of each kind, of one to three dimensions: the array's shape and the metadata."""
    draw = generator.random
    for _ in range(6):
        shape = [draw.randrange(2, 40) for _ in range(draw.randrange(1, 4))]
        yield from ((shape, generator.grid_over(shape, name)) for name in GRIDS)
    yield [], regular()
    yield [GREATEST], regular(2**63)


def answered(library, question, **more):
    """What `zarrs_answer` tells of one question by itself."""
    return json.loads(library.answer({**question, **more}))


def rows(found, *lists):
    """What a batch answers, list by list, as `zarrs_answer` gives it: the one list or a list of several, or None."""
    for place, is_found in enumerate(found.tolist()):
        answer = [numbers[place].tolist() for numbers in lists]
        yield (answer[0] if len(answer) == 1 else answer) if is_found else None


def against_single_calls(tally, library):
    generator = Generator(1)
    rng = generator.random
    number = lambda size: GREATEST if rng.random() < 0.05 else min(rng.randrange(size + 5), GREATEST)
    for shape, metadata in grids(generator):
        grid, array = Grid(shape, metadata), {"shape": shape, "chunk_grid": metadata}
        lists = [list(map(number, shape)) for _ in range(12)]
        asked = np.array(lists, np.uint64).reshape(len(lists), len(shape))
        shapes = [[min(rng.randrange(4), GREATEST - start) for start in starts] for starts in lists]
        asked_shapes = np.array(shapes, np.uint64).reshape(asked.shape)
        chunks, places, found = grid.find_home(asked)
        boxes, cover = grid.subset(asked), grid.chunks_in_array_subset(asked, asked_shapes)
        batches = {
            "chunk_indices": (lists, rows(found, chunks)),
            "chunk_element_indices": (lists, rows(found, places)),
            "subset": (lists, rows(boxes[2], boxes[0], boxes[1])),
            "chunks_in_array_subset": (list(zip(lists, shapes)), rows(cover[2], cover[0], cover[1])),
        }
        alone = [part.tolist() for part in grid.chunk_indices(asked)]
        tally.same(f"{grid} chunk_indices alone", alone, [chunks.tolist(), found.tolist()])
        tally.same(f"{grid} no chunk leaves zeros", chunks[~found].any() or places[~found].any(), False)
        for call, (of, answers) in batches.items():
            tally.same(f"{grid} {call} {of}", [*answers], [answered(library, array, call=call, of=question) for question in of])
        tally.same(f"{grid} grid_shape", list(grid.grid_shape), answered(library, array, call="grid_shape"))


def plans(tally, library):
    """Plans, whole and piece by piece, beside the first parts that `zarrs_answer` gives of them."""
    generator = Generator(4)
    rng = generator.random
    for shape, metadata in grids(generator):
        grid, name = Grid(shape, metadata), generator.encoding()
        encoding, array = Encoding(name), {"shape": shape, "chunk_grid": metadata, "chunk_key_encoding": name}
        for _ in range(4):
            small = [min(size, 2**32) for size in shape]
            start = [rng.choice([rng.randrange(size), rng.randrange(size + 3)]) for size in small]
            sizes = [rng.choice([0, 1, size, rng.randrange(most + 1)]) for size, most in zip(shape, small)]
            if any(begin + size > GREATEST for begin, size in zip(start, sizes)):
                continue
            whole = grid.parts(encoding, start, sizes)
            single = answered(library, array, call="parts", of=[start, sizes], items=10**6)
            what = f"{grid} {name} {start} {sizes}"
            if whole is None:
                tally.same(f"{what}: no plan", single, None)
                continue
            seen = seen_parts(whole)
            tally.same(f"{what}: the plan", (seen, whole.in_all), (single["items"], len(single["items"])))
            pieces = [grid.parts(encoding, start, sizes, first, 2) for first in range(0, len(seen) + 3, 2)]
            tally.same(f"{what}: in pieces", [part for piece in pieces for part in seen_parts(piece)], seen)
            tally.same(f"{what}: how many pieces have", {piece.in_all for piece in pieces}, {len(seen)})
    long, default = Grid([GREATEST], regular(1)), Encoding("default")
    last = long.parts(default, [0], [GREATEST], first=GREATEST - 2, most=9)
    keys = [f"c/{GREATEST - 2}", f"c/{GREATEST - 1}"]
    tally.same("the last of the most parts", (last.keys, last.in_all), (keys, GREATEST))
    wide = Grid([GREATEST] * 2, regular(1, 1))
    some = wide.parts(default, [0, 0], [GREATEST, GREATEST], first=GREATEST - 1, most=9)
    tally.same("more parts than a number counts", (some.keys, some.in_all), ([f"c/0/{GREATEST - 1}"], GREATEST))
    tally.same("past the end", long.parts(default, [0], [3], first=3).keys, [])


def keys_against_single_calls(tally, library):
    rng = random.Random(2)
    draw = lambda: rng.choice([0, 9, 10, rng.randrange(2**64), GREATEST])
    dotted, slashed = ({"name": name, "configuration": {"separator": s}} for name, s in (("default", "."), ("v2", "/")))
    suffixed = {"name": "zarrs.default_suffix", "configuration": {"suffix": ".é漢"}}
    for metadata in ("default", dotted, "v2", slashed, suffixed):
        encoding = Encoding(metadata)
        for dimensionality in range(4):
            chunks = [[draw() for _ in range(dimensionality)] for _ in range(20)]
            asked = np.array(chunks, np.uint64).reshape(20, dimensionality)
            keys = encoding.encode(asked)
            single = [answered(library, {"chunk_key_encoding": metadata}, call="encode", of=chunk) for chunk in chunks]
            tally.same(f"{encoding} of {dimensionality} dimensions", keys, single)
            texts = keys + ["", "c", "/", "c/01", "c/1/", "0", "c/1.é", "18446744073709551616"]
            chunks, found = encoding.decode(texts, dimensionality)
            question = {"chunk_key_encoding": metadata, "call": "decode", "dimensionality": dimensionality}
            single = [library.answer({**question, "of": text}) for text in texts]
            # A text that is no store key is refused there, and is the key of no chunk here.
            single = [None if answer.startswith("refused: ") else json.loads(answer) for answer in single]
            tally.same(f"{encoding} of {dimensionality} dimensions, {texts}", [*rows(found, chunks)], single)
        text, offsets = encoding.encode_text(np.zeros((0, 2), np.uint64))
        tally.same("no keys", (text, offsets.tolist()), (b"", [0]))


def against_numpy(tally):
    rng = np.random.default_rng(3)
    shape, edges = [1000, 777, 5000], [7, 100, 333]
    indices = rng.integers(0, shape, (20000, 3)).astype(np.uint64)
    chunks, places, found = Grid(shape, regular(*edges)).find_home(indices)
    divided, rest = np.divmod(indices, np.array(edges, np.uint64))
    tally.same("regular: all found", bool(found.all()), True)
    tally.same("regular: numpy's division", (chunks == divided).all() and (places == rest).all(), True)
    for count in (1, 20, 5000):
        edges = rng.integers(1, 50, count)
        ends = np.cumsum(edges).astype(np.uint64)
        indices = rng.integers(0, int(ends[-1]) + 20, (20000, 1)).astype(np.uint64)
        grid = Grid([int(ends[-1])], grid_metadata("rectilinear", [edges.tolist()]))
        chunks, places, found = grid.find_home(indices)
        sought = np.searchsorted(ends, indices[:, 0], side="right").astype(np.uint64)
        starts = np.concatenate([[np.uint64(0)], ends])
        within = indices[:, 0] < ends[-1]
        tally.same(f"{count} edges: found", (found == within).all(), True)
        tally.same(f"{count} edges: searchsorted", (chunks[within, 0] == sought[within]).all(), True)
        tally.same(f"{count} edges: no chunk leaves zeros", chunks[~within].any() or places[~within].any(), False)
        right = (indices[:, 0] - starts[sought])[within]
        tally.same(f"{count} edges: places", (places[within, 0] == right).all(), True)


# ---- buffers


def buffers(tally, library):
    grid, encoding = Grid([5, 7], REGULAR), Encoding("default")
    numbers = np.arange(24, dtype=np.uint64).reshape(6, 4) % 5
    expected = grid.chunk_indices(numbers[::2, 1:3].copy())[0].tolist()
    tally.same("strided", grid.chunk_indices(numbers[::2, 1:3])[0].tolist(), expected)
    tally.same("as Fortran has it", grid.chunk_indices(np.asfortranarray(numbers[::2, 1:3]))[0].tolist(), expected)
    readonly = numbers[::2, 1:3].copy()
    readonly.flags.writeable = False
    tally.same("read-only", grid.chunk_indices(readonly)[0].tolist(), expected)
    tally.same("more axes", grid.chunk_indices(numbers.reshape(3, 2, 2, 2))[0].shape, (3, 2, 2, 2))
    tally.same("no lists", [part.shape for part in grid.find_home(np.zeros((0, 2), np.uint64))], [(0, 2), (0, 2), (0,)])
    shaped = "indices: the last axis is to have 2 numbers, one a dimension, and the array's shape is (1, 3)"
    tally.raises("three numbers", ValueError, shaped, lambda: grid.chunk_indices([[0, 1, 2]]))
    far = "box 1 ends past 18446744073709551615"
    starts, ones = [[0, 0], [GREATEST, 0]], [[1, 1], [1, 1]]
    tally.raises("a box too far", ValueError, far, lambda: grid.chunks_in_array_subset(starts, ones))
    far = "a box ends past 18446744073709551615"
    tally.raises("a read too far", ValueError, far, lambda: grid.parts(encoding, [GREATEST, 0], [1, 1]))
    descending = "the offsets of key 1 descend, or lie past the text"
    tally.raises("offsets", ValueError, descending, lambda: encoding.decode_text(b"c/1", [0, 3, 4], 1))
    null_and_great(tally, library)


def null_and_great(tally, library):
    """Null pointers to no items, and lists whose length times their count would wrap."""
    grid = prepared("grid", 16, shape=np.array([5, 7], np.uint64), chunk_grid=json.dumps(REGULAR).encode())
    none, needed = (ctypes.c_void_p(None), ctypes.c_size_t(0)), ctypes.c_size_t()
    tally.same("null and no lists", library.call("zarrs_prepared_homes_of", grid, *none * 4), 0)
    tally.same("null for numbers", library.call("zarrs_prepared_homes_of", *none * 5), library.NOT_PREPARED)
    tally.same("null for metadata", library.call("zarrs_prepare_grid", *none * 3, ctypes.byref(needed)), library.NOT_JSON)
    encoding, offsets = prepared("encoding", 3, chunk_key_encoding=b'"default"'), np.zeros(3, np.uint64)
    code = library.call("zarrs_prepared_keys_of", encoding, 2**63, *none * 2, offsets, ctypes.byref(needed))
    tally.same("lists of 2 ** 63 numbers", code, library.WRONG_LENGTH)


# ---- memory


def refused_memory(backend):
    """In a process of its own: under an address space that grows, a call is out of memory or right, writes nothing
    beside its buffers, and leaves the next one right. It prints how many calls ended either way, and ends with the
    status 1 where one did otherwise."""
    import raw_calls as library

    listed, plain = (json.dumps(grid).encode() for grid in (grid_metadata("rectangular", [[1] * 20000]), regular(3)))
    shape, indices = np.array([20000], np.uint64), np.arange(40000, dtype=np.uint64) % 20000
    grid, encoding = prepared("grid", 9, shape=shape, chunk_grid=plain), prepared("encoding", 3, chunk_key_encoding=b'"default"')
    # The array's edges are one run, so the grid has nine numbers.
    numbers, chunks, found = np.zeros(10, np.uint64), np.zeros(40001, np.uint64), np.zeros(40001, np.uint8)
    keys, offsets, needed = np.zeros(2**19, np.uint8), np.zeros(40001, np.uint64), ctypes.c_size_t()
    ended, written = {0: 0, library.OUT_OF_MEMORY: 0}, set()
    wrong, before = 0, used()
    for more in [*range(0, 2**22, 2**16), *range(2**22, 2**25, 2**20)]:
        numbers[:], chunks[:], found[:] = 7, 7, 7
        with at_most(before + more):
            first = library.call("zarrs_prepare_grid", shape, listed, numbers[:-1], ctypes.byref(needed))
            second = library.call("zarrs_prepared_keys_of", encoding, 1, indices, keys, offsets, ctypes.byref(needed))
        written |= {numbers.tobytes()} if first == 0 else set()
        for code in (first, second):
            wrong += code not in ended
            ended[code] = ended.get(code, 0) + 1
        wrong += library.call("zarrs_prepared_chunk_indices_of", grid, indices, chunks[:-1], found[:-1]) != 0
        wrong += numbers[-1] != 7 or chunks[-1] != 7 or found[-1] != 7 or not (chunks[:-1] == indices // np.uint64(3)).all()
    wrong += written != {np.append(prepared("grid", 9, shape=shape, chunk_grid=listed), np.uint64(7)).tobytes()}
    counted = f"{ended[0]} calls answered under little memory, {ended[library.OUT_OF_MEMORY]} refused"
    print(f"{backend}: {counted}, {wrong} otherwise than expected")
    sys.exit(1 if wrong or 0 in ended.values() else 0)


def refused_one_by_one(tally, backend, program):
    from refuse_each import Refusing

    with tempfile.TemporaryDirectory() as folder:
        refusing = Refusing(folder)
        whole, allocations = refusing.whole([program], b"")
        tally.same("the example with its memory", (whole.returncode, whole.stdout), (0, EXAMPLE))
        refused = 0
        for ended in refusing.each([program], b"", allocations):
            # An allocation that the C library makes for its own output does without.
            refused += ended.returncode == 1
            expected = (1, b"", b"out of memory\n") if ended.returncode == 1 else (0, EXAMPLE, b"")
            tally.same("the example without an allocation", (ended.returncode, ended.stdout, ended.stderr), expected)
        tally.same("the example is refused memory", refused > 3, True)
        print(f"{backend}: {refused} allocations of the C example refused", flush=True)


# ---- the examples


def run(command, **settings):
    ended = subprocess.run(list(map(str, command)), capture_output=True, env={**os.environ, **settings})
    return ended.returncode, ended.stdout, ended.stderr.decode(errors="replace")[-600:]


def shared(out):
    return [f"-L{out}", "-lzarrs_chunks", f"-Wl,-rpath,{out}"]


def compiled(source, libraries, program):
    flags = ["-std=c11", "-Wall", "-Wextra", "-Wpedantic", "-Werror", f"-I{HERE}"]
    return run(["cc", *flags, HERE / "c" / source, *libraries, "-o", program])


def limits(tally, out):
    """The C program that makes each call on a small stack and under a trap for floats."""
    program = out / "limits"
    tally.same("cc, limits", compiled("limits.c", [*shared(out), "-lpthread", "-lm"], program), (0, b"", ""))
    expected = b"deepest metadata: 0 otherwise\nplain metadata: 0 otherwise\nunder a trap: 0 otherwise\n"
    tally.same("stack and traps", run([program]), (0, expected, ""))


def examples(tally, backend):
    out = HERE / "out" / backend
    for how, libraries in {"shared": shared(out), "static": [out / "libzarrs_chunks.a"]}.items():
        program = out / f"example_{how}"
        tally.same(f"cc, {how}", compiled("example.c", libraries, program), (0, b"", ""))
        tally.same(f"the C example, {how}", run([program]), (0, EXAMPLE, ""))
        checked = run(["valgrind", "-q", "--error-exitcode=9", "--leak-check=full", "--show-leak-kinds=all", program])
        tally.same(f"memcheck, {how}", checked, (0, EXAMPLE, ""))
    refused_one_by_one(tally, backend, out / "example_shared")
    program, rows = out / "answer", questions_and_answers()[:: 1 if IS_THOROUGH else 10]
    questions, answers = ("".join(f"{line}\n" for line in lines).encode() for lines in zip(*rows))
    tally.same("cc, answer.c", compiled("answer.c", shared(out), program), (0, b"", ""))
    ended = subprocess.run([program], input=questions, capture_output=True)
    tally.same("vectors by a program in C", (ended.returncode, ended.stdout, ended.stderr), (0, answers, b""))
    # One may be there without the other, or without a toolchain.
    if is_whole(backend) and all(shutil.which(tool) and run([tool, "--version"])[0] == 0 for tool in ("cargo", "rustc")):
        places = {"ZARRS_CHUNKS_LIB_DIR": str(out), "CARGO_TARGET_DIR": str(out / "cargo")}
        ended = run(["cargo", "test", "--offline", "--quiet", "--manifest-path", HERE / "rust" / "zarrs_chunks" / "Cargo.toml"], **places)
        tally.same("the tests of the crate for Rust", (ended[0], ended[2] if ended[0] else ""), (0, ""))
    ended = run([sys.executable, HERE / "python" / "example.py"], PYTHONPATH=str(HERE / "python"))
    tally.same("the Python example", (ended[0], ended[1].endswith(b" 1000000\n"), ended[2]), (0, True, ""))


def docstrings(tally):
    for path in sorted((HERE / "python" / "zarrs_chunks").glob("*.py")):
        name = f"zarrs_chunks.{path.stem}".removesuffix(".__init__")
        found = doctest.testmod(importlib.import_module(name))
        tally.made += found.attempted
        tally.same(f"docstrings of {name}", found.failed, 0)


def is_whole(backend):
    """Whether all is asked of a build."""
    return IS_THOROUGH or backend == BACKENDS[0]


def in_this_process(backend):
    """What is asked of one build."""
    import raw_calls as library
    from python_calls_test import python_calls
    from python_test import python_package
    from words_and_bounds import words_and_bounds

    tally = Tally()
    rows = questions_and_answers()
    count = vectors(tally, library, rows if is_whole(backend) else rows[::10])
    against_single_calls(tally, library)
    plans(tally, library)
    keys_against_single_calls(tally, library)
    if is_whole(backend):
        against_numpy(tally)
        buffers(tally, library)
        python_package(tally)
        python_calls(tally)
        words_and_bounds(tally, library)
        limits(tally, HERE / "out" / backend)
        faults(tally, library)
        docstrings(tally)
    examples(tally, backend)
    print("".join(f"{fault}\n" for fault in tally.faults[:20]), end="")
    made = f"{count} vectors, {tally.made} comparisons"
    print(f"{backend}: {made}, {len(tally.faults)} otherwise than expected", flush=True)
    return not tally.faults


def main():
    parser = argparse.ArgumentParser()
    parser.add_argument("--backend", choices=BACKENDS)
    parser.add_argument("--memory", action="store_true")
    parser.add_argument("--thorough", action="store_true")
    chosen = parser.parse_args()
    if chosen.backend:
        if chosen.memory:
            refused_memory(chosen.backend)
        sys.exit(0 if in_this_process(chosen.backend) else 1)
    missing = [tool for tool in ("cc", "valgrind") if shutil.which(tool) is None]
    if missing:
        sys.exit(f"bindings/test.py needs {' and '.join(missing)}")
    ended = []
    for backend in BACKENDS:
        environment = {**os.environ, "ZARRS_CHUNKS_LIBRARY": str(shared_library(backend))}
        of_backend = [__file__, "--backend", backend, *(["--thorough"] if IS_THOROUGH else [])]
        asked = [of_backend, [*of_backend, "--memory"], [HERE / "fuzz.py", "--seconds", "60" if IS_THOROUGH else "5"]]
        for words in asked if is_whole(backend) else asked[:1]:
            ended.append(subprocess.run([sys.executable, *words], env=environment).returncode)
    sys.exit(1 if any(ended) else 0)


if __name__ == "__main__":
    try:
        import numpy as np
    except ImportError:
        sys.exit("bindings/test.py needs numpy, as Debian's python3-numpy has it for /usr/bin/python3")
    if "--backend" in sys.argv:
        from faults import faults, seen_parts
        from zarrs_chunks import Encoding, Grid
        from zarrs_chunks._prepared import prepared
    main()
