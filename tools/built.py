"""What `rt ci`, `rt run` and `bindings/build.py` built, and the vectors of `chunkcalls`, for the scripts of this repository."""
import pathlib
import sys

TOP = pathlib.Path(__file__).resolve().parent.parent
CRATES = TOP / "crates"
# The word by which `tools/release --thorough` asks a script for all that it can try.
IS_THOROUGH = "--thorough" in sys.argv[1:]


def builds(program):
    """The builds of a program: that of LLVM, and that of Rattle's own compiler where it compiles the program. Where the
    program isn't built, the script ends with a line that says what to run."""
    by_llvm = CRATES / program / "out" / program
    by_rattle = by_llvm.with_name(f"{program}.by-rattle")
    if not by_llvm.exists():
        sys.exit(f"{by_llvm.relative_to(TOP)} isn't built: run `rt ci` at the top, or `rt run < /dev/null` in crates/{program}")
    return [by_llvm, by_rattle] if by_rattle.exists() else [by_llvm]


def shared_library(backend="llvm"):
    """The shared library by one of the kit's compilers, as `bindings/build.py` leaves it."""
    return TOP / "bindings" / "out" / backend / "libzarrs_chunks.so"


def asked_of(build, rows):
    """The rows that a build is asked: of the one by Rattle's own compiler each tenth, unless all are asked for."""
    return rows if IS_THOROUGH or build.suffix != ".by-rattle" else rows[::10]


def tests(crate):
    """The program of a crate's tests. Where it isn't built, the script ends with a line that says what to run."""
    program = CRATES / crate / "out" / f"{crate}_tests"
    if not program.exists():
        sys.exit(f"{program.relative_to(TOP)} isn't built: run `rt ci` at the top, or `rt test` in crates/{crate}")
    return program


def vectors():
    """Each question of `chunkcalls`, a line, with the line that answers it."""
    questions, answers = ((CRATES / "chunkcalls" / name).read_bytes().decode().split("\n")[:-1] for name in ("stdin", "stdout"))
    if len(questions) != len(answers):
        sys.exit(f"chunkcalls has {len(questions)} questions and {len(answers)} answers")
    return list(zip(questions, answers))
