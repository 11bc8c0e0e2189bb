#!/usr/bin/env python3
"""Uses a release as somebody would who has nothing but the archive.

    tools/try_release.py [--thorough] ARCHIVE

The archive is unpacked in a new folder. All that is run there runs without the kit on the path and outside of this repository; where the script is run
by root, as `nobody`. The sums are compared; each command of the archive's page is run as it stands, and what it prints is compared; a vector is put to
`chunkcalls`, to C and to the Python package, and a document to each other program. With `--thorough` these get all vectors, an array is rechunked, and
the Rust crate's tests are run. Prints how long each step took, and ends with the status 1 if one fails.
"""
import json
import os
import pathlib
import re
import subprocess
import sys
import tarfile
import tempfile
import time

sys.path.insert(0, str(pathlib.Path(__file__).resolve().parent))
from built import IS_THOROUGH  # noqa: E402

PLAN = b'{"shape":[4],"chunk_grid":{"name":"regular","configuration":{"chunk_shape":[3]}},"chunk_key_encoding":"default","subset":[[1],[3]]}'
LINES = """\
{"chunk":[0],"in_chunk":[[1],[2]],"in_selection":[[0],[2]],"key":"c/0","number":0,"of":2,"shape":[3],"whole":false}
{"chunk":[1],"in_chunk":[[0],[1]],"in_selection":[[2],[1]],"key":"c/1","number":1,"of":2,"shape":[3],"whole":true}
"""
HAS_ZARR = """
try:
    import zarr
    print(zarr.__version__.startswith("2."))
except ImportError:
    print(False)
"""
ARRAYS = """
import numpy, zarr
source = zarr.open_array("source", mode="w", shape=(90, 70), dtype="<i4", chunks=(20, 30), dimension_separator="/")
source[:] = numpy.arange(90 * 70).reshape(90, 70)
zarr.open_array("target", mode="w", shape=(90, 70), dtype="<i4", chunks=(45, 8), dimension_separator="/")
"""
EQUAL = """
import zarr
print((zarr.open_array("source", mode="r")[:] == zarr.open_array("target", mode="r")[:]).all())
"""
DOCUMENT = b'{"shape":[6],"chunk_grid":{"name":"regular","configuration":{"chunk_shape":[4]}},"chunk_key_encoding":"v2","indices":[[5]]}'


class Room:
    """The unpacked archive, and who uses it."""

    def __init__(self, archive, room):
        with tarfile.open(archive) as packed:
            expect("the modes in the archive", {entry.mode for entry in packed if not entry.issym()}, {0o644, 0o755})
            packed.extractall(room)
        (self.folder,) = [path for path in room.iterdir() if path.is_dir()]
        self.home = room / "home"
        self.home.mkdir()
        self.prefix = []
        if os.geteuid() == 0:
            self.prefix = ["setpriv", "--reuid=65534", "--regid=65534", "--clear-groups", "--no-new-privs"]
            subprocess.run(["chown", "-R", "65534:65534", room], check=True)
        self.environment = {"PATH": "/usr/bin:/bin", "HOME": str(self.home), "CARGO_NET_OFFLINE": "true", "CARGO_TARGET_DIR": str(self.home / "target")}

    def run(self, command, given=b""):
        """What a command prints in the folder. Where it fails, the script ends with what it said."""
        begun = time.monotonic()
        ended = subprocess.run([*self.prefix, *map(str, command)], input=given, capture_output=True, cwd=self.folder, env=self.environment)
        if ended.returncode != 0:
            said = (ended.stdout + ended.stderr).decode(errors="replace")[-2000:]
            sys.exit(f"{said}\ntools/try_release.py: {' '.join(map(str, command))[:300]} ended with status {ended.returncode}")
        return ended.stdout.decode(), time.monotonic() - begun


def expect(what, found, wanted):
    if found != wanted:
        sys.exit(f"tools/try_release.py: {what}: it printed {str(found)[:2000]!r}, and {str(wanted)[:2000]!r} was expected")


def tell(what, seconds):
    print(f"{what}: {seconds:.1f} seconds", flush=True)


def commands_of(page):
    """Each command of a page, in its order, with the heading that it stands under."""
    found, heading = [], None
    for title, command in re.findall(r"^## (.*?)$|^```sh\n(.*?)^```", page, re.MULTILINE | re.DOTALL):
        if title:
            heading = title
        else:
            found.append((heading, command.strip()))
    return found


def line_of(answer):
    """The line that tells an answer of the vectors, where that is a refusal; None where it is JSON."""
    kind = next(iter(answer)) if isinstance(answer, dict) and len(answer) == 1 else None
    return f"{kind}: {answer[kind]}" if kind in ("refused", "unreadable") else None


def put_vectors(room, command):
    """Puts a vector, or all of them, to a command that answers a question a line."""
    vectors = [json.loads(line) for path in sorted((room.folder / "vectors").glob("*.jsonl")) for line in path.read_text().splitlines()]
    vectors = vectors if IS_THOROUGH else vectors[:1]
    lines = []
    for vector in vectors:
        question = {name: value for name, value in vector.items() if name not in ("note", "basis", "answer")}
        lines.append(vector["line"] if "line" in vector else json.dumps(question))
    answers, seconds = room.run(command, "".join(f"{line}\n" for line in lines).encode())
    for vector, answer in zip(vectors, answers.splitlines(), strict=True):
        told = line_of(vector["answer"])
        expect(vector["note"], answer if told else json.loads(answer), told or vector["answer"])
    tell(f"{' '.join(command)}, vectors: {len(vectors)}", seconds)


def rechunk(room):
    """Moves an array by the plan of `chunkplan`, where zarr-python 2 is there."""
    python = "environment/bin/python"
    if room.run([python, "-c", HAS_ZARR])[0] != "True\n":
        print("no array was rechunked: zarr-python 2 is missing")
        return
    room.run([python, "-c", ARRAYS])
    engine = "PATH=$PWD/bin:$PWD/environment/bin:$PATH examples/rechunk/engines/xargs_shares.sh source target room"
    _printed, seconds = room.run(["sh", "-c", engine])
    expect("the elements of the target", room.run([python, "-c", EQUAL])[0], "True\n")
    tell("an array by chunkplan and xargs", seconds)


def main():
    archive = pathlib.Path(sys.argv[-1]).resolve()
    with tempfile.TemporaryDirectory() as made:
        place = pathlib.Path(made)
        place.chmod(0o755)
        room = Room(archive, place)
        try_all(room)


def try_all(room):
    folder = room.folder
    version = folder.name.split("-")[2]
    room.run(["sh", "-c", "sed -n 's/^\\([0-9a-f]\\{64\\}  .*\\)/\\1/p' PROVED | sha256sum --quiet -c -"])
    for program in ("chunkcalls", "chunkplan"):
        expect(f"{program} --version", room.run([f"bin/{program}", "--version"])[0], f"{version}\n")
    expect("chunkplan, a document", room.run(["bin/chunkplan"], PLAN)[0], LINES)
    expect("chunkwhere, a document", room.run(["bin/chunkwhere"], DOCUMENT)[0], "1 1\n")
    put_vectors(room, ["bin/chunkcalls"])
    # The commands of the page, as they stand.
    commands = commands_of((folder / "README.md").read_text())
    found = [heading for heading, _command in commands]
    expect("the page's commands", found, ["From a shell", "From C", "From C", "From Python", "From Rust"])
    shell, c, cmake, python, rust = (command for _heading, command in commands)
    printed, seconds = room.run(["sh", "-c", shell])
    expect("the shell's command", printed, "[1,1]\n")
    tell("shell", seconds)
    example = (folder / "examples" / "example.stdout").read_text()
    printed, seconds = room.run(["sh", "-c", c])
    expect("the C example by pkg-config", printed, example)
    tell("C by pkg-config", seconds)
    printed, seconds = room.run(["sh", "-c", cmake])
    expect("the C example by CMake", printed.endswith(example), True)
    expect("the C example by CMake, shared", room.run(["build/example"])[0], example)
    tell("C by CMake", seconds)
    room.run(["sh", "-c", c.partition(" && ")[0].replace("example.c", "answer.c").replace("-o example", "-o answer")])
    for program in ("./answer", "build/answer"):
        put_vectors(room, [program])
    printed, seconds = room.run(["sh", "-c", python])
    expect("the Python example", printed.endswith(" 1000000\n"), True)
    tell("Python, with its environment", seconds)
    expect("python -m zarrs_chunks --version", room.run(["environment/bin/python", "-m", "zarrs_chunks", "--version"])[0], f"{version}\n")
    put_vectors(room, ["environment/bin/python", "-m", "zarrs_chunks"])
    told = re.search(r"^//! ```text\n(.*?)^//! ```", (folder / "rust/zarrs_chunks/examples/chunks.rs").read_text(), re.MULTILINE | re.DOTALL)
    printed, seconds = room.run(["sh", "-c", rust])
    expect("the Rust example", printed, told[1].replace("//! ", ""))
    tell("Rust, with its build", seconds)
    if not IS_THOROUGH:
        return
    rechunk(room)
    printed, seconds = room.run(["cargo", "test", "--offline", "--manifest-path", "rust/zarrs_chunks/Cargo.toml"])
    expect("the Rust crate's tests", "test result: ok" in printed and "FAILED" not in printed, True)
    tell("Rust, all tests", seconds)


if __name__ == "__main__":
    main()
