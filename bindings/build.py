#!/usr/bin/env python3
"""Builds the shared library `libzarrs_chunks.so` and its header's static library, by the kit alone: no other compiler or linker is needed.

    bindings/build.py [--after-ci]

`bindings/out/llvm` gets both as LLVM compiles them, `bindings/out/rattle` as Rattle's own compiler does. The shared library is called by the version of its interface, as
`libzarrs_chunks.so.3`, and `libzarrs_chunks.so` is a link to it. The crate and those below it are proved first,
which takes longest the first time. Right after `rt ci` the flag spares the crates below, which are taken as that left them, proved; where `rt ci` gave back
what an earlier check had kept, they are checked again. It ends with the status 1 where the names that are exported aren't those of the header.
"""
import pathlib
import re
import subprocess
import sys
import tempfile

HERE = pathlib.Path(__file__).resolve().parent
sys.path.insert(0, str(HERE.parent / "tools"))
from binaries import Binary, kit  # noqa: E402

CRATES = HERE.parent / "crates"
CRATE = CRATES / "zarrs_chunks_c"
# The library whose functions it exports. The structs of the header are declared there.
BATCHES = CRATES / "zarrs_chunk_batches"
ARCHIVE = CRATE / "out" / "libzarrs_chunks_c.a"
BACKENDS = ("llvm", "rattle")
NAME = "libzarrs_chunks"
# What the library asks of the C library. It opens no file and starts nothing.
WANTED = {"malloc", "realloc", "free", "memcpy", "memmove", "memset", "memcmp", "bcmp"}


def run(*command):
    """Runs a command in the crate's folder, and ends where it fails, with what it said."""
    ran = subprocess.run(command, cwd=CRATE, stdout=subprocess.PIPE, stderr=subprocess.STDOUT)
    if ran.returncode != 0:
        sys.exit(ran.stdout.decode() + f"bindings/build.py: {command[0]} {command[1]} ended with status {ran.returncode}")


def over_libraries(kit_folder):
    """What the compiler is told of the crate, over the kit's libraries and over those that `rt ci` built."""
    text = (HERE.parent / "crates.txt").read_text()
    uses = {name: libraries.split() for name, libraries in re.findall(r"^(\w+).*?:(.*)$", text, re.MULTILINE)}
    built = {name: CRATES / name / "out" / "rlib" for name in uses}
    words = ["--crate-name", CRATE.name, "src/lib.rt", "--crate-type", "staticlib", "--links", f"{CRATE.name}="]
    for name in ("std", *uses[CRATE.name]):
        words += ["--extern", f"{name}={built.get(name, kit_folder / 'rlibs') / name}.rlib"]
    for folder in (kit_folder / "rlibs", *filter(pathlib.Path.is_dir, built.values())):
        words += ["-L", f"dependency={folder}"]
    return [*words, "--antt-project", kit_folder / "rattle" / "logic" / "antt-project.json"]


def archives(kit_folder, after_ci):
    """Proves the crate and compiles it by each compiler in turn: the compiler's name, once its static library is there."""
    # `rt` marks by a stamp what its other commands built.
    if not after_ci or any(CRATES.glob("*/out/rlib/stamp")):
        for backend in BACKENDS:
            run("rt", "lib", *([] if backend == "llvm" else ["--backend", backend]))
            yield backend
        return
    rattle, words = kit_folder / "bin" / "rattle", over_libraries(kit_folder)
    ARCHIVE.parent.mkdir(exist_ok=True)
    with tempfile.TemporaryDirectory() as room:
        proved = f"{room}/proved"
        run(rattle, "check", *words, "--logic-built", kit_folder / "logic_built", "--jobs", "4", "-o", proved)
        for backend in BACKENDS:
            compiled = ["--toolchain", kit_folder / "toolchain", "--backend", backend, "-o", ARCHIVE]
            run(rattle, "build", *words, "--crate-checked", proved, *compiled)
            yield backend


def link(backend, kit_folder):
    """The static library with what it needs of the kit, and the shared library of it, in a folder of their compiler."""
    out = HERE / "out" / backend
    out.mkdir(parents=True, exist_ok=True)
    static, shared = out / f"{NAME}.a", out / f"{NAME}.so.{version()}"
    toolchain = kit_folder / "toolchain"
    static.unlink(missing_ok=True)
    joined = f"CREATE {static}\nADDLIB {ARCHIVE}\nADDLIB {kit_folder / 'c' / 'liblibc_c.a'}\nSAVE\nEND\n"
    subprocess.run([toolchain / "bin" / "llvm-ar", "-M"], input=joined.encode(), check=True)
    exported = out / "exported.map"
    exported.write_text("{ global: zarrs_*; local: *; };\n")
    subprocess.run(
        [
            toolchain / "bin" / "ld.lld", "-shared", "-soname", shared.name, "-z", "defs", "-z", "text", "-z", "noexecstack", "-z", "relro", "-z", "now",
            "-z", "separate-code", "--build-id=sha1", "--gc-sections", "--version-script", exported, "--whole-archive", static, "--no-whole-archive",
            # a compiler's own runtime: LLVM calls it to divide numbers of 128 bits
            toolchain / "lib" / "libgcc.a", toolchain / "lib" / "libc.so.6", "-o", shared,
        ],
        check=True,
    )  # fmt: skip
    linked = out / f"{NAME}.so"
    linked.unlink(missing_ok=True)
    linked.symlink_to(shared.name)
    return shared


def version():
    """The version of the interface, as the header has it."""
    return re.search(r"^#define ZARRS_ABI_VERSION (\d+)$", (HERE / "zarrs_chunks.h").read_text(), re.MULTILINE)[1]


def declared():
    """The calls of the header."""
    return set(re.findall(r"^int32_t (\w+)\(", (HERE / "zarrs_chunks.h").read_text(), re.MULTILINE))


# What a parameter or a field of a Rattle type is in C.
CROSSING = {
    "&[u64]": ["constuint64_t*", "size_t"], "&mut [u64]": ["uint64_t*", "size_t"], "&[u8]": ["constuint8_t*", "size_t"],
    "&mut [u8]": ["uint8_t*", "size_t"], "&mut usize": ["size_t*"], "usize": ["size_t"], "u64": ["uint64_t"], "u8": ["uint8_t"], "i32": ["int32_t"],
}  # fmt: skip


def c_name(name):
    """A struct's name in C: `zarrs_part_buffers` for `PartBuffers`."""
    return "zarrs" + re.sub("[A-Z]", lambda letter: f"_{letter[0].lower()}", name)


def crossing(kind):
    """The same of a reference to a struct too."""
    is_mut, name = re.fullmatch(r"&?(mut )?(.*)", kind).groups()
    return CROSSING.get(kind) or [f"{'' if is_mut else 'const'}struct{c_name(name)}*"]


def declarations(text, pattern, end):
    """Each call or struct of a text, with its parameters or fields as they are declared there."""
    text = re.sub(r"/\*.*?\*/|//[^\n]*", "", text, flags=re.DOTALL)
    found = {}
    for name, inside in re.findall(pattern, text, re.DOTALL):
        parts = [" ".join(part.split()) for part in inside.split(end)]
        found[name] = [part for part in parts if part not in ("", "void") and not part.startswith("alloc:")]
    return found


def in_c():
    """What the header declares: of each call the types of its parameters, of each struct its fields with their types."""
    text = (HERE / "zarrs_chunks.h").read_text()
    calls = declarations(text, r"int32_t (\w+)\((.*?)\);", ",")
    structs = declarations(text, r"struct (\w+) \{(.*?)\};", ";")
    fields = lambda parts: [(part.split()[-1].lstrip("*"), re.sub(r"\w+$", "", part).replace(" ", "")) for part in parts]
    return {name: [kind for _, kind in fields(parts)] for name, parts in calls.items()} | {name: fields(parts) for name, parts in structs.items()}


def in_rattle():
    """The same of the crate and of the library beneath it, as it is in C: a slice is a pointer and a length, whose name in a struct ends in `_len`."""
    files = [path for crate in (CRATE, BATCHES) for path in sorted(crate.glob("src/*.rt"))]
    text = "".join(path.read_text() for path in files).replace("&'a ", "&")
    calls = declarations(text, r'pub extern "C" fn (\w+)\((.*?)\) -> i32', ",")
    structs = declarations(text, r"#\[repr\(C\)\]\s*#\[derive\(Drop\)\]\s*pub struct (\w+)<'a> \{(.*?)\n\}", ",")
    found = {name: [kind for part in parts for kind in crossing(part.split(": ")[1])] for name, parts in calls.items()}
    for name, parts in structs.items():
        fields = [part.removeprefix("pub ").split(": ") for part in parts]
        found[c_name(name)] = [row for field, kind in fields for row in zip((field, f"{field}_len"), crossing(kind))]
    return found


# What a parameter or a field of a Rust declaration is in C, but for pointers to structs.
IN_RUST = {
    "*const u64": "constuint64_t*", "*mut u64": "uint64_t*", "*const u8": "constuint8_t*", "*mut u8": "uint8_t*", "*mut usize": "size_t*",
    "usize": "size_t", "u64": "uint64_t", "u8": "uint8_t", "i32": "int32_t",
}  # fmt: skip


def in_rust():
    """What the crate for Rust declares of the header, as it is in C."""
    text = (HERE / "rust" / "zarrs_chunks" / "src" / "ffi.rs").read_text().replace("pub(crate) ", "")

    def rows(parts):
        for part in parts:
            name, kind = part.split(": ")
            to_struct = re.fullmatch(r"\*(const|mut) ([A-Z]\w+)", kind)
            yield name, f"{'const' if to_struct[1] == 'const' else ''}struct{c_name(to_struct[2])}*" if to_struct else IN_RUST[kind]

    calls = declarations(text, r"fn (\w+)\((.*?)\) -> i32;", ",")
    structs = declarations(text, r"struct (\w+) \{(.*?)\n\}", ",")
    found = {name: [kind for _, kind in rows(parts)] for name, parts in calls.items()}
    return found | {c_name(name): list(rows(parts)) for name, parts in structs.items()}


def main():
    kit_folder = kit()
    header, crate = in_c(), in_rattle()
    faults = [f"{name}: the header has {header.get(name)}, and the crate {crate.get(name)}" for name in sorted(header | crate) if header.get(name) != crate.get(name)]
    faults += [f"{name}: the header has {header.get(name)}, and the crate for Rust {parts}" for name, parts in in_rust().items() if header.get(name) != parts]
    for backend in archives(kit_folder, "--after-ci" in sys.argv[1:]):
        shared = link(backend, kit_folder)
        binary = Binary(shared)
        if binary.exported() != declared():
            faults.append(f"{shared}: exported and not in the header, or the other way round: {sorted(binary.exported() ^ declared())}")
        if not binary.wanted() <= WANTED:
            faults.append(f"{shared}: wants more of the C library: {sorted(binary.wanted() - WANTED)}")
        faults += [f"{shared}: {spot}" for spot in binary.soft_spots()]
        print(f"{shared.relative_to(HERE.parent)}: {shared.stat().st_size} bytes, {len(declared())} calls")
    print("\n".join(faults), end="\n" if faults else "")
    sys.exit(1 if faults else 0)


if __name__ == "__main__":
    main()
