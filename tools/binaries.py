"""What stands in a shared library or a program, as the kit's `llvm-readobj` reads it."""
import json
import pathlib
import re
import subprocess

READ = ["--elf-output-style=JSON", "--program-headers", "--dynamic-table", "--dyn-syms", "--notes"]


def kit():
    """The kit's folder."""
    page = subprocess.run(["rt", "doc"], stdout=subprocess.PIPE, check=True).stdout.decode()
    return pathlib.Path(page.split()[-1]).resolve().parent


class Binary:
    """A shared library or a program of 64 bits."""

    def __init__(self, path):
        # The kit's clang is each of LLVM's tools, by the name that it is called by.
        read = subprocess.run(["llvm-readobj", *READ, str(path)], executable=kit() / "toolchain" / "bin" / "clang", stdout=subprocess.PIPE, check=True)
        (self.parts,) = json.loads(read.stdout)

    def _symbols(self):
        for row in self.parts["DynamicSymbols"]:
            name, _, version = row["Symbol"]["Name"]["Name"].partition("@")
            yield name, version.lstrip("@"), row["Symbol"]["Section"]["Name"] != "Undefined"

    def exported(self):
        """The names that it exports."""
        return {name for name, _version, here in self._symbols() if name and here}

    def wanted(self):
        """The names that it wants of others."""
        return {name for name, _version, here in self._symbols() if name and not here}

    def glibc(self):
        """The oldest version of glibc that has all that it wants, as two numbers."""
        found = [re.fullmatch(r"GLIBC_(\d+)\.(\d+)(?:\.\d+)?", version) for _name, version, here in self._symbols() if not here]
        return max((int(version[1]), int(version[2])) for version in found if version)

    def needed(self):
        """The libraries that it is loaded with."""
        return {entry["Library"] for entry in self.parts["DynamicSection"] if entry["Type"] == "NEEDED"}

    def _flags(self):
        return {flag for entry in self.parts["DynamicSection"] if entry["Type"] in ("FLAGS", "FLAGS_1") for flag in entry["Flags"]}

    def soft_spots(self):
        """What it lacks of what distributions ask for: memory that is written to is never run, the stack neither; tables of addresses are bound at the
        start and written to no more; it may be loaded anywhere; and a build has a number of its own."""
        headers = [row["ProgramHeader"] for row in self.parts["ProgramHeaders"]]
        modes = {}
        for header in headers:
            modes.setdefault(header["Type"]["Name"], []).append({flag["Name"] for flag in header["Flags"]["Flags"]})
        entries = {entry["Type"] for entry in self.parts["DynamicSection"]}
        if any({"PF_X", "PF_W"} <= mode for mode in modes["PT_LOAD"]):
            yield "memory that is written to may be run"
        if any("PF_X" in mode for mode in modes.get("PT_GNU_STACK", [{"PF_X"}])):
            yield "the stack may be run"
        if "PT_GNU_RELRO" not in modes or not self._flags() & {"BIND_NOW", "NOW"}:
            yield "tables of addresses may be written to"
        if "TEXTREL" in entries or "TEXTREL" in self._flags():
            yield "code is written to when it is loaded"
        if "PT_INTERP" in modes and "PIE" not in self._flags():
            yield "it is loaded at one place"
        if all("Build ID" not in note for section in self.parts["NoteSections"] for note in section["NoteSection"]["Notes"]):
            yield "there is no build id"
