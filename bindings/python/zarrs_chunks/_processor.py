"""What the shared library needs of the processor."""

from __future__ import annotations

import pathlib
import platform

# What x86-64-v2 has beyond every x86-64 processor, by the names in Linux's /proc/cpuinfo.
_WANTED = {"cx16", "lahf_lm", "popcnt", "sse4_1", "sse4_2", "ssse3"}


def fault(machine: str, cpuinfo: str) -> str | None:
    """Why a processor can't run the library, or None if nothing is known against it. `machine` is its name, and `cpuinfo` the text of
    /proc/cpuinfo; each is empty if it isn't known.

    >>> fault("aarch64", "")
    'the library is for x86-64 processors, and this one is aarch64'
    >>> fault("x86_64", "flags : fpu cx16 lahf_lm popcnt sse4_1 ssse3")
    'the library needs an x86-64-v2 processor, and this one is without sse4_2'
    """
    if machine.lower() not in ("x86_64", "amd64", ""):
        return f"the library is for x86-64 processors, and this one is {machine}"
    for line in cpuinfo.splitlines():
        name, _, flags = line.partition(":")
        missing = _WANTED - set(flags.split())
        if name.strip() == "flags" and missing:
            return f"the library needs an x86-64-v2 processor, and this one is without {', '.join(sorted(missing))}"
    return None


def check() -> None:
    """Raises an ImportError if this processor can't run the library."""
    try:
        cpuinfo = pathlib.Path("/proc/cpuinfo").read_text(errors="replace")
    except OSError:
        cpuinfo = ""
    told = fault(platform.machine(), cpuinfo)
    if told is not None:
        raise ImportError(told)
