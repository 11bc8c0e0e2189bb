#!/usr/bin/env python3
"""Sees that every place that tells the version tells that of the file `VERSION`.

    python3 docs/check_versions.py

It prints each place that tells another, or none where one is wanted, and then ends with the status 1.
"""
import pathlib
import re
import sys

ROOT = pathlib.Path(__file__).resolve().parent.parent
# Where the version stands, and what stands around it.
PLACES = {
    "crates/programs/src/words.rt": r'^const VERSION: &str = "(.*)";$',
    "crates/programs/specs/Words.antt": r'^version = codes "(.*)"$',
    "crates/zarrs_chunks_c/src/version.rt": r'^const VERSION: &str = "(.*)";$',
    "crates/zarrs_chunk_batches/specs/Codes.antt": r'^library_version = codes "(.*)"$',
    "bindings/zarrs_chunks.h": r'^#define ZARRS_VERSION "(.*)"$',
    "bindings/python/zarrs_chunks/_version.py": r'^__version__ = "(.*)"$',
    "bindings/rust/zarrs_chunks/Cargo.toml": r'^version = "(.*)"$',
    "CHANGELOG.md": r"^## (.*)$",
}


def main():
    version = (ROOT / "VERSION").read_text().strip()
    faults = [] if re.fullmatch(r"\d+\.\d+\.\d+", version) else [f"VERSION: {version} is no version"]
    for place, pattern in PLACES.items():
        found = re.search(pattern, (ROOT / place).read_text(), re.MULTILINE)
        told = found[1] if found else "no version"
        if told != version:
            faults.append(f"{place}: it tells {told}, and VERSION {version}")
    print("\n".join(faults), end="\n" if faults else "")
    sys.exit(1 if faults else 0)


if __name__ == "__main__":
    main()
