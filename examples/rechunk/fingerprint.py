#!/usr/bin/env python3
"""Prints a checksum by which a later run sees whether an array was changed: of its metadata, and of the names, sizes, times
and inodes of its files.

    fingerprint.py ARRAY
"""
import hashlib
import sys

from stored_arrays import ended_by, files_in, identity_of, open_array


def main():
    array = open_array(sys.argv[1])
    seen = hashlib.sha256(array.written)
    for key in sorted(files_in(array.folder)):
        seen.update(f"{key!r} {identity_of(array.folder / key)}\n".encode())
    print(seen.hexdigest())


ended_by(main)
