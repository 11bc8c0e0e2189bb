"""Chunk key encodings, as the Zarr V3 standard and the extension `zarrs.default_suffix` define them."""
import re

from extensions import ENCODINGS, GREATEST, Refused, extension


class Encoding:
    """A chunk key encoding."""

    def __init__(self, metadata):
        self.name, members = extension(metadata, ENCODINGS)
        self.separator = members.get("separator", "." if self.name == "v2" else "/")
        self.suffix = members.get("suffix", "")
        if self.suffix.endswith("/"):
            raise Refused("chunk key suffix must not end with a slash")

    def key(self, chunk):
        if self.name == "v2":
            return self.separator.join(map(str, chunk)) if chunk else "0"
        return self.separator.join(["c", *map(str, chunk)]) + self.suffix

    def chunk(self, key, dimensionality):
        """The chunk of so many numbers that has a key, or None. No key of a chunk ends in a slash."""
        if not key.endswith(self.suffix):
            return None
        front = key[: len(key) - len(self.suffix)]
        if self.name == "v2":
            numerals = [] if dimensionality == 0 and front == "0" else front.split(self.separator)
        else:
            first, *numerals = front.split(self.separator)
            if first != "c":
                return None
        is_chunk = len(numerals) == dimensionality and all(re.fullmatch("0|[1-9][0-9]*", digits) for digits in numerals)
        chunk = [int(digits) for digits in numerals] if is_chunk else None
        return chunk if is_chunk and all(number <= GREATEST for number in chunk) else None
