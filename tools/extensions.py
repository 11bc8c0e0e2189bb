"""The extensions of a `zarr.json`: which members each has, of which form, and which fault of metadata is told first."""

GREATEST = 2**64 - 1


class Refused(Exception):
    """A question is refused, with this text, or with any text where it is `None`."""

    def __init__(self, text=None):
        self.text = text


def is_edge(value):
    return isinstance(value, int) and not isinstance(value, bool) and 0 < value <= GREATEST


def is_list_of(is_item):
    return lambda value: isinstance(value, list) and all(map(is_item, value))


def is_edge_or(is_other):
    return lambda value: is_edge(value) or is_other(value)


def is_pair(value):
    return is_list_of(is_edge)(value) and len(value) == 2


def is_separator(value):
    return isinstance(value, str) and value in ("/", ".")


# Of each extension: its members, which of them have to be there, and of which form each is.
CHUNK_SHAPE = {"chunk_shape": (True, is_list_of(is_edge))}
SEPARATOR = {"separator": (False, is_separator)}
GRIDS = {
    "regular": CHUNK_SHAPE,
    "zarrs.regular_bounded": CHUNK_SHAPE,
    "rectangular": {"chunk_shape": (True, is_list_of(is_edge_or(is_list_of(is_edge))))},
    "rectilinear": {
        "chunk_shapes": (True, is_list_of(is_edge_or(is_list_of(is_edge_or(is_pair))))),
        "kind": (True, lambda value: value == "inline"),
    },
}
ENCODINGS = {
    "default": SEPARATOR,
    "v2": SEPARATOR,
    "zarrs.default_suffix": {**SEPARATOR, "suffix": (True, lambda value: isinstance(value, str))},
}


def grid_metadata(name, edges):
    """The metadata of a grid with these edges along each dimension."""
    configuration = {"kind": "inline", "chunk_shapes": edges} if name == "rectilinear" else {"chunk_shape": edges}
    return {"name": name, "configuration": configuration}


def regular(*edges):
    return grid_metadata("regular", list(edges))


def extension(metadata, kinds):
    """The name and the members of metadata. The first fault: its own form, then its name, then its configuration."""
    if isinstance(metadata, str):
        metadata = {"name": metadata}
    if not isinstance(metadata, dict):
        raise Refused("not an extension")
    if "name" not in metadata:
        raise Refused("name is missing")
    name, members = metadata["name"], metadata.get("configuration", {})
    if not isinstance(name, str):
        raise Refused("name is not a text")
    if not isinstance(members, dict):
        raise Refused("configuration is not an object")
    if not isinstance(metadata.get("must_understand", True), bool):
        raise Refused("must_understand is not a truth value")
    if name not in kinds:
        raise Refused(f"name `{name}` is not supported")
    fault = first_fault(members, kinds[name])
    if fault:
        raise Refused(f"configuration is unsupported: {fault}")
    return name, members


def first_fault(members, table):
    expected = " or ".join(f"`{known}`" for known in sorted(table))
    faults = [f"unknown field `{member}`, expected {expected}" for member in sorted(members) if member not in table]
    for member, (is_required, _) in sorted(table.items()):
        if is_required and member not in members:
            faults.append(f"missing field `{member}`")
    for member, (_, is_of_form) in sorted(table.items()):
        if member in members and not is_of_form(members[member]):
            faults.append(f"wrong value in field `{member}`")
    return faults[0] if faults else None
