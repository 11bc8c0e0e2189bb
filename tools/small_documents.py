"""Small documents that could be dear to answer: at most 10 kB each, of many dimensions, at the greatest numbers, of many
chunks, of long lists, deep or long.

A family is what a program is asked, of arrays of one form: `FAMILIES` has a function for each, which makes a document of
it with a `Generator`.
"""
import json
import math
from collections import namedtuple

from call_names import CALLS, OF_BOX, OF_CHUNK, OF_INDEX, OF_RECTILINEAR, OF_TASKS, WALKS, WITH_ENCODING
from chunk_grids import Grid
from chunk_keys import Encoding
from extensions import GREATEST, GRIDS, grid_metadata

LONGEST = 10_000  # bytes

# ---- forms of arrays

# A dimension of an array: its size, the edges of its chunks and of a rechunking's target, and its size after a resize.
Along = namedtuple("Along", "size edges target_edges resized")


def power(random, most):
    """A number of any magnitude up to a power of two."""
    return random.randrange(2 ** random.randint(0, most)) + 1


def equal(size, resized, count, target_count):
    """A dimension with equal edges, for about this number of chunks of the array and of the target."""
    return Along(size, max(size // count, 1), max(size // target_count, 1), resized)


def few(random, _room):
    """One or two dimensions of up to a hundred elements, with chunks of one shape."""
    for _ in range(random.choice([1, 2])):
        size = random.randint(1, 100)
        yield equal(size, random.randint(1, 100), random.randint(1, 20), random.randint(1, 20))


def usual(random, _room):
    """A few dimensions of up to a thousand elements, with chunks of one shape."""
    for _ in range(random.choice([1, 2, 3, 4, 6, 12, 20])):
        size = power(random, 10)
        yield equal(size, power(random, 10), power(random, 10), power(random, 10))


def huge(random, room):
    """Sizes up to the greatest number, cut into any number of chunks."""
    for _ in range(random.choice([1, 2, 3, 4, room])):
        sizes = [max(random.choice([GREATEST, GREATEST - 1, 2**63, power(random, 64)]) - 1, 1) for _ in range(2)]
        yield equal(*sizes, power(random, 64), power(random, 64))


def millions(random, room):
    """Millions of chunks along each dimension, more and fewer than the 2^20 up to which they are gone through."""
    for _ in range(random.choice([1, 2, 3, 6, room])):
        count, target_count = (2 ** random.choice([16, 20, 23, 24, 24]) + random.randint(-1, 1) for _ in range(2))
        size = max(count, target_count) * power(random, 8)
        yield equal(size, size + random.randint(-2, 2), count, target_count)


def flat(random, room):
    """Up to more than a thousand dimensions, nearly all of size 1."""
    for _ in range(room):
        size = random.choice([1] * room + [2, 3, 50, GREATEST])
        yield Along(size, 1, random.choice([1, 1, size]), random.choice([size, size, 2]))


def split(random, room):
    """Many dimensions with two or more chunks along each, so that there are very many in all."""
    for _ in range(room):
        size = random.randint(2, 9)
        yield Along(size, random.randint(1, size), random.randint(1, size), random.randint(1, 12))


def listed(random, room):
    """Lists of edges, long ones or many."""
    dimensions = random.choice([1, 1, 2, 4, room // 3])
    for _ in range(dimensions):
        edges = [power(random, random.choice([1, 3, 40])) for _ in range(max(room // dimensions, 1))]
        size = sum(edges)
        cuts = sorted({random.randrange(size) for _ in edges} - {0})
        yield Along(size, edges, [end - begin for begin, end in zip([0, *cuts], [*cuts, size])], size)


def runs(random, room):
    """Run-length lists, long ones or many, of few or of very many chunks, whose edges may reach over the array."""
    dimensions = random.choice([1, 1, 2, 4, room // 3])
    for _ in range(dimensions):
        count = max(room // 3 // dimensions, 1)
        most = random.choice([3, 20, (GREATEST // count).bit_length() // 2 - 1])
        pairs = [[power(random, most), power(random, most)] for _ in range(count)]
        targets = [[other, -(-edge * times // other)] for edge, times in pairs for other in [random.randint(1, edge)]]
        size = min(sum(edge * times for edge, times in pairs), GREATEST)
        yield Along(size - random.choice([0, 0, size // 2]), pairs, targets, size - random.choice([0, 1, size // 3]))


FORMS = [usual, huge, millions, flat, split, listed, runs]


# How an array is stored: the members of its metadata, with the models of both.
Storage = namedtuple("Storage", "members grid encoding")


class Array:
    """An array of a form, and how a rechunking of it stores it."""

    def __init__(self, generator, form, room):
        self.generator, self.random = generator, generator.random
        rows = list(form(self.random, room))
        self.shape, self.resized = [row.size for row in rows], [row.resized for row in rows]
        # Two kinds of grid take lists of edges. Each kind takes one edge along each dimension.
        kinds = {listed: ["rectangular", "rectilinear"], runs: ["rectilinear"]}.get(form, list(GRIDS))
        target_edges = [row.target_edges for row in rows]
        if form in (listed, runs) and generator.one_in(3):
            target_edges = [power(self.random, size.bit_length() - 1) for size in self.shape]
        self.source = self.storage(self.random.choice(kinds), [row.edges for row in rows])
        self.target = self.storage(self.random.choice(kinds), target_edges)
        self.document = {"shape": self.shape, **self.source.members}

    def storage(self, kind, edges):
        grid, encoding = grid_metadata(kind, edges), self.generator.encoding()
        return Storage({"chunk_grid": grid, "chunk_key_encoding": encoding}, Grid(grid, self.shape), Encoding(encoding))

    def index(self):
        return self.generator.index(self.source.grid)

    def box(self):
        """A box of the array: all of it, or any part."""
        return [[0] * len(self.shape), self.shape] if self.generator.one_in(2) else self.generator.box_within(self.shape)

    def box_past(self):
        """A box that may begin and end past the array, up to the greatest number."""
        return self.generator.box([self.generator.number(size) for size in self.shape])

    def chunk(self):
        return self.generator.chunk(self.source.grid)

    def chunks(self):
        """A box of the target's chunks."""
        return self.generator.box_within([min(count, GREATEST) for count in self.target.grid.grid_shape()])

    def key(self, storage):
        """A key of a chunk, or a text that is nearly one."""
        return self.generator.key(storage.encoding, self.generator.chunk(storage.grid))

    def several(self, ask):
        """Some of what is asked for: one, ten, or about all that fits into a document."""
        return [ask() for _ in range(self.random.choice([1, 10, LONGEST // (3 * len(self.shape) + 3)]))]

    def share(self):
        of = self.random.choice([1, 2, 7, 1000, 2**32, GREATEST])
        return [self.random.choice([0, of // 2, of - 1]), of]

    def bound(self):
        """A bound on the elements that a worker holds: near twice the greatest chunk of both arrays, with which tasks of one chunk fit, or any."""
        greatest = max(
            math.prod(min(max(edge for edge, _ in d.pairs), d.size) for d in storage.grid.dimensions)
            for storage in (self.source, self.target)
        )
        enough = 2 * greatest
        return min(self.random.choice([enough, enough - 1, greatest + power(self.random, 20), enough * power(self.random, 4), GREATEST]), GREATEST)

    def tasks(self):
        """Members by which a copy asks for its tasks."""
        each = [min(power(self.random, self.random.choice([0, 2, 64])), GREATEST) for _ in self.shape]
        members = {"task_chunks": each, "order": self.random.choice(["source", "target"])}
        return {member: value for member, value in members.items() if not self.generator.one_in(4)}

    def region(self):
        """A box of the array that goes to another array of the same shape."""
        box = self.box()
        at = [self.random.choice([0, 0, size - length]) for size, length in zip(self.shape, box[1])]
        return {"subset": box, "target": {"shape": self.shape, **self.target.members}, "at": at}


# ---- what the programs are asked of an array


def ranges(array):
    members = {"item_size": array.random.choice([1, 8, 2**32]), "max_ranges": array.random.choice([0, 1000, 2**20, 2**24, GREATEST])}
    return {"subset": array.generator.box_within(array.shape), "memory_order": array.random.choice("CF"), **members}


def rechunking(array, **members):
    return {"target": array.target.members, **members}


def by_tasks(array, **members):
    return rechunking(array, **array.tasks(), **members)


def region_by_tasks(array, **members):
    return {**array.region(), **array.tasks(), **members}


def bound(array):
    worth = {"read_elements": array.random.choice([0, 1, GREATEST])} if array.generator.one_in(3) else {}
    return {"max_elements": array.bound(), **worth}


def bounded(array, **members):
    return rechunking(array, **bound(array), **members)


PLANS = {
    "read": lambda array: {},
    "read of a box": lambda array: {"subset": array.box()},
    "read past the array": lambda array: {"subset": array.box_past()},
    "clipped read": lambda array: {"subset": array.box_past(), "clip": True},
    "byte ranges": ranges,
    "share of a read": lambda array: {"share": array.share()},
    "counts of a read": lambda array: {"subset": array.box(), "counts": True},
    "rechunking": rechunking,
    "rechunking": rechunking,
    "tasks": by_tasks,
    "tasks of a box of chunks": lambda array: by_tasks(array, chunks=array.chunks()),
    "share of tasks": lambda array: by_tasks(array, share=array.share()),
    "counts of tasks": lambda array: by_tasks(array, counts=True),
    "counts of a box of chunks": lambda array: by_tasks(array, counts=True, chunks=array.chunks()),
    "keys of tasks": lambda array: by_tasks(array, keys=True),
    "keys of a share": lambda array: by_tasks(array, keys=True, share=array.share()),
    "keys of a box of chunks": lambda array: by_tasks(array, keys=True, chunks=array.chunks()),
    "region": Array.region,
    "tasks of a region": region_by_tasks,
    "share of a region": lambda array: region_by_tasks(array, share=array.share()),
    "counts of a region": lambda array: region_by_tasks(array, counts=True),
    "keys of a region": lambda array: region_by_tasks(array, keys=True),
    "first stage": lambda array: bounded(array, stage=1),
    "first stage of a box of chunks": lambda array: bounded(array, stage=1, chunks=array.chunks()),
    "share of a stage": lambda array: bounded(array, stage=1, share=array.share()),
    "keys of a stage": lambda array: bounded(array, stage=1, keys=True),
    "counts of stages": lambda array: bounded(array, counts=True),
    "counts of stages of a region": lambda array: {**array.region(), **bound(array), "counts": True},
    "resize": lambda array: {"resize": array.resized},
    "resize with all chunks": lambda array: {"resize": array.resized, "include_unchanged": True},
}
# Tasks are chosen among shapes. In arrays of the other forms there can be very many, and the choice may take minutes.
CHOSEN = [name for name in PLANS if "stage" in name]
FORMS_CHOSEN = [few, huge, millions, flat, split]


def plan(array, members):
    """A document of `chunkplan`, with keys after it if it asks for them."""
    keys = array.several(lambda: array.key(array.target)) if "keys" in members else []
    return "\n".join([json_of({**array.document, **members}), *keys])


def question(array, call):
    """A line of `chunkcalls`."""
    random, generator = array.random, array.generator
    asked = {**array.document, "call": call}
    if call in OF_CHUNK or call == "encode":
        asked["of"] = array.chunk()
    elif call in OF_INDEX:
        asked["of"] = array.index()
    elif call in OF_BOX:
        asked["of"] = random.choice([array.box, array.box_past])()
    elif call in OF_TASKS:
        asked |= random.choice([by_tasks, region_by_tasks])(array)
    elif call == "changed_chunks":
        asked["resize"] = array.resized
    elif call == "byte_ranges":
        asked |= {"chunk_shape": array.shape, "of": generator.box_within(array.shape), "item_size": power(random, 8)}
    elif call == "runs":
        asked["of"] = generator.number(len(array.shape))
    elif call == "decode":
        asked["of"] = array.key(array.source)
        asked["dimensionality"] = random.choice([len(array.shape), generator.number(GREATEST)])
    if call in WALKS or call in ("parts", "tasks"):
        asked["items"] = random.choice([1, power(random, 14), power(random, 20), GREATEST])
        if generator.one_in(2):
            asked["first"] = power(random, random.choice([3, 63]))
    if call == "task_counts" and generator.one_in(2):
        asked["share"] = array.share()
    if call in ("encode", "decode", "byte_ranges"):
        del asked["shape"], asked["chunk_grid"]
    if call not in (*WITH_ENCODING, "encode", "decode"):
        del asked["chunk_key_encoding"]
    return json_of(asked)


def lists_asked(array, member):
    """A document of `chunkwhere`, with index lists or keys."""
    ask = {"indices": array.index, "keys": lambda: array.key(array.source)}[member]
    return json_of({**array.document, "indices": [], member: array.several(ask)})


# ---- texts


def json_of(value):
    return json.dumps(value, separators=(",", ":"), ensure_ascii=False)


def deep(random, text, room):
    """A text with lists or objects in one another, closed or not, in the place of a number or of a member that says nothing."""
    begin, end = random.choice(["[]", ['{"a":', "}"], ['{"a":[', "]}"]])
    depth = random.choice([100, 127, 128, room])
    value = begin * depth + random.choice(["1", "null", ""]) + end * random.choice([depth, depth - 1, 0])
    if random.randrange(2):
        return f'{text[:-1]},"attributes":{value}}}'
    return text.replace("1", value, 1)


def long_text(random, text, room):
    """A text with long names, separators or suffixes."""
    letters = random.choice(["a", "/", ".", "0", "é", "\\n", "\\u0000", '\\"', "\\ud83d\\ude00", "c/"]) * room
    name = random.choice(["default", "regular", "shape", "chunk_grid", "configuration", "separator"])
    return text.replace(name, random.choice([letters, name + letters])) + random.choice(["", letters])


def many_members(random, text, room):
    """A text with many members more, which are nearly known, not known, twice there, or say nothing."""
    names = ["subset", "target", "chunk_grid", "max_elements", "memory_order", "attributes", "items", "indices"]
    members = [f'"{name}{random.choice(["", number, "_" * number])}":{random.choice(["1", "[]", "{}", "null"])}'
               for number, name in enumerate(random.choice(names) for _ in range(room))]  # fmt: skip
    place = random.choice([1, text.find("{", 1) + 1])
    return text[:place] + ",".join(members) + "," + text[place:]


def numbers(random, text, room):
    """A text with numbers of many digits, with great exponents, or in other forms."""
    digits = str(random.randint(1, 9)) * room
    forms = [digits, f"0.{digits}", f"1e{digits}", "1e999", f"-{digits}", f"1.0e-{digits[:5]}", "0" * room, "1E+19", f"1{'0' * room}e-{room}"]
    for digit in random.sample("123456789", 9):
        if digit in text:
            return text.replace(digit, random.choice(forms), random.choice([1, 2]))
    return text


def cut(random, text, _room):
    """The beginning of a text, or a text with other bytes somewhere."""
    place = random.randrange(len(text))
    return text[:place] + random.choice(["", "\0", "é", text[place // 2 :], text[place + 1 :], '"', "]" * 9, "\n" + text])


def wrong(random, text, room):
    """A document in which some values are of another kind, or are lists of another length."""
    line, *keys = text.split("\n")
    document = json.loads(line)
    for _ in range(random.choice([1, 1, 2, 5])):
        holder = random.choice([value for value in [document, *document.values()] if isinstance(value, (dict, list)) and value])
        place = random.choice(list(holder) if isinstance(holder, dict) else range(len(holder)))
        holder[place] = random.choice([None, True, -1, 2.5, GREATEST + 1, "x" * room, [], {}, [1] * room, [[1, 2]] * room, [holder[place]]])
    return "\n".join([json_of(document), *keys])


def spaces(random, text, room):
    """A text with white space between all its parts."""
    space = random.choice([" ", "\n", "\t", "\r\n"]) * max(room // len(text), 1)
    return "".join(f"{letter}{space}" if letter in ",:[{" else letter for letter in text)


TEXTS = [deep, long_text, many_members, numbers, wrong, cut, spaces]


# ---- families


def within(make):
    """A document by a function that takes how much room there is: about how many numbers it may have. It is made again with
    less, until it isn't too long."""

    def made(generator):
        room = int(10 ** generator.random.uniform(0.5, 3.5))
        while len(document := make(generator, room).encode(errors="surrogatepass")) > LONGEST:
            room = min(room * 3 // 4, room * LONGEST // len(document))
        return document

    return made


def of_array(form, ask):
    return within(lambda generator, room: ask(Array(generator, form, room)))


def of_text(change, families):
    return within(lambda generator, room: change(generator.random, generator.random.choice(families)(generator).decode(), room))


def of_lines(families):
    """Documents of as many lines as there may be, each of any family."""

    def made(generator):
        lines = b""
        while len(longer := lines + generator.random.choice(families)(generator) + b"\n") <= LONGEST:
            lines = longer
        return lines

    return made


def families_of(name, asked, forms=FORMS):
    """A family for each form of array, by its name."""
    return {f"{name}, {form.__name__}": of_array(form, asked) for form in forms}


def all_families():
    """The families of each program, by their names."""
    plans, questions, lists = {}, {}, {}
    for name, members in PLANS.items():
        forms = FORMS_CHOSEN if name in CHOSEN else FORMS
        plans |= families_of(name, lambda array, members=members: plan(array, members(array)), forms)
    for call in CALLS:
        questions |= families_of(call, lambda array, call=call: question(array, call), [runs] if call in OF_RECTILINEAR else FORMS)
    for member in ("indices", "keys"):
        lists |= families_of(member, lambda array, member=member: lists_asked(array, member))
    found = {"chunkplan": plans, "chunkcalls": questions, "chunkwhere": lists}
    for families in found.values():
        families |= {change.__name__: of_text(change, list(families.values())) for change in TEXTS}
    questions["lines"] = of_lines(list(questions.values()))
    return found
