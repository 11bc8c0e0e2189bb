"""Which bytes of an uncompressed chunk hold the elements of a box: element by element for small chunks, and by products of
edges for chunks of any size.

    python3 tools/byte_ranges.py [SEED]

compares the two ways on small chunks, in row-major and in column-major order, and reads each box by its ranges from a file
that numpy wrote. It prints how many boxes were compared and how many differ, and then ends with the status 1 where some did.
"""
import itertools
import math
import pathlib
import sys
import tempfile

from chunk_grids import check_box
from extensions import GREATEST, Refused
from random_arrays import Generator


def byte_ranges(chunk_shape, box, item_size, order="C"):
    """The answer by products: the ranges go through all of the inner dimensions along which the box is as long as the chunk,
    and along the next outer one. None where the box ends past the chunk, or the chunk has too many bytes."""
    start, shape = box
    check_box(start, shape)
    if len(shape) != len(chunk_shape):
        raise Refused(f"incompatible dimensionality {len(shape)}, expected {len(chunk_shape)}")
    if any(first + count > edge for first, count, edge in zip(start, shape, chunk_shape)):
        return None
    if 0 in shape:
        return {"counts": [0], "first": 0, "length": 0, "strides": [0]}
    if math.prod(chunk_shape) * item_size > GREATEST:
        return None
    edges, start, shape = (list(numbers) if order == "C" else list(numbers)[::-1] for numbers in (chunk_shape, start, shape))
    outer = max([d for d in range(len(edges)) if shape[d] < edges[d]], default=0)
    strides = [item_size * math.prod(edges[d + 1 :]) for d in range(len(edges))]
    return {
        "counts": shape[:outer],
        "first": sum(map(math.prod, zip(start, strides))),
        "length": item_size * math.prod(shape[outer:]),
        "strides": strides[:outer],
    }


def runs_by_element(chunk_shape, box, item_size, order="C"):
    """The bytes of the box's elements, each found by how many elements lie before it in the chunk, as runs of bytes from a
    beginning up to an end. No two of them meet."""
    runs = []
    for begin in sorted(item_size * place_of(index, chunk_shape, order) for index in indices_in(box)):
        if runs and runs[-1][1] == begin:
            runs[-1] = (runs[-1][0], begin + item_size)
        else:
            runs.append((begin, begin + item_size))
    return runs


def indices_in(box):
    return itertools.product(*(range(first, first + count) for first, count in zip(*box)))


def place_of(index, chunk_shape, order):
    """How many elements lie before this one: of these the first dimension, or the last one, grows last."""
    place, pairs = 0, list(zip(index, chunk_shape))
    for number, edge in pairs if order == "C" else reversed(pairs):
        place = place * edge + number
    return place


def expanded(answer):
    """The ranges of an answer in order, each as its beginning and its end."""
    steps = ([number * stride for number in range(count)] for count, stride in zip(answer["counts"], answer["strides"]))
    begins = (answer["first"] + sum(numbers) for numbers in itertools.product(*steps))
    return [(begin, begin + answer["length"]) for begin in begins]


def fault_of_ranges(answer, chunk_shape, box, item_size, order="C"):
    """What is wrong with an answer about a box that lies in a small chunk, or None: its ranges have to be the runs."""
    if answer is None or len(answer["counts"]) != len(answer["strides"]):
        return f"it tells no ranges: {answer}"
    found, right = expanded(answer), runs_by_element(chunk_shape, box, item_size, order)
    return None if found == right else f"the ranges are {found}, and the elements have {right}"


def small_boxes(seed, count):
    """Boxes of small chunks: the chunk's shape, the box, the size of an element, and the order. Some don't lie in the chunk."""
    generator = Generator(seed)
    rng = generator.random
    for _ in range(count):
        edges = [rng.choice([0, 1, 1, 2, 3, 4, 5]) if generator.one_in(4) else rng.randint(1, 5) for _ in range(rng.randint(0, 4))]
        start = [rng.choice([0, 0, rng.randint(0, edge)]) for edge in edges]
        shape = [rng.choice([edge - first, edge - first, rng.randint(0, edge - first)]) for first, edge in zip(start, edges)]
        if edges and generator.one_in(10):
            shape[rng.randrange(len(shape))] += rng.randint(1, 3)
        yield edges, [start, shape], rng.choice([1, 2, 3, 8, 16]), rng.choice("CF")


def great_boxes(seed, count):
    """Such boxes of chunks at the greatest numbers, of which some have too many bytes, or no box."""
    generator = Generator(seed)
    rng = generator.random
    for _ in range(count):
        edges = [generator.size(True) if generator.one_in(2) else rng.randint(1, 4) for _ in range(rng.randint(1, 4))]
        start = [generator.number(edge) for edge in edges]
        shape = [rng.choice([edge - first, generator.number(edge - first)]) for first, edge in zip(start, edges)]
        if generator.one_in(8):
            start[rng.randrange(len(start))] = generator.number(GREATEST)
        elif generator.one_in(8):
            shape.append(1)
            start += [0] if generator.one_in(2) else []
        yield edges, [start, shape], rng.choice([1, 1, 2, 8, 2**32, GREATEST]), rng.choice("CF")


def fault_of_file(np, answer, path, chunk_shape, box, item_size, order):
    """What is wrong with the bytes that the ranges have of a chunk that numpy wrote, or None."""
    count = math.prod(chunk_shape)
    values = np.random.default_rng(count).integers(0, 256, count * item_size, np.uint8)
    chunk = values.view(f"V{item_size}").reshape(chunk_shape)
    path.write_bytes(chunk.tobytes(order))
    right = chunk[tuple(slice(first, first + size) for first, size in zip(*box))].tobytes(order)
    with path.open("rb") as file:
        found = b"".join(read_range(file, *ends) for ends in expanded(answer))
    return None if found == right else f"the file has {found} there, and the box {right}"


def read_range(file, begin, end):
    file.seek(begin)
    return file.read(end - begin)


def main():
    import numpy as np

    compared = differ = none = 0
    with tempfile.TemporaryDirectory() as folder:
        path = pathlib.Path(folder, "chunk")
        for asked in small_boxes(int(sys.argv[1]) if sys.argv[1:] else 1, 4000):
            answer = byte_ranges(*asked)
            chunk_shape, (start, shape), *_ = asked
            lies_within = all(first + count <= edge for first, count, edge in zip(start, shape, chunk_shape))
            if lies_within:
                fault = fault_of_ranges(answer, *asked) or fault_of_file(np, answer, path, *asked)
            else:
                none += 1
                fault = f"it is answered by {answer}" if answer is not None else None
            compared += 1
            if fault:
                differ += 1
                print(f"{asked}: {fault}")
    print(f"{compared} boxes compared, {none} of them past the chunk, {differ} differ")
    sys.exit(1 if differ or not none else 0)


if __name__ == "__main__":
    main()
