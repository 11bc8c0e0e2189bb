"""Values that look like numbers, lists or texts, and aren't quite."""
import numpy as np


class Index:
    """An object with an `__index__`, which may be no number."""

    def __init__(self, number):
        self.number = number

    def __index__(self):
        return self.number


class Raising:
    """An object whose methods raise an error."""

    def __init__(self, error):
        self.error = error

    def fail(self, *_arguments, **_named):
        raise self.error

    __array__ = __index__ = __len__ = __iter__ = __getitem__ = __float__ = __bytes__ = fail


class Lying:
    """A sequence that says another length than it has."""

    def __init__(self, told, items):
        self.told, self.items = told, items

    def __len__(self):
        return self.told

    def __getitem__(self, place):
        return self.items[place]

    def __array__(self, *_arguments, **_named):
        return self.items


class Whole(int):
    """An int that says of itself that it is within all bounds."""

    def __index__(self):
        return self

    def __lt__(self, other):
        return False

    __gt__ = __lt__

    def __le__(self, other):
        return True

    __ge__ = __le__


def misaligned(numbers):
    """The same items, a byte away from where they should be."""
    shifted = np.zeros(numbers.nbytes + 1, np.uint8)[1:].view(numbers.dtype).reshape(numbers.shape)
    shifted[...] = numbers
    return shifted
