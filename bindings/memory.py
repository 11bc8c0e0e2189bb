"""An address space that ends soon, for tests of what happens where memory is refused."""
import contextlib
import pathlib
import resource


def used():
    """The bytes of address space that the process has."""
    return int(pathlib.Path("/proc/self/statm").read_text().split()[0]) * resource.getpagesize()


def set_most(most):
    resource.setrlimit(resource.RLIMIT_AS, (most, resource.RLIM_INFINITY))


@contextlib.contextmanager
def at_most(most):
    """Within it the process has so many bytes of address space at most."""
    set_most(most)
    try:
        yield
    finally:
        set_most(resource.RLIM_INFINITY)
