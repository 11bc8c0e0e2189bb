"""Says that the package is for every Python 3, and for one platform, since a shared library lies in it."""
import os

from setuptools import setup
from setuptools.dist import Distribution

try:
    from setuptools.command.bdist_wheel import bdist_wheel
except ImportError:
    from wheel.bdist_wheel import bdist_wheel


class WithLibrary(Distribution):
    def has_ext_modules(self):
        return True


class ForEveryPython(bdist_wheel):
    def get_tag(self):
        return "py3", "none", os.environ.get("ZARRS_CHUNKS_PLATFORM", "linux_x86_64")


setup(distclass=WithLibrary, cmdclass={"bdist_wheel": ForEveryPython})
