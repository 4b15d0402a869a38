"""Puts the engine's library, which `tools/build library` builds, beside the module in each package, and builds the extension module where there is a C
compiler and Python is 3.10 or later. All else is in pyproject.toml."""
import os
import shutil
import sys
from glob import glob

from setuptools import Distribution, Extension, setup
from setuptools.command.build_py import build_py
from setuptools.command.sdist import sdist

HERE = os.path.dirname(os.path.abspath(__file__))
NAME = "libowlantimony.so"
CALLS = "owlantimony_typed.h"


def library() -> str:
    """Give the path of the library: in an unpacked package it is beside the module, in the repository where it is built."""
    for path in (os.path.join(HERE, "owlantimony", NAME), os.path.join(HERE, "..", "out", NAME)):
        if os.path.exists(path):
            return path
    raise SystemExit(f"{NAME} is not built: run `tools/build library` first, which takes 45 minutes on four cores")


class BuildWithLibrary(build_py):
    """Copies the library into what is built."""

    def run(self) -> None:
        super().run()
        if not self.editable_mode:
            shutil.copyfile(library(), os.path.join(self.build_lib, "owlantimony", NAME))


class SdistWithLibrary(sdist):
    """Copies the library, and the header of the calls, into the package of sources."""

    def make_release_tree(self, base_dir: str, files: "list[str]") -> None:
        super().make_release_tree(base_dir, files)
        shutil.copyfile(library(), os.path.join(base_dir, "owlantimony", NAME))
        for header in glob(os.path.join(HERE, "engine", "*.h")) + [os.path.join(HERE, "..", "c", CALLS)]:
            if os.path.exists(header):
                shutil.copyfile(header, os.path.join(base_dir, "engine", os.path.basename(header)))


class BinaryDistribution(Distribution):
    """Says that a package is of one platform."""

    def has_ext_modules(self) -> bool:
        return True


EXTENSION = Extension(
    "owlantimony._engine",
    sorted(os.path.relpath(path, HERE) for path in glob(os.path.join(HERE, "engine", "*.c"))),
    include_dirs=["engine", os.path.join("..", "c")],
    define_macros=[("OVER_LINES", "1")],
    extra_compile_args=["-std=c11"],
    py_limited_api=True,
    optional=True,
)
IS_STABLE = sys.version_info >= (3, 10)

setup(
    distclass=BinaryDistribution,
    cmdclass={"build_py": BuildWithLibrary, "sdist": SdistWithLibrary},
    ext_modules=[EXTENSION] if IS_STABLE else [],
    options={"bdist_wheel": {"py_limited_api": "cp310"}} if IS_STABLE else {},
)
