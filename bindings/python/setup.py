"""Puts the shared object into the wheel: NAVBRIDGE_LIBRARY, or what `make -C bindings/c` made."""

import os
import shutil
from pathlib import Path

from setuptools import setup
from setuptools.command.build_py import build_py
from setuptools.dist import Distribution

try:
    from setuptools.command.bdist_wheel import bdist_wheel
except ImportError:
    from wheel.bdist_wheel import bdist_wheel

LIBRARY = Path(os.environ.get("NAVBRIDGE_LIBRARY", Path(__file__).resolve().parent.parent / "c" / "out" / "libnavbridge.so.2"))


class WithLibrary(build_py):
    def run(self):
        super().run()
        if not LIBRARY.exists():
            raise SystemExit(f"{LIBRARY} is not there: `bindings/archive.sh && make -C bindings/c libraries` makes it")
        shutil.copy(LIBRARY, Path(self.build_lib) / "navbridge" / "libnavbridge.so.2")


class ForAnyPython(bdist_wheel):
    def get_tag(self):
        return "py3", "none", super().get_tag()[2]


class OfThisMachine(Distribution):
    def has_ext_modules(self):
        return True


setup(cmdclass={"build_py": WithLibrary, "bdist_wheel": ForAnyPython}, distclass=OfThisMachine)
