"""Takes the shared library that `hosts/build` made into the package, and tags the wheel for this platform.

All else is in pyproject.toml. What setuptools makes on its way goes to hosts/out.
"""

from __future__ import annotations

import shutil
from pathlib import Path

from setuptools import Distribution, setup
from setuptools.command.build_py import build_py

try:
    from setuptools.command.bdist_wheel import bdist_wheel
except ImportError:  # before setuptools 70
    from wheel.bdist_wheel import bdist_wheel

HERE = Path(__file__).resolve().parent
OUT = HERE.parent / "out"
LIBRARY = OUT / "libgiqaymu.so"


class Build(build_py):
    """The package, and the library beside its modules."""

    def run(self):
        if not LIBRARY.exists():
            raise SystemExit(f"there is no {LIBRARY}: run hosts/build first, or hosts/build --unproved to try it")
        shutil.rmtree(self.build_lib, ignore_errors=True)  # modules of an earlier build that are gone
        super().run()
        if not self.editable_mode:
            shutil.copy2(LIBRARY, Path(self.build_lib) / "giqaymu")


class Platform(Distribution):
    """Else the package would be taken for one of any platform."""

    def has_ext_modules(self):
        return True


class Wheel(bdist_wheel):
    """For any Python 3 on this platform: the library is loaded by ctypes and knows nothing of Python."""

    def get_tag(self):
        _, _, platform = super().get_tag()
        return "py3", "none", platform


OUT.mkdir(exist_ok=True)
setup(
    distclass=Platform,
    cmdclass={"build_py": Build, "bdist_wheel": Wheel},
    options={"build": {"build_base": str(OUT / "python")}, "egg_info": {"egg_base": str(OUT)}},
)
