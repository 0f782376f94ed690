"""Builds a wheel that holds the library and both programs, and is tagged for the platform that they run on.

They are taken from the folder ``gtd/native`` if it is there (as in a source distribution), or otherwise from the paths in the
environment variables ``LIBGTD``, ``GTD`` and ``GTDESK``, or otherwise from where the repository builds them. A wheel lacks those
that are nowhere: the package then looks for them on the system, and says what is missing when it is needed. A wheel that holds
none of them is for any platform.
"""

import logging
import os
import re
import shutil
from pathlib import Path

from setuptools import setup
from setuptools.command.build_py import build_py
from setuptools.command.sdist import sdist
from setuptools.dist import Distribution

try:
    from setuptools.command.bdist_wheel import bdist_wheel
except ImportError:  # before setuptools 70.1
    from wheel.bdist_wheel import bdist_wheel

HERE = Path(__file__).resolve().parent
NATIVE = Path("gtd") / "native"
BUILT = {
    "libgtd.so.0": ("LIBGTD", HERE.parent / "bindings" / "out" / "libgtd.so.0"),
    "gtd": ("GTD", HERE.parent / "crates" / "gtd" / "out" / "gtd"),
    "gtdesk": ("GTDESK", HERE.parent / "crates" / "gtdesk" / "out" / "gtdesk"),
}


def found():
    """The path of the library and of each program that is there, by the names that the wheel gives them."""
    paths = {}
    for name, (variable, built) in BUILT.items():
        held, named = HERE / NATIVE / name, os.environ.get(variable)
        path = held if held.exists() else Path(named or built)
        if path.is_file():
            paths[name] = path
        elif named:
            raise SystemExit(f"no {name} at {path}, which the environment variable {variable} names")
    return paths


def put(folder):
    """Copy the library and the programs that are there into the package below a folder."""
    target, paths = Path(folder) / NATIVE, found()
    for name in BUILT:
        if name not in paths:
            logging.warning("the package is built without %s: %s names it, or it is looked for on the system", name, BUILT[name][0])
            (target / name).unlink(missing_ok=True)  # of an earlier build
    if paths:
        target.mkdir(parents=True, exist_ok=True)
    for name, path in paths.items():
        if path.resolve() != (target / name).resolve():
            shutil.copyfile(path, target / name)
        (target / name).chmod(0o755)


def platform():
    """The tag of the platform: Linux on x86-64 with the newest version of glibc that one of the files asks for."""
    asked = [int(number) for path in found().values() for number in re.findall(rb"GLIBC_2\.(\d+)", path.read_bytes())]
    return f"manylinux_2_{max([17, *asked])}_x86_64"


class WithNative(Distribution):
    """A distribution that belongs to a platform, if it holds the library or a program."""

    def has_ext_modules(self):
        return bool(found())


class BuildPackage(build_py):
    """The package, with the library and the programs."""

    def run(self):
        super().run()
        put(self.build_lib)


class SourceWithNative(sdist):
    """A source distribution from which the same wheel is built anywhere."""

    def make_release_tree(self, base_dir, files):
        super().make_release_tree(base_dir, files)
        put(base_dir)


class PlatformWheel(bdist_wheel):
    """A wheel for any Python 3 on the platform, or on any: nothing in it is compiled against Python."""

    def get_tag(self):
        return "py3", "none", platform() if found() else "any"


setup(
    distclass=WithNative,
    cmdclass={"build_py": BuildPackage, "sdist": SourceWithNative, "bdist_wheel": PlatformWheel},
)
