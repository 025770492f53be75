"""Puts the library into the wheel, so that nothing else is to be installed: the file that SPKI_LIBRARY names by its whole path, else the one that
crates/spki_c/archive.py has built, else the installed one. With SPKI_LIBRARY=none the wheel has none, and the loader finds one at run time.

An sdist has no library. The wheel of an sdist takes one as any other does.
"""
import os
import subprocess

from setuptools import Distribution, setup
from setuptools.command.build_py import build_py

try:
    from setuptools.command.bdist_wheel import bdist_wheel  # type: ignore[import]
except ImportError:
    try:
        from wheel.bdist_wheel import bdist_wheel  # type: ignore[import]
    except ImportError:
        # (an sdist needs neither)
        bdist_wheel = object

HERE = os.path.dirname(os.path.abspath(__file__))
# What crates/spki_c/archive.py writes.
BUILT = os.path.join(HERE, "..", "..", "crates", "spki_c", "out", "libspki_c.so")


def installed():
    """The path of the library that pkg-config knows, or "" if it knows none or is missing itself. The file may be
    missing."""
    try:
        done = subprocess.run(["pkg-config", "--variable=libdir", "spki"], stdout=subprocess.PIPE, stderr=subprocess.DEVNULL, text=True)
    except FileNotFoundError:
        return ""
    folder = done.stdout.strip()
    return os.path.join(folder, "libspki_c.so") if folder else ""


def library():
    """The path of the library that goes into the wheel. Ends setup if there is none, or if SPKI_LIBRARY is no whole path."""
    named = os.environ.get("SPKI_LIBRARY")
    if named and not os.path.isabs(named):
        raise SystemExit(f"SPKI_LIBRARY must be a whole path, and is {named}: pip builds in another folder")
    for path in [named] if named else [BUILT, installed()]:
        if os.path.isfile(path):
            return path
    raise SystemExit(f"{named or 'libspki_c.so'} is not there: build it by crates/spki_c/archive.py, install it, or name the file in SPKI_LIBRARY")


class BuildWithLibrary(build_py):
    """Builds the packages, with the library beside the module that loads it, unless SPKI_LIBRARY is `none`."""

    def run(self):
        """Builds the packages, and puts the library into `spki`, unless SPKI_LIBRARY is `none`. Ends setup as `library` does."""
        super().run()
        inside = os.path.join(self.build_lib, "spki", "libspki_c.so")
        # (that of an earlier build in this folder: copy_file would keep it if it is newer)
        if os.path.lexists(inside):
            os.remove(inside)
        if os.environ.get("SPKI_LIBRARY") != "none":
            self.copy_file(library(), inside)


class OfPlatform(Distribution):
    """What is built runs on this platform alone."""

    def has_ext_modules(self):
        """True: by that setuptools names the platform in the wheel. There are no modules in C, but a library."""
        return True


class WheelOfPlatform(bdist_wheel):
    """The wheel is for each Python 3 on this platform."""

    def get_tag(self):
        """The Python, the ABI and the platform in the name of the wheel: no module depends on an ABI of Python."""
        return "py3", "none", super().get_tag()[2]


commands = {"build_py": BuildWithLibrary}
if bdist_wheel is not object:
    commands["bdist_wheel"] = WheelOfPlatform
setup(distclass=OfPlatform, cmdclass=commands)
