"""Adds to pyproject.toml: a wheel with libgogbetiku.so.0 beside the module is for that library's machine,
and names the least C library (glibc) that it needs. bindings/wheel builds it."""

# mypy: disallow-subclassing-any=False
from __future__ import annotations

import pathlib
import re
import subprocess

from setuptools import Distribution, setup
from wheel.bdist_wheel import bdist_wheel

LIBRARY = pathlib.Path(__file__).resolve().parent / "gogbetiku/libgogbetiku.so.0"
# the machines by their numbers in the header of an ELF file
MACHINES = {0x3E: "x86_64", 0xB7: "aarch64"}
ABOUT = "Checks routes against the public key of the map's owner"


def least_glibc() -> str:
    """The newest version of glibc that one of the library's symbols needs."""
    said = subprocess.run(
        ["readelf", "-W", "--version-info", LIBRARY], capture_output=True, text=True, check=True
    ).stdout
    versions: list[str] = re.findall(r"GLIBC_(\d+(?:\.\d+)+)", said)
    return max(versions, key=lambda version: [*map(int, version.split("."))])


class WithLibrary(Distribution):
    """A distribution that is specific to a machine if it contains the library."""

    def has_ext_modules(self) -> bool:
        return LIBRARY.exists()


class Wheel(bdist_wheel):
    """A wheel for any Python 3, and for one machine if it contains the library. Its tag does not claim manylinux."""

    def get_tag(self) -> tuple[str, str, str]:
        if not LIBRARY.exists():
            return "py3", "none", "any"
        return "py3", "none", f"linux_{MACHINES[int.from_bytes(LIBRARY.read_bytes()[18:20], 'little')]}"


if LIBRARY.exists():
    what = f"{ABOUT}; with its library, for glibc {least_glibc()} and up"
else:
    what = f"{ABOUT}; without its library: install Debian's libgogbetiku0, or the wheel for your platform"
setup(distclass=WithLibrary, cmdclass={"bdist_wheel": Wheel}, description=what)
