"""Puts the shared library into the wheel: the file that CUKVASHE_DES_LIBRARY names, else what bindings/build builds of the assembly that the
proofs give. That is in the repository, and in a source archive in `native`, where `bindings/carry` puts it. The wheel is for the system
that the library is for. What is made meanwhile goes to a temporary folder."""

import atexit
import functools
import os
import re
import shutil
import subprocess
import tempfile
from pathlib import Path

from setuptools import Distribution, setup
from setuptools.command.build_py import build_py
from setuptools.command.sdist import sdist

try:
    from setuptools.command.bdist_wheel import bdist_wheel
except ImportError:  # before setuptools 70.1
    from wheel.bdist_wheel import bdist_wheel

HERE = Path(__file__).resolve().parent
NATIVE = HERE / "native"
REPOSITORY = HERE.parent.parent
TOP = REPOSITORY if (REPOSITORY / "bindings/c/cukvashe_des.h").exists() else NATIVE
WORK = Path(tempfile.mkdtemp())
atexit.register(shutil.rmtree, WORK, ignore_errors=True)

# Processors by the number that a library's header has for them, in ELF and in Mach-O.
ELF = {62: "x86_64", 183: "aarch64", 243: "riscv64"}
MACH_O = {0x1000007: "x86_64", 0x100000C: "arm64"}


def compiled():
    """The library that bindings/build builds, by the compiler that CC names."""
    if not (TOP / "bindings/build").exists():
        raise SystemExit(f"{TOP} is missing: pip before 21.3 takes this folder alone, so run bindings/carry bindings/python first")
    built = WORK / "built"
    try:
        subprocess.run(["bash", TOP / "bindings/build", "--generated", "--into", built.as_posix()], capture_output=True, text=True, check=True)
    except OSError as error:
        raise SystemExit(f"there is no bash, which bindings/build needs: {error.strerror}") from None
    except subprocess.CalledProcessError as error:
        raise SystemExit(error.stderr.strip().splitlines()[-1]) from None
    return next(file for ending in ("bin/*.dll", "lib/*.dylib", "lib/*.so") for file in built.glob(ending))


@functools.lru_cache(maxsize=None)
def library():
    """The library that goes into the wheel."""
    named = os.environ.get("CUKVASHE_DES_LIBRARY")
    return Path(named) if named else compiled()


@functools.lru_cache(maxsize=None)
def kind():
    """What the library's file is called in the package, and its system in the wheel's name."""
    try:
        data = library().read_bytes()
    except OSError as error:
        raise SystemExit(f"CUKVASHE_DES_LIBRARY names {error.filename}: {error.strerror} (pip needs an absolute path)") from None

    def number(at, size):
        return int.from_bytes(data[at : at + size], "little")

    if data[:6] == b"\x7fELF\2\1" and number(16, 2) == 3 and number(18, 2) in ELF:
        # manylinux2014 has glibc 2.17. The versions of glibc that a library needs stand in it; one for another libc has none.
        needed = re.findall(rb"\0GLIBC_([\w.]+)", data)
        old = needed and all(re.fullmatch(rb"2\.(\d|1[0-7])(\.\d+)*", version) for version in needed)
        return "libcukvashe_des.so", ("manylinux2014_" if old else "linux_") + ELF[number(18, 2)]
    if data[:2] == b"MZ" and data[number(60, 4) :][:6] == b"PE\0\0\x64\x86":
        return "cukvashe_des.dll", "win_amd64"
    if number(0, 4) == 0xFEEDFACF and number(4, 4) in MACH_O:
        return "libcukvashe_des.dylib", "macosx_11_0_" + MACH_O[number(4, 4)]
    raise SystemExit(f"{library()} is no shared library for {', '.join(ELF.values())}, Windows or macOS")


class WithLibrary(build_py):
    """The package's files, and beside them the library and the licenses."""

    def run(self):
        super().run()
        if getattr(self, "editable_mode", False):  # it has no folder for the library, and takes that of bindings/out
            return
        package = Path(self.build_lib, "cukvashe_des")
        shutil.copyfile(library(), package / kind()[0])
        for name in ("LICENSE-APACHE", "LICENSE-MIT"):
            shutil.copyfile(TOP / name, package / name)
        # Those of the toolchain's libraries whose code is in the library.
        shutil.copytree(TOP / "generated/licenses", package / "licenses")


class ForOneSystem(bdist_wheel):
    """A wheel for any Python 3 on one kind of system, since ctypes takes the library as it is."""

    def finalize_options(self):
        super().finalize_options()
        self.root_is_pure = False

    def get_tag(self):
        return "py3", "none", kind()[1]


class WithText(sdist):
    """A source archive, which has what the library is compiled of in its own folder."""

    def make_release_tree(self, base_dir, files):
        super().make_release_tree(base_dir, files)
        if TOP == NATIVE:
            shutil.copytree(NATIVE, Path(base_dir, "native"))
        elif subprocess.call([TOP / "bindings/carry", base_dir]) != 0:
            raise SystemExit(1)


class WithBinary(Distribution):
    """A package with compiled code."""

    def has_ext_modules(self):
        return True


setup(
    distclass=WithBinary,
    cmdclass={"build_py": WithLibrary, "bdist_wheel": ForOneSystem, "sdist": WithText},
    options={"build": {"build_base": str(WORK)}, "egg_info": {"egg_base": str(WORK)}},
)
