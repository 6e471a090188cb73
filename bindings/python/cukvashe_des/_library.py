"""Finds the shared library, and its calls as the header declares them."""

from __future__ import annotations

import ctypes
import os
import sys
from typing import Any, Callable

from ._calls import CALLS
from ._version import __version__

# The number of the shared library whose calls these are: that of bindings/c/soversion.
SOVERSION = "0"


def _names() -> tuple[str, str, str]:
    """The library's file in the package, the one that is built below `bindings/out`, and the one that the system finds."""
    if sys.platform == "win32":
        return "cukvashe_des.dll", "windows/bin/cukvashe_des.dll", "cukvashe_des.dll"
    if sys.platform == "darwin":
        numbered = f"libcukvashe_des.{SOVERSION}.dylib"
        return "libcukvashe_des.dylib", "macos/lib/" + numbered, numbered
    processor = os.uname().machine
    below = "" if processor == "x86_64" else processor + "/"
    return "libcukvashe_des.so", below + "lib/libcukvashe_des.so", f"libcukvashe_des.so.{SOVERSION}"


def _place() -> str:
    """The library in the package, else the one that is named, else in the repository the one that is built for this processor, else the
    system's."""
    package = os.path.dirname(os.path.abspath(__file__))
    bindings = os.path.dirname(os.path.dirname(package))
    file, below, system = _names()
    packaged, built = os.path.join(package, file), os.path.join(bindings, "out", below)
    named = os.environ.get("CUKVASHE_DES_LIBRARY")
    if os.path.exists(packaged):
        return packaged
    # Beside an installed package anybody may have a folder `out`.
    is_repository = os.path.exists(os.path.join(bindings, "c", "cukvashe_des.h"))
    return named or (built if is_repository and os.path.exists(built) else system)


def _load() -> ctypes.CDLL:
    """The library. Another version could need more memory for a context than this package gives it, and an
    older processor would end the process."""
    place = _place()
    try:
        loaded = ctypes.CDLL(place)
        ask, is_supported = loaded.cukvashe_version, loaded.cukvashe_is_supported
    except (OSError, AttributeError) as error:
        build = "run `pip install ./bindings/python` or `make` in its repository"
        raise ImportError(f"{place} is not the library: {build}, or name it by CUKVASHE_DES_LIBRARY") from error
    ask.restype = ctypes.c_char_p
    version = ask().decode("ascii")
    if version.split(".")[:2] != __version__.split(".")[:2]:
        raise ImportError(f"{place} has version {version}, and the package version {__version__}")
    is_supported.restype = ctypes.c_bool
    if not is_supported():
        raise ImportError(f"{place} needs a processor of x86-64-v2 (SSE4.2), which this one is not")
    return loaded


_library = _load()


def function(name: str) -> Callable[..., Any]:
    """A call of the library, by its name without `cukvashe_`."""
    call = getattr(_library, "cukvashe_" + name)
    call.restype, *call.argtypes = CALLS[name]
    return call  # type: ignore[no-any-return]


wipe = function("wipe")
