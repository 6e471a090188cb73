"""The package itself: versions, statuses, type hints, and how the library is found."""

import ast
import ctypes
import glob
import inspect
import os
import shutil
import subprocess
import sys
import tempfile
import typing
import unittest
from unittest import mock

import cukvashe_des
from cukvashe_des import _library, _statuses
from cukvashe_des._data import KINDS

from .values import BLOCK, KEY, OBJECTS, PAIR, PROTECTION, TEXT, TOP, faults_of_package

PACKAGE = os.path.dirname(os.path.abspath(cukvashe_des.__file__))


def read(*place):
    with open(os.path.join(TOP, *place), encoding="utf-8") as file:
        return file.read()


# The number of the shared library, and its name.
SOVERSION = read("bindings", "c", "soversion").strip()
NUMBERED = f"libcukvashe_des.so.{SOVERSION}"


class Package(unittest.TestCase):
    def test_version(self):
        self.assertEqual(cukvashe_des.__version__, read("VERSION").strip())
        self.assertEqual(_library._library.cukvashe_version().decode(), cukvashe_des.__version__)

    def test_statuses(self):
        """The sentences are those of the library."""
        statuses = [name for name, value in vars(_statuses).items() if name.isupper() and isinstance(value, int)]
        strerror = ctypes.CDLL(_library._place()).cukvashe_strerror
        strerror.restype = ctypes.c_char_p
        self.assertEqual([strerror(number).decode() for number in range(len(statuses))], list(_statuses.SENTENCES))

    def test_calls(self):
        """Each call lets other threads run, and each class has the name and the size of keys by which the library knows it."""
        for call in vars(_library._library).values():
            if isinstance(call, _library._library._FuncPtr):
                self.assertFalse(call._flags_ & ctypes._FUNCFLAG_PYTHONAPI, call.__name__)
        self.assertEqual({kind: (kind.name, kind.key_size) for kind, _ in OBJECTS},
                         {kind: (known.name, known.key_size) for kind, known in KINDS.items()})

    def test_names(self):
        """What the package offers is listed, and classes name it as their module."""
        self.assertEqual(sorted(cukvashe_des.__all__), cukvashe_des.__all__)
        offered = {name for name in vars(cukvashe_des) if not name.startswith("_") and name != "annotations"}
        self.assertEqual(offered, {*cukvashe_des.__all__} - {"__version__"})
        for name in cukvashe_des.__all__:
            value = getattr(cukvashe_des, name)
            if isinstance(value, type):
                self.assertEqual((value.__module__, value.__name__), ("cukvashe_des", name))
                self.assertTrue(value.__doc__)
            elif callable(value):
                self.assertTrue(value.__doc__)

    def test_errors(self):
        """Each ends in Error, and is an Error of the package. Those that say that a tag, a PIN or a key is not the right one are a
        VerificationError and no ValueError, and all others a ValueError, as far as bases go."""
        verified = {cukvashe_des.TagMismatchError, cukvashe_des.WrongPinError, cukvashe_des.KeyBlockMacError, cukvashe_des.WrappedKeyError}
        self.assertLess(verified, set(faults_of_package()))
        self.assertEqual(cukvashe_des.Error.__bases__, (Exception,))
        self.assertEqual(cukvashe_des.VerificationError.__bases__, (cukvashe_des.Error,))
        for fault in faults_of_package():
            self.assertTrue(fault.__name__.endswith("Error"))
            bases = (cukvashe_des.VerificationError,) if fault in verified else (cukvashe_des.Error, ValueError)
            self.assertEqual(fault.__bases__, bases, fault)

    def test_forged(self):
        """What is written around `decode`, which raises a ValueError, lets a forged tag, a wrong PIN and a changed key block through."""
        def read_text(verify, *arguments):
            try:
                verify(*arguments)
                return TEXT.decode()
            except ValueError:
                return "no text"

        forged = ((cukvashe_des.CmacTdesEde3(KEY, TEXT).verify, bytes(8)),
                  (cukvashe_des.CmacTdesEde3(KEY, TEXT).verify_truncated_left, bytes(4)),
                  (cukvashe_des.pvv_verify, PAIR, "4123456789012345", 1, "1234", "1895"),
                  (cukvashe_des.unwrap_key_block, PROTECTION, BLOCK[:-1] + b"F"))
        for verify, *arguments in forged:
            self.assertRaises(cukvashe_des.VerificationError, read_text, verify, *arguments)
        self.assertEqual(read_text(cukvashe_des.TdesEde3, KEY[:-1]), "no text")

    def test_star(self):
        """`from cukvashe_des import *` brings no short name of an error that a program has for something else."""
        brought = {}
        exec("from cukvashe_des import *", brought)
        self.assertEqual(brought.keys() & {"Format", "Fill", "Closed"}, set())
        self.assertIs(brought["TdesEde3"], cukvashe_des.TdesEde3)

    def test_hints_of_running_programs(self):
        """`typing.get_type_hints` finds the types of each class, function and method, with a type for each argument."""
        found = 0
        for name in cukvashe_des.__all__:
            value = getattr(cukvashe_des, name)
            calls = [value] if callable(value) else []
            if isinstance(value, type):
                calls += [member for each in value.__mro__ if each.__module__.startswith("cukvashe_des") for member in vars(each).values()]
            for call in (getattr(one, "__func__", one) for one in calls):
                if isinstance(call, type):
                    typing.get_type_hints(call)
                elif inspect.isfunction(call) and call.__code__.co_filename.startswith(PACKAGE):
                    hints = typing.get_type_hints(call).keys() | {"self", "cls"}
                    self.assertEqual(hints, {*inspect.signature(call).parameters, "self", "cls", "return"}, call)
                    found += 1
        self.assertGreater(found, 150)

    def test_hints(self):
        """Each function of the package has a type for each argument and for its answer, and the package says so."""
        self.assertTrue(os.path.exists(os.path.join(PACKAGE, "py.typed")))
        functions = 0
        for place in glob.glob(os.path.join(PACKAGE, "*.py")):
            with open(place, encoding="utf-8") as file:
                tree = ast.parse(file.read())
            for node in ast.walk(tree):
                if isinstance(node, ast.FunctionDef):
                    functions += 1
                    arguments = node.args.args + node.args.kwonlyargs + [node.args.vararg, node.args.kwarg]
                    for argument in arguments:
                        if argument is not None and argument.arg not in ("self", "cls"):
                            self.assertIsNotNone(argument.annotation, f"{place}: {node.name}, {argument.arg}")
                    self.assertIsNotNone(node.returns, f"{place}: {node.name}")
        self.assertGreater(functions, 60)

    def run_with(self, library):
        environment = dict(os.environ, CUKVASHE_DES_LIBRARY=library, PYTHONDONTWRITEBYTECODE="1",
                           PYTHONPATH=os.path.dirname(PACKAGE))
        return subprocess.run([sys.executable, "-c", "import cukvashe_des"], env=environment, capture_output=True, text=True, check=False)

    def test_library(self):
        """The one that is named is taken; what is none, or not there, is an ImportError that says what to do."""
        self.assertEqual(self.run_with(_library._place()).returncode, 0)
        for place in ("/nowhere/libcukvashe_des.so", "libc.so.6"):
            done = self.run_with(place)
            self.assertEqual(done.returncode, 1)
            self.assertRegex(done.stderr, "ImportError: .* is not the library: run `pip install ./bindings/python` or `make` in its repository, "
                             "or name it by CUKVASHE_DES_LIBRARY\n$")

    def test_places(self):
        """The library in the package comes first, then the one that is named, the one that is built if the package is in the repository, and
        the system's by its number."""
        with tempfile.TemporaryDirectory() as folder:
            package = os.path.join(folder, "bindings", "python", "cukvashe_des")
            shutil.copytree(PACKAGE, package, ignore=shutil.ignore_patterns("*.so", "__pycache__"))
            system, named = os.path.join(folder, "system"), os.path.join(folder, "named.so")
            by_number = os.path.join(system, NUMBERED)
            built = os.path.join(folder, "bindings", "out", "lib", "libcukvashe_des.so")
            # What is built counts once this file shows that the folder is the repository, whatever is in it.
            header = os.path.join(folder, "bindings", "c", "cukvashe_des.h")
            places = [by_number, built, header, named, os.path.join(package, "libcukvashe_des.so")]
            program = "import os, cukvashe_des._library as library; print(os.path.realpath(library._library._name))"
            environment = dict(os.environ, LD_LIBRARY_PATH=system, PYTHONDONTWRITEBYTECODE="1", PYTHONPATH=os.path.dirname(package))
            environment.pop("CUKVASHE_DES_LIBRARY", None)
            for place in places:
                os.makedirs(os.path.dirname(place), exist_ok=True)
                shutil.copyfile(_library._place(), place)
                if place == named:
                    environment["CUKVASHE_DES_LIBRARY"] = named
                done = subprocess.run([sys.executable, "-c", program], cwd=folder, env=environment, capture_output=True, text=True, check=False)
                systems = os.path.join(folder, NUMBERED)
                expected = {by_number: systems, built: systems, header: built}.get(place, place)
                self.assertEqual((done.stdout.strip(), done.stderr), (os.path.realpath(expected), ""))

    def test_systems(self):
        """The library in the package, and the one that is built, are for this system and processor, or not taken."""
        so, dll, dylib = "libcukvashe_des.so", "cukvashe_des.dll", "libcukvashe_des.dylib"
        numbered = f"libcukvashe_des.{SOVERSION}.dylib"
        systems = {("linux", "x86_64"): (so, "lib/" + so, NUMBERED), ("linux", "aarch64"): (so, "aarch64/lib/" + so, NUMBERED),
                   ("linux", "riscv64"): (so, "riscv64/lib/" + so, NUMBERED), ("win32", ""): (dll, "windows/bin/" + dll, dll),
                   ("darwin", "arm64"): (dylib, "macos/lib/" + numbered, numbered)}
        for packaged, built, _ in systems.values():
            with tempfile.TemporaryDirectory() as folder:
                module = os.path.join(folder, "python", "cukvashe_des", "_library.py")
                places = [os.path.join(folder, "out", built), os.path.join(os.path.dirname(module), packaged)]
                header = os.path.join(folder, "c", "cukvashe_des.h")
                for place in (module, places[0], header):
                    os.makedirs(os.path.dirname(place))
                open(header, "xb").close()
                for count, place in enumerate(places):
                    open(place, "xb").close()
                    for (system, processor), (own, own_built, other) in systems.items():
                        with mock.patch.dict(os.environ), mock.patch.object(_library, "__file__", module), \
                                mock.patch.object(sys, "platform", system), \
                                mock.patch.object(os, "uname", return_value=mock.Mock(machine=processor)):
                            os.environ.pop("CUKVASHE_DES_LIBRARY", None)
                            found = os.path.normpath(_library._place())
                        expected = places[0] if own_built == built else other
                        self.assertEqual(found, places[1] if count == 1 and own == packaged else expected)

    def test_other_version(self):
        """A library whose contexts could be larger is refused."""
        first, second, third = map(int, cukvashe_des.__version__.split("."))
        others = ((first, second + 1, third), (first + 1, second, third), (first, 10 * second + 10, third))
        for version in ((first, second, third + 1), *others):
            library = mock.Mock()
            library.cukvashe_version.return_value = ".".join(map(str, version)).encode()
            with mock.patch.object(ctypes, "CDLL", return_value=library):
                if version in others:
                    self.assertRaisesRegex(ImportError, "and the package version", _library._load)
                else:
                    self.assertIs(_library._load(), library)

    def test_old_processor(self):
        """A library that does not support the processor is refused before any other call."""
        library = mock.Mock()
        library.cukvashe_version.return_value = cukvashe_des.__version__.encode()
        library.cukvashe_is_supported.return_value = False
        with mock.patch.object(ctypes, "CDLL", return_value=library):
            self.assertRaisesRegex(ImportError, "needs a processor of x86-64-v2", _library._load)
        self.assertIs(library.cukvashe_is_supported.restype, ctypes.c_bool)
        self.assertIs(_library.function("is_supported")(), True)


if __name__ == "__main__":
    unittest.main()
