#!/usr/bin/env python3
"""Tests the library for C, against the program: the same bytes.

    tests/library_tests.py [PROGRAM] [-k NAME]

The library is in the directory that CPPUNITS_LIBRARY names, or in crates/cppunits_c/out/library, where scripts/library.sh builds it.  If it
isn't there, all tests are missed.
"""
import ctypes
import importlib.util
import io
import json
import os
import sys
import unittest
from concurrent.futures import ThreadPoolExecutor

import counted
import gnu_tests
import marks_tests
import refusals
import row_tests
import serving_tests
import token_tests
from counted import HERE, LIST, TOP, Folder, cppunits, main, missed, run, well, write
from hostile_stack import ANSWER, ARRAYS, DEEPEST

LIBRARY = os.path.abspath(os.environ.get("CPPUNITS_LIBRARY") or os.path.join(TOP, "crates", "cppunits_c", "out", "library"))
SHARED = os.path.join(LIBRARY, "libcppunits.so")
EXAMPLES = os.path.join(TOP, "examples", "library")
with open(os.path.join(TOP, "examples", "units.json"), "rb") as EXAMPLE:
    UNITS = EXAMPLE.read()
# the status of the library for each of the program's
STATUSES = {0: 0, 1: 1, 3: 2, 4: 3}
MODE, NULL, SIZE = 4, 5, 6
TOO_LARGE = 2 ** 63


def example():
    """Returns the example in Python as a module."""
    spec = importlib.util.spec_from_file_location("library_example", os.path.join(EXAMPLES, "print.py"))
    module = importlib.util.module_from_spec(spec)
    spec.loader.exec_module(module)
    return module


def printed_by_program(mode, data):
    """Returns what a call must return: a status, an output and the number of a refusal."""
    done = cppunits(mode, input=data)
    refusal = int(done.stderr.split(b"L")[1]) if done.returncode == 3 else 0
    return STATUSES[done.returncode], done.stdout, refusal


def lists_of(*modules):
    """Returns the lists that the tests of these modules have printed, without those whose files are below a directory."""
    lists, before = [], counted.run

    def seen(command, **more):
        if "--root" not in command and isinstance(more.get("input"), bytes):
            lists.append(more["input"])
        return before(command, **more)

    counted.run = seen
    try:
        for module in modules:
            suite = unittest.defaultTestLoader.loadTestsFromModule(module)
            unittest.TextTestRunner(stream=io.StringIO()).run(suite)
    finally:
        counted.run = before
    return list(dict.fromkeys(lists))


class Library(Folder):
    def setUp(self):
        if not os.path.isfile(SHARED):
            raise unittest.SkipTest("%s isn't there: build it by scripts/library.sh" % SHARED)
        super().setUp()
        self.example = example()
        self.call = self.example.load(SHARED)

    def built(self, name, *words, source=EXAMPLES):
        """Returns a program that is built of a source in C and the static library."""
        missed("cc")
        words = ["-std=c99", "-O1", "-g", "-Wall", "-Wextra", "-pedantic", "-Werror", "-I" + LIBRARY, *words]
        well(["cc", *words, os.path.join(source, name), os.path.join(LIBRARY, "libcppunits.a"), "-lpthread", "-o", self.path("built")])
        return self.path("built")

    def raw(self, data, size, mode, out, room, length, refusal):
        """Calls the library with any pointers and sizes."""
        place, count = ctypes.c_void_p, ctypes.c_size_t
        self.call.argtypes = [place, count, ctypes.c_uint32, place, count, place, place]
        return self.call(data, size, mode, out, room, length, refusal)


class Lists(Library):
    def are_those_of_the_program(self, data):
        """Compares all modes, which four threads print at once."""
        with ThreadPoolExecutor(4) as threads:
            found = list(threads.map(lambda mode: self.example.output(self.call, data, mode, 64), self.example.MODES))
            wanted = list(threads.map(lambda mode: printed_by_program(mode, data), self.example.MODES))
        self.assertEqual(found, wanted, data[:1000])

    def test_lists_of_other_tests(self):
        lists = lists_of(row_tests, gnu_tests, token_tests, serving_tests, marks_tests)
        self.assertGreater(len(lists), 800)
        for data in [UNITS, *lists]:
            self.are_those_of_the_program(data)

    def test_a_large_output(self):
        text = "".join("x%d (%d)\n" % (n, n) for n in range(100_000))
        files = [{"name": "a.c", "text": text}]
        self.are_those_of_the_program(json.dumps({**LIST, "files": files, "units": [{"file": "a.c"}]}).encode())


class Calls(Library):
    def test_each_room(self):
        wanted = printed_by_program("dump", UNITS)[1]
        for room in range(len(wanted) + 3):
            out, length, refusal = (ctypes.c_uint8 * (len(wanted) + 8))(*[7] * (len(wanted) + 8)), ctypes.c_size_t(9), ctypes.c_uint32(9)
            status = self.raw(UNITS, len(UNITS), 0, out, room, ctypes.byref(length), ctypes.byref(refusal))
            self.assertEqual((status, length.value, refusal.value), (1, len(wanted), 0))
            text = wanted if room >= len(wanted) else b""
            self.assertEqual(bytes(out), text + b"\7" * (len(out) - len(text)), room)

    def refuses(self, wanted, data=UNITS, size=len(UNITS), mode=0, has_out=True, room=64, without=None):
        """Asserts the status of a call that writes nothing, without one of the places for results if that is named."""
        out, length, refusal = (ctypes.c_uint8 * 64)(*[7] * 64), ctypes.c_size_t(9), ctypes.c_uint32(9)
        places = [None if without == name else ctypes.byref(place) for name, place in (("length", length), ("refusal", refusal))]
        self.assertEqual(self.raw(data, size, mode, out if has_out else None, room, *places), wanted[0])
        self.assertEqual(bytes(out), b"\7" * 64)
        self.assertEqual((length.value, refusal.value), wanted[1:])

    def test_bad_input(self):
        for mode in 4, 5, 255, 256, 2 ** 32 - 1:
            self.refuses((MODE, 0, 0), mode=mode)
        self.refuses((NULL, 9, 9), data=None)
        self.refuses((NULL, 9, 9), has_out=False)
        self.refuses((NULL, 9, 9), without="length")
        self.refuses((NULL, 9, 9), without="refusal")
        self.refuses((SIZE, 0, 0), size=TOO_LARGE)
        self.refuses((SIZE, 0, 0), room=TOO_LARGE)
        self.refuses((SIZE, 0, 0), size=2 ** 64 - 1)

    def test_refused_lists(self):
        self.refuses((2, 0, 1), data=None, size=0)
        self.refuses((2, 0, 1), size=len(UNITS) - 3)
        self.refuses((2, 0, 2), data=b"{}", size=2)

    def test_no_room_at_all(self):
        length = len(printed_by_program("dump", UNITS)[1])
        self.refuses((1, length, 0), has_out=False, room=0)


class Programs(Library):
    def outputs(self, data):
        return b"".join(printed_by_program(mode, data)[1] for mode in self.example.MODES)

    def test_the_example_in_c(self):
        program = self.built("print.c")
        lines = [line.split(b" ") for line in printed_by_program("dump", UNITS)[1].splitlines() if line.startswith(b"tok ")]
        wanted = b"".join(b"%c %s\n" % (line[3][0], line[4]) for line in lines)
        done = run([program], input=UNITS)
        self.assertEqual((done.returncode, done.stdout, done.stderr), (1, wanted, b""))
        self.assertEqual(run([program], input=b"[]").returncode, 2)

    def test_the_example_in_python(self):
        for mode in self.example.MODES:
            status, text, _ = printed_by_program(mode, UNITS)
            done = run([sys.executable, os.path.join(EXAMPLES, "print.py"), SHARED, mode], input=UNITS)
            self.assertEqual((done.returncode, done.stdout, done.stderr), (status, text, b""))

    def test_four_threads_with_small_stacks(self):
        program = self.built("library_threads.c", source=HERE)
        write(self.top, {"deepest": DEEPEST, "arrays": ARRAYS, "units": UNITS})
        done = run([program, self.path("deepest")])
        self.assertEqual((done.returncode, done.stdout[:len(ANSWER)]), (0, ANSWER))
        self.assertEqual(done.stdout, self.outputs(DEEPEST))
        self.assertEqual(run([program, self.path("arrays")]).returncode, 2)
        self.assertEqual(run([program, self.path("units")]).stdout, self.outputs(UNITS))

    def test_memory_is_freed_and_none_else_is_touched(self):
        missed("valgrind")
        checked = ["valgrind", "-q", "--error-exitcode=9", "--leak-check=full", "--show-leak-kinds=all"]
        done = run([*checked, self.built("print.c")], input=UNITS)
        self.assertEqual((done.returncode, done.stderr), (1, b""))
        program = self.built("library_threads.c", source=HERE)
        write(self.top, {"units": UNITS, "refused": b"{"})
        for name, status in ("units", 1), ("refused", 2):
            done = run([*checked, program, self.path(name)])
            self.assertEqual((done.returncode, done.stderr), (status, b""))

    def test_refused_memory(self):
        """Refuses each allocation in turn, alone and with all after it: the call says so, or the whole output is there."""
        program = self.built("print.c")
        whole = run([program], input=UNITS).stdout
        with refusals.refusing_malloc() as refusing:
            for on in refusals.KINDS:
                for number, done, met in refusals.runs([program], refusing, UNITS, on):
                    found = done.returncode, done.stdout
                    self.assertIn(found, [(1, whole), (3, b"")] if met else [(1, whole)], refusals.refused(number, on))
                self.assertGreater(number, 50)

    def test_the_header_in_c_and_cplusplus(self):
        missed("cc")
        write(self.top, {"a.c": "#include <cppunits.h>\n"})
        for words in ["-std=c99"], ["-std=c11"], ["-x", "c++", "-std=c++11"]:
            well(["cc", "-Wall", "-Wextra", "-pedantic", "-Werror", *words, "-I" + LIBRARY, "-c", self.path("a.c"), "-o", self.path("a.o")])

    def test_pkg_config(self):
        missed("pkg-config", "cc")
        words = well(["pkg-config", "--cflags", "--libs", "cppunits"], env={**os.environ, "PKG_CONFIG_PATH": LIBRARY}).decode().split()
        well(["cc", os.path.join(EXAMPLES, "print.c"), *words, "-o", self.path("shared")])
        done = run([self.path("shared")], input=UNITS, env={**os.environ, "LD_LIBRARY_PATH": LIBRARY})
        self.assertEqual(done.returncode, 1)


if __name__ == "__main__":
    main()
