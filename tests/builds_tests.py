#!/usr/bin/env python3
"""Tests bench/builds.py: its comparisons, and a small project that is built directly and by way of cppunits-cc.

    tests/builds_tests.py [PROGRAM] [-k NAME]
"""
import contextlib
import io
import os
import sys
import types
from unittest import mock

from counted import TOP, Folder, main, missed, program, write

sys.path.insert(0, os.path.join(TOP, "bench"))
import builds  # noqa: E402

# the beginning of an object, and of an executable
OBJECT, EXECUTABLE = (b"\x7fELF\2\1\1" + b"\0" * 9 + kind for kind in (b"\1\0", b"\3\0"))
SAID = """cc -c a.c
a.c: In function 'f':
a.c:3:7: warning: unused variable 'x' [-Wunused-variable]
a.c:3:9: warning: unused variable 'y' [-Wunused-variable]
In file included from a.c:1:
/usr/b.h:12: warning: no column [-Wcpp]
sub/c.c:1:1: warning: no option
sub/c.c:2:1: error: no warning [-Werror=address]
"""
MAIN = """#include "own.h"
int unused(int n) { int x; return n; }
int main(void) { int y; return ZERO; }
"""


class Comparisons(Folder):
    def test_warnings(self):
        self.assertEqual(builds.warnings(SAID), {("a.c", 3, "-Wunused-variable"), ("/usr/b.h", 12, "-Wcpp"), ("sub/c.c", 1, "")})

    def test_passed_tests(self):
        for pattern, text, count in (("^ok ", "ok 1\nnot ok 2\nok 3\n", 2), (r"^# PASS: +(\d+)$", "# PASS:  3\n# FAIL:  1\n# PASS: 10\n", 13), ("^ok ", "", 0)):
            self.assertEqual(builds.passed(pattern, text), count, pattern)

    def test_objects(self):
        write(self.top, {"one/a.o": OBJECT + b"a", "one/d/b.lo": OBJECT, "one/d/text.lo": "# libtool", "one/only.o": OBJECT, "one/prog": EXECUTABLE,
                         "one/empty.o": "", "two/a.o": OBJECT + b"b", "two/d/b.lo": OBJECT, "two/prog": EXECUTABLE + b"x"})
        os.symlink("a.o", self.path("one/link.o"))
        os.mkfifo(self.path("two/pipe.o"))
        self.assertEqual(builds.unequal(self.path("one"), self.path("two"), set()), (["a.o", "d/b.lo", "only.o"], ["a.o", "only.o"]))
        self.assertEqual(builds.unequal(self.path("one"), self.path("two"), {"a.o", "only.o"}), (["d/b.lo"], []))

    def test_recorded_commands(self):
        data = b"2\0/d\0-c\0a.c\0" + b"0\0/e\0" + b"3\0/d\0\0-o\0a\nb\0"
        self.assertEqual(list(builds.recorded(data)), [("/d", ["-c", "a.c"]), ("/e", []), ("/d", ["", "-o", "a\nb"])])

    def test_files_of_commands(self):
        rows = [("-Ii -c a.c sub/../b.c s.S x.o -o y", ["a.c", "sub/../b.c"]), ("a.c x.o -o prog", ["a.c"]), ("-S -x c a", ["a"]), ("-E a.c", []),
                ("-MM a.c", []), ("-c -x c - -o x", []), ("-c -x c /dev/null", []), ("--version", []), ("x.o -o prog", []), ("@none a.c", [])]
        for words, files in rows:
            self.assertEqual(builds.sources("/d", words.split()), files, words)
        for words, made in (("-c a.c s/b.c", ["a.o", "b.o"]), ("-c a.c -o d/x", ["d/x"]), ("a.c -o prog", []), ("--version", [])):
            self.assertEqual(builds.outputs("/d", words.split()), made, words)

    def test_the_row(self):
        project = builds.Project("p", "q", "", "", "", "", "a note")
        direct = types.SimpleNamespace(project=project, units=["a.c"], warnings={("a.c", 1, "-Wx"), ("a.c", 2, "")}, passed=7, seconds=1.4, past=[], made=set())
        front = types.SimpleNamespace(project=project, units=["a.c", "b.c"], warnings={("a.c", 1, "-Wx"), ("b.c", 9, "-Wy")}, passed=6, seconds=2.5,
                                      past=["c.c"], made=set())
        write(self.top, {"one/a.o": OBJECT, "one/b.o": OBJECT, "two/a.o": OBJECT, "two/b.o": OBJECT + b"x"})
        row = builds.Row("1.0-1", direct, front, (self.path("one"), self.path("two")))
        self.assertEqual(row.cells(), ["p", "1.0-1", "2", "2", "1", "3", "1", "7", "6", "1", "2", "a note"])
        self.assertEqual(list(row.differences()), ["unequal object: b.o", "warning of gcc only: a.c:2 ", "warning of cppunits-cc only: b.c:9 -Wy",
                                                   "2 C files went to cppunits-cc, and 1 in the direct build", "C file past cppunits-cc: c.c"])
        self.assertFalse(row.same())
        self.assertTrue(builds.Row("1.0-1", direct, direct, (self.path("one"), self.path("one"))).same())
        head, line, cells = builds.table([row]).splitlines()
        self.assertEqual((head.count("|"), line.count("|"), cells), (13, 13, "| %s |" % " | ".join(row.cells())))

    def test_many_differences(self):
        self.assertEqual(list(builds.some("object", list("abcdefghijklmnopqrstu")))[-2:], ["object: t", "object: 21 in all"])


class Builds(Folder):
    """Builds a project whose source is there, so that apt-get isn't run."""

    def built(self, files, **steps):
        missed("gcc")
        write(self.path("w/p/source/p-1"), dict(files, **{"debian/changelog": "p (1:1.0-1) stable; urgency=low\n"}))
        project = builds.Project(**dict({"name": "p", "source": "p", "configure": "true", "build": "cppunits-cc -Wall -c a.c && gcc -c past.c",
                                         "tests": "cppunits-cc a.o -o p && ./p && echo ok", "passed": "^ok"}, **steps))
        out, told = io.StringIO(), io.StringIO()
        words = ["builds.py", "--work", self.path("w"), "--program", program(), "p"]
        with mock.patch.object(builds, "PROJECTS", [project]), mock.patch.object(sys, "argv", words), \
                contextlib.redirect_stdout(out), contextlib.redirect_stderr(told):
            status = builds.main()
        cells = [line.strip("| ").split(" | ") for line in out.getvalue().splitlines()[2:]]
        return status, cells, told.getvalue().splitlines()

    def test_a_build(self):
        status, cells, told = self.built({"a.c": MAIN, "own.h": "#define ZERO 0\n", "past.c": "int n;\n"})
        self.assertEqual((status, [row[:9] for row in cells], told),
                         (0, [["p", "1:1.0-1", "1", "1", "1", "2", "2", "1", "1"]], ["p: C file past cppunits-cc: %s" % self.path("w/p/tree/past.c")]))

    def test_what_differs(self):
        # a build that sees by the caches which way it goes
        status, cells, told = self.built({"a.c": "int main(void) { return 0; }\n", "past.c": ""},
                                         build="cppunits-cc -c a.c; test -d $XDG_CACHE_HOME && echo >> a.o; true", tests="test -d $XDG_CACHE_HOME || echo ok")
        self.assertEqual((status, [row[:9] for row in cells], told), (1, [["p", "1:1.0-1", "1", "1", "0", "0", "0", "1", "0"]], ["p: unequal object: a.o"]))

    def test_a_fault_ends_the_build(self):
        status, cells, told = self.built({"a.c": "#ifdef __GNUC__\n#endif\n#if (1\n#endif\n"}, build="cppunits-cc -c a.c || test ! -d $XDG_CACHE_HOME")
        self.assertEqual((status, cells, told), (3, [], ["builds.py: p, front: build failed: %s says why" % self.path("w/p/front/build.log")]))

    def test_names(self):
        with contextlib.redirect_stderr(io.StringIO()) as told, self.assertRaises(SystemExit), \
                mock.patch.object(sys, "argv", ["builds.py", "--work", self.top, "--program", program(), "none"]):
            builds.main()
        self.assertIn("there is no project none, only lua, zlib", told.getvalue())


if __name__ == "__main__":
    main()
