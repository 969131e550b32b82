#!/usr/bin/env python3
"""Runs the program at the last value of each limit, and at one more.

    tests/hostile_limits.py [PROGRAM] [-k NAME]

The limits are the bytes of the input, also from a reader that never ends; the bytes of a name; files, units, contents in the list and in a
directory, and definitions; includes, operators of a condition and levels of arguments; the number of `#line`; and the options.  One run takes
up to two gigabytes, and all runs take about half a minute.
"""
import json
import os
import subprocess
import tempfile
import unittest

from counted import LIST, cppunits, main, program

INPUT, CONTENT, COUNT = 268_435_456, 16_777_216, 65_535
EMPTY = json.dumps(dict(LIST, files=[{"name": "a.c", "text": ""}], units=[{"file": "a.c"}])).encode()
ANSWER = b"unit 0 a.c\ndep 0 a.c\nok\n"


def listed(files, units):
    return json.dumps(dict(LIST, files=files, units=units)).encode()


def one_text(text, **unit):
    return listed([{"name": "a.c", "text": text}], [{"file": "a.c", **unit}])


def unit_lines(count):
    return b"".join(b"unit %d a.c\ndep 0 a.c\nok\n" % i for i in range(count))


class Limits(unittest.TestCase):
    def answers(self, data, status, output, *words):
        done = cppunits(*words, "dump", input=data)
        # the outputs are too long to print
        self.assertEqual((done.returncode, done.stderr[:200]), (status, b""))
        self.assertTrue(done.stdout == output, done.stdout[-200:])

    def refused(self, data, number):
        done = cppunits("dump", input=data)
        self.assertEqual((done.returncode, done.stdout[:200], done.stderr), (3, b"", b"cppunits: list refused L%d\n" % number))


class Input(Limits):
    def test_bytes(self):
        self.answers(EMPTY + b" " * (INPUT - len(EMPTY)), 0, ANSWER)
        self.refused(EMPTY + b" " * (INPUT + 1 - len(EMPTY)), 1)

    def test_a_reader_that_never_ends(self):
        """Wants that the program reads no more than a pipe holds beyond the limit."""
        child = subprocess.Popen([program(), "dump"], stdin=subprocess.PIPE, stdout=subprocess.PIPE, stderr=subprocess.PIPE)
        piece, given = b" " * 2**20, 0
        try:
            while given < 2 * INPUT:
                given += child.stdin.write(piece)
        except BrokenPipeError:
            pass
        output, words = child.communicate()
        self.assertEqual((child.returncode, output, words), (3, b"", b"cppunits: list refused L1\n"))
        self.assertLess(given, INPUT + 2**22)

    def test_a_name(self):
        for name in "n" * 1_024, "é" * 512:
            printed = name.encode() if name[0] == "n" else b"%C3%A9" * 512
            data = listed([{"name": name, "text": ""}], [{"file": name}])
            self.answers(data, 0, b"unit 0 %s\ndep 0 %s\nok\n" % (printed, printed))
            self.refused(data.replace(json.dumps(name).encode(), json.dumps(name + "n").encode()), 3)

    def test_units(self):
        units = [{"file": "a.c"}] * (COUNT + 1)
        self.answers(listed([{"name": "a.c", "text": ""}], units[1:]), 0, unit_lines(COUNT))
        self.refused(listed([{"name": "a.c", "text": ""}], units), 4)

    def test_files(self):
        files = [{"name": "f%d" % i, "text": ""} for i in range(COUNT + 1)]
        units = [{"file": "f0"}, {"file": "f%d" % (COUNT - 1)}, {"file": "f%d" % COUNT}]
        self.answers(listed(files[:-1], units[:-1]), 0, b"unit 0 f0\ndep 0 f0\nok\nunit 1 f65534\ndep 65534 f65534\nok\n")
        self.refused(listed(files[:-1], units), 5)
        self.refused(listed(files, units), 4)

    def test_a_content_of_the_list(self):
        self.answers(one_text(" " * CONTENT), 0, ANSWER)
        self.refused(one_text(" " * (CONTENT + 1)), 4)

    def test_a_content_of_a_folder(self):
        """Stops at a file of a terabyte, nearly all of it a hole, once it is known to be too long."""
        names = listed([{"name": "a.c"}], [{"file": "a.c"}])
        unreadable = b"unit 0 a.c\ndep 0 a.c\nfault 6 0:1:1 a.c\n"
        with tempfile.TemporaryDirectory() as folder:
            for size, status, output in (CONTENT, 0, ANSWER), (CONTENT + 1, 1, unreadable), (2**40, 1, unreadable):
                with open(os.path.join(folder, "a.c"), "wb") as file:
                    file.write(b" " * min(size, CONTENT + 1))
                    file.truncate(size)
                self.answers(names, status, output, "--root", folder)

    def test_definitions(self):
        """Counts all definitions together, each with `#define ` before it and a new-line after it."""
        for others in [], ["A B"]:
            rest = "".join("#define %s\n" % line for line in ["X ", *others])
            line = "X " + "1" * (CONTENT - len(rest))
            output = b"unit 0 a.c\ntok 0:2:1 0:2:1 n+ 1\ndep 0 a.c\nok\n"
            self.answers(one_text("#ifdef X\n1\n#endif\n", define=[line, *others]), 0, output)
            self.refused(one_text("", define=[line + "1", *others]), 4)


class Text(Limits):
    def holds(self, text, output):
        self.answers(one_text(text), 0, b"unit 0 a.c\n" + output + b"dep 0 a.c\nok\n")

    def faults(self, text, fault):
        self.answers(one_text(text), 1, b"unit 0 a.c\ndep 0 a.c\nfault " + fault + b"\n")

    def test_includes(self):
        for depth, status, last in (200, 0, b"ok\n"), (201, 1, b"fault 32 200:1:1 f201\n"):
            files = [{"name": "f%d" % i, "text": '#include "f%d"\n' % (i + 1)} for i in range(depth)]
            files.append({"name": "f%d" % depth, "text": ""})
            opened = b"".join(b"dep %d f%d\n" % (i, i) for i in range(201))
            self.answers(listed(files, [{"file": "f0"}]), status, b"unit 0 f0\n" + opened + last)

    def test_a_condition(self):
        for expression in (lambda n: "(" * n + "1" + ")" * n, lambda n: "!" * n + "1", lambda n: "0?0:" * n + "1"):
            self.holds("#if %s\n1\n#endif\n" % expression(256), b"tok 0:2:1 0:2:1 n+ 1\n")
            self.faults("#if %s\n1\n#endif\n" % expression(257), b"29 0:1:1")

    def test_arguments(self):
        text = "#define f(a) a\n%s1%s\n"
        self.holds(text % ("f(" * 256, ")" * 256), b"tok 0:2:513 0:2:1 n+ 1\n")
        self.faults(text % ("f(" * 257, ")" * 257), b"21 0:2:513 f")

    def test_the_number_of_a_line(self):
        numbers = b"tok 0:2:1 0:2:1 n+ 2147483647\ntok 0:3:1 0:3:1 n+ 2147483648\n"
        self.holds("#line 2147483647\n__LINE__\n__LINE__\n", numbers)
        self.faults("#line 2147483648\n", b"33 0:1:1")
        self.faults("#line 0\n", b"33 0:1:1")


class Options(Limits):
    def test_ranges(self):
        for option, most in ("--workers", 64), ("--block", 1_024):
            for good in 1, most:
                self.answers(EMPTY, 0, ANSWER, option, str(good))
            for bad in "0", str(most + 1), "-1", "", "1" * 40:
                done = cppunits("%s=%s" % (option, bad), "dump", input=EMPTY)
                self.assertEqual((done.returncode, done.stdout), (2, b""), (option, bad))

    def test_help_and_version(self):
        for option, said in ("--help", rb"Usage: "), ("-h", rb"Usage: "), ("--version", rb"\Acppunits \d+\.\d+\.\d+\n\Z"), ("-V", rb"\Acppunits \d"):
            done = cppunits(option)
            self.assertEqual((done.returncode, done.stderr), (0, b""), option)
            self.assertRegex(done.stdout, said)

    def test_help_of_each_command(self):
        for command in ("dump",), ("deps",), ():
            done = cppunits(*command, "--help")
            self.assertEqual((done.returncode, done.stderr), (0, b""), command)
            for said in b"standard input", b"standard output", b"Status: ":
                self.assertIn(said, done.stdout, command)

    def test_options_before_and_after_the_command(self):
        for words in ("--workers", "2", "dump"), ("dump", "--workers", "2"), ("--block", "3", "dump", "--workers", "2"):
            done = cppunits(*words, input=EMPTY)
            self.assertEqual((done.returncode, done.stderr), (0, b""), words)

    def test_no_command_and_unknown_options(self):
        for words in (), ("--workers", "2"), ("dump", "deps"), ("undump",), ("--jobs", "2", "dump"), ("dump", "--jobs", "2"):
            done = cppunits(*words, input=EMPTY)
            self.assertEqual((done.returncode, done.stdout), (2, b""), words)
            self.assertIn(b"Usage: ", done.stderr, words)


if __name__ == "__main__":
    main()
