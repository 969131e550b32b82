#!/usr/bin/env python3
"""Floods the program with names that were chosen to collide, and runs it where no random key is available.

    tests/hostile_floods.py [PROGRAM] [-k NAME]

The names are those of macros, of one macro's parameters, of macros in hide sets, and of files.  They collide under the hash of names with its
fixed key, or under the kit's default hash.  They may cost at most ten times as much as other names of the same number and length; less than a
tenth of a second counts as that.  If the system gives no random bytes, a run ends as if its input can't be read, with nothing printed.
"""
import json
import os
import resource
import subprocess
import sys
import tempfile
import unittest

from counted import TOP, main, missed, program

sys.path.insert(0, os.path.join(TOP, "bench"))
from colliding import kit_long_names, kit_macro_names, long_names, macro_names  # noqa: E402
from shapes import defined, hidden, invoked, list_of_text, listed_files  # noqa: E402

COUNT = 32_000
MAX_TIMES, LEAST_SECONDS, MAX_SECONDS = 10, 0.1, 60
NO_KEY = "int getentropy(void *bytes, unsigned long count) { (void)bytes; (void)count; return -1; }\n"
READ_FAILED = (5, b"", b"cppunits: read failed\n")


def ordinary(length):
    return ["a%0*d" % (length - 1, number) for number in range(COUNT)]


def macros(names):
    return list_of_text(defined(names))


def hide_sets(names):
    return list_of_text(hidden(names))


def parameters(names):
    """Tests a macro with many parameters: more than 16 have an index, where the macro is defined and where it is invoked."""
    return list_of_text(invoked(names, names[-1]))


def seconds(asked):
    """Returns the processor seconds of a run that must find no fault."""
    before = resource.getrusage(resource.RUSAGE_CHILDREN)
    done = subprocess.run([program(), "--workers", "1", "dump"], input=json.dumps(asked).encode(), stdout=subprocess.DEVNULL,
                          timeout=MAX_SECONDS)
    after = resource.getrusage(resource.RUSAGE_CHILDREN)
    if done.returncode:
        raise AssertionError("status %d" % done.returncode)
    return after.ru_utime + after.ru_stime - before.ru_utime - before.ru_stime


class Floods(unittest.TestCase):
    def cost_no_more(self, list_of, *makers):
        for maker in makers:
            made = maker(COUNT)
            plain = max(seconds(list_of(ordinary(len(made[0])))), LEAST_SECONDS)
            self.assertLess(seconds(list_of(made)), MAX_TIMES * plain, maker.__name__)

    def test_macros(self):
        self.cost_no_more(macros, macro_names, kit_macro_names)

    def test_parameters(self):
        self.cost_no_more(parameters, macro_names, kit_macro_names)

    def test_names_in_hide_sets(self):
        self.cost_no_more(hide_sets, macro_names, kit_macro_names)

    def test_files(self):
        self.cost_no_more(listed_files, long_names, kit_long_names)


class NoKey(unittest.TestCase):
    def test_status_5_where_no_key_can_be_drawn(self):
        missed("gcc")
        with tempfile.TemporaryDirectory() as folder:
            library = os.path.join(folder, "no_key.so")
            subprocess.run(["gcc", "-shared", "-fPIC", "-x", "c", "-", "-o", library], input=NO_KEY.encode(), check=True)
            done = subprocess.run([program(), "dump"], input=json.dumps(macros(["a"])).encode(), capture_output=True,
                                  env=dict(os.environ, LD_PRELOAD=library), timeout=MAX_SECONDS)
        self.assertEqual((done.returncode, done.stdout, done.stderr), READ_FAILED)


if __name__ == "__main__":
    main()
