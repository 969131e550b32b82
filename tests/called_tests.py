#!/usr/bin/env python3
"""Checks that the tests of the crates call each public function of the libraries, by searching the text of both.

    tests/called_tests.py [-k NAME]

Public is what a library's lib.rt exports: functions, and the functions of exported types.  A theorem takes nothing (or `&self`), returns
nothing and does nothing, so no test has to call it.  A method counts as called if a crate of tests calls a method of that name, for any value.
"""
import glob
import os
import re
import unittest

from counted import TOP, main

LIBRARIES = ("pptext", "ppmacro", "ppexpand", "ppexpr", "ppshelf", "ppunit", "pppool", "ppserve")
TESTS = ("pptests", "ppshelftests", "ppruntests")
EXPORT = re.compile(r"^pub use ([^;]*);", re.MULTILINE)
ALIAS = re.compile(r"^pub type (\w+)(?:<[^>]*>)? = (\w+)<", re.MULTILINE)
# the type of an `impl`; or a function, its first parameter, and whether it has no other and returns nothing
ITEM = re.compile(
    r"^impl\b(?P<impl>[^{;]*)|^(?P<space> *)pub (?:const )?fn (?P<name>\w+)(?:<[^(]*>)?\((?P<first>[^,)]*)(?P<law>\)$)?", re.MULTILINE)
TYPE = re.compile(r"(?:.*\bfor\s+)?(?:<[^{]*?>\s*)?([A-Z]\w*)", re.DOTALL)


def texts(crate):
    for path in sorted(glob.glob(os.path.join(TOP, "crates", crate, "src", "**", "*.rt"), recursive=True)):
        with open(path) as file:
            yield file.read()


def public(crate):
    """Yields patterns of calls of a library's public functions, without its theorems."""
    with open(os.path.join(TOP, "crates", crate, "src", "lib.rt")) as file:
        exported = set(re.findall(r"\w+", " ".join(EXPORT.findall(file.read()))))
    for text in texts(crate):
        owner = ""
        for item in ITEM.finditer(text):
            if item["name"] is None:
                owner = TYPE.match(item["impl"].strip())[1]
            elif (owner if item["space"] else item["name"]) in exported and not (item["law"] and item["first"] in ("", "&self")):
                method = r"\." if item["first"].strip().endswith("self") else r"\b%s::" % owner
                yield (method if item["space"] else r"(?<![\w.])") + item["name"] + r"\("


def called():
    """Returns the text of the tests, with type aliases replaced by the types."""
    tests = "".join(text for crate in TESTS for text in texts(crate))
    aliases = {alias: name for crate in LIBRARIES for text in texts(crate) for alias, name in ALIAS.findall(text)}
    return re.sub(r"\b\w+(?=::)", lambda name: aliases.get(name[0], name[0]), tests)


class Calls(unittest.TestCase):
    def test_each_public_function_is_called(self):
        tests = called()
        for crate in LIBRARIES:
            with self.subTest(crate):
                calls = list(public(crate))
                self.assertTrue(calls)
                self.assertEqual([call for call in calls if not re.search(call, tests)], [])


if __name__ == "__main__":
    main(runs_program=False)
