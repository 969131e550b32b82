#!/usr/bin/env python3
"""Counts what keeps the crates readable, and compares each count with its goal.

    tests/house_tests.py [-k NAME]
"""
import glob
import os
import re
import unittest

from counted import TOP, main

CRATES = os.path.join(TOP, "crates")
# the most lines of more than 240 characters in all crates, files of lemmas in a crate, mutants in all crates, lines of a file, and
# parameters of a function
LONG_LINES, LEMMAS, MUTANTS, LINES, PARAMETERS = 40, 40, 100, 800, 6
LONG = 240
FUNCTION = re.compile(r'^ *(?:pub(?:\(\w+\))? )?(?:const |extern "C" )?fn (\w+)(.*?)(?:\{$|;$|^ *(?:requires|ensures))', re.M | re.S)


def files(*endings):
    """Yields the names and texts of the crates' files with these endings."""
    for ending in endings:
        for path in sorted(glob.glob(os.path.join(CRATES, "*", "*", "**", "*." + ending), recursive=True)):
            name = os.path.relpath(path, CRATES)
            if name.split(os.sep)[1] in ("src", "specs", "proofs", "must-fail"):
                with open(path) as file:
                    yield name, file.read()


def parameters(signature):
    """Returns the number of parameters of a function, from the text after its name."""
    depth, parts = 0, [""]
    for sign in signature.replace("->", ""):
        depth -= sign in ")>]"
        if depth == 0 and sign == ")":
            break
        if depth == 1 and sign == ",":
            parts.append("")
        elif depth:
            parts[-1] += sign
        depth += sign in "(<["
        if depth == 1 and sign == "(":
            # the type parameters have ended
            parts = [""]
    return len([part for part in parts if part.strip()])


class House(unittest.TestCase):
    def test_lines_of_more_than_240_characters(self):
        counts = {name: sum(len(line) > LONG for line in text.splitlines()) for name, text in files("rt", "antt", "edit")}
        self.assertLessEqual(sum(counts.values()), LONG_LINES, {name: count for name, count in counts.items() if count})

    def test_files_of_lemmas_in_a_crate(self):
        for crate in sorted(os.listdir(CRATES)):
            lemmas = glob.glob(os.path.join(CRATES, crate, "proofs", "*.antt"))
            with self.subTest(crate):
                self.assertLessEqual(len([path for path in lemmas if os.path.basename(path) != "Lib.antt"]), LEMMAS)

    def test_mutants(self):
        self.assertLessEqual(len(list(files("edit"))), MUTANTS)

    def test_lines_of_a_file(self):
        self.assertEqual([name for name, text in files("rt", "antt") if text.count("\n") > LINES], [])

    def test_parameters_of_a_function(self):
        counts = [(name, *function) for name, text in files("rt") for function in FUNCTION.findall(re.sub(r" *//.*", "", text))]
        self.assertEqual([(name, function) for name, function, signature in counts if parameters(signature) > PARAMETERS], [])


if __name__ == "__main__":
    main(runs_program=False)
