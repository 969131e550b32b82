#!/usr/bin/env python3
"""Checks docs/SPECIFICATION.md by the text of the crates: the lines and marks of the files, and the tables of theorems.  Checks in
docs/ARCHITECTURE.md which crates use which, and that the path of one token can be followed.

    tests/docs_specification.py [-k NAME]
    tests/docs_specification.py --record     writes lines, marks and tables into the document

A file's entry is **`Name`** (LINES, MARK), in the part of its crate; the document says what the marks mean.  A theorem is a
public function that takes nothing and returns nothing, and its row is the function's docstring.
"""
import collections
import glob
import os
import re
import sys
import unittest

import citations
from counted import TOP, main

PAGE = os.path.join(TOP, "docs", "SPECIFICATION.md")
PART = re.compile(r"^## (\w+): .*$", re.M)
ENTRY = re.compile(r"\*\*`(\w+)`\*\* \(\d+, \w\)")
SUMS = re.compile(r"^\| `\w+` \|[ \d,|]*\n(?:\|.*\n)*", re.M)
TRUSTED = re.compile(r"The trusted files are \S+ of \S+, with \S+ lines, of which \S+\s+are blank\s+or\s+imports\.")
INNER = re.compile(r"These \S+ files \(\S+ lines\)")
THEOREMS = re.compile(r"(\| Theorem \| What it says \|\n\|---\|---\|\n)(?:\|.*\n)*")
STEP = re.compile(r"^((?:  )*)(\w+) +(\w+)/(\S+\.rt)  ", re.M)
# what the docstring of a theorem says besides the theorem
PROVES = re.compile(r"^(Theorem: |Proves that |Proves |Shows proofs that )| (It does|Does) nothing\.")
MARKS = "PTL"
# words of C, of the kit and of a list that entries use
EXTERNAL = {"intmax_t", "uintmax_t", "defined", "get_as", "set_as", "gnu"}

# definitions that only contracts inside their crate cite, and that stand beside the public ones that they complete
BESIDE = {"ppmacro/HiddenView: extended", "ppmacro/Entries: is_operator", "ppserve/Output: shows_items"}

# vocabulary of the code that contracts of calls cite by which a text is printed: ppserve alone makes them
PRINTING = {"ppprint/code/Held", "ppprint/code/PragmaText", "ppprint/code/Steps", "ppprint/code/Tokens", "pptext/code/FoundLexemes"}


class Facts:
    """Is what the crates say: the files of specs with their marks, and the theorems."""

    def __init__(self):
        self.code = citations.Code()
        self.reached = citations.marks(self.code)
        self.trusted = [specs for specs in self.code.specs.values() if not specs.is_inner]
        self.inner = [specs for specs in self.code.specs.values() if specs.is_inner]
        self.crates = list(dict.fromkeys(PART.findall(text_of(PAGE))))

    def mark(self, specs):
        """Returns the first mark of any definition of a file, or None if nothing trusted cites one."""
        nodes = {(specs.file, name) for name in specs.texts}
        return next((mark for mark in MARKS if nodes & self.reached[mark]), None)

    def lines(self, crate, mark=None):
        """Returns the number of lines of a crate's trusted files with a mark, or of all of them."""
        return sum(len(specs.lines) for specs in self.of(crate) if mark in (None, self.mark(specs)))

    def of(self, crate):
        return [specs for specs in self.trusted if specs.file.startswith(crate + "/")]

    def theorems(self, crate):
        """Yields the names and the docstrings of a crate's theorems."""
        for law in self.code.functions:
            if law.crate == crate and law.is_law:
                doc = PROVES.sub("", law.doc).replace(", and that ", ", and ")
                yield "%s::%s" % (law.owner, law.name) if law.owner else law.name, doc[:1].upper() + doc[1:]


def text_of(path):
    with open(path) as file:
        return file.read()


def number(count):
    return format(count, ",")


def sums(facts):
    """Returns the rows of the table of crates."""
    rows = []
    for crate in facts.crates:
        counts = [number(facts.lines(crate, mark)) for mark in MARKS]
        rows.append(("`%s`" % crate, *counts, str(len(facts.of(crate))), number(facts.lines(crate))))
    whole = [number(sum(facts.lines(crate, mark) for crate in facts.crates)) for mark in MARKS]
    rows.append(("all", *whole, str(len(facts.trusted)), number(sum(map(facts.lines, facts.crates)))))
    return "".join("| %s |\n" % " | ".join(row) for row in rows)


def trusted_sentence(facts):
    """Returns the sentence that counts the trusted files."""
    lines = [line for specs in facts.trusted for line in specs.lines]
    bare = [line for line in lines if not line.strip() or re.match(r"(pub )?use ", line)]
    found = (len(facts.trusted), len(facts.code.specs), number(len(lines)), number(len(bare)))
    return "The trusted files are %d of %d, with %s lines, of which %s are blank\nor imports." % found


def recorded(text, facts):
    """Returns the document with the lines, marks and theorems that the crates have."""
    text = SUMS.sub(lambda _: sums(facts), text)
    text = TRUSTED.sub(trusted_sentence(facts), text)
    inner = sum(len(specs.lines) for specs in facts.inner)
    text = INNER.sub("These %d files (%s lines)" % (len(facts.inner), number(inner)), text)
    head, *parts = re.split(r"(?m)^(?=## )", text)
    return head + "".join(part_of(part, facts) for part in parts)


def part_of(part, facts):
    """Returns a part of the document, with the entries and the theorems of its crate."""
    crate = PART.match(part)
    if not crate:
        return part
    rows = "".join("| `%s` | %s |\n" % (name, doc.replace("|", "\\|")) for name, doc in facts.theorems(crate[1]))
    part = THEOREMS.sub(lambda found: found[1] + rows, part)

    def entry(found):
        specs = facts.code.specs.get(crate[1] + "/" + found[1])
        return "**`%s`** (%d, %s)" % (found[1], len(specs.lines), facts.mark(specs)) if specs else found[0]
    return ENTRY.sub(entry, part)


def entries(text):
    """Returns the entries of a document, each with its crate."""
    return [crate + "/" + name for crate, part in parts(text) for name in ENTRY.findall(part)]


def parts(text):
    """Returns the crates and texts of a document's parts."""
    found = PART.split(re.split(r"(?m)^## Vocabulary", text)[0])[1:]
    return list(zip(found[::2], found[1::2]))


def vocabulary(text):
    """Returns the files in the table of the vocabulary of the code."""
    found, crate = [], None
    for name, files in re.findall(r"^\| (?:`(\w+)` )?\| (`\w+`(?:, `\w+`)*) \|", text.split("\n## Vocabulary")[1], re.M):
        crate = name or crate
        found += ["%s/code/%s" % (crate, file) for file in re.findall(r"\w+", files)]
    return found


def unlike(named, files):
    """Returns a line for each of these files that is not named once, and for each name that is no file."""
    heads = {specs.file: specs.lines[0] for specs in files}
    counts = collections.Counter(named)
    return ["%s is named %d times: %s" % (file, counts[file], heads.get(file, "no file"))
            for file in sorted({*heads, *counts}) if counts[file] != 1 or file not in heads]


def words_of_the_code():
    """Returns the names that the code declares: functions, types, clauses, fields and crates."""
    found = set(os.listdir(citations.CRATES))
    for path in glob.glob(os.path.join(citations.CRATES, "*", "src", "**", "*.rt"), recursive=True):
        text = re.sub(r"//.*", "", text_of(path))
        found.update(re.findall(r"\b(?:fn|struct|enum|trait|type|const|ghost|ensures|requires) (\w+)|\b(\w+)(?=: |[,({])", text))
    return {name for pair in found for name in (pair if isinstance(pair, tuple) else (pair,))}


class Specification(unittest.TestCase):
    maxDiff = None

    @classmethod
    def setUpClass(cls):
        cls.facts, cls.text = Facts(), text_of(PAGE)

    def test_lines_marks_and_theorems_are_those_of_the_crates(self):
        wanted = recorded(self.text, self.facts)
        changed = [line for line in wanted.splitlines() if line not in self.text.splitlines()]
        self.assertEqual((changed, wanted == self.text), ([], True), "write them by tests/docs_specification.py --record")

    def test_each_file_has_one_entry(self):
        self.assertEqual(unlike(entries(self.text), self.facts.trusted), [])

    def test_each_file_is_trusted_for_a_reason(self):
        self.assertEqual([specs.file for specs in self.facts.trusted if self.facts.mark(specs) is None], [])

    def test_no_theorem_and_no_public_call_cites_the_vocabulary_of_the_code(self):
        reached = {file for found in self.facts.reached.values() for file, _ in found}
        self.assertEqual({specs.file for specs in self.facts.inner if specs.file in reached}, PRINTING)

    def test_what_only_contracts_inside_a_crate_cite_is_there(self):
        found = {"%s: %s" % node for node in citations.only_inside(self.facts.code)}
        self.assertEqual(sorted(found - BESIDE), [])

    def test_the_vocabulary_of_the_code_has_its_table(self):
        self.assertEqual(unlike(vocabulary(self.text), self.facts.inner), [])

    def test_each_theorem_is_in_its_table(self):
        for crate, part in parts(self.text):
            self.assertEqual("| Theorem |" in part, any(self.facts.theorems(crate)), crate)

    def test_what_it_names_exists(self):
        """Finds each name in the entries of a crate: as a word of their files, or as a definition or function elsewhere."""
        elsewhere = words_of_the_code() | EXTERNAL
        for crate, part in parts(self.text):
            elsewhere |= {name for specs in self.facts.of(crate) for name in (*specs.texts, os.path.basename(specs.file))}
            for entry in re.split(r"\n(?=\*\*`|The calls?:)", re.sub(r"(?m)^\|.*", "", part))[1:]:
                files = filter(None, (self.facts.code.specs.get(crate + "/" + name) for name in ENTRY.findall(entry)))
                known = elsewhere.union(*(re.findall(r"\w+", re.sub(r"--.*", "", specs.text)) for specs in files))
                with self.subTest(crate, entry=entry[:60]):
                    self.assertEqual(sorted(set(re.findall(r"`([A-Za-z]\w*)`", entry)) - known), [])

    def test_all_crates_of_the_kit_that_the_trusted_files_use_are_named(self):
        notation = self.text.split("\n## Notation")[1].split("\n## ")[0]
        text = "\n".join(specs.text for specs in self.facts.trusted)
        used = set(re.findall(r"^use Rattle\.(?!pp\w*\.)(\w+)\.", text, re.M))
        self.assertEqual(sorted(crate for crate in used if "`%s`" % crate not in notation), [])


class Architecture(unittest.TestCase):
    @classmethod
    def setUpClass(cls):
        cls.text = text_of(os.path.join(TOP, "docs", "ARCHITECTURE.md"))

    def test_each_function_of_the_path_is_called_by_the_one_above(self):
        above = []
        for indent, name, crate, file in STEP.findall(self.text):
            del above[len(indent) // 2:]
            self.assertRegex(text_of(os.path.join(citations.CRATES, crate, "src", file)), r"fn %s\b" % name)
            if above:
                paths = glob.glob(os.path.join(citations.CRATES, above[-1], "src", "**", "*.rt"), recursive=True)
                self.assertRegex("".join(map(text_of, paths)), r"(?<!fn )\b%s(::<.*>)?\(" % name)
            above.append(crate)
        self.assertTrue(above)

    def test_each_rule_goes_to_files_that_exist(self):
        """Finds the names of the table: files of code and directories by path, and others as words of the specs and the code."""
        specs = citations.Code().specs.values()
        known = words_of_the_code().union(*([*one.texts, os.path.basename(one.file)] for one in specs))
        for path in glob.glob(os.path.join(citations.CRATES, "*", "src", "**", "*"), recursive=True):
            known.add(os.path.relpath(path, citations.CRATES).split("/src/", 1)[1] + ("/" if os.path.isdir(path) else ""))
        rows = re.findall(r"^\|[^|]*\|(.*)$", self.text.split("## Where a rule goes")[1], re.M)
        self.assertEqual(sorted({name for row in rows for name in re.findall(r"`([^`]+)`", row)} - known), [])

    def test_each_crate_uses_what_its_row_says(self):
        used = dict(line.split(":") for line in text_of(os.path.join(TOP, "crates.txt")).splitlines())
        used = {head.split()[0]: set(tail.split()) for head, tail in used.items()}
        for crate, row in re.findall(r"^\| `(\w+)` \|[^|]*\|([^|]*)\|", self.text, re.M):
            named, reached = set(re.findall(r"\w+", row)), set()
            for one in named:
                reached |= {one} | (reach(used, one) & set(used))
            # the crates below those that it names needn't be named
            self.assertTrue(named <= used[crate] <= reached, crate)


def reach(used, crate):
    """Returns all crates that a crate uses, directly or through others."""
    return used.get(crate, set()).union(*(reach(used, one) for one in used.get(crate, ())))


if __name__ == "__main__":
    if sys.argv[1:] == ["--record"]:
        new = recorded(text_of(PAGE), Facts())
        with open(PAGE, "w") as page:
            page.write(new)
    else:
        main(runs_program=False)
