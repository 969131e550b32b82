#!/usr/bin/env python3
"""Compare cppunits with the compiler of a build, over projects with a compile_commands.json, and write a table.

    bench/projects.py [--program FILE] [--jobs N] [--every N] [--seconds N] [--output FILE] DIR..

Example:  bench/projects.py --program crates/cppunits/out/cppunits "zlib 1.2.13=../zlib-1.2.13/build"

For each directory scripts/build.py makes the list and runs cppunits, and the compiler is run on each unit with the words
of its own command and -g0 -E -P -MD (with -g3 gcc prints definitions, too).  With --every 5 only each fifth command is
used, and the name of the row says so.  A compiler that takes more than --seconds for a unit is stopped, with the processes
that it started.  A row has the number of units, of those that the compiler takes, and of these: how many are ok, have the
compiler's tokens, and have its dependencies in its order.  bench/cutter.py makes spellings of the compiler's text.

The comparison leaves out stdc-predef.h, which gcc includes by itself, #ident lines, pragmas that gcc or clang executes and
doesn't print, like #pragma once, and how __FILE__ spells a file's path.  Standard error names each unit that differs, with the
first location where it does.

Status: 0 all units that the compiler takes are the same, 1 some differ, 2 the command line is wrong, 3 build.py failed.
"""
import argparse
import collections
import contextlib
import json
import os
import re
import shlex
import signal
import subprocess
import sys
import tempfile
import time
from concurrent.futures import ThreadPoolExecutor

from cutter import spellings

TOP = os.path.dirname(os.path.dirname(os.path.abspath(__file__)))
sys.path.insert(0, os.path.join(TOP, "scripts"))
from common import Unit, plain  # noqa: E402

# options that name an output file, and those whose next word does
WRITING, WRITING_WORD = ("-c", "-S", "-MD", "-MMD", "-MP", "-MG", "-M", "-MM"), ("-o", "-MF", "-MT", "-MQ", "-MJ")
COMPILER = re.compile(r"(?:.*-)?(?:cc|gcc|clang)(?:-[\d.]+)?$")
UNASKED = b"/stdc-predef.h"
# lines of a dump: tokens with their spellings, and pragmas with their tokens
PRINTED = re.compile(rb"\np?tok [^ \n]+ [^ \n]+ [^ \n]+ ([^\n]*)")
PRAGMA = re.compile(rb"\nprag [^\n]*(?:\nptok [^\n]*)*")
PIECE = 16777216
# lines that gcc executes and doesn't print, and lines that cppunits doesn't print
UNPRINTED = re.compile(rb"# ?(?:ident|sccs|pragma +(?:once|push_macro|pop_macro|GCC +(?:poison|system_header|warning|error|dependency)"
                       rb"|clang +(?:deprecated|restrict_expansion|final)))\b")
ENVIRONMENT = dict(os.environ, SOURCE_DATE_EPOCH="1707465903", LC_ALL="C")
HEAD = ["Project", "Units", "Taken by the compiler", "ok", "Same tokens", "Same dependencies", "Seconds: build.py dump",
        "Seconds: compiler -E -P", "The rest"]


class Entry:
    """Is a command of the build: its file, and the words that ask the compiler for preprocessed text."""

    def __init__(self, entry):
        self.directory = entry["directory"]
        self.file = os.path.normpath(os.path.join(self.directory, entry["file"]))
        words = list(entry["arguments"]) if "arguments" in entry else shlex.split(entry["command"])
        first = next((at for at, word in enumerate(words) if COMPILER.match(os.path.basename(word))), len(words))
        self.words, skipped = [], False
        for word in words[first:]:
            if not skipped and word not in WRITING + WRITING_WORD and not word.startswith(("-Wp,-MD", "-Wp,-MMD")):
                self.words.append(word)
            skipped = not skipped and word in WRITING_WORD

    def preprocess(self, seconds):
        """Returns the compiler's text with the rule of its dependencies, or None if it refuses the unit or isn't there; and its seconds.

        Raises TimeoutExpired if it takes longer than it may."""
        began = time.monotonic()
        if not self.words:
            return None, 0.0
        with tempfile.TemporaryDirectory(prefix="projects.") as folder:
            rule = os.path.join(folder, "rule")
            text = answered([*self.words, "-g0", "-E", "-P", "-MD", "-MF", rule], self.directory, seconds)
            taken = time.monotonic() - began
            if text is None or not os.path.exists(rule):
                return None, taken
            with open(rule, "rb") as file:
                return (text, file.read()), taken


def answered(words, directory, seconds):
    """Returns what a program prints, or None if it fails or isn't there; after some seconds it is stopped, with its child processes."""
    null = subprocess.DEVNULL
    try:
        process = subprocess.Popen(words, cwd=directory, env=ENVIRONMENT, stdin=null, stdout=subprocess.PIPE, stderr=null, process_group=0)
    except OSError:
        return None
    try:
        text, _ = process.communicate(timeout=seconds)
    except BaseException:
        with contextlib.suppress(OSError):
            os.killpg(process.pid, signal.SIGKILL)
        process.communicate()
        raise
    return None if process.returncode else text


def entries(path):
    """Returns the commands of a build by the files that they compile."""
    found = collections.defaultdict(list)
    with open(path, "rb") as file:
        for entry in map(Entry, json.load(file)):
            found[entry.file].append(entry)
    return found


# ---- tokens


def tokens_of_compiler(text):
    """Returns the spellings of the text, without lines that only one of the two programs prints."""
    return spellings(b"\n".join(line for line in text.split(b"\n") if not UNPRINTED.match(line)))


def tokens_of_unit(unit):
    """Returns the spellings of a dump, with each operator _Pragma as the line that a compiler makes of it."""
    found, begin = [], 0
    for pragma in PRAGMA.finditer(unit.text):
        found += printed_spellings(unit.text, begin, pragma.start())
        found += pragma_line([b"#", b"pragma", *printed_spellings(unit.text, *pragma.span())])
        begin = pragma.end()
    return without_operators(found + printed_spellings(unit.text, begin, len(unit.text)))


def printed_spellings(text, begin, end):
    """Returns the printed spellings of a part of a dump."""
    return [plain(word) if b"%" in word else word for word in PRINTED.findall(text, begin, end)]


def pragma_line(tokens):
    return [] if UNPRINTED.match(b" ".join(tokens)) else tokens


def without_operators(tokens):
    """Returns the tokens with a line for each operator _Pragma."""
    found, at = [], 0
    for _ in range(tokens.count(b"_Pragma")):
        operator = tokens.index(b"_Pragma", at)
        found += tokens[at:operator]
        inner = tokens[operator + 2:operator + 3]
        if tokens[operator + 1:operator + 4] == [b"(", *inner, b")"] and inner[0].endswith(b'"'):
            text = re.sub(rb'\\(["\\])', rb"\1", inner[0][inner[0].index(b'"') + 1:-1])
            found += pragma_line([b"#", b"pragma", *spellings(text)])
            at = operator + 4
        else:
            found.append(b"_Pragma")
            at = operator + 1
    return found + tokens[at:]


def difference(ours, theirs, entry):
    """Describes the first location where the tokens differ; None if they are the same."""
    if ours == theirs:
        return None
    for at, (mine, other) in enumerate(zip(ours, theirs)):
        if mine != other and not same_file(mine, other, entry):
            return "token %d: %s, and the compiler has %s" % (at, excerpt(ours, at), excerpt(theirs, at))
    if len(ours) != len(theirs):
        return "%d tokens, and the compiler has %d" % (len(ours), len(theirs))
    return None


def same_file(mine, other, entry):
    """Returns whether two literals name the same file, as __FILE__ does."""
    if not (mine[:1] == other[:1] == b'"'):
        return False
    paths = [os.path.normpath(os.path.join(os.fsencode(entry.directory), one[1:-1])) for one in (mine, other)]
    return paths[0] == paths[1]


def excerpt(tokens, at):
    return b" ".join(tokens[max(0, at - 2):at + 3]).decode("utf-8", "replace")[:100]


# ---- dependencies


def dependencies_of_compiler(text, entry):
    """Returns the files of a rule in order, each as the real file on disk."""
    rule = text.replace(b"\\\n", b" ").split(b":", 1)[1]
    names = re.findall(rb"(?:\\.|[^\s\\])+", rule)
    names = [re.sub(rb"\\([ #:\\])", rb"\1", name).replace(b"$$", b"$") for name in names]
    return real(os.path.join(os.fsencode(entry.directory), name) for name in names)


def dependencies_of_unit(unit):
    """Returns the unit's dependencies."""
    return real(b"/" + name for name in unit.dependencies())


def real(paths):
    """Returns each file once, without the one that gcc includes by itself."""
    return list(dict.fromkeys(path for path in map(os.path.realpath, paths) if not path.endswith(UNASKED)))


def order_difference(ours, theirs):
    if ours == theirs:
        return None
    for at, (mine, other) in enumerate(zip(ours, theirs)):
        if mine != other:
            return "dependency %d: %s, and the compiler has %s" % (at, os.fsdecode(mine), os.fsdecode(other))
    return "%d dependencies, and the compiler has %d" % (len(ours), len(theirs))


# ---- a project


class Row:
    """Holds the results of a project."""

    def __init__(self, name):
        self.name, self.units, self.taken, self.ok, self.tokens, self.dependencies = name, 0, 0, 0, 0, 0
        self.ours = self.theirs = 0.0
        self.rest = collections.Counter()

    def cells(self):
        rest = ["%s: %d" % pair for pair in sorted(self.rest.items())]
        counts = [self.units, self.taken, self.ok, self.tokens, self.dependencies]
        return [self.name, *map(str, counts), "%.1f" % self.ours, "%.1f" % self.theirs, ", ".join(rest) or "none"]

    def add(self, name, seconds, faults):
        """Counts a unit: the compiler's seconds, and the differences by kind, or words if the compiler gives nothing."""
        self.units += 1
        self.theirs += seconds
        if isinstance(faults, str):
            self.rest[faults] += 1
            return
        self.taken += 1
        self.ok += "fault" not in faults
        self.tokens += not faults.keys() & {"fault", "tokens"}
        self.dependencies += not faults.keys() & {"fault", "dependencies"}
        for kind, text in faults.items():
            self.rest["fault %s" % text.split(" ")[0] if kind == "fault" else kind] += 1
            print("%s, %s: %s: %s" % (self.name, name, kind, text), file=sys.stderr)

    def same(self):
        return self.taken == self.tokens == self.dependencies


def compared(unit, entry, seconds):
    """Returns a unit's name, the compiler's seconds, and the differences by kind, or words if the compiler gives nothing."""
    try:
        found, taken = entry.preprocess(seconds)
    except subprocess.TimeoutExpired:
        return entry.file, seconds, "no answer of the compiler in %g seconds" % seconds
    if found is None:
        return entry.file, taken, "refused by the compiler"
    if unit.fault is not None:
        return entry.file, taken, {"fault": unit.fault}
    text, rule = found
    faults = {"tokens": difference(tokens_of_unit(unit), tokens_of_compiler(text), entry),
              "dependencies": order_difference(dependencies_of_unit(unit), dependencies_of_compiler(rule, entry))}
    return entry.file, taken, {kind: told for kind, told in faults.items() if told is not None}


class Dumped(Unit):
    """Is a unit of a dump, with its lines as one text, in which a line end is before each line."""

    def __init__(self, text):
        number, name = text.partition(b"\n")[0].split(b" ", 1)
        super().__init__(int(number), name)
        self.text = text.rstrip(b"\n")
        self.last = self.text[self.text.rindex(b"\n") + 1:]
        self.lines = [line[1:] for line in re.findall(rb"\ndep [^\n]*", self.text)]


def dumped(path):
    """Yields the units of a dump, which is read in large pieces."""
    rest = b"\n"
    with open(path, "rb") as file:
        while piece := file.read(PIECE):
            *whole, rest = (rest + piece).split(b"\nunit ")
            yield from (Dumped(text) for text in whole if text)
    if rest.strip():
        yield Dumped(rest)


def pairs(output, by_file):
    """Pairs each unit with its command; units of one file are in the order of their commands."""
    used = collections.Counter()
    for unit in dumped(output):
        file = "/" + os.fsdecode(unit.name)
        yield unit, by_file[file][used[file]]
        used[file] += 1


def taken(folder, every, work):
    """Returns the path of the build's commands, or of the selected part of them."""
    path = os.path.join(folder, "compile_commands.json")
    if every == 1:
        return path
    with open(path, "rb") as file:
        some = json.load(file)[::every]
    path = os.path.join(work, "compile_commands.json")
    with open(path, "w", encoding="utf-8") as file:
        json.dump(some, file)
    return path


def project(folder, asked, work):
    """Returns the row of a project."""
    build, output = taken(folder, asked.every, work), os.path.join(work, "dump")
    row = Row((os.path.basename(os.path.abspath(folder)) if asked.name is None else asked.name)
              + (", one command of %d" % asked.every if asked.every > 1 else ""))
    words = [sys.executable, os.path.join(TOP, "scripts", "build.py"), "dump", build, "--output", output]
    words += ["--program", asked.program] if asked.program else []
    began = time.monotonic()
    status = subprocess.run(words, env=ENVIRONMENT, check=False).returncode
    row.ours = time.monotonic() - began
    if status not in (0, 1):
        print("projects.py: %s: build.py ended with status %d" % (folder, status), file=sys.stderr)
        sys.exit(3)
    found = pairs(output, entries(build))
    with ThreadPoolExecutor(asked.jobs) as pool:
        while some := [pair for _, pair in zip(range(8 * asked.jobs), found)]:
            for done in pool.map(lambda pair: compared(*pair, asked.seconds), some):
                row.add(*done)
    return row


def table(rows):
    lines = [HEAD, ["---"] + ["---:"] * (len(HEAD) - 2) + ["---"], *(row.cells() for row in rows)]
    return "".join("| %s |\n" % " | ".join(cells) for cells in lines)


def main():
    form = argparse.RawDescriptionHelpFormatter
    asked = argparse.ArgumentParser(description=__doc__, formatter_class=form)
    asked.add_argument("folders", metavar="DIR", nargs="+", help="use the compile_commands.json of this directory; NAME=DIR names its row")
    asked.add_argument("--program", metavar="FILE", help="run this program (default: cppunits on PATH)")
    asked.add_argument("--jobs", metavar="N", type=int, default=1, help="run N compilers in parallel (default: 1)")
    asked.add_argument("--every", metavar="N", type=int, default=1, help="use only each N-th command (default: 1)")
    asked.add_argument("--seconds", metavar="N", type=float, default=60, help="stop a compiler after N seconds for a unit (default: 60)")
    asked.add_argument("--output", metavar="FILE", help="write the table here (default: standard output)")
    words, asked = asked, asked.parse_args()
    if not 1 <= asked.jobs <= 64:
        words.error("--jobs is a number from 1 to 64")
    if asked.every < 1 or not 0 < asked.seconds <= 86400:
        words.error("--every is a number from 1, --seconds one to 86400")
    rows = []
    for word in asked.folders:
        name, sign, folder = word.partition("=")
        asked.name = name if sign else None
        with tempfile.TemporaryDirectory(prefix="projects.") as work:
            rows.append(project(folder if sign else word, asked, work))
    if asked.output:
        with open(asked.output, "w", encoding="utf-8") as file:
            file.write(table(rows))
    else:
        print(table(rows), end="")
    return 0 if all(row.same() for row in rows) else 1


if __name__ == "__main__":
    sys.exit(main())
