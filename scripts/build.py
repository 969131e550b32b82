#!/usr/bin/env python3
"""Makes dependency files, a dump, texts or faults from a build's compile_commands.json."""
import argparse
import os
import re
import shutil
import sys
import tempfile
import time

from commands import LeftOut, Report, commands
from common import DONE, PARTLY, STREAM, Refused, parser, run, say, units, units_of, written
from compilers import SECONDS, CompilerAdditions, Compilers
from database import Compilation, Database, NoEntry
from deps import FORMS, Places, Result, deps
from faults import forms, print_faults, wants_color
from lists import Builder, bytes_of, list_of
from runs import Program, gather_all
from text import text_of, write_text

TEXT = """\
Preprocess the C units of a build, as its compile_commands.json has them.

  build.py deps     write a dependency file for each unit, like gcc -MD, or print JSON or rules: --format
  build.py dump     print the tokens and dependencies of each unit, like `cppunits dump`
  build.py text     print each unit as text that a compiler takes, like `cppunits text`, or write it to a file: --into;
                    that directory's compile_commands.json compiles the texts
  build.py faults   print the first fault of each unit that has one, like faults.py: by file, line and column

Example, in a project's build directory:  build.py faults compile_commands.json

Options may come before or after the task's name.

The compilers of the commands are asked for their directories, macros and operators, under the options that change them.
Only cc, gcc and clang, with a version or a target's name, are run, and only from PATH, /usr and /opt; use --query-driver
to allow others.  The list has all files that an include line can find.  For names that macros make cppunits is run until
it asks for no more files.

The last line on standard error has the number of units, of units with a fault, of files, and the seconds."""
FACTS = {"inline": False, "shown": True, "budget": None, "date": None, "time": None, "root": "/"}
DEPENDENCY = re.compile(rb"\ndep (\d+) ")


class Progress:
    """Shows what is being done, on a line of standard error that is erased afterwards; shows nothing if that is no terminal."""

    def __init__(self):
        self.there = sys.stderr.isatty()

    def __call__(self, text):
        if self.there:
            print("\r\x1b[K" + text, end="", file=sys.stderr, flush=True)

    def clear(self):
        self(" ")
        self("")


class Summary(Report):
    """Reports what a list can't express, and counts the commands of other languages without a report."""

    def __init__(self, progress):
        super().__init__()
        self.progress = progress

    def say(self, line):
        """Prints a line that isn't about the list."""
        self.progress.clear()
        say(line)

    def add(self, line):
        self.progress.clear()
        super().add(line)

    def end(self):
        self.progress.clear()
        super().end()

    def left_out(self, path, reason):
        self.out[reason] = self.out.get(reason, 0) + 1


class Work:
    """Makes a build's list, and runs cppunits on it."""

    def __init__(self, asked, folder):
        self.asked, self.folder, self.began = asked, folder, time.monotonic()
        self.progress = Progress()
        self.report = Summary(self.progress)
        self.program = Program(program_of(asked.program), folder, asked.workers)
        # the numbers of the files that units read; None if it isn't known
        self.faults, self.read = 0, set()
        facts = argparse.Namespace(**FACTS, profile=asked.profile)
        self.compilers = Compilers(self.report, asked.query_driver, asked.seconds)
        self.builder = Builder(facts, self.report, CompilerAdditions(self.compilers, asked), True)
        self.commands, self.listed, self.pairs, self.failed = [], None, [], False
        # for the summary: the number of units, and of those among them that were run, if not all were
        self.units, self.anew = 0, None

    def begin(self):
        """Reads the commands, and asks their compilers."""
        self.progress("reading %s" % self.asked.build)
        self.commands = commands(self.asked.build, self.report)
        self.progress("asking compilers")
        self.compilers.ask_for(self.commands)

    def make_list(self, some_commands):
        """Makes the list of these commands, and writes it to a file if that was asked for."""
        self.progress("looking for the files of %d units" % len(some_commands))
        gather_all(self.builder, some_commands, self.program, self.learn, self.progress)
        rows, self.pairs = self.builder.build(some_commands)
        self.listed = list_of(self.builder.asked, rows, self.pairs)
        if self.asked.list:
            with written(self.asked.list) as file:
                file.write(bytes_of(self.listed))

    def prepare(self):
        """Reads the commands, and makes the list of all."""
        self.begin()
        self.make_list(self.commands)
        self.expect(len(self.pairs))

    def expect(self, count):
        """Takes the number of units; refuses a build without one."""
        self.units = count
        if not count:
            self.report.end()
            raise Refused("%s: no unit can be expressed" % self.asked.build)

    def learn(self):
        self.compilers.learn(self.builder.files.names_for_operators(self.builder.paths))

    def run(self, word):
        """Returns the path of the output of cppunits."""
        path = os.path.join(self.folder, "output")
        with open(path, "wb") as file:
            file.writelines(self.pieces(word))
        return path

    def pieces(self, word, terminal=False):
        """Yields the output of cppunits in pieces that end with whole lines; counts the units in it, unless they go to a terminal."""
        count, done = len(self.pairs), 0
        self.progress("running %d units over %d files" % (count, len(self.listed["files"])))
        for piece in self.program.pieces(word, self.listed, self.builder.root):
            if terminal:
                self.progress.clear()
            yield piece
            if not terminal:
                lines = b"\n" + piece
                done += lines.count(b"\nok\n") + lines.count(b"\nfault ")
                self.progress("%d of %d units are written" % (done, count))

    def lines(self, word):
        """Yields the lines of the output of cppunits."""
        for piece in self.counted(self.pieces(word)):
            yield from (line + b"\n" for line in piece.split(b"\n")[:-1])

    def end(self):
        """Prints the summary, and returns the exit status."""
        self.report.end()
        self.progress.clear()
        count, files = "%d units" % self.units, [] if self.read is None else ["%d files" % len(self.read)]
        if self.anew is not None:
            count += " (%d anew)" % self.anew
        if self.listed is not None and self.anew is None:
            files.append(("(%d on the list)" if files else "%d files on the list") % len(self.listed["files"]))
        say("%s, %d with a fault, %s, %.1f seconds" % (count, self.faults, " ".join(files), time.monotonic() - self.began))
        return STREAM if self.failed else PARTLY if self.faults or self.report.lines else DONE

    def fail(self, line):
        """Reports a file that can't be read or written, and goes on; the status will say it."""
        self.failed = True
        self.report.add(line)

    def deps_of(self, numbers):
        """Yields these units of the list as `cppunits deps` prints them, with their numbers in the list."""
        path = os.path.join(self.folder, "deps")
        with open(path, "wb") as output:
            self.program.run("deps", dict(self.listed, units=[self.listed["units"][number] for number in numbers]), self.builder.root, output)
        for number, unit in zip(numbers, units(path)):
            unit.number = number
            yield unit

    def counted(self, pieces):
        """Counts the faults and the files that were read in pieces of an output that end with whole lines, and yields them."""
        for piece in pieces:
            lines = b"\n" + piece
            self.read.update(DEPENDENCY.findall(lines))
            self.faults += lines.count(b"\nfault ")
            yield piece


def printed(work, word):
    """Prints what cppunits prints."""
    work.prepare()
    with written(work.asked.output) as out:
        out.writelines(work.counted(work.pieces(word, work.asked.output == "-" and sys.stdout.isatty())))


def dump(work):
    """Prints the dump."""
    printed(work, "dump")


class TextPlaces(Places):
    """Finds the path of each unit's text: the object's name with another suffix."""

    suffix = ".i"

    def named(self, path):
        return os.path.splitext(path)[0] + self.suffix


def text(work):
    """Prints the texts, or writes each to a file by the name of its unit's object."""
    if work.asked.into is None:
        printed(work, "text")
        return
    database = Database(work.asked.into)
    work.prepare()
    places = TextPlaces(work.asked.build, work.asked.into)
    for unit, (command, _) in zip(units_of("the output", work.lines("text")), work.pairs):
        try:
            path = places.own(Result(command, [], [], None), unit.number, work.report)
            if unit.fault is None:
                compilation = Compilation(command, b"".join(text_of(unit)), work.compilers.macros(command))
                write_text(compilation.text, path)
                database.entries.append(compilation.entry(path))
            else:
                work.report.say("%s: fault %s, so there is no text (`build.py faults` says more)" % (command.file, unit.fault.split(" ")[0]))
        except NoEntry as reason:
            work.report.add("%s: no entry in %s: %s" % (command.file, database.path, reason))
        except (Refused, LeftOut) as refusal:
            work.report.add("%s: %s" % (command.file, refusal))
        except OSError as error:
            work.fail("%s: %s: %s" % (command.file, error.filename, error.strerror))
    database.write()
    if len(database.entries) < work.units:
        work.report.say("%d of %d units have no entry in %s" % (work.units - len(database.entries), work.units, database.path))


def faults(work):
    """Prints the faults."""
    work.prepare()
    path, color, work.read = work.run("faults"), wants_color(work.asked.color, sys.stdout), None
    with open(path, "rb") as file:
        work.faults = print_faults(work.listed, file, work.builder.root, sys.stdout, color, work.asked.form, work.deps_of)


def program_of(word):
    """Returns the path of the program: the one that was given, or cppunits on PATH."""
    path = shutil.which(word or "cppunits")
    if path is None:
        raise Refused("%s: there is no such program (--program names one)" % (word or "cppunits"))
    return os.path.abspath(path)


def number(word, least, most, kind):
    try:
        value = kind(word)
    except ValueError:
        value = least - 1
    if not least <= value <= most:
        raise argparse.ArgumentTypeError("a number from %g to %g is wanted" % (least, most))
    return value


def options():
    asked = parser(TEXT, "some unit has a fault, or something can't be expressed; standard error says what")
    words = asked.add_subparsers(required=True, metavar="deps|dump|text|faults")
    for name, task, told in (("deps", deps, "write dependency files"), ("dump", dump, "print tokens and dependencies"),
                             ("text", text, "print or write texts that a compiler takes"), ("faults", faults, "print faults")):
        word = words.add_parser(name, help=told, description=told[0].upper() + told[1:] + ", as build.py --help says.")
        word.set_defaults(task=task)
        word.add_argument("build", metavar="FILE", nargs="?", default="compile_commands.json",
                          help="read these compile commands (default: compile_commands.json; -: standard input)")
        if task is deps:
            word.add_argument("--into", metavar="DIR", help="write the files to this directory (default: where each command wants its own)")
            word.add_argument("--format", dest="form", choices=tuple(FORMS), default="files",
                              help="write a file for each unit, or print rules for make, or a JSON object a line (default: files)")
            word.add_argument("--anew", action="store_true", help="run all units, not only those that changed since the last run")
            word.add_argument("--phony", action="store_true", help="add a rule without prerequisites for each header, for make, as -MP does")
        if task is text:
            word.add_argument("--into", metavar="DIR", help="write a file for each unit to this directory, by the name of its object: main.i for main.o")
        if task in (dump, text):
            word.add_argument("--output", metavar="FILE", default="-", help="write here (default: standard output)")
        if task is faults:
            forms(word)
        shared(word)
    words = asked.parse_args()
    if words.task is deps and words.into is not None and words.form != "files":
        asked.error("--into goes with --format files alone")
    if words.task is text and words.into is not None and words.output != "-":
        asked.error("--into doesn't go with --output")
    return words


def shared(word):
    """Adds the options that all tasks share."""
    word.add_argument("--program", metavar="FILE", help="run this program (default: cppunits on PATH)")
    word.add_argument("--workers", metavar="N", type=lambda text: number(text, 1, 64, int), help="preprocess N units in parallel")
    word.add_argument("--profile", choices=("c11", "later", "gnu"), default="gnu",
                      help="set the rules: gnu for headers of Linux, later for C23's branches and #pragma once (default: gnu)")
    word.add_argument("--list", metavar="FILE", help="write the list here, with names below /")
    word.add_argument("--query-driver", metavar="GLOB", action="append", default=[],
                      help="allow compilers whose paths match, like '/srv/cross/bin/*-gcc' (may be repeated)")
    word.add_argument("--seconds", metavar="N", type=lambda text: number(text, 0.1, 3600, float), default=SECONDS,
                      help="stop a question to a compiler after N seconds (default: %d)" % SECONDS)
    word.add_argument("--system", metavar="DIR", action="append", default=[], help="search this directory in each unit after its compiler's")
    word.add_argument("--define", metavar="TEXT", action="append", default=[],
                      help="add this definition, as after #define, to each unit whose command says nothing of the name")


def main():
    asked = options()
    with tempfile.TemporaryDirectory(prefix="cppunits.") as folder:
        work = Work(asked, os.path.realpath(folder))
        try:
            asked.task(work)
        finally:
            work.progress.clear()
        sys.stdout.flush()
        return work.end()


if __name__ == "__main__":
    run(main)
