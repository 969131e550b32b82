#!/usr/bin/env python3
"""Makes a list for cppunits from a compile_commands.json of CMake, Meson, Bear or ninja."""
import argparse
import os
import tempfile

from commands import Report, commands
from common import DONE, PARTLY, parser, run, say, written
from lists import Additions, Builder, bytes_of, list_of
from runs import Program, gather_all

TEXT = """\
Make a list for cppunits from a compile_commands.json of CMake, Meson, Bear or ninja: the C units in their order, each
with its definitions and directories, and the files that they can reach.

These options of a command count: -I, -iquote, -isystem, -idirafter, -D, -U, -include, -x, -o, -Wp and response files.
-DX becomes `X 1`, and -DX=v becomes `X v`; of several for one name the last counts, as for gcc and clang.  Files are
found by their include lines, also in skipped groups.  If an include line names a macro, every header below the
directories is listed, or with --program only the files that cppunits asks for.

Example:  list_from_build.py --root . --output list.json

A compiler's own directories and macros are no part of a build's commands: give them by --system and --define.  Names
are relative to the root: --root, or the deepest directory that contains all files and directories.

Standard error has a line for all that can't be expressed; its last line counts them."""
MAX_BUDGET = 4294967295


def write_targets(path, pairs):
    with written(path) as file:
        for command, _ in pairs:
            target = command.output or ""
            file.write(os.fsencode("" if "\n" in target else target) + b"\n")


def budget(word):
    number = int(word) if word.isdecimal() else -1
    if not 0 <= number <= MAX_BUDGET:
        raise argparse.ArgumentTypeError("a number from 0 to %d is expected" % MAX_BUDGET)
    return number


def options():
    asked = parser(TEXT, "the list is written, and something can't be expressed in it")
    asked.add_argument("build", metavar="FILE", nargs="?", default="compile_commands.json",
                       help="read these compile commands (default: compile_commands.json; -: standard input)")
    asked.add_argument("--output", metavar="LIST", default="-", help="write the list here (default: standard output)")
    asked.add_argument("--root", metavar="DIR", help="make names relative to this directory")
    asked.add_argument("--inline", action="store_true", help="put the contents of the files into the list")
    asked.add_argument("--shown", action="store_true",
                       help="say how the commands spell files and directories, and which are the system's: for `cppunits text`, and __FILE__")
    asked.add_argument("--system", metavar="DIR", action="append", default=[],
                       help="search this directory in each unit after its own, before -idirafter (may be repeated)")
    asked.add_argument("--define", metavar="TEXT", action="append", default=[],
                       help="add this definition, as after #define, to each unit whose command neither defines nor"
                            " undefines the name (may be repeated)")
    asked.add_argument("--date", metavar="TEXT", help="set __DATE__, like 'Feb  9 2024' (default: SOURCE_DATE_EPOCH, or today)")
    asked.add_argument("--time", metavar="TEXT", help="set __TIME__, like 08:05:03 (default: SOURCE_DATE_EPOCH, or now)")
    asked.add_argument("--profile", choices=("c11", "later", "gnu"),
                       help="set the rules: gnu for headers of Linux, later for C23's branches and #pragma once (default: c11)")
    asked.add_argument("--budget", metavar="N", type=budget,
                       help="limit the replacements and openings of files of each unit (default: no limit)")
    asked.add_argument("--targets", metavar="FILE", help="write the target of each unit to a line of this file, for depfile.py")
    asked.add_argument("--program", metavar="FILE",
                       help="run this cppunits to find the names that macros make, and list only files that a name may be, no whole directory")
    asked.add_argument("--missing", action="store_true", help="print the names of headers that no directory has")
    return asked.parse_args()


def main():
    asked, report = options(), Report()
    builder = Builder(asked, report, Additions(asked.system, asked.define), asked.program is not None)
    all_commands = commands(asked.build, report)
    if asked.program is None:
        builder.gather(all_commands)
    else:
        with tempfile.TemporaryDirectory() as folder:
            gather_all(builder, all_commands, Program(asked.program, folder))
    rows, pairs = builder.build(all_commands)
    data = bytes_of(list_of(asked, rows, pairs))
    with written(asked.output) as file:
        file.write(data)
    if asked.targets:
        write_targets(asked.targets, pairs)
    for name in sorted(builder.files.missing if asked.missing else ()):
        say("not found: %s" % name)
    say("root %s, %d units, %d files, %d not expressed, %d names of headers not found"
        % (asked.root or builder.root, len(pairs), len(rows), len(report.lines), len(builder.files.missing)))
    return PARTLY if report.lines else DONE


if __name__ == "__main__":
    run(main)
