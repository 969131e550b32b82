#!/usr/bin/env python3
"""Compiles the units of lists, and their texts, and compares the objects.

    bench/texts.py [--program FILE] [--compiler NAME] [--options WORDS] [--jobs N] [--root DIR] [--macros] LIST..

For each list `cppunits text` is run once.  Then the compiler makes an object of each unit, directly from the list's files
with the unit's definitions and directories, and another of its text.  Both must have the same bytes.  For that the list is
given shown names: the directories are spelled as after -I, and the unit's file as in the list.  The compiler has no macros
and directories of its own (-undef -nostdinc), and the list's date (SOURCE_DATE_EPOCH).  With --macros the list gets the
compiler's macros, in the profile gnu, for lists of which the compiler takes few units without them.

A row has the number of units, of those that cppunits and the compiler take, and of these: the texts that the compiler takes,
and the objects that are equal.  Standard error names each unit of which one fails.

Example: bench/texts.py --options '-O2 -w' redis.json

Status: 0 all units that cppunits and the compiler take have equal objects, 1 some differ, 2 the command line is wrong, 3 cppunits
or the list failed.
"""
import argparse
import calendar
import collections
import filecmp
import json
import os
import shlex
import subprocess
import sys
import tempfile
import time
from concurrent.futures import ThreadPoolExecutor

sys.path.insert(0, os.path.join(os.path.dirname(os.path.dirname(os.path.abspath(__file__))), "scripts"))
from common import Refused, compact, read_list, units_of  # noqa: E402
from compilers import macros_of  # noqa: E402
from lists import name_of  # noqa: E402
from text import text_of  # noqa: E402

HEAD = ["List", "Units", "ok", "Taken by the compiler", "Texts taken", "Same objects", "MB of text"]
STANDARDS = {"gnu": "gnu11", "later": "c11", "c11": "c11"}
# names that gcc lets nobody define; it has these operators itself
OPERATORS = ("__has_include", "__has_include_next")
TEXT, DIRECT = "text", "direct"


def shown(folder):
    """Returns a directory with the spelling that it has after -I."""
    name = name_of(folder)
    system = {"system": True} if isinstance(folder, dict) and folder.get("system") else {}
    return {"name": name, "shown": name, **system}


def with_shown_names(listed):
    """Returns a list in which each file is shown as the compiler names it, which is run in the root."""
    units = [{**unit, "shown": unit["file"], **({"search": list(map(shown, unit["search"]))} if "search" in unit else {})} for unit in listed["units"]]
    return {**listed, "units": units, "search": list(map(shown, listed.get("search", [])))}


def spread(listed, folder):
    """Writes the contents of a list's files below a directory."""
    for file in listed["files"]:
        path = os.path.join(folder, file["name"])
        os.makedirs(os.path.dirname(path), exist_ok=True)
        with open(path, "wb") as target:
            target.write(bytes.fromhex(file["hex"]) if "hex" in file else file["text"].encode("utf-8", "surrogatepass"))


def defined(text):
    """Returns the option for a definition, or none if the compiler has the name itself."""
    name, _, rest = text.partition(" ")
    return [] if name in OPERATORS else ["-D%s=%s" % (name, rest)]


def words_of(listed, unit):
    """Returns the options for a unit's definitions and directories."""
    defines = [word for text in unit.get("define", []) for word in defined(text)]
    folders = ["-I" + name_of(folder) for folder in unit.get("search", []) + listed.get("search", [])]
    return ["-undef", "-nostdinc", *defines, *folders, *(word for one in unit.get("first", []) for word in ("-include", name_of(one)))]


def with_macros(listed, command):
    """Returns a list whose units have the macros of a compiler before their own definitions."""
    printed = subprocess.run([*command, "-dM", "-E", "-x", "c", os.devnull], stdout=subprocess.PIPE, check=True).stdout
    # each list has this one, and it can't be defined
    macros = [text for name, text in macros_of(printed.decode()).items() if name != "__STDC_HOSTED__"]
    units = [{**unit, "define": macros + unit.get("define", [])} for unit in listed["units"]]
    return {**listed, "units": units, "profile": "gnu"}


def epoch(listed):
    """Returns the seconds that the list's date and time are, in UTC."""
    return str(calendar.timegm(time.strptime(listed["date"] + " " + listed["time"], "%b %d %Y %H:%M:%S")))


class Comparison:
    """Compiles the units of one list."""

    def __init__(self, asked, listed, root, folder):
        self.asked, self.listed, self.root, self.folder = asked, listed, root, folder
        self.words = [asked.compiler, "-std=" + STANDARDS[listed.get("profile", "c11")], *shlex.split(asked.options)]
        self.environment = dict(os.environ, SOURCE_DATE_EPOCH=epoch(listed), LC_ALL="C", TZ="UTC")
        # how many units, and how many bytes of text
        self.counts = collections.Counter()

    def run(self):
        """Makes the texts, and compares the objects of all units."""
        inside = any("text" in file or "hex" in file for file in self.listed["files"])
        with tempfile.TemporaryFile() as given, tempfile.TemporaryFile() as printed:
            given.write(compact(self.listed))
            given.seek(0)
            done = subprocess.run([self.asked.program, *([] if inside else ["--root", self.root]), "text"], stdin=given, stdout=printed, check=False)
            if done.returncode not in (0, 1):
                raise Refused("%s: status %d" % (self.asked.program, done.returncode))
            printed.seek(0)
            with ThreadPoolExecutor(self.asked.jobs) as pool:
                waiting = [pool.submit(self.compare, unit.number) for unit in units_of("the output", printed) if self.is_whole(unit)]
                for one in waiting:
                    one.result()

    def is_whole(self, unit):
        """Writes a unit's text, and returns whether it has no fault."""
        self.counts["units"] += 1
        if unit.fault is not None:
            self.say(unit.number, "fault " + unit.fault)
            return False
        lines = text_of(unit)
        self.counts["bytes"] += sum(map(len, lines))
        with open(self.path(unit.number, "i"), "wb") as file:
            file.writelines(lines)
        self.counts["ok"] += 1
        return True

    def path(self, number, suffix):
        return os.path.join(self.folder, "%d.%s" % (number, suffix))

    def compare(self, number):
        unit = self.listed["units"][number]
        more = ["-fno-trigraphs"] if "clang" in os.path.basename(self.asked.compiler) else []
        ways = {DIRECT: [*words_of(self.listed, unit), "-c", unit["file"]], TEXT: [*more, "-x", "cpp-output", "-c", self.path(number, "i")]}
        for way, words in ways.items():
            done = subprocess.run([*self.words, *words, "-o", self.path(number, way)], cwd=self.root, env=self.environment,
                                  stdout=subprocess.DEVNULL, stderr=subprocess.PIPE, check=False)
            if done.returncode:
                lines = done.stderr.decode("utf-8", "replace").splitlines()
                self.say(number, "%s: %s" % (way, next((line for line in lines if "error" in line), "status %d" % done.returncode)))
                return
            self.counts[way] += 1
        if filecmp.cmp(self.path(number, DIRECT), self.path(number, TEXT), shallow=False):
            self.counts["same"] += 1
        else:
            self.say(number, "the objects differ")
        for suffix in DIRECT, TEXT, "i":
            os.unlink(self.path(number, suffix))

    def say(self, number, text):
        print("%d %s: %s" % (number, self.listed["units"][number]["file"], text), file=sys.stderr, flush=True)

    def cells(self, name):
        """Returns the row of the list."""
        counts = [self.counts[key] for key in ("units", "ok", DIRECT, TEXT, "same")]
        return [name, *map(str, counts), "%.1f" % (self.counts["bytes"] / 1e6)]


def row_of(asked, path):
    """Returns a list's row, and whether all objects are equal."""
    listed = with_shown_names(read_list(path))
    if asked.macros:
        listed = with_macros(listed, [asked.compiler, "-std=" + STANDARDS["gnu"], *shlex.split(asked.options)])
    with tempfile.TemporaryDirectory(prefix="cppunits.") as folder:
        root = asked.root
        if root is None:
            root = os.path.join(folder, "root")
            spread(listed, root)
        found = Comparison(asked, listed, os.path.abspath(root), folder)
        found.run()
        return found.cells(os.path.basename(path)), found.counts["same"] == found.counts[DIRECT]


def main():
    asked = argparse.ArgumentParser(description=__doc__, formatter_class=argparse.RawDescriptionHelpFormatter)
    asked.add_argument("lists", metavar="LIST", nargs="+")
    asked.add_argument("--program", default="cppunits", help="run this program (default: cppunits on PATH)")
    asked.add_argument("--compiler", default="gcc", help="compile with this (default: gcc)")
    asked.add_argument("--options", default="-O2 -w", help="compile with these options (default: -O2 -w)")
    asked.add_argument("--jobs", type=int, default=os.cpu_count(), help="compile N units at a time (default: the number of processors)")
    asked.add_argument("--root", help="the lists' files are below this directory; without it the lists have the contents")
    asked.add_argument("--macros", action="store_true", help="add the compiler's macros to the definitions of each unit")
    asked = asked.parse_args()
    all_same = True
    print("| %s |\n|%s|" % (" | ".join(HEAD), "---|" + "---:|" * (len(HEAD) - 2) + "---:"), flush=True)
    for path in asked.lists:
        try:
            cells, same = row_of(asked, path)
        except (Refused, OSError, KeyError, ValueError, TypeError, subprocess.CalledProcessError) as error:
            print("texts.py: %s: %s" % (path, error), file=sys.stderr)
            sys.exit(3)
        all_same &= same
        print("| %s |" % " | ".join(cells), flush=True)
    sys.exit(0 if all_same else 1)


if __name__ == "__main__":
    main()
