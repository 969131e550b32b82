#!/usr/bin/env python3
"""Time cppunits, gcc, clang and clang-scan-deps on lists of real projects, and print a table.

    bench/table.py [--program PROGRAM] [--runs 3] [--svg FILE] NAME=LIST[@ROOT] ..

LIST is a list for cppunits.  With @ROOT it has names only, and ROOT is the directory of the files
(scripts/list_from_build.py makes such lists).  cppunits runs `dump` and `deps` with 1 and 4 workers.  gcc and clang run once
for each unit, with the unit's definitions and directories, and neither macros nor directories of their own: `-E -P` is
compared with `dump` and `-M` with `deps`, one process after another and four at once.  clang-scan-deps reads the same
commands.  All output is discarded.  A program that isn't installed is left out, with a message.

Each is run N times, and the fastest run counts.  The table has the units and, for each program, seconds, the ratio to
cppunits with one worker, and the peak memory of one of its processes.  The memory of this script is the least that can
be measured, and is printed above the table.  A unit at which gcc or clang fails is counted.  Use --svg for a picture of
the seconds.
"""
import argparse
import json
import multiprocessing
import os
import resource
import shlex
import shutil
import subprocess
import sys
import tempfile
import time
from concurrent.futures import ThreadPoolExecutor

from measure import MEGABYTE, PROGRAM, apart

# macros and operators that gcc and clang keep with -undef, and C11 doesn't have
KEPT = ("__has_include __has_include_next __has_attribute __has_cpp_attribute __has_c_attribute __has_builtin __COUNTER__"
        " __INCLUDE_LEVEL__ __TIMESTAMP__ __BASE_FILE__ _Pragma").split()
PLAIN = ["-std=c11", "-w", "-undef", "-nostdinc", *("-U" + name for name in KEPT)]
# in a list of the profile `gnu` the operators are gcc's own, and so they are left to each compiler
GNU = ["-std=gnu11", "-w", "-undef", "-nostdinc"]
TASKS = {"dump": ["-E", "-P"], "deps": ["-M"]}
OURS = "cppunits, %d worker%s"


class Cost:
    """Holds the cost of a program: seconds, the peak memory of one process in bytes, and how many processes failed."""

    def __init__(self, seconds, memory, bad):
        self.seconds, self.memory, self.bad = seconds, memory, bad


def run(command, folder, source=None):
    """Returns the status and the peak memory of one process."""
    with open(source or os.devnull, "rb") as stdin, open(os.devnull, "wb") as nowhere:
        child = subprocess.Popen(command, cwd=folder, stdin=stdin, stdout=nowhere, stderr=nowhere)
        _, status, usage = os.wait4(child.pid, 0)
        child.returncode = os.waitstatus_to_exitcode(status)
    return child.returncode, usage.ru_maxrss * 1024


def cost(commands, folder, at_once=1, source=None, good=(0,)):
    start = time.perf_counter()
    with ThreadPoolExecutor(at_once) as pool:
        ends = list(pool.map(lambda command: run(command, folder, source), commands))
    seconds = time.perf_counter() - start
    return Cost(seconds, max(memory for _, memory in ends), sum(status not in good for status, _ in ends))


def best(runs, *words, **more):
    return min((cost(*words, **more) for _ in range(runs)), key=lambda one: one.seconds)


# ---- a list as commands


def flag_of(definition):
    """Returns a definition in the form of -D: the first blank outside the parameters becomes `=`."""
    depth = 0
    for at, character in enumerate(definition):
        depth += {"(": 1, ")": -1}.get(character, 0)
        if character in " \t" and depth == 0:
            return "-D%s=%s" % (definition[:at], definition[at + 1:])
    return "-D%s=" % definition


def flags_of(unit, whole):
    folders = [*unit.get("search", ()), *whole.get("search", ())]
    plain, given = PLAIN, unit.get("define", ())
    if whole.get("profile") == "gnu":
        plain, given = GNU, [one for one in given if not one.startswith("__has_")]
    return [*plain, *map(flag_of, given), *("-I" + folder for folder in folders)]


def prepare(path, root, folder):
    """Writes the files of a list that has their contents, the flags of its units, and the commands for clang-scan-deps."""
    with open(path, "rb") as file:
        whole = json.load(file)
    for row in whole["files"] if root is None else ():
        place = os.path.join(folder, "root", row["name"])
        os.makedirs(os.path.dirname(place), exist_ok=True)
        with open(place, "wb") as file:
            file.write(row["text"].encode() if "text" in row else bytes.fromhex(row["hex"]))
    root = os.path.abspath(root or os.path.join(folder, "root"))
    os.makedirs(root, exist_ok=True)
    lines = [[*flags_of(unit, whole), unit["file"]] for unit in whole["units"]]
    with open(os.path.join(folder, "flags"), "w") as file:
        file.writelines(shlex.join(line) + "\n" for line in lines)
    with open(os.path.join(folder, "compile_commands.json"), "w") as file:
        json.dump([{"directory": root, "file": line[-1], "arguments": ["clang", "-c", *line, "-o", "%d.o" % number]}
                   for number, line in enumerate(lines)], file)


class Project:
    """Holds a list with its name, its root and the flags of its units."""

    def __init__(self, word, folder):
        self.name, _, rest = word.partition("=")
        self.list, _, root = rest.partition("@")
        self.folder = tempfile.mkdtemp(dir=folder)
        apart(prepare, self.list, root or None, self.folder)
        if not os.path.exists(os.path.join(self.folder, "compile_commands.json")):
            sys.exit("table.py: %s can't be read as NAME=LIST[@ROOT]" % word)
        self.ours = ["--root", os.path.abspath(root)] if root else []
        self.root = os.path.abspath(root or os.path.join(self.folder, "root"))
        with open(os.path.join(self.folder, "flags")) as file:
            self.flags = [shlex.split(line) for line in file]


# ---- measuring


def scanner():
    """Returns the path of clang-scan-deps, also if Debian adds a version to its name."""
    numbers = [""] + ["-%d" % number for number in range(30, 10, -1)]
    return next((name for number in numbers if (name := shutil.which("clang-scan-deps" + number))), None)


def rows(project, task, asked):
    """Yields each program's name with its cost."""
    for workers in (1, 4):
        command = [asked.program, "--workers", str(workers), *project.ours, task]
        yield OURS % (workers, "" if workers == 1 else "s"), best(
            asked.runs, [command], project.folder, source=os.path.abspath(project.list), good=(0, 1))
    for compiler in ("gcc", "clang"):
        if shutil.which(compiler):
            commands = [[compiler, *TASKS[task], *flags] for flags in project.flags]
            for at_once in (1, 4):
                name = "%s %s%s" % (compiler, " ".join(TASKS[task]), "" if at_once == 1 else ", 4 at once")
                yield name, best(asked.runs, commands, project.root, at_once)
    if task == "deps" and scanner():
        for threads in (1, 4):
            commands = os.path.join(project.folder, "compile_commands.json")
            command = [scanner(), "-j", str(threads), "-compilation-database", commands]
            name = "clang-scan-deps, %d thread%s" % (threads, "" if threads == 1 else "s")
            yield name, best(asked.runs, [command], project.root)


def versions():
    yield "%d processors, memory from %.1f MB on" % (
        multiprocessing.cpu_count(), resource.getrusage(resource.RUSAGE_SELF).ru_maxrss * 1024 / MEGABYTE)
    for name, path in (("gcc", shutil.which("gcc")), ("clang", shutil.which("clang")), ("clang-scan-deps", scanner())):
        if path is None:
            yield "%s isn't installed" % name
        elif name != "clang-scan-deps":
            said = subprocess.run([path, "--version"], stdout=subprocess.PIPE, text=True).stdout
            yield said.split("\n")[0]


def print_rows(project, task, measured):
    first = measured[0][1].seconds
    for name, one in measured:
        bad = ", %d with an error" % one.bad if one.bad else ""
        figures = "%.2f | %.2f | %.1f" % (one.seconds, one.seconds / first, one.memory / MEGABYTE)
        print("| %s (%d units) | %s | %s%s | %s |" % (project.name, len(project.flags), task, name, bad, figures), flush=True)


# ---- the picture

WIDTH, LEFT, BAR = 900, 330, 18
COLORS = {"cppunits": "#2a6f97", "gcc": "#b08968", "clang": "#8a9a5b"}


def escaped(text):
    return text.replace("&", "&amp;").replace("<", "&lt;").replace(">", "&gt;")


def bars(top, title, measured):
    """Returns a group of bars, the longest of the full width, and where the next group begins."""
    longest = max(one.seconds for _, one in measured)
    lines = ['<text x="8" y="%d" font-weight="bold">%s</text>' % (top + BAR, escaped(title))]
    for number, (name, one) in enumerate(measured, 1):
        y = top + (BAR + 4) * number + 4
        width = max(1, round((WIDTH - LEFT - 90) * one.seconds / longest))
        color = COLORS["cppunits" if name.startswith("cppunits") else "gcc" if name.startswith("gcc") else "clang"]
        lines.append('<text x="%d" y="%d" text-anchor="end">%s</text>' % (LEFT - 8, y + BAR - 5, escaped(name)))
        lines.append('<rect x="%d" y="%d" width="%d" height="%d" fill="%s"/>' % (LEFT, y, width, BAR, color))
        lines.append('<text x="%d" y="%d">%.2f s</text>' % (LEFT + width + 6, y + BAR - 5, one.seconds))
    return lines, top + (BAR + 4) * (len(measured) + 1) + 16


def picture(groups):
    lines, top = [], 8
    for title, measured in groups:
        more, top = bars(top, title, measured)
        lines += more
    size = 'width="%d" height="%d" viewBox="0 0 %d %d"' % (WIDTH, top, WIDTH, top)
    head = '<svg xmlns="http://www.w3.org/2000/svg" %s font-family="sans-serif" font-size="13">' % size
    return "\n".join([head, '<rect width="100%" height="100%" fill="#ffffff"/>', *lines, "</svg>", ""])


def write(path, text):
    """Writes a file that gets its name only when all is written."""
    with open(path + ".part", "w") as file:
        file.write(text)
    os.replace(path + ".part", path)


def main():
    parser = argparse.ArgumentParser(description=__doc__, formatter_class=argparse.RawDescriptionHelpFormatter)
    parser.add_argument("projects", metavar="NAME=LIST[@ROOT]", nargs="+", help="time this list, with this name in the table")
    parser.add_argument("--program", default=os.environ.get("CPPUNITS", PROGRAM), metavar="FILE", help="time this program")
    parser.add_argument("--runs", type=int, default=3, metavar="N", help="run each N times (default: 3)")
    parser.add_argument("--svg", metavar="FILE", help="write a picture here")
    asked = parser.parse_args()
    asked.program = os.path.abspath(asked.program)
    print("; ".join(versions()) + "\n")
    print("| Project | | Program | Seconds | Ratio | Peak MB |\n|---|---|---|---|---|---|", flush=True)
    groups = []
    with tempfile.TemporaryDirectory() as folder:
        for word in asked.projects:
            project = Project(word, folder)
            for task in TASKS:
                measured = list(rows(project, task, asked))
                print_rows(project, task, measured)
                groups.append(("%s, %s" % (project.name, task), measured))
    if asked.svg:
        write(asked.svg, picture(groups))


if __name__ == "__main__":
    sys.exit(main())
