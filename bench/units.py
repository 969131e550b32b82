#!/usr/bin/env python3
"""Time cppunits on a list of many units over shared headers, and `gcc -E -P` once for each unit.

    bench/units.py [--program PROGRAM] [--units 300] [--headers 40] [--runs N] [--workers 1,2,4]

The headers are guarded, include one another and define object-like and function-like macros that call one another.  Each
unit includes some of them and invokes their macros, nested.  All texts come from a fixed seed, so they are the same on every
machine.  cppunits runs `dump` and `deps`, with each number of workers, over a list that has all files and over a list of
their names with --root.  gcc reads the same files from a directory, with the same search directory, and without predefined
macros and system directories.  All output is discarded.  The table has the seconds, tokens a second (as `dump` counts
them), the ratio to gcc's time (above 1: cppunits is faster), the speed compared with the first number of workers, and the
peak memory compared with one gcc and with one for each unit.

The gain of several workers is limited by the machine, whose processors may share cores, caches and memory.  So last,
as many runs with one worker as there are workers are started at once, which share nothing.  The work that they do in that
time is printed next to that of one run alone.
"""
import argparse
import json
import os
import subprocess
import sys
import tempfile
import time

from measure import MEGABYTE, PROGRAM, Dice, apart, timed

DATE = {"date": "Feb  9 2024", "time": "08:05:03", "search": ["inc"]}
OBJECT_LIKE, FUNCTION_LIKE = 60, 25


def object_like(dice, number, i):
    more = "H%d_O%d" % (number, i - 1) if i and dice.below(3) == 0 else "x%d" % i
    return "#define H%d_O%d (%d + %s)" % (number, i, i, more)


def function_like(dice, number, i):
    """Returns macros: each fourth has two parameters, and some have `#` or `##`; the others call the one before them."""
    if i % 4 == 0:
        body = dice.one_of(("((a) * b)", "a ## _%d + b" % i, "f(#a, b)", "(a ? b : 0)"))
        return "#define H%d_F%d(a, b) %s" % (number, i, body)
    inner = "b" if i % 4 == 1 else "H%d_F%d(b)" % (number, i - 1)
    return "#define H%d_F%d(b) (H%d_O%d + %s)" % (number, i, number, i, inner)


def header(dice, number):
    lines = ["#ifndef H%d" % number, "#define H%d" % number]
    for below in sorted({dice.below(number) for _ in range(2)} if number else ()):
        lines.append("#include <h%d.h>" % below)
    lines += [object_like(dice, number, i) for i in range(OBJECT_LIKE)]
    for i in range(FUNCTION_LIKE):
        lines.append(function_like(dice, number, i))
        if i % 5 == 0:
            lines.append("extern int h%d_%d(int, const char *);" % (number, i))
    lines.append("#endif")
    return "\n".join(lines) + "\n"


def invocation(dice, number, depth):
    """Returns a name or an invocation of a macro of this header; its argument may be an invocation as well."""
    if depth == 0 or dice.below(3) == 0:
        return "H%d_O%d" % (number, dice.below(OBJECT_LIKE))
    i = dice.below(FUNCTION_LIKE)
    first = "n%d, " % i if i % 4 == 0 else ""
    return "H%d_F%d(%s%s)" % (number, i, first, invocation(dice, number, depth - 1))


def unit(dice, number, headers):
    used = sorted({dice.below(headers) for _ in range(8)})
    lines = ["#include \"../inc/h%d.h\"" % h if dice.below(2) else "#include <h%d.h>" % h for h in used]
    for i in range(60):
        if i % 12 == 0:
            lines.append("#if H%d_O%d > %d && defined H%d" % (used[0], dice.below(8), dice.below(9), used[-1]))
        lines.append("int v%d_%d = %s + %s; /* %d */" % (number, i, invocation(dice, dice.one_of(used), 3), invocation(dice, dice.one_of(used), 3), i))
        if i % 12 == 11:
            lines.append("#endif")
    return "\n".join(lines) + "\n"


def make(units, headers, folder):
    dice = Dice(2024)
    files = [("inc/h%d.h" % h, header(dice, h)) for h in range(headers)]
    files += [("src/u%d.c" % u, unit(dice, u, headers)) for u in range(units)]
    for name, text in files:
        path = os.path.join(folder, name)
        os.makedirs(os.path.dirname(path), exist_ok=True)
        with open(path, "w") as file:
            file.write(text)
    listed = dict(DATE, files=[{"name": name, "text": text} for name, text in files],
                  units=[{"file": "src/u%d.c" % u} for u in range(units)])
    with open(os.path.join(folder, "list.json"), "w") as file:
        json.dump(listed, file)
    listed["files"] = [{"name": name} for name, _ in files]
    with open(os.path.join(folder, "names.json"), "w") as file:
        json.dump(listed, file)


def all_of_gcc(units, folder):
    seconds, peak, worst = 0.0, 0, 0
    for u in range(units):
        path = os.path.join(folder, "src", "u%d.c" % u)
        command = ["gcc", "-E", "-P", "-undef", "-nostdinc", "-I", os.path.join(folder, "inc"), path]
        own, status, memory = timed(command, path)
        seconds, peak, worst = seconds + own, max(peak, memory), max(worst, status)
    return seconds, peak, worst


def rows(program, folder, workers, runs):
    """Yields name, seconds, speed, peak memory and status for each mode, inline and from the directory, with each number of workers."""
    for mode in ("dump", "deps"):
        for where, listed in ((), "list.json"), (("--root", folder), "names.json"):
            first = None
            for count in workers:
                command = [program, "--workers", str(count), *where, mode]
                own, status, memory = min(timed(command, os.path.join(folder, listed)) for _ in range(runs))
                first = first or own
                name = "%s%s, %d worker%s" % (mode, " --root" if where else "", count, "" if count == 1 else "s")
                yield name, own, first / own, memory, status


def at_once(program, folder, mode, count, runs):
    """Returns the seconds of this number of runs with one worker that start together, and share nothing."""
    command = [program, "--workers", "1", "--root", folder, mode]
    least = None
    for _ in range(runs):
        start = time.perf_counter()
        started = []
        for _ in range(count):
            with open(os.path.join(folder, "names.json"), "rb") as source:
                started.append(subprocess.Popen(command, stdin=source, stdout=subprocess.DEVNULL))
        for run in started:
            run.wait()
        own = time.perf_counter() - start
        least = own if least is None else min(least, own)
    return least


def main():
    parser = argparse.ArgumentParser(description=__doc__, formatter_class=argparse.RawDescriptionHelpFormatter)
    parser.add_argument("--program", default=PROGRAM, metavar="FILE", help="time this program")
    parser.add_argument("--units", type=int, default=300, metavar="N", help="make N units (default: 300)")
    parser.add_argument("--headers", type=int, default=40, metavar="N", help="make N headers (default: 40)")
    parser.add_argument("--runs", type=int, default=3, metavar="N", help="run each N times (default: 3)")
    parser.add_argument("--workers", default="1,2,4", metavar="N,N", help="use these numbers of workers (default: 1,2,4)")
    asked = parser.parse_args()
    program = os.path.abspath(asked.program)
    workers = [int(count) for count in asked.workers.split(",")]
    with tempfile.TemporaryDirectory() as folder:
        apart(make, asked.units, asked.headers, folder)
        with open(os.path.join(folder, "list.json"), "rb") as source:
            shown = subprocess.run([program, "dump"], stdin=source, stdout=subprocess.PIPE).stdout
        tokens = shown.count(b"\ntok ")
        print("%d units, %d headers, %d tokens" % (asked.units, asked.headers, tokens))
        other, peak, other_status = min(all_of_gcc(asked.units, folder) for _ in range(asked.runs))
        print("%-24s %7.2f s  %9.0f tokens/s  peak %7.1f MB each, %.1f MB for all at once  status %d"
              % ("gcc -E -P", other, tokens / other, peak / MEGABYTE, peak * asked.units / MEGABYTE, other_status))
        for name, own, faster, memory, status in rows(program, folder, workers, asked.runs):
            print("%-24s %7.2f s  %9.0f tokens/s  peak %7.1f MB  ratio %.2f  %.2f times as fast as with %d  status %d"
                  % (name, own, tokens / own, memory / MEGABYTE, other / own, faster, workers[0], status))
        for mode in ("dump", "deps"):
            alone = at_once(program, folder, mode, 1, asked.runs)
            for count in workers:
                if count > 1:
                    together = at_once(program, folder, mode, count, asked.runs)
                    print("%s --root, %d runs of one worker at once: %.2f times the work of one alone"
                          % (mode, count, count * alone / together))


if __name__ == "__main__":
    sys.exit(main())
