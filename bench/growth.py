#!/usr/bin/env python3
"""Measure whether the cost of cppunits grows as its work does.

    bench/growth.py [PROGRAM] [--shapes NAME ..] [--quick] [--runs N]

PROGRAM is crates/cppunits/out/cppunits by default, which `rt ci` and `rt run` build.  Each shape of shapes.py is made at
three sizes, each twice the one before.  It is run by `cppunits --workers 1 dump` and, if it is a single text, by
`gcc -E -std=c11 -pedantic-errors -x c`.  Their output is discarded.  The table has processor seconds and peak memory for
both, each with the factor to the size before: for cppunits the least of N runs (2 by default), for gcc one run.  A run
is stopped after 30 seconds of processor time or 8 GB; gcc's is then `-`.

A shape fails if

- time or memory grows more than 2.3 times if the size doubles,
- memory exceeds 80 bytes a token (a line, if there are no tokens) in the shapes that count them,
- a chain of 60,000 object-like macros takes more than a second or 200 MB, or
- the exit status isn't the expected one.

A shape that fails is measured again, in up to 9 rounds of all its sizes.  The least time and memory of all rounds count,
because other work on the machine makes a run slower, and never faster.

Use --shapes to run the shapes whose names begin like this, and --quick for smaller sizes, mostly a quarter.

Less than 0.05 seconds and 32 MB count as these.  `*` marks a factor to a run below that minimum, which isn't fully
measured.  Some times and memories are below it at each size: the time of parameters and of the operands of `##`, which is
measured where they are many, and the memory of these, of the object-like chain, of the budget, of the chain in an
argument, of arguments through macros, of long names, empty lists and directories.  With --quick these are also the time
of the chain in an argument and of the floods, and the memory of all but the function-like chain, `#undef` and most of
the bytes.

status:
  0  no shape failed
  1  a shape failed, and is named
  2  the command line or the program is wrong
"""
import argparse
import os
import resource
import signal
import subprocess
import sys
import tempfile
from dataclasses import dataclass

from measure import MEGABYTE, PROGRAM, apart
from shapes import SHAPES

MAX_GROWTH = 2.3
LEAST_SECONDS, LEAST_MEMORY = 0.05, 32 * MEGABYTE
BYTES_A_THING = 80
MAX_SECONDS, MAX_MEMORY = 30, 8_000 * MEGABYTE
# a run of LONG_SECONDS is made once; a shape that fails is measured in at most MAX_ROUNDS rounds
LONG_SECONDS, MAX_ROUNDS = 4, 9
GCC = ["gcc", "-E", "-std=c11", "-pedantic-errors", "-x", "c", "-"]
HEADING = ("shape", "size", "seconds", "factor", "MB", "factor", "gcc: seconds", "factor", "MB", "factor")
NOTHING = ("-", "", "", "")
FORM = "%-29s %10s %8s %6s %8s %6s  %12s %6s %8s %6s"


@dataclass
class Cost:
    seconds: float
    memory: int
    statuses: set

    def least(self, other):
        """Returns the least time and memory of both programs, and how each of them ended."""
        return Cost(min(self.seconds, other.seconds), min(self.memory, other.memory), self.statuses | other.statuses)

    @property
    def signal(self):
        """Returns the name of the signal that stopped a run, or None."""
        return next((signal.Signals(-status).name for status in self.statuses if status < 0), None)


@dataclass
class Factor:
    times: float
    measured: bool  # the run before lies above the floor

    def __str__(self):
        return "%.2f%s" % (self.times, "" if self.measured else "*")


def bounded():
    resource.setrlimit(resource.RLIMIT_CPU, (MAX_SECONDS, MAX_SECONDS + 1))
    resource.setrlimit(resource.RLIMIT_AS, (MAX_MEMORY, MAX_MEMORY))


def run(command, path):
    with open(path, "rb") as source:
        child = subprocess.Popen(command, stdin=source, stdout=subprocess.DEVNULL, stderr=subprocess.DEVNULL, preexec_fn=bounded)
        _, status, usage = os.wait4(child.pid, 0)
        child.returncode = os.waitstatus_to_exitcode(status)
    return Cost(usage.ru_utime + usage.ru_stime, usage.ru_maxrss * 1024, {child.returncode})


def best(command, path, runs):
    cost = run(command, path)
    for _ in range(runs - 1):
        if cost.seconds < LONG_SECONDS:
            cost = cost.least(run(command, path))
    return cost


def grown(before, after, floor):
    return Factor(max(after, floor) / max(before, floor), before >= floor)


def factors(costs):
    """Returns the factors by which time and memory grow from each size to the next."""
    pairs = zip(costs, costs[1:])
    return [(grown(a.seconds, b.seconds, LEAST_SECONDS), grown(a.memory, b.memory, LEAST_MEMORY)) for a, b in pairs]


def write_texts(shape, sizes, folder):
    for size in sizes:
        with open(os.path.join(folder, "%d.json" % size), "wb") as file:
            file.write(shape.list_of(size))
        if shape.text:
            with open(os.path.join(folder, "%d.c" % size), "w") as file:
                file.write(shape.text(size))


def one_round(command, paths, runs):
    """Measures the sizes, up to one that is stopped."""
    costs = []
    for path in paths:
        costs.append(best(command, path, runs))
        if costs[-1].signal:
            break
    return costs


def measured(command, paths, runs, falls_short):
    """Returns the least costs of the sizes over all rounds, up to a size that is stopped; the rounds end when no check fails."""
    costs = one_round(command, paths, runs)
    for _ in range(MAX_ROUNDS - 1):
        if costs[-1].signal or not falls_short(costs):
            break
        costs = [cost.least(other) for cost, other in zip(costs, one_round(command, paths, runs))]
    return costs


def cells(costs):
    """Returns the seconds, factor, memory and factor of each size, as printed."""
    shown = [("", "")] + factors(costs)
    return [("%.3f" % cost.seconds, time, "%.1f" % (cost.memory / MEGABYTE), memory) for cost, (time, memory) in zip(costs, shown)]


def shortfalls(shape, sizes, costs):
    for size, cost in zip(sizes, costs):
        if cost.signal:
            yield "stopped at %d, by %s" % (size, cost.signal)
        elif cost.statuses != {shape.status}:
            yield "status %s in place of %d at %d" % (" and ".join(map(str, sorted(cost.statuses))), shape.status, size)
    for size, (time, memory) in zip(sizes[1:], factors(costs)):
        if time.times > MAX_GROWTH:
            yield "%.2f times the time at %d, twice the size before" % (time.times, size)
        if memory.times > MAX_GROWTH:
            yield "%.2f times the memory at %d, twice the size before" % (memory.times, size)
    if shape.things and len(costs) == len(sizes):
        each = costs[-1].memory / shape.things(sizes[-1])
        if each > BYTES_A_THING:
            yield "%.0f bytes of memory a token or line at %d" % (each, sizes[-1])
    if shape.goal and sizes[-1] == shape.sizes[-1] and len(costs) == len(sizes):
        seconds, megabytes = shape.goal
        if costs[-1].seconds > seconds or costs[-1].memory > megabytes * MEGABYTE:
            yield "%d takes more than %d seconds or %d MB" % (sizes[-1], seconds, megabytes)


def compared(program, shape, sizes, runs):
    """Prints a shape's rows, and returns the checks that fail."""
    with tempfile.TemporaryDirectory() as folder:
        apart(write_texts, shape, sizes, folder)
        paths = [os.path.join(folder, "%d" % size) for size in sizes]
        lists = [path + ".json" for path in paths]
        own = measured([program, "--workers", "1", "dump"], lists, runs, lambda costs: list(shortfalls(shape, sizes, costs)))
        other = [NOTHING] * len(sizes)
        if shape.text:
            found = [run(GCC, path + ".c") for path in paths]
            other = [cell if cost.statuses <= {0, 1} else NOTHING for cost, cell in zip(found, cells(found))]
    for size, cell, gcc in zip(sizes, cells(own), other):
        print(FORM % (shape.name, "{:,}".format(size), *cell, *gcc), flush=True)
    return ["%s: %s" % (shape.name, problem) for problem in shortfalls(shape, sizes, own)]


def main():
    parser = argparse.ArgumentParser(description=__doc__, formatter_class=argparse.RawDescriptionHelpFormatter)
    parser.add_argument("program", nargs="?", default=PROGRAM, help="measure this program")
    parser.add_argument("--shapes", nargs="+", default=[""], metavar="NAME", help="run only shapes whose names begin like this")
    parser.add_argument("--quick", action="store_true", help="use smaller sizes")
    parser.add_argument("--runs", type=int, default=2, metavar="N", help="run each size N times (default: 2)")
    asked = parser.parse_args()
    program = os.path.abspath(asked.program)
    chosen = [shape for shape in SHAPES if shape.name.startswith(tuple(asked.shapes))]
    if not os.access(program, os.X_OK) or not chosen or asked.runs < 1:
        parser.error("%s isn't there, no shape begins so, or no run is asked for" % program)
    print(FORM % HEADING)
    short = [compared(program, shape, [size // (shape.quick if asked.quick else 1) for size in shape.sizes], asked.runs)
             for shape in chosen]
    for problems in short:
        for problem in problems:
            print("falls short: " + problem)
    failed = sum(map(bool, short))
    print("%d passed, %d failed" % (len(chosen) - failed, failed))
    return 1 if failed else 0


if __name__ == "__main__":
    sys.exit(main())
