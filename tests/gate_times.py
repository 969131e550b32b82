#!/usr/bin/env python3
"""Measures where the time of the full check goes: the proof of each crate, the proof of its tests, and its mutants.

    tests/gate_times.py [--watch FOLDER] [--dearest N] [--] [COMMAND ..]

Runs COMMAND, by default `sh tests/all.sh` at the top of this repository.  Once a second it looks at the checks that run on this machine, each a
process of `rattle`; so nothing else may run checks meanwhile.  --watch FOLDER runs no command: it waits for a check that already runs in this
directory, and measures from its own start.  `rt ci` doesn't repeat what it has kept, so that isn't measured: `rt ci --anew` runs everything.

For each crate it prints when its proof and the proof of its tests ended, in minutes from the start; the processor seconds of the proof, of the
tests, of the check that the mutants begin with, and of all mutants; the number of mutants; and the most memory of one check, in GB.  Of all
crates it prints the N most expensive mutants (10 by default), since a mutant that the prover takes long to refuse can mostly be written in a form
that takes less time.

To compare runs on several machines, it prints which share of their time the processors were busy, and which share the host of a virtual
machine gave to others.  It also measures the processor seconds of a loop of 10,000,000 additions: before the full check on all processors at
once (the least of twenty times), and while it runs a twentieth of the loop twice a minute (the median and the most).  If the loop takes longer
meanwhile, other programs use the processors as well.  The last line has the time that the full check would have taken at the speed
before.

status: that of the command
"""
import argparse
import glob
import multiprocessing
import os
import re
import statistics
import subprocess
import sys
import time
from dataclasses import dataclass

TOP = os.path.dirname(os.path.dirname(os.path.abspath(__file__)))
TICK = os.sysconf("SC_CLK_TCK")
PAGE = os.sysconf("SC_PAGE_SIZE")
KINDS = ("proof", "tests", "seed", "mutant")
# The loop that measures how fast a processor is, and the fraction of it that runs each time.
ADDITIONS = 10_000_000
PART = 20


@dataclass
class Check:
    """Is a check that was seen: its crate and kind, the number of its mutant, and its time and memory."""
    crate: str
    kind: str
    number: int
    seconds: float
    memory: int
    seen: float


def read(process, name):
    with open("/proc/%s/%s" % (process, name), "rb") as file:
        return file.read()


def kind_of(words, process, turns):
    """Returns the kind of a check from its command line, and a mutant's number; None for a process that checks no crate.

    If a crate's mutants share one directory, they are checked in turn, and the first check is the one that they all begin with.  `turns` has the
    processes of each directory in the order in which they were seen.
    """
    if words[1] == "build":
        return ("tests" if "--test" in words else "proof"), 0
    if words[1] != "check":
        return None
    if "--incremental" not in words:
        # the only mutant of a crate, or one that is checked again, from the beginning
        return "mutant", 0
    over = words[words.index("--incremental") + 1]
    found = re.search(r"/rt-edits-[^/]*(?:/(seed|\d+))?$", over)
    if not found:
        return None
    if found[1]:
        return ("seed", 0) if found[1] == "seed" else ("mutant", int(found[1]))
    turn = turns.setdefault(over, [])
    if process not in turn:
        turn.append(process)
    return ("mutant" if turn.index(process) else "seed"), turn.index(process)


def look(process, turns):
    """Returns the check that a process is, or None."""
    words = read(process, "cmdline").decode(errors="replace").split("\0")
    if os.path.basename(words[0]) != "rattle" or "--crate-name" not in words:
        return None
    kind = kind_of(words, process, turns)
    if not kind:
        return None
    fields = read(process, "stat").decode(errors="replace").rsplit(")", 1)[1].split()
    memory = int(read(process, "statm").split()[1]) * PAGE
    return Check(words[words.index("--crate-name") + 1], *kind, (int(fields[11]) + int(fields[12])) / TICK, memory, time.time())


def processor_times():
    """Returns the ticks that all processors were busy, idle, and given to others, since the machine started."""
    with open("/proc/stat") as file:
        user, nice, system, idle, waits, interrupts, more, stolen = (int(word) for word in file.readline().split()[1:9])
    return user + nice + system + interrupts + more, idle + waits, stolen


def additions(count):
    """Returns the processor seconds of a loop of this number of additions."""
    start, total = time.process_time(), 0
    for number in range(count):
        total += number
    return time.process_time() - start


def loop_seconds():
    """Returns the processor seconds of the whole loop, estimated from a part of it."""
    return additions(ADDITIONS // PART) * PART


def loop_seconds_on_all():
    """Returns the mean over all processors at once, the least of twenty tries: nearly the loop's time on an idle machine."""
    with multiprocessing.Pool(os.cpu_count()) as pool:
        return min(statistics.mean(pool.starmap(loop_seconds, [()] * os.cpu_count(), 1)) for _ in range(20))


def watch(goes_on, loops):
    """Returns the checks that are seen while the full check runs, and appends the loop's times meanwhile to `loops`."""
    seen, turns, due = {}, {}, time.time() + 30
    while goes_on():
        if time.time() > due:
            loops.append(loop_seconds())
            due += 30
        for process in filter(str.isdigit, os.listdir("/proc")):
            try:
                check = look(process, turns)
            except (OSError, IndexError, ValueError):
                # the process has ended
                continue
            if check:
                before = seen.get((process, check.crate, check.kind, check.number))
                check.memory = max(check.memory, before.memory if before else 0)
                seen[process, check.crate, check.kind, check.number] = check
        time.sleep(1)
    return list(seen.values())


def mutants_of(top, crate):
    """Returns the crate's mutants in the order of their numbers."""
    found = glob.glob(os.path.join(top, "crates", crate, "must-fail", "*.edit"))
    return [os.path.basename(path)[:-len(".edit")] for path in sorted(found)]


def report(top, checks, start, dearest):
    print("crate      proved at  tests at   proof s  tests s   seed s mutants s mutants  most GB")
    for crate in sorted({check.crate for check in checks}, key=lambda name: min(it.seen for it in checks if it.crate == name)):
        own = [check for check in checks if check.crate == crate]
        spent = {kind: sum(it.seconds for it in own if it.kind == kind) for kind in KINDS}
        ends = {kind: max((it.seen - start for it in own if it.kind == kind), default=0) / 60 for kind in KINDS}
        count = len({it.number for it in own if it.kind == "mutant"})
        most = max(it.memory for it in own) / 1e9
        print("%-10s %9.1f %9.1f %9.0f %8.0f %8.0f %9.0f %7d %8.1f" % (
            crate, ends["proof"], ends["tests"], spent["proof"], spent["tests"], spent["seed"], spent["mutant"], count, most))
    whole = sum(check.seconds for check in checks)
    print("%.1f minutes by the clock, %.1f of the processors" % ((time.time() - start) / 60, whole / 60))
    mutants = sorted((it for it in checks if it.kind == "mutant"), key=lambda it: -it.seconds)
    for check in mutants[:dearest]:
        names = mutants_of(top, check.crate)
        print("%6.0f s  %s/%s" % (check.seconds, check.crate, names[check.number] if check.number < len(names) else check.number))


def report_machine(start, before, first, loops):
    """Prints how busy and how fast the processors were since the start, and the time of the full check at the speed before."""
    busy, idle, stolen = (now - then for now, then in zip(processor_times(), before))
    whole = max(busy + idle + stolen, 1)
    print("%d processors, busy for %.0f %% of their time, given to others for %.0f %%" % (os.cpu_count(), 100 * busy / whole, 100 * stolen / whole))
    print("a loop of %s additions: %.2f s before; meanwhile %.2f s (the median), and %.2f s at most" % (
        format(ADDITIONS, ","), first, statistics.median(loops or [first]), max(loops or [first])))
    speed = statistics.mean(first / loop for loop in loops or [first])
    print("%.0f %% of the speed before; at that, %.1f minutes by the clock" % (100 * speed, speed * (time.time() - start) / 60))


def runs_in(top):
    """Returns whether an `rt` runs in this directory."""
    for process in filter(str.isdigit, os.listdir("/proc")):
        try:
            words = read(process, "cmdline").decode(errors="replace").split("\0")
            if any(os.path.basename(word) == "rt" for word in words[:2]) and os.path.samefile("/proc/%s/cwd" % process, top):
                return True
        except OSError:
            continue
    return False


def main():
    parser = argparse.ArgumentParser(description=__doc__, formatter_class=argparse.RawDescriptionHelpFormatter)
    parser.add_argument("--watch", metavar="FOLDER")
    parser.add_argument("--dearest", metavar="N", type=int, default=10)
    parser.add_argument("command", nargs="*", metavar="COMMAND")
    options = parser.parse_args()
    first, before, loops = loop_seconds_on_all(), processor_times(), []
    start, top, status = time.time(), options.watch or TOP, 0
    if options.watch:
        checks = watch(lambda: runs_in(top), loops)
    else:
        check = subprocess.Popen(options.command or ["sh", "tests/all.sh"], cwd=TOP)
        checks = watch(lambda: check.poll() is None, loops)
        status = check.returncode
    if checks:
        report(top, checks, start, options.dearest)
        report_machine(start, before, first, loops)
    return status


if __name__ == "__main__":
    sys.exit(main())
