#!/usr/bin/env python3
"""Time `cppunits dump` and `gcc -E -P -x c -` on generated texts.

    bench/measure.py [--program PROGRAM] [--megabytes 1,4,16] [--only NAME] [--runs N] [--limits]

PROGRAM is crates/cppunits/out/cppunits by default, which `rt ci` and `rt run` build.  A small generator makes the texts
from a fixed seed, so they are the same on every machine.  Both programs read a text on standard input (cppunits as the
content of a list's only file), and their output is discarded.  Each is run N times, 3 by default, and the fastest run
counts.  The table has megabytes of source text a second, the ratio of the two (above 1: cppunits is faster), and the
peak memory of cppunits, in total and for each byte of the text.

Use --limits to read texts that show that no loop is worse than linear: 100,000 nested `#if`, 2,000,000 short lines, a
line of 1,000,000 unmatched quotes, and twice as much of each.  Another text has all depths at once: 200 includes, 256
nested invocations, parentheses and signs, and 100,000 nested `#if`.  Each runs in a stack of one megabyte.
"""
import argparse
import json
import multiprocessing
import os
import subprocess
import sys
import tempfile
import time

HERE = os.path.dirname(os.path.abspath(__file__))
PROGRAM = os.path.join(HERE, "..", "crates", "cppunits", "out", "cppunits")
MEGABYTE = 1_000_000


class Dice:
    """Generates numbers that are the same on every machine."""

    def __init__(self, seed):
        self.state = seed

    def below(self, count):
        self.state = (self.state * 6364136223846793005 + 1442695040888963407) % 2**64
        return (self.state >> 33) % count

    def one_of(self, choices):
        return choices[self.below(len(choices))]


WORDS = ("count size_t index buffer length if else while return struct node next value static const int unsigned char"
         " printf result flags offset table entry key left right parent NULL errno memcpy sizeof i j n p tmp").split()
# a slash, a question mark and a percent sign have spaces around them, so that no comment, trigraph or directive arises by chance
SIGNS = "+ - * == != <= >= && || << >> = += -= -> . , ; ( ) [ ] { } ! ~ & | ^ :".split() + [" / ", " ? ", " % "]


def expression(dice, words):
    parts = []
    for _ in range(words):
        pick = dice.below(10)
        if pick < 5:
            parts.append(dice.one_of(WORDS))
        elif pick < 7:
            parts.append(dice.one_of(("0", "1", "42", "0x7fff", "1024u", "3.14e-2", "0xffffffffull")))
        elif pick < 8:
            parts.append(dice.one_of(('"text %d\\n"', "'x'", "'\\0'", '"a longer piece of text, as messages are"')))
        parts.append(dice.one_of(SIGNS))
    return " ".join(parts) if dice.below(2) else "".join(parts)


def ordinary(dice):
    """Returns C text as people write it: indented lines, some comments, some empty lines."""
    pick = dice.below(20)
    if pick == 0:
        return "\n"
    if pick == 1:
        return "    /* what follows keeps the table in order */\n"
    if pick == 2:
        return "    %s; // %s\n" % (expression(dice, 4), dice.one_of(("as before", "see above", "never empty here")))
    return "%s%s\n" % ("    " * (1 + dice.below(3)), expression(dice, 3 + dice.below(6)))


def comments(dice):
    return "/*%s */ %s; // %s\n" % (" it is said at length what the next line does\n *" * (2 + dice.below(6)), expression(dice, 2),
                                    "and once more beyond it " * 2)


def splices(dice):
    return "%s \\\n  %s ??= ??( ??) ?\\\n?! %s ??/\n;\n" % (expression(dice, 2), expression(dice, 1), dice.one_of(WORDS))


def one_line(dice):
    return expression(dice, 8) + " "


def short_lines(dice):
    return dice.one_of(("a\n", "+\n", "1\n", ";\n", "\n", "b;\n"))


KINDS = {"ordinary": ordinary, "comments": comments, "splices": splices, "one line": one_line, "short lines": short_lines}


def made(kind, size):
    dice = Dice(20111208)
    pieces, length = [], 0
    while length < size:
        piece = KINDS[kind](dice)
        pieces.append(piece)
        length += len(piece)
    return "".join(pieces) + "\n"


def listed(text):
    return json.dumps({"date": "Feb  9 2024", "time": "08:05:03", "files": [{"name": "a.c", "text": text}],
                       "units": [{"file": "a.c"}]}).encode()


def timed(command, path):
    """Returns seconds, status, and the peak memory of the run in bytes."""
    with open(path, "rb") as source, open(os.devnull, "wb") as nowhere:
        start = time.perf_counter()
        child = subprocess.Popen(command, stdin=source, stdout=nowhere, stderr=subprocess.DEVNULL)
        _, status, usage = os.wait4(child.pid, 0)
        child.returncode = os.waitstatus_to_exitcode(status)
        return time.perf_counter() - start, child.returncode, usage.ru_maxrss * 1024


def best(command, path, runs):
    return min(timed(command, path) for _ in range(runs))


def write(kind, size, plain, as_list):
    text = made(kind, size)
    with open(plain, "wb") as file:
        file.write(text.encode())
    with open(as_list, "wb") as file:
        file.write(listed(text))


def apart(task, *words):
    """Runs the task in a process of its own, since a child's peak memory includes what its parent had when the child started."""
    process = multiprocessing.Process(target=task, args=words)
    process.start()
    process.join()


def compare(program, kind, megabytes, runs, folder):
    plain, as_list = os.path.join(folder, "text.c"), os.path.join(folder, "list.json")
    # the content of a file is at most 16,777,216 bytes
    apart(write, kind, min(megabytes * MEGABYTE, 16_700_000), plain, as_list)
    own, status, memory = best([program, "dump"], as_list, runs)
    other, _, _ = best(["gcc", "-E", "-P", "-trigraphs", "-w", "-x", "c", "-"], plain, runs)
    size = os.path.getsize(plain)
    print("%-12s %5.1f MB  cppunits %7.1f MB/s  gcc -E -P %7.1f MB/s  ratio %5.2f  peak %7.1f MB, %5.1f bytes a byte  status %d"
          % (kind, size / MEGABYTE, size / own / MEGABYTE, size / other / MEGABYTE, other / own, memory / MEGABYTE,
             memory / size, status), flush=True)


DEEPEST = "all depths at once"
LIMITS = {
    "100,000 nested #if": lambda: "#if 1\n" * 100_000 + "#endif\n" * 100_000,
    "200,000 nested #if": lambda: "#if 1\n" * 200_000 + "#endif\n" * 200_000,
    "2,000,000 short lines": lambda: "a\n" * 2_000_000,
    "4,000,000 short lines": lambda: "a\n" * 4_000_000,
    "1,000,000 lone quotes": lambda: "#if 0\n" + "\\'" * 1_000_000 + "\n#endif\n",
    "2,000,000 lone quotes": lambda: "#if 0\n" + "\\'" * 2_000_000 + "\n#endif\n",
}


def deepest():
    """Returns a list with 200 includes, and in the last file 256 nested invocations, parentheses and signs, and 100,000 nested `#if`."""
    files = [{"name": "f%d.h" % i, "text": "#define D%d %d\n#include \"f%d.h\"\n" % (i, i, i + 1)} for i in range(200)]
    text = ("#define f(a) a\n" + "f(" * 256 + "1" + ")" * 256 + "\n#if " + "(" * 256 + "1" + ")" * 256 + "\n2\n#endif\n#if " + "!" * 256
            + "1\n3\n#endif\n" + "#if 1\n" * 100_000 + "4\n" + "#endif\n" * 100_000)
    files.append({"name": "f200.h", "text": text})
    return json.dumps({"date": "Feb  9 2024", "time": "08:05:03", "files": files, "units": [{"file": "f0.h"}]}).encode()


def write_limit(name, path):
    with open(path, "wb") as file:
        file.write(deepest() if name == DEEPEST else listed(LIMITS[name]()))


def limits(program, folder):
    path = os.path.join(folder, "list.json")
    for name in [*LIMITS, DEEPEST]:
        apart(write_limit, name, path)
        # the smallest stack that a system gives a thread
        command = ["sh", "-c", 'ulimit -s 1024 && exec "$0" dump', program]
        seconds, status, memory = timed(command, path)
        print("%-22s %6.2f s  peak %7.1f MB  status %d" % (name, seconds, memory / MEGABYTE, status), flush=True)


def main():
    parser = argparse.ArgumentParser(description=__doc__, formatter_class=argparse.RawDescriptionHelpFormatter)
    parser.add_argument("--program", default=PROGRAM, metavar="FILE", help="measure this program")
    parser.add_argument("--megabytes", default="1,4,16", metavar="N,N", help="use these sizes (default: 1,4,16)")
    parser.add_argument("--only", metavar="NAME", help="use only this text")
    parser.add_argument("--runs", type=int, default=3, metavar="N", help="run each N times (default: 3)")
    parser.add_argument("--limits", action="store_true", help="read texts at the limits instead")
    asked = parser.parse_args()
    program = os.path.abspath(asked.program)
    with tempfile.TemporaryDirectory() as folder:
        if asked.limits:
            limits(program, folder)
            return
        for kind in KINDS:
            if asked.only in (None, kind):
                for megabytes in asked.megabytes.split(","):
                    compare(program, kind, int(megabytes), asked.runs, folder)


if __name__ == "__main__":
    sys.exit(main())
