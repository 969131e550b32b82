#!/usr/bin/env python3
"""Runs the program with a small stack, and with limits of memory that it reaches while it runs.

    tests/hostile_stack.py [PROGRAM] [-k NAME]

A stack of 256 KB must be enough for all depths at once: 200 includes, and in the last file 256 levels of arguments, and 256 parentheses, signs
and conditional operators of a condition.  It must also be enough for 127 nested arrays.  If it isn't, the least sufficient stack is printed.
With each limit of memory and stacks together (`ulimit -v`) a run prints the right output, or exits with 4 and prints nothing, and never ends
by a signal.
"""
import json
import subprocess
import unittest

from counted import LIST, main, program

STACK = 256
STACKS = (128, 192, 256, 320, 384, 448, 512, 768, 1_024, 2_048)
OUT_OF_MEMORY = (4, b"", b"cppunits: out of memory\n")
# what the system's loader prints if there is no memory for the program itself
NOT_STARTED = (126, 127)


def deepest():
    files = [{"name": "f%d.h" % i, "text": '#include "f%d.h"\n' % (i + 1)} for i in range(200)]
    within = "f(" * 256 + "%s" + ")" * 256
    conditions = within % ("(" * 256 + "1" + ")" * 256), "!" * 256 + "1", "0?0:" * 256 + "1"
    text = "#define f(a) a\n%s\n" % (within % "0") + "".join("#if %s\n%d\n#endif\n" % (found, n) for n, found in enumerate(conditions, 1))
    files.append({"name": "f200.h", "text": text})
    return json.dumps(dict(LIST, files=files, units=[{"file": "f0.h"}] * 8)).encode()


def unit(number):
    tokens = ["tok 200:2:513 200:2:1 n+ 0"] + ["tok 200:%d:1 200:%d:1 n+ %d" % (3 * n + 1, 3 * n + 1, n) for n in (1, 2, 3)]
    opened = ["dep %d f%d.h" % (i, i) for i in range(201)]
    return "".join(line + "\n" for line in ["unit %d f0.h" % number, *tokens, *opened, "ok"])


DEEPEST = deepest()
ANSWER = "".join(map(unit, range(8))).encode()
ARRAYS = b"[" * 127 + b"]" * 127


def outcome(limits, workers, data):
    """Returns status, output and standard error of a run under these limits of the shell."""
    command = ["sh", "-c", limits + ' && exec "$0" --workers "$1" --block 1 dump', program(), workers]
    done = subprocess.run(command, input=data, capture_output=True, timeout=60)
    return done.returncode, done.stdout, done.stderr


class Stack(unittest.TestCase):
    def does(self, data, wanted):
        for workers in "1", "4":
            enough = [size for size in STACKS if outcome("ulimit -s %d" % size, workers, data) == wanted]
            least = min(enough) if enough else "more than %d" % STACKS[-1]
            self.assertIn(STACK, enough, "%s workers: the least stack that does is %s KB" % (workers, least))

    def test_all_depths_at_once(self):
        self.does(DEEPEST, (0, ANSWER, b""))

    def test_arrays_of_a_list(self):
        self.does(ARRAYS, (3, b"", b"cppunits: list refused L2\n"))


class Memory(unittest.TestCase):
    """Tests limits in kilobytes; a stack limit of 1,024 keeps the requests for the workers' stacks small."""

    def ends_well(self, workers):
        """Tries limits from too little memory to start the program to enough for several workers, and a gigabyte."""
        good, bad = (OUT_OF_MEMORY, (0, ANSWER, b"")), []
        for size in [*range(4_096, 24_576, 128), 1_048_576]:
            found = outcome("ulimit -s 1024 && ulimit -v %d" % size, workers, DEEPEST)
            if found not in good and found[0] not in NOT_STARTED:
                bad.append((size, found[0]))
        self.assertEqual(found, good[1])
        self.assertEqual(bad, [], "%s workers: %d sizes end badly" % (workers, len(bad)))

    def test_one_worker(self):
        self.ends_well("1")

    def test_four_workers(self):
        self.ends_well("4")


if __name__ == "__main__":
    main()
