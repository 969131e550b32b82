#!/usr/bin/env python3
"""Refuses each request for memory of the crates' built tests in turn, alone and with all after it.

    tests/refused_in_tests.py [--each-up-to N] NAME..

For each NAME the tests are crates/NAME/out/NAME_tests, which `rt test` builds.  Each test runs with its 1st, 2nd, 3rd .. request refused,
and with all refused from that one on, until a run meets no refusal.  Some tests call again after a refused call, and check what that call
left (`CALLS_AGAIN` below): such a test passes if the second call gets its memory, and it is a problem if it passes over no refused request.
In any other test, out of memory is the test's own error.  Any other failure is a problem.

For the tests that call again each request is refused.  For the others each request is refused up to the Nth, and after it more and more are
skipped.  N is 200 by default, since threads that aren't made make some tests slow, and 20 in the tests of ppserve (`serving::` in
ppruntests), which read long texts.  As many tests run at the same time as there are processors.
"""
import argparse
import os
import re
import subprocess
import sys
from concurrent.futures import ThreadPoolExecutor

from refusals import HERE, KINDS, refused, refusing_malloc, run, tally

LONG_TEXTS = "serving::"
# parts of the names of tests that call again after a failure
CALLS_AGAIN = (
    "after_want_of_memory", "where_memory_is_refused", "defines_compares_and_refuses", "replaces_by_the_replacement_list",
    "hides_and_places_what_it_gives",
)
WANT_OF_MEMORY = re.compile(rb"[Ee]rror: (Memory|AllocError|AllocFailed|Kind\(OutOfMemory\))")


def tests_of(program):
    listed = subprocess.run([program, "--list"], capture_output=True, check=True).stdout.decode()
    return [line.rsplit(": ", 1)[0] for line in listed.splitlines() if "::" in line]


def some_runs(command, malloc, on, each_up_to):
    """Yields the runs with a request refused, each with the request's number, up to the first that meets no refusal.  After the one
    `each_up_to`, if there is such a bound, it skips more and more requests."""
    call, met = 1, True
    while met:
        done, met = run(command, malloc, call, on=on)
        yield call, done, met
        call += 1 + (call // each_up_to if each_up_to else 0)


def calls_again(test):
    return any(words in test for words in CALLS_AGAIN)


def bound_of(test, given):
    """Returns the last request up to which each is refused, or None if there is no such bound."""
    if calls_again(test):
        return None
    return given or (20 if test.startswith(LONG_TEXTS) else 200)


def judged(name, test, malloc, each_up_to):
    """Returns a test's name with the number of refused requests, and its problems."""
    program = os.path.join(HERE, "..", "crates", name, "out", name + "_tests")
    told, problems = [name + " " + test], []
    for on, how in KINDS.items():
        refusals = went_on = 0
        for call, done, met in some_runs([program, test], malloc, on, each_up_to):
            passed = done.returncode == 0
            words = done.stdout + done.stderr
            if not passed and not (met and WANT_OF_MEMORY.match(words)):
                problems.append("%s: %r" % (refused(call, on), words[:200]))
            refusals += met
            went_on += met and passed
        if not on and not went_on and calls_again(test):
            problems.append("no call that is made again got what it asks for")
        told.append("  %d requests refused, %s, %d of them met by a call that is tested" % (refusals, how, went_on))
    return "\n".join(told), problems


def cases(names, malloc, each_up_to):
    tests = [(name, test) for name in names for test in tests_of(os.path.join(HERE, "..", "crates", name, "out", name + "_tests"))]
    with ThreadPoolExecutor(os.cpu_count()) as pool:
        yield from pool.map(lambda one: judged(*one, malloc, bound_of(one[1], each_up_to)), tests)


def main():
    words = argparse.ArgumentParser(description=__doc__, formatter_class=argparse.RawDescriptionHelpFormatter)
    words.add_argument("--each-up-to", type=int, metavar="N")
    words.add_argument("names", nargs="+", metavar="NAME")
    given = words.parse_args()
    with refusing_malloc() as malloc:
        return tally(cases(given.names, malloc, given.each_up_to))


if __name__ == "__main__":
    sys.exit(main())
