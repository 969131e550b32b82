#!/usr/bin/env python3
"""Refuses each request for memory of the built program in turn, alone and with all after it.

    tests/refused_memory.py [PROGRAM]

PROGRAM is by default crates/cppunits/out/cppunits, which `rt ci` and `rt run` build.  The program runs over each list below
with one worker and with more, and over the list of a directory.  Its 1st, 2nd, 3rd .. request is refused, and all are
refused from that one on, until a run meets no refusal.  That run must print the answer.  Each earlier run must end with
status 4, nothing on standard output and `cppunits: out of memory` on standard error.  It may also print the answer: if it
makes fewer threads, if it doesn't shrink a block, or if less memory is enough.  The number of such runs is printed.  In a
row with one worker there may be at most as many as the row has blocks to shrink, and as many more as in a run without a
list.  The proofs can't refuse memory to the built program.

status:
  0  each run ended so
  1  one didn't
"""
import contextlib
import json
import os
import sys
import tempfile

from refusals import HERE, KINDS, refused, refusing_malloc, run, runs, tally

PROGRAM = os.path.join(HERE, "..", "crates", "cppunits", "out", "cppunits")
EXAMPLES = os.path.join(HERE, "..", "examples")
OUT_OF_MEMORY = (b"", b"cppunits: out of memory\n", 4)


def one_file(text):
    return ('{"date":"Feb  9 2024","time":"08:05:03","files":[{"name":"a.c",%s}],"units":[{"file":"a.c"}]}' % text).encode()


def example(name):
    with open(os.path.join(EXAMPLES, name), "rb") as file:
        return file.read()


LISTS = {
    "headers, definitions, conditions and a fault": example("units.json"),
    "a comment as one space": one_file(r'"text":"a+b/**/c\n"'),
    "an empty file": one_file('"text":""'),
    "bytes in hexadecimal digits": one_file('"hex":"efbbbf780d0a79"'),
    "splices and trigraphs": one_file(r'"text":"a\\\n??=b ??/\nc"'),
    "a fault in the file": one_file(r'"text":"x\n /* y"'),
    "an unknown directive": one_file(r'"text":"x\n#foo\n"'),
    "a list that is refused": one_file(r'"text":""').replace(b"a.c", b"a//c", 1),
}


SHOWN = {"shown names, files that are read first, and operators": json.dumps({
    "date": "Feb  9 2024", "time": "08:05:03", "profile": "gnu", "search": [{"name": "sys", "shown": "/usr/include", "system": True}],
    "files": [{"name": "a.c", "text": '#include <h.h>\n_Pragma("pack(1)") __FILE__ F(x)\n#pragma a b\n#line 9 "z"\nx\n#include "b.h"\n'},
              {"name": "sys/h.h", "text": "#pragma once\n#define F(x) -x-1\n#include <h.h>\n"}, {"name": "b.h", "text": "#error\n"}],
    "units": [{"file": "a.c", "shown": "../a.c", "first": ["sys/h.h", {"name": "sys/h.h", "shown": "h"}]}]}).encode()}
INVOCATION = {"a.c": "#define f(a) a*g\n#define g(a) f(a)\nf(2)(9)\n"}
GUARDED = {"a.c": '#include "h.h"\n#include "h.h"\n', "h.h": "#ifndef H\n#define H\nint a;\n#endif\n"}
SEARCHED = {"src/a.c": '#include "x.h"\n#include <x.h>\n#include "../inc/x.h"\n#include <y.h>\n', "src/x.h": "1", "inc/x.h": "2"}

# Files, units and directories, what is printed for them, and how many blocks the answer doesn't need.  Most are shrunk to their
# contents: the tokens and lines of files and the items and marks of units, if they have unused room.  A block that can't be shrunk keeps its
# size.  An invocation gives its vectors back to a pool, which has three lists of them.  If a list can't grow, the vector is freed.
ROWS = {
    "one token": ({"a.c": "x\n"}, [{"file": "a.c"}], [], "unit 0 a.c\ntok 0:1:1 0:1:1 i+ x\ndep 0 a.c\nok\n", 3),
    "an invocation that reaches past its replacement": (
        INVOCATION, [{"file": "a.c"}], [],
        "unit 0 a.c\ntok 0:3:3 0:3:1 n+ 2\ntok 0:1:15 0:3:1 p- *\ntok 0:3:6 0:3:1 n- 9\ntok 0:1:15 0:3:1 p- *\ntok 0:1:16 0:3:1 i- g\n"
        "dep 0 a.c\nok\n", 6,
    ),
    "a guarded header twice, in two units": (
        GUARDED, [{"file": "a.c"}, {"file": "a.c", "define": ["H"]}], [],
        "unit 0 a.c\ntok 1:3:1 1:3:1 i+ int\ntok 1:3:5 1:3:5 i+ a\ntok 1:3:6 1:3:6 p- ;\ndep 0 a.c\ndep 1 h.h\nok\n"
        "unit 1 a.c\ndep 0 a.c\ndep 1 h.h\nok\n", 6,
    ),
    "searched directories": (
        SEARCHED, [{"file": "src/a.c"}], ["inc"],
        "unit 0 src/a.c\ntok 1:1:1 1:1:1 n+ 1\ntok 2:1:1 2:1:1 n+ 2\ntok 2:1:1 2:1:1 n+ 2\ndep 0 src/a.c\ndep 1 src/x.h\ndep 2 inc/x.h\n"
        "fault 31 0:4:1 y.h\n", 7,
    ),
}


def row(name, inline):
    """Returns the list of a row, with its files' contents or with names only."""
    files, units, folders, *_ = ROWS[name]
    rows = [{"name": file, "text": text} if inline else {"name": file} for file, text in files.items()]
    return json.dumps({"date": "Feb  9 2024", "time": "08:05:03", "search": folders, "files": rows, "units": units}).encode()


@contextlib.contextmanager
def written(name):
    """Yields a directory with the files of a row."""
    with tempfile.TemporaryDirectory() as folder:
        for file, text in ROWS[name][0].items():
            path = os.path.join(folder, file)
            os.makedirs(os.path.dirname(path), exist_ok=True)
            with open(path, "w") as out:
                out.write(text)
        yield folder


# the options and the member with which lists run: one thread, several, and files in a directory
WAYS = {
    "one worker": (["--workers", "1", "dump"], LISTS),
    "four workers": (["--workers", "4", "--block", "1", "deps"], LISTS),
    "one worker, text": (["--workers", "1", "text"], SHOWN),
    "two workers, text": (["--workers", "2", "--block", "1", "text"], SHOWN),
    "one worker, faults": (["--workers", "1", "faults"], SHOWN),
    "four workers over a directory": (
        ["--workers", "4", "--block", "1", "--root", os.path.join(EXAMPLES, "files"), "dump"],
        {"names alone": example("names.json")},
    ),
}


def outcome(done):
    return done.stdout, done.stderr, done.returncode


def spared(command, malloc):
    """Returns how many requests of a run without a list can be refused alone and leave its answer: less memory is enough for the words."""
    answer = outcome(run(command, malloc, 0, b"")[0])
    return sum(met and outcome(done) == answer for _, done, met in runs(command, malloc, b""))


def problems(command, data, malloc, wanted=None, fitted=None):
    answer = outcome(run(command, malloc, 0, data)[0])
    if wanted not in (None, answer[0].decode()):
        yield "the answer is %r" % answer[0][:500]
    for on, how in KINDS.items():
        requests = right = 0
        for call, done, met in runs(command, malloc, data, on):
            found = outcome(done)
            if found != answer and not (met and found == OUT_OF_MEMORY):
                yield "%s: status %d, output %r, words %r" % (refused(call, on), found[2], found[0][:200], found[1][:200])
            requests += met
            right += met and found == answer
        print("  %d requests, %s: %d leave the answer" % (requests, how, right))
        if fitted is not None and right > fitted + spared(command, malloc):
            yield "%d refused requests leave the answer, where %d blocks are fitted" % (right, fitted)


def cases(program, malloc):
    """Yields each case's name, and its problems."""
    for way, (words, lists) in WAYS.items():
        for name, data in lists.items():
            yield "%s: %s" % (way, name), problems([program, *words], data, malloc)
    for name, (*_, wanted, fitted) in ROWS.items():
        # one worker makes no thread
        for workers, most in ("1", fitted), ("2", None):
            words = [program, "--workers", workers, "--block", "1"]
            yield "--workers %s: %s" % (workers, name), problems([*words, "dump"], row(name, True), malloc, wanted, most)
            with written(name) as folder:
                over = problems([*words, "--root", folder, "dump"], row(name, False), malloc, wanted, most)
                yield "--workers %s over a directory: %s" % (workers, name), over


def main(words):
    if words in (["--help"], ["-h"]):
        print(__doc__.strip())
        return 0
    program = os.path.abspath(words[0] if words else PROGRAM)
    with refusing_malloc() as malloc:
        return tally(cases(program, malloc))


if __name__ == "__main__":
    sys.exit(main(sys.argv[1:]))
