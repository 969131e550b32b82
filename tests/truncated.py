#!/usr/bin/env python3
"""Cuts texts and lists to every length.

    tests/truncated.py [PROGRAM] [-k NAME]

Examples 3, 4, 5 and 7 of the standard's 6.10.3.5 and the one of 6.10.3.3 are each cut to their first n bytes, for every n.  A unit of each
cut text ends in `ok` or in a fault from 1 to 34, the same with 1 and 7 workers; it ends in fault 2 if the last byte is a backslash before
a new-line.  A list with a guarded header, cut to every shorter length, is refused because it isn't JSON (L1).  200 nested arrays are refused
because they aren't JSON, and 100 because they aren't a list (L2).
"""
import json
import re
import unittest

from counted import LIST, cppunits, main

EXAMPLES = {
    "example 3": r"""#define x 3
#define f(a) f(x * (a))
#undef x
#define x 2
#define g f
#define z z[0]
#define h g(~
#define m(a) a(w)
#define w 0,1
#define t(a) a
#define p() int
#define q(x) x
#define r(x,y) x ## y
#define str(x) # x
f(y+1) + f(f(z)) % t(t(g)(0) + t)(1);
g(x+(3,4)-w) | h 5) & m
(f)^m(m);
p() i[q()] = { q(1), r(2,3), r(4,), r(,5), r(,) };
char c[2][6] = { str(hello), str() };
""",
    "example 4": r"""#define str(s) # s
#define xstr(s) str(s)
#define debug(s, t) printf("x" # s "= %d, x" # t "= %s", \
 x ## s, x ## t)
#define INCFILE(n) vers ## n
#define glue(a, b) a ## b
#define xglue(a, b) glue(a, b)
#define HIGHLOW "hello"
#define LOW LOW ", world"
debug(1, 2);
fputs(str(strncmp("abc\0d", "abc", '\4') // this goes away
 == 0) str(: @\n), s);
#include xstr(INCFILE(2).h)
glue(HIGH, LOW);
xglue(HIGH, LOW)
""",
    "example 5": r"""#define t(x,y,z) x ## y ## z
int j[] = { t(1,2,3), t(,4,5), t(6,,7), t(8,9,),
 t(10,,), t(,11,), t(,,12), t(,,) };
""",
    "example 7": r"""#define debug(...) fprintf(stderr, __VA_ARGS__)
#define showlist(...) puts(#__VA_ARGS__)
#define report(test, ...) ((test)?puts(#test):\
 printf(__VA_ARGS__))
debug("Flag");
debug("X = %d\n", x);
showlist(The first, second, and third items.);
report(x>y, "x is %d but y is %d", x, y);
""",
    "hash_hash": r"""#define hash_hash # ## #
#define mkstr(a) # a
#define in_between(a) mkstr(a)
#define join(c, d) in_between(c hash_hash d)
char p[] = join(x, y);
""",
}
HEADER = {"name": "h.h", "text": "#ifndef H\n#define H\nint a;\n#endif\n"}
GUARDED = dict(LIST, files=[{"name": "a.c", "text": '#include "h.h"\n#include "h.h"\n'}, HEADER],
               units=[{"file": "a.c"}, {"file": "a.c", "define": ["H"]}])
LAST = re.compile(rb"ok|fault ([1-9]|[12][0-9]|3[0-4]) \d+:\d+:\d+( .+)?")


def cuts(text):
    """Returns a list of the text's beginnings, each as a file and a unit."""
    files = [{"name": "p%d.c" % n, "text": text[:n]} for n in range(len(text) + 1)]
    units = [{"file": file["name"]} for file in files]
    return json.dumps(dict(LIST, files=files + [{"name": "vers2.h", "text": ""}], units=units)).encode()


def last_lines(output):
    """Returns the last line of each unit."""
    units = re.split(rb"^unit .*\n", output, flags=re.MULTILINE)[1:]
    return [unit.rstrip(b"\n").split(b"\n")[-1] for unit in units]


class Texts(unittest.TestCase):
    def test_each_beginning_has_an_answer(self):
        for name, text in EXAMPLES.items():
            done = cppunits("--workers", "1", "dump", input=cuts(text))
            self.assertEqual((done.returncode, done.stderr), (1, b""), name)
            lines = last_lines(done.stdout)
            self.assertEqual((len(lines), lines[-1]), (len(text) + 1, b"ok"), name)
            for n, line in enumerate(lines):
                self.assertIsNotNone(LAST.fullmatch(line), (name, n, line))

    def test_a_backslash_at_the_end(self):
        met = 0
        for name, text in EXAMPLES.items():
            lines = last_lines(cppunits("dump", input=cuts(text)).stdout)
            for n in (found.end() - 1 for found in re.finditer(r"\\\n", text)):
                met += 1
                self.assertTrue(lines[n].startswith(b"fault 2 "), (name, n, lines[n]))
                self.assertTrue(lines[n + 1].startswith(b"fault 2 "), (name, n + 1, lines[n + 1]))
        self.assertEqual(met, 2)

    def test_workers_change_nothing(self):
        for name, text in EXAMPLES.items():
            one, seven = (cppunits("--workers", count, "--block", "1", "dump", input=cuts(text)) for count in ("1", "7"))
            self.assertTrue(one.stdout == seven.stdout and one.returncode == seven.returncode, name)


class Lists(unittest.TestCase):
    def refused(self, data, number):
        done = cppunits("dump", input=data)
        wanted = 3, b"", b"cppunits: list refused L%d\n" % number
        self.assertEqual((done.returncode, done.stdout, done.stderr), wanted, data[:100])

    def test_each_shorter_list(self):
        whole = json.dumps(GUARDED, separators=(",", ":")).encode()
        self.assertEqual(cppunits("dump", input=whole).returncode, 0)
        for n in range(len(whole)):
            self.refused(whole[:n], 1)

    def test_brackets(self):
        self.refused(b"[" * 100 + b"]" * 100, 2)
        self.refused(b"[" * 200 + b"]" * 200, 1)


if __name__ == "__main__":
    main()
