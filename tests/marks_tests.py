#!/usr/bin/env python3
"""Tests the include chains that `cppunits faults` prints, and the names under which files are shown, by `__FILE__`.

    tests/marks_tests.py [PROGRAM] [-k NAME]
"""
import json
import unittest

from counted import cppunits, main

# Names and texts of files, other members of the unit, and what `faults` prints for a unit of the first file, after its first line.
CHAINS = [
    # no fault, and one in the unit's own file behind a header
    ([("a.c", "#include \"b.h\"\nx\n"), ("b.h", "y\n")], {}, "ok\n"),
    ([("a.c", "#include \"b.h\"\n#error x\n"), ("b.h", "y\n")], {}, "fault 34 0:2:1 x\n"),
    # the location is that of the `#`
    ([("a.c", "\n  # include \"b.h\"\n"), ("b.h", "#error x\n")], {}, "in 0:2:3\nfault 34 1:1:1 x\n"),
    # the second of two openings, and a header whose guard skips it the second time
    ([("a.c", "#include \"b.h\"\n#include \"b.h\"\n"), ("b.h", "#ifdef X\n#include \"missing.h\"\n#endif\n#define X 1\n")], {},
     "in 0:2:1\nfault 31 1:2:1 missing.h\n"),
    ([("a.c", "#include \"b.h\"\n#include \"b.h\"\n#error x\n"), ("b.h", "#ifndef X\n#define X\n#endif\n")], {}, "fault 34 0:3:1 x\n"),
    # three levels, the first name made by a macro
    ([("a.c", "#define H \"b.h\"\n#include H\n"), ("b.h", "b\n#include \"c.h\"\n"), ("c.h", "c\n#include \"d.h\"\n"), ("d.h", "#if\n#endif\n")], {},
     "in 0:2:1\nin 1:2:1\nin 2:2:1\nfault 23 3:1:1\n"),
    # a fault at the end of a header, behind another header
    ([("a.c", "#include \"b.h\"\n"), ("b.h", "#include \"c.h\"\n#define f(x)\nf(\n"), ("c.h", "c\n")], {}, "in 0:1:1\nfault 17 1:3:1 f\n"),
    # `#line` and `#pragma once` change nothing
    ([("a.c", "#line 50 \"z.c\"\n#include \"b.h\"\n"), ("b.h", "#pragma once\n#include \"b.h\"\n#error x\n")], {}, "in 0:2:1\nfault 34 1:3:1 x\n"),
    # a file that includes itself up to the last depth, and one that has no content of its own
    ([("a.c", "#include \"a.c\"\n")], {}, "in 0:1:1\n" * 200 + "fault 32 0:1:1 a.c\n"),
    ([("a.c", "#include \"b.h\"\n"), ("b.h", "#include \"c.h\"\n"), ("c.h", "x /*\n")], {}, "in 0:1:1\nfault 1 2:1:3\n"),
    # the definitions, and the files that are read before the unit's own: as if their include lines followed the definitions
    ([("a.c", "x\n")], {"define": ["1"]}, "fault 9 65535:1:1 define\n"),
    ([("a.c", "x\n"), ("b.h", "b\n"), ("c.h", "#include \"d.h\"\n"), ("d.h", "#error x\n")], {"define": ["A", "B"], "first": ["b.h", "c.h"]},
     "in 65535:4:1\nin 2:1:1\nfault 34 3:1:1 x\n"),
    ([("a.c", "#error x\n"), ("b.h", "b\n")], {"first": ["b.h"]}, "fault 34 0:1:1 x\n"),
    # a budget that ends in a header, and one that refuses a header
    ([("a.c", "#include \"b.h\"\n"), ("b.h", "#define X\nX X\n")], {"budget": 3}, "in 0:1:1\nfault 35 1:2:3\n"),
    ([("a.c", "#include \"b.h\"\n"), ("b.h", "")], {"budget": 1}, "fault 35 0:1:1\n"),
]
# Names and texts of files, the members of a list that are about directories, those of a unit of the first file, and the unit's tokens.
NAMES = [
    # a unit that shows no names has those of the list
    ([("src/a.c", "#include \"../inc/h.h\"\n__FILE__\n"), ("inc/h.h", "__FILE__\n")], {}, {}, "\"inc/h.h\" \"src/a.c\""),
    ([("src/a.c", "#include \"../inc/h.h\"\n__FILE__\n"), ("inc/h.h", "__FILE__\n")], {"search": [{"name": "inc", "system": True}]}, {},
     "\"inc/h.h\" \"src/a.c\""),
    # the shown name of a unit, and of headers next to it, however they are written
    ([("src/a.c", "#include \"h.h\"\n__FILE__\n"), ("src/h.h", "__FILE__\n")], {}, {"shown": "../src/a.c"}, "\"../src/h.h\" \"../src/a.c\""),
    ([("src/a.c", "#include \"../inc/./h.h\"\n"), ("inc/h.h", "__FILE__\n")], {}, {"shown": "a.c"}, "\"../inc/./h.h\""),
    ([("a\"b.c", "__FILE__\n")], {}, {"shown": "c:\\a\"b.c"}, "\"c:\\\\a\\\"b.c\""),
    # the shown name of a directory, with and without `/` at its end, its own name, and none for the root
    ([("a.c", "#include <h.h>\n#include \"sub/k.h\"\n"), ("inc/h.h", "__FILE__\n"), ("inc/sub/k.h", "#include \"l.h\"\n"), ("inc/sub/l.h", "__FILE__\n")],
     {"search": [{"name": "inc", "shown": "../inc"}]}, {}, "\"../inc/h.h\" \"../inc/sub/l.h\""),
    ([("a.c", "#include <h.h>\n"), ("inc/h.h", "__FILE__\n")], {"search": [{"name": "inc", "shown": "/"}]}, {}, "\"/h.h\""),
    ([("a.c", "#include <h.h>\n"), ("inc/h.h", "__FILE__\n")], {"search": ["inc"]}, {"shown": "./a.c"}, "\"inc/h.h\""),
    ([("a.c", "#include <h.h>\n"), ("h.h", "__FILE__\n")], {"search": ["."]}, {"shown": "./a.c"}, "\"h.h\""),
    # a unit's directories come before the list's, also for `#include_next`
    ([("a.c", "#include <h.h>\n"), ("one/h.h", "#include_next <h.h>\n__FILE__\n"), ("two/h.h", "__FILE__\n")],
     {"search": [{"name": "two", "shown": "T"}]}, {"search": [{"name": "one", "shown": "O"}]}, "\"T/h.h\" \"O/h.h\""),
    # `#line` renames a file, and not those that it includes
    ([("a.c", "#line 7 \"z/y.c\"\n#include \"h.h\"\n__FILE__ __LINE__\n"), ("h.h", "__FILE__\n")], {}, {"shown": "x/a.c"}, "\"x/h.h\" \"z/y.c\" 8"),
    # files that are read first: by their own shown name, and macros of theirs hold in the unit's file
    ([("a.c", "A __FILE__\n"), ("c.h", "#define A 1\n__FILE__\n"), ("inc/d.h", "#include \"e.h\"\n__FILE__\n"), ("inc/e.h", "__FILE__\n")], {},
     {"first": ["c.h", {"name": "inc/d.h", "shown": "../inc/d.h", "system": False}]}, "\"c.h\" \"inc/e.h\" \"../inc/d.h\" 1 \"a.c\""),
    ([("a.c", "x\n"), ("inc/d.h", "#include \"e.h\"\n"), ("inc/e.h", "__FILE__ __LINE__\n")], {},
     {"shown": "a.c", "first": [{"name": "inc/d.h", "shown": "../inc/d.h"}]}, "\"../inc/e.h\" 1 x"),
]


def listed(files, unit, **more):
    """Returns a list with a unit of the first file, in the profile gnu."""
    files = [{"name": name, "text": text} for name, text in files]
    unit = dict(unit, file=files[0]["name"])
    budget = {"budget": unit.pop("budget")} if "budget" in unit else {}
    return json.dumps({"profile": "gnu", "date": "Feb  9 2024", "time": "08:05:03", "files": files, "units": [unit], **budget, **more}).encode()


class Marks(unittest.TestCase):
    def test_include_chains(self):
        for files, unit, wanted in CHAINS:
            done = cppunits("faults", input=listed(files, unit))
            self.assertEqual((done.stdout.decode(), done.stderr), ("unit 0 %s\n" % files[0][0] + wanted, b""), files)
            self.assertEqual(done.returncode, int("fault" in wanted), files)

    def test_chains_of_several_units(self):
        files = [("a.c", "#include \"b.h\"\n"), ("b.h", "#error x\n")]
        data = json.loads(listed(files, {}))
        data["units"] = [{"file": "b.h"}, {"file": "a.c"}]
        wanted = "unit 0 b.h\nfault 34 1:1:1 x\nunit 1 a.c\nin 0:1:1\nfault 34 1:1:1 x\n"
        for workers in "1", "2", "4":
            done = cppunits("--workers", workers, "faults", input=json.dumps(data).encode())
            self.assertEqual((done.stdout.decode(), done.returncode), (wanted, 1))

    def test_shown_names(self):
        for files, setting, unit, wanted in NAMES:
            done = cppunits("dump", input=listed(files, unit, **setting))
            tokens = [line.split(" ", 4)[4].replace("%25", "%") for line in done.stdout.decode().splitlines() if line.startswith("tok ")]
            self.assertEqual((" ".join(tokens), done.returncode), (wanted, 0), files)


if __name__ == "__main__":
    main()
