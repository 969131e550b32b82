#!/usr/bin/env python3
"""Tests whole runs: which lists are refused, and the output for the others, byte for byte.

    tests/serving_tests.py [PROGRAM] [-k NAME]

For a refused list the status is 3, standard error has the least number that applies, and nothing is on standard output.  For any other list
the status is 1 if a unit has a fault, and 0 if none has, and nothing is on standard error.
"""
import json
import os
import subprocess
import unittest

from counted import LIST, Folder, cppunits, main, program, write
from row_tests import results

# The text that replaces each word in the lists below.
WORDS = {"$when": '"date":"Feb  9 2024","time":"08:05:03"', "$file": '{"name":"a.c","text":""}', "$unit": '{"file":"a.c"}'}
EMPTY_FILE, UNIT = {"name": "a.c", "text": ""}, {"file": "a.c"}
# Lists that are refused, by number, each on a line.
REFUSED = {
    # incomplete JSON, and a number that is too large
    1: r"""{"date":
{$when,"files":[$file],"units":[$unit]
{"date":1e999}
""",
    # other members and values of the list, of files and of units; the last four are also refused for a larger number
    2: r"""[]
{$when,"files":[$file]}
{"date":"Feb  9 2024","time":8,"files":[$file],"units":[$unit]}
{$when,"files":$file,"units":[$unit]}
{$when,"files":[$file],"units":[$unit],"folders":[]}
{$when,"files":[$file],"units":[$unit],"search":null}
{$when,"files":[$file],"units":[$unit],"search":[7]}
{"profile":1,$when,"files":[$file],"units":[$unit]}
{"profile":null,$when,"files":[$file],"units":[$unit]}
{"profile":["c11"],$when,"files":[$file],"units":[$unit]}
{"budget":null,$when,"files":[$file],"units":[$unit]}
{"budget":true,$when,"files":[$file],"units":[$unit]}
{"budget":[5],$when,"files":[$file],"units":[$unit]}
{$when,"files":[7],"units":[$unit]}
{$when,"files":[{"text":""}],"units":[$unit]}
{$when,"files":[{"name":"a.c"}],"units":[$unit]}
{$when,"files":[{"name":"a.c","text":"","hex":""}],"units":[$unit]}
{$when,"files":[{"name":"a.c","hex":"0"}],"units":[$unit]}
{$when,"files":[{"name":"a.c","hex":"0A"}],"units":[$unit]}
{$when,"files":[{"name":"a.c","text":null}],"units":[$unit]}
{$when,"files":[{"name":"a.c","text":"","kind":"c"}],"units":[$unit]}
{$when,"files":[$file,{"name":"b.c"}],"units":[$unit]}
{$when,"files":[$file],"units":[{}]}
{$when,"files":[$file],"units":[{"file":["a.c"]}]}
{$when,"files":[$file],"units":[{"file":"a.c","define":"X"}]}
{$when,"files":[$file],"units":[{"file":"a.c","define":[["X"]]}]}
{$when,"files":[$file],"units":[{"file":"a.c","search":null}]}
{$when,"files":[$file],"units":[$unit],"search":[{}]}
{$when,"files":[$file],"units":[$unit],"search":[{"shown":"x"}]}
{$when,"files":[$file],"units":[$unit],"search":[{"name":"inc","shown":null}]}
{$when,"files":[$file],"units":[$unit],"search":[{"name":"inc","system":1}]}
{$when,"files":[$file],"units":[$unit],"search":[{"name":"inc","path":"x"}]}
{$when,"files":[$file],"units":[{"file":"a.c","search":[["inc"]]}]}
{$when,"files":[$file],"units":[{"file":"a.c","shown":7}]}
{$when,"files":[$file],"units":[{"file":"a.c","first":"a.c"}]}
{$when,"files":[$file],"units":[{"file":"a.c","first":[null]}]}
{$when,"files":[$file],"units":[{"file":"a.c","first":[{"name":"a.c","system":"true"}]}]}
{$when,"files":[$file],"units":[{"file":"a.c","system":true}]}
{$when,"files":[$file],"units":[$unit,{"file":"a.c","defines":[]}]}
{$when,"files":[{"name":"a//c","hex":"A0"}],"units":[$unit]}
{"budget":"5",$when,"files":[{"name":"a//c","text":""}],"units":[$unit]}
{"profile":"c23","budget":"5",$when,"files":[$file],"units":[$unit]}
{"profile":null,$when,"files":[$file],"units":[{"file":"a.c","search":["/"]}]}
""",
    # duplicate names and names of a wrong form, with units whose files aren't there
    3: r"""{$when,"files":[{"name":"a//c","text":""}],"units":[{"file":"b.c"}]}
{$when,"files":[$file,{"name":"b.c","text":""},$file],"units":[{"file":"c.c"}]}
""",
    # files that aren't there; the last three are also refused for a larger number
    5: r"""{$when,"files":[$file],"units":[{"file":"b.c"}]}
{$when,"files":[],"units":[$unit]}
{"date":"9 Feb","time":"08:05:03","files":[$file],"units":[{"file":"b.c"}]}
{$when,"files":[$file],"units":[{"file":"b.c","define":["A\n"]}]}
{$when,"files":[$file],"units":[{"file":"a.c","define":["A\n"]},{"file":"b.c"}]}
{$when,"files":[$file],"units":[{"file":"a.c","first":["b.c"]}]}
{$when,"files":[$file],"units":[{"file":"a.c","first":["a.c",{"name":"./a.c","shown":""}]}]}
""",
    # dates and times, with other definitions and another budget
    6: r"""{"date":"Feb  9 2024","time":"24:00:00","files":[$file],"units":[$unit]}
{"date":"9 Feb","time":"08:05:03","files":[$file],"units":[{"file":"a.c","define":["X\n"]}]}
{"budget":-1,"date":"Feb  9 2024","time":"24:00:00","files":[$file],"units":[$unit]}
""",
    # definitions with a line end, the last one with another directory
    7: r"""{$when,"files":[$file],"units":[{"file":"a.c","define":["A 1\n"]}]}
{$when,"files":[$file],"units":[{"file":"a.c","define":["A","\r"]}]}
{$when,"files":[$file],"units":[{"file":"a.c","define":["A\n"],"search":["/"]}]}
""",
    # directories of a wrong form, the last one with another profile
    8: r"""{$when,"files":[$file],"units":[{"file":"a.c","search":[""]}]}
{$when,"files":[$file],"units":[{"file":"a.c","search":[{"name":"/inc","shown":"/inc"}]}]}
{$when,"files":[$file],"units":[$unit],"search":[{"name":"../inc","shown":"\n"}]}
{$when,"files":[$file],"units":[{"file":"a.c","search":["inc","../inc"]}]}
{$when,"files":[$file],"units":[$unit,{"file":"a.c","search":["a/"]}]}
{"profile":"c23",$when,"files":[$file],"units":[{"file":"a.c","search":["/"]}]}
""",
    # other profiles, the last one with another budget
    9: r"""{"profile":"c23",$when,"files":[$file],"units":[$unit]}
{"profile":"C11",$when,"files":[$file],"units":[$unit]}
{"profile":"",$when,"files":[$file],"units":[$unit]}
{"profile":"c23","budget":-1,$when,"files":[$file],"units":[$unit]}
""",
    # other budgets
    10: r"""{"budget":-1,$when,"files":[$file],"units":[$unit]}
{"budget":4294967296,$when,"files":[$file],"units":[$unit]}
{"budget":18446744073709551616,$when,"files":[$file],"units":[$unit]}
{"budget":1.5,$when,"files":[$file],"units":[$unit]}
{"budget":1.0,$when,"files":[$file],"units":[$unit]}
{"budget":-0,$when,"files":[$file],"units":[$unit]}
{"budget":1e1,$when,"files":[$file],"units":[$unit]}
{"budget":-1,$when,"files":[$file],"units":[{"file":"a.c","shown":""}]}
""",
    11: r"""{$when,"files":[$file],"units":[{"file":"a.c","shown":""}]}
{$when,"files":[$file],"units":[{"file":"a.c","shown":"a\u001fb"}]}
{$when,"files":[$file],"units":[{"file":"a.c","first":[{"name":"a.c","shown":"\u007f"}]}]}
{$when,"files":[$file],"units":[{"file":"a.c","search":[{"name":"inc","shown":""}]}]}
{$when,"files":[$file],"units":[$unit],"search":[{"name":"inc","shown":"\n"}]}
""",
}
# Inputs that aren't JSON as a whole: nothing, and bytes that aren't UTF-8.
NO_TEXT = [b"", b'"\xff"']
# Texts, whether each is the name of a file, and whether it is a directory.
NAMES = [
    ("a", True, True),
    ("a.c", True, True),
    ("a/b.h", True, True),
    ("a/b/.c", True, True),
    ("...", True, True),
    (".a", True, True),
    ("a b", True, True),
    ("\xe9", True, True),
    ("n" * 1024, True, True),
    (".", False, True),
    ("n" * 1025, False, False),
    ("", False, False),
    ("/", False, False),
    ("/a", False, False),
    ("/a.c", False, False),
    ("a/", False, False),
    ("a.c/", False, False),
    ("a//b", False, False),
    ("a//b.c", False, False),
    ("..", False, False),
    ("./a.c", False, False),
    ("a/../b", False, False),
    ("b/../a.c", False, False),
    ("a/.", False, False),
    ("a\n", False, False),
    ("a\x1f", False, False),
    ("a\x7f", False, False),
]
CALLS = "#define f(a) a*g\n#define g(a) f(a)\nf(2)(9)\n"
CALLED = """tok 0:3:3 0:3:1 n+ 2
tok 0:1:15 0:3:1 p- *
tok 0:3:6 0:3:1 n- 9
tok 0:1:15 0:3:1 p- *
tok 0:1:16 0:3:1 i- g
dep 0 a.c
ok
"""
# The text or bytes of a.c, other members of a list, and the output for a unit of it after the first line.
PRINTED = [
    ("", {}, "dep 0 a.c\nok\n"),
    # a comment as one space
    ("a+b/**/c\n", {}, "tok 0:1:1 0:1:1 i+ a\ntok 0:1:2 0:1:2 p- +\ntok 0:1:3 0:1:3 i- b\ntok 0:1:8 0:1:8 i+ c\ndep 0 a.c\nok\n"),
    # a byte order mark, CR LF and no last new-line
    (b"\xef\xbb\xbfx\r\ny", {}, "tok 0:1:1 0:1:1 i+ x\ntok 0:2:1 0:2:1 i+ y\ndep 0 a.c\nok\n"),
    # bytes from 128 up, and others that are printed as %XX
    (b"\xc3\xa9", {}, "tok 0:1:1 0:1:1 i+ %C3%A9\ndep 0 a.c\nok\n"),
    (b"\x00\xff\nk", {}, "tok 0:1:1 0:1:1 o+ %00\ntok 0:1:2 0:1:2 i- %FF\ntok 0:2:1 0:2:1 i+ k\ndep 0 a.c\nok\n"),
    # a spliced name, and a comment's beginning in a literal
    ("a\\\nb \"/*\"//\n", {}, "tok 0:1:1 0:1:1 i+ ab\ntok 0:2:3 0:2:3 s+ \"/*\"\ndep 0 a.c\nok\n"),
    # percent signs
    ("a%:b\n%:\n50%\n", {},
     "tok 0:1:1 0:1:1 i+ a\ntok 0:1:2 0:1:2 p- %25:\ntok 0:1:4 0:1:4 i- b\ntok 0:3:1 0:3:1 n+ 50\ntok 0:3:3 0:3:3 p- %25\ndep 0 a.c\nok\n"),
    # a backslash at the end of a file
    (b"x\\", {}, "dep 0 a.c\nfault 2 0:1:2\n"),
    # an unmatched quote in text, an unknown directive, and one before the other
    ("x ' y\n", {}, "tok 0:1:1 0:1:1 i+ x\ndep 0 a.c\nfault 7 0:1:3 '\n"),
    ("#foo\n", {}, "dep 0 a.c\nfault 8 0:1:1 foo\n"),
    ("#foo 'z\n", {}, "dep 0 a.c\nfault 7 0:1:6 '\n"),
    # a line of `#` alone, spelled as a trigraph, and a definition of nothing
    ("??=\n#define\n", {}, "dep 0 a.c\nfault 9 0:2:1 define\n"),
    # a branch of the later profile
    ("#if 0\n#elifdef __STDC__\n1\n#endif\n", {"profile": "later"}, "tok 0:3:1 0:3:1 n+ 1\ndep 0 a.c\nok\n"),
    ("#if 0\n#elifdef __STDC__\n1\n#endif\n", {"profile": "c11"}, "dep 0 a.c\nok\n"),
    ("#if 0\n#elifdef __STDC__\n1\n#endif\n", {}, "dep 0 a.c\nok\n"),
    # a file that includes itself: the later profile reads it once, the other down to the last depth
    ("#pragma once\nt\n#include \"a.c\"\n", {"profile": "later"},
     "prag 0:1:1\nptok 0:1:9 0:1:9 i+ once\ntok 0:2:1 0:2:1 i+ t\ndep 0 a.c\nok\n"),
    ("#pragma once\nt\n#include \"a.c\"\n", {"profile": "c11"},
     "prag 0:1:1\nptok 0:1:9 0:1:9 i+ once\ntok 0:2:1 0:2:1 i+ t\n" * 201 + "dep 0 a.c\nfault 32 0:3:1 a.c\n"),
    # an invocation within an invocation uses four of the budget, with the opening of the file
    (CALLS, {"budget": 5}, CALLED),
    (CALLS, {"budget": 4}, CALLED),
    (CALLS, {"budget": 3}, "tok 0:3:3 0:3:1 n+ 2\ntok 0:1:15 0:3:1 p- *\ndep 0 a.c\nfault 35 0:3:1\n"),
    (CALLS, {"budget": 0, "profile": "c11"}, "fault 35 0:1:1\n"),
    (CALLS, {"budget": 4294967295}, CALLED),
    # 999 replacements after the opening of the file
    ("#define X\n" + "X\n" * 999, {"budget": 1000}, "dep 0 a.c\nok\n"),
    ("#define X\n" + "X\n" * 1000, {"budget": 1000}, "dep 0 a.c\nfault 35 0:1001:1\n"),
]
# Lists, and the output for them.
LISTS = [
    (r'{$when,"files":[],"units":[]}', ""),
    # without units no file is read
    (r'{$when,"files":[{"name":"a.c","text":"/*"}],"units":[]}', ""),
    # the last value of a duplicate member
    (r'{"date":"x",$when,"files":[{"name":"a.c","text":"__DATE__ __TIME__"}],"units":[$unit]}', """unit 0 a.c
tok 0:1:1 0:1:1 s+ "Feb  9 2024"
tok 0:1:10 0:1:10 s+ "08:05:03"
dep 0 a.c
ok
"""),
    # members in another order, a content in hex, the last second of a year
    (r'{"units":[{"file":"d/a.c"}],"files":[{"hex":"5f5f444154455f5f205f5f54494d455f5f","name":"d/a.c"}],"time":"23:59:60","date":"Dec 31 1999"}',
     """unit 0 d/a.c
tok 0:1:1 0:1:1 s+ "Dec 31 1999"
tok 0:1:10 0:1:10 s+ "23:59:60"
dep 0 d/a.c
ok
"""),
    # several files and units, with definitions; a unit's directories come before those of all units
    (r'{"search":["inc"],$when,"files":[{"name":"a.c","text":"1 A"},{"name":"inc/h.h","hex":"320a"},{"name":"b.c","text":"#include <h.h>\nA F(3)"},'
     r'{"name":"inc/sub/h.h","text":"4"}],'
     r'"units":[{"file":"b.c","define":["A 1","F(x) x"],"search":[".","inc/sub"]},{"file":"a.c"},{"file":"b.c"}]}', """unit 0 b.c
tok 3:1:1 3:1:1 n+ 4
tok 65535:1:11 2:2:1 n+ 1
tok 2:2:5 2:2:3 n+ 3
dep 2 b.c
dep 3 inc/sub/h.h
ok
unit 1 a.c
tok 0:1:1 0:1:1 n+ 1
tok 0:1:3 0:1:3 i+ A
dep 0 a.c
ok
unit 2 b.c
tok 1:1:1 1:1:1 n+ 2
tok 2:2:1 2:2:1 i+ A
tok 2:2:3 2:2:3 i+ F
tok 2:2:4 2:2:4 p- (
tok 2:2:5 2:2:5 n- 3
tok 2:2:6 2:2:6 p- )
dep 2 b.c
dep 1 inc/h.h
ok
"""),
]
# Two files that include a header, for which the first unit defines a macro; the third unit defines it twice.
SHARED = {
    "a.c": "#include \"h.h\"\nN P(1) __FILE__\n",
    "inc/h.h": "#ifndef H\n#define H\n#define P(x) x+N\n#pragma once n\n#endif\n",
    "b.c": "#include <h.h>\nP(2)\n#error no M\nx\n",
}
SHARING = [{"file": "a.c", "define": ["N 7"]}, {"file": "b.c", "search": ["."]}, {"file": "a.c", "define": ["N 7", "N 8"]}]
DUMPED = """unit 0 a.c
prag 1:4:1
ptok 1:4:9 1:4:9 i+ once
ptok 1:4:14 1:4:14 i+ n
tok 65535:1:11 0:2:1 n+ 7
tok 0:2:5 0:2:3 n+ 1
tok 1:3:15 0:2:3 p- +
tok 65535:1:11 0:2:3 n- 7
tok 0:2:8 0:2:8 s+ "a.c"
dep 0 a.c
dep 1 inc/h.h
ok
unit 1 b.c
prag 1:4:1
ptok 1:4:9 1:4:9 i+ once
ptok 1:4:14 1:4:14 i+ n
tok 2:2:3 2:2:1 n+ 2
tok 1:3:15 2:2:1 p- +
tok 1:3:16 2:2:1 i- N
dep 2 b.c
dep 1 inc/h.h
fault 34 2:3:1 no M
unit 2 a.c
fault 16 65535:2:1 N
"""
# The same output without the items.
DEPENDENCIES = """unit 0 a.c
dep 0 a.c
dep 1 inc/h.h
ok
unit 1 b.c
dep 2 b.c
dep 1 inc/h.h
fault 34 2:3:1 no M
unit 2 a.c
fault 16 65535:2:1 N
"""
# Numbers of workers, and the most units of a block.
CREWS = [(1, 1), (1, 1024), (2, 1), (2, 3), (4, 8), (7, 1), (64, 2)]
# Names of files, directories of the unit and of all units, and include lines: the file that has it, the name, and the file that is found.
SEARCHED = [
    # the including file's directory comes first
    (["src/a.c", "src/x.h", "inc/x.h"], [], ["inc"], [
        ("src/a.c", '"x.h"', "src/x.h"),
        ("src/a.c", "<x.h>", "inc/x.h"),
        ("src/a.c", '"../inc/x.h"', "inc/x.h"),
        ("src/a.c", "<y.h>", None),
    ]),
    # directories are searched in order
    (["src/a.c", "src/x.h", "inc/x.h", "h.h"], ["."], ["inc", "src"], [
        ("src/a.c", "<x.h>", "inc/x.h"),
        ("src/a.c", '"h.h"', "h.h"),
        ("h.h", '"x.h"', "inc/x.h"),
        ("h.h", '"src/x.h"', "src/x.h"),
        ("src/a.c", "<../h.h>", "h.h"),
    ]),
    # names are resolved segment by segment
    (["src/a.c", "inc/x.h", "h.h"], ["."], [], [
        ("src/a.c", "<h.h/>", "h.h"),
        ("src/a.c", "<./x/../h.h>", "h.h"),
        ("src/a.c", "<inc//x.h>", "inc/x.h"),
        ("src/a.c", "<inc/./x.h>", "inc/x.h"),
        ("src/a.c", "<h.h >", None),
        ("src/a.c", "<inc>", None),
        ("src/a.c", "<.>", None),
        ("src/a.c", '".."', None),
        ("src/a.c", '"../h.h"', "h.h"),
        ("src/a.c", '"../../h.h"', None),
        ("src/a.c", "<../h.h>", None),
        ("src/a.c", "<x/../../h.h>", None),
        ("h.h", '"../h.h"', None),
    ]),
]


def written(text):
    """Returns a list with its words replaced by their texts."""
    for word, meaning in WORDS.items():
        text = text.replace(word, meaning)
    return text.encode()


def listed(files, units, **more):
    """Returns a list whose names are written as raw bytes if JSON allows that."""
    return json.dumps(dict(LIST, files=files, units=units, **more), ensure_ascii=False).encode()


# Shown names, and whether each is one.
SHOWN = [("../src/a.c", True), ("/usr//include/./", True), ("é", True), ("s" * 4096, True), ("s" * 4097, False), ("a\tb", False), ("\x7f", False), ("", False)]


class Refusals(unittest.TestCase):
    def judged(self, data, number):
        """Wants that a list is refused by this number, or accepted if the number is 0."""
        done = cppunits("dump", input=data)
        if number:
            wanted = 3, b"", b"cppunits: list refused L%d\n" % number
            self.assertEqual((done.returncode, done.stdout, done.stderr), wanted, data)
        else:
            self.assertEqual((done.returncode, done.stderr), (0, b""), data)

    def test_lists(self):
        for data in NO_TEXT:
            self.judged(data, 1)
        for number, lists in REFUSED.items():
            for text in lists.splitlines():
                self.judged(written(text), number)

    def test_names_and_folders(self):
        for name, is_file, is_folder in NAMES:
            self.judged(listed([{"name": name, "text": ""}], []), 0 if is_file else 3)
            for number, units, search in (0, [dict(UNIT, search=["inc", name])], []), (0, [UNIT], [name]):
                self.judged(listed([EMPTY_FILE], units, search=search), number if is_folder else 8)


    def test_shown_names(self):
        for shown, is_shown in SHOWN:
            number = 0 if is_shown else 11
            self.judged(listed([EMPTY_FILE], [dict(UNIT, shown=shown)]), number)
            self.judged(listed([EMPTY_FILE], [dict(UNIT, first=[{"name": "a.c", "shown": shown}])]), number)
            self.judged(listed([EMPTY_FILE], [dict(UNIT, search=["inc", {"name": "lib", "shown": shown}])]), number)
            self.judged(listed([EMPTY_FILE], [UNIT], search=[{"name": "lib", "system": True, "shown": shown}]), number)


class Output(Folder):
    def prints(self, data, wanted, *words):
        """Wants this output for a list (`dump` or `deps` is among the words), and nothing on standard error."""
        done = cppunits(*words, input=data)
        status = int("\nfault " in wanted)
        self.assertEqual((done.returncode, done.stderr), (status, b""), data)
        self.assertEqual(done.stdout.decode(), wanted, data)

    def test_tokens_and_faults(self):
        for content, more, wanted in PRINTED:
            file = {"name": "a.c", "hex": content.hex()} if isinstance(content, bytes) else {"name": "a.c", "text": content}
            self.prints(listed([file], [UNIT], **more), "unit 0 a.c\n" + wanted, "dump")

    def test_lists(self):
        for text, wanted in LISTS:
            self.prints(written(text), wanted, "dump")

    def test_workers_and_blocks(self):
        data = listed([{"name": name, "text": text} for name, text in SHARED.items()], SHARING, search=["inc"])
        for workers, block in CREWS:
            crew = "--workers", str(workers), "--block", str(block)
            self.prints(data, DUMPED, *crew, "dump")
            self.prints(data, DEPENDENCIES, *crew, "deps")

    def test_definitions_like_those_before(self):
        lists = [["N 7"], ["N 7"], ["N 8"], ["N 8", "M"], ["N 8"], ["N  8"], [], [], ["N 7"]]
        units = [dict(UNIT, define=define) for define in lists]
        wanted = ""
        for number, define in enumerate(lists):
            value = define[0].split()[1] if define else ""
            token = "65535:1:%d 0:1:1 n+ %s" % (define[0].index(value) + 9, value) if define else "0:1:1 0:1:1 i+ N"
            wanted += "unit %d a.c\ntok %s\ndep 0 a.c\nok\n" % (number, token)
        self.prints(listed([{"name": "a.c", "text": "N\n"}], units), wanted, "dump")

    def test_files_of_a_folder(self):
        write(self.top, SHARED)
        data = listed([{"name": name} for name in SHARED], SHARING, search=["inc"])
        lacking = listed([{"name": "lacking.c"}], [{"file": "lacking.c"}])
        for workers, block in CREWS:
            words = "--root", self.top, "--workers", str(workers), "--block", str(block)
            self.prints(data, DUMPED, *words, "dump")
            self.prints(data, DEPENDENCIES, *words, "deps")
            self.prints(lacking, "unit 0 lacking.c\ndep 0 lacking.c\nfault 6 0:1:1 lacking.c\n", *words, "dump")

    def test_where_include_lines_look(self):
        for names, unit, setting, lines in SEARCHED:
            for holder, asked, found in lines:
                files = [(name, "#include %s\n" % asked if name == holder else "") for name in names]
                row = names.index(holder)
                wanted = "| %d %d | ok" % (row, names.index(found)) if found else "| %d | 31 %d:1:1 %s" % (row, row, asked[1:-1])
                self.assertEqual(results(files, [{"file": holder, "search": unit}], search=setting), [wanted], (holder, asked))


class Workers(Folder):
    def threads(self, *words):
        """Returns the largest number of threads of a run that were seen at once."""
        most = 0
        with open(self.path("list.json"), "rb") as data, subprocess.Popen(
                [program(), *words, "deps"], stdin=data, stdout=subprocess.DEVNULL) as child:
            while child.poll() is None:
                try:
                    most = max(most, len(os.listdir("/proc/%d/task" % child.pid)))
                except FileNotFoundError:
                    # the run has ended
                    pass
        self.assertEqual(child.returncode, 0)
        return most

    def test_each_worker_is_a_thread(self):
        """Would find that the options for workers and blocks are exchanged, which changes no output."""
        doubling = "".join("#define A%d A%d A%d\n" % (n + 1, n, n) for n in range(15))
        write(self.top, {"list.json": listed([{"name": "a.c", "text": doubling + "A15\n"}], [UNIT] * 200)})
        more = self.threads("--workers", "9", "--block", "3") - self.threads("--workers", "3", "--block", "9")
        self.assertEqual(more, 6)


if __name__ == "__main__":
    main()
