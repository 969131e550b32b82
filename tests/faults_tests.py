#!/usr/bin/env python3
"""Tests scripts/faults.py: locations, lines, carets, include chains, both forms, colors, and the table of advice.

    tests/faults_tests.py [PROGRAM] [-k NAME]

The chains are compared with those of gcc, over random files that include each other.
"""
import io
import json
import os
import pty
import random
import re
import resource
import subprocess
import sys
import unittest

from counted import LIST, TOP, Folder, cppunits, main, missed, run, script, write

sys.path.insert(0, os.path.join(TOP, "scripts"))
import explain  # noqa: E402
import faults  # noqa: E402
from fault_texts import FAULTS, message  # noqa: E402
from tokens import tokens_of  # noqa: E402

FIRST = re.compile(r"^(.+):(\d+):(\d+): error: (.*) \[fault (\d+)\]$", re.M)


class Faults(Folder):
    def listed(self, files, units=None, inside=False, **more):
        """Returns a list over files; writes them below the directory or, with `inside`, puts their contents in the list."""
        write(self.top, {} if inside else files)
        rows = [{"name": name, "text": text} if inside else {"name": name} for name, text in files.items()]
        return dict(LIST, files=rows, units=units or [{"file": rows[0]["name"]}], **more)

    def printed(self, listed):
        """Returns what the program prints for a list."""
        words = [] if "text" in listed["files"][0] else ["--root", self.top]
        done = cppunits(*words, "faults", input=json.dumps(listed).encode())
        self.assertEqual(done.stderr, b"")
        return done.stdout

    def report(self, files, *words, status=1, **more):
        """Returns what the script prints for a list's faults."""
        listed = self.listed(files, **more)
        return self.report_of(listed, self.printed(listed), *words, status=status)

    def report_of(self, listed, output, *words, status=1, **more):
        write(self.top, {"list.json": json.dumps(listed)})
        done = script("faults.py", "list.json", *words, input=output, cwd=self.top, **more)
        self.assertEqual((done.returncode, done.stderr), (status, b""))
        return done.stdout.decode()

    def members(self, files, **more):
        return [json.loads(line) for line in self.report(files, "--format", "json", **more).splitlines()]


class Text(Faults):
    def test_all_lines(self):
        files = {"src/a.c": "int x;\n#include <low.h>\n", "inc/low.h": "\n  # include \"gone.h\"\n"}
        self.assertEqual(self.report(files, search=["inc"]), """\
In file included from src/a.c:2:
inc/low.h:2:13: error: no such file: gone.h [fault 31]
    2 |   # include "gone.h"
      |             ^
note: Give the directory that has it: by `-I` in a build's command, by `search` in a list, whose `files` name it.
""")

    def test_first_lines_are_read_as_those_of_gcc(self):
        missed("gcc")
        for text in ("#error no way\n", "int a;\n#include \"none.h\"\n", "#if 1\n#endif\n#endif\n", "#if 1/0\n#endif\n"):
            ours = FIRST.search(self.report({"a.c": text}))
            theirs = run(["gcc", "-E", "-P", "a.c"], cwd=self.top, env=dict(os.environ, LC_ALL="C")).stderr.decode()
            theirs = re.search(r"^(.+):(\d+):(\d+): (?:fatal )?error: ", theirs, re.M)
            self.assertEqual(ours.groups()[:2], theirs.groups()[:2])

    def test_a_unit_without_a_fault(self):
        self.assertEqual(self.report({"a.c": "x\n"}, status=0), "")
        self.assertEqual(self.report({"a.c": "x\n"}, "--format", "json", status=0), "")

    def test_each_unit_has_its_own(self):
        units = [{"file": "a.c"}, {"file": "b.c"}, {"file": "a.c", "define": ["X 1"]}]
        text = self.report({"a.c": "#if X\n#error first\n#endif\n", "b.c": "#error second\n"}, units=units)
        self.assertEqual([found[1:] for found in FIRST.findall(text)], [("1", "1", "#error second", "34"), ("2", "1", "#error first", "34")])

    def test_a_definition(self):
        units = [{"file": "a.c", "define": ["A 1", "B+1"]}]
        text = self.report({"a.c": ""}, units=units)
        self.assertEqual(text.splitlines()[:4], ["In unit a.c:", "<command line>:2:1: error: no white space after the macro name B [fault 12]",
                                                 "    2 | #define B+1", "      | ^"])

    def test_paths(self):
        files = {"in/src/a.c": "#error x\n"}
        listed = self.listed(files)
        output = self.printed(listed)
        write(self.top, {"in/list.json": json.dumps(listed), "in/src/list.json": json.dumps(listed), "other/list.json": json.dumps(listed)})
        for where, path in ("in", "src/a.c"), ("in/src", "a.c"), ("other", self.path("in/src/a.c")):
            done = script("faults.py", "--root", self.top, "list.json", input=output, cwd=self.path(where))
            self.assertEqual(FIRST.match(done.stdout.decode())[1], path)
            self.assertIn(b" | #error x\n", done.stdout)

    def test_contents_in_the_list(self):
        files = {"a.c": "#include \"h.h\"\n", "h.h": "#error \u00e9\n"}
        text = self.report(files, inside=True)
        self.assertIn("h.h:1:1: error: #error \u00e9 [fault 34]\n    1 | #error \u00e9\n      | ^\n", text)
        self.assertEqual(os.listdir(self.top), ["list.json"])

    def test_the_output_as_a_file(self):
        listed = self.listed({"a.c": "#error x\n"})
        write(self.top, {"out": self.printed(listed)})
        self.assertIn("a.c:1:1: error: ", self.report_of(listed, b"", "out"))


class Lines(Faults):
    def lines(self, text, **more):
        """Returns the source line and the caret's line, without what is before them."""
        lines = self.report({"a.c": text}, **more).splitlines()
        at = next(at for at, line in enumerate(lines) if FIRST.match(line))
        return [line[8:] for line in lines[at + 1:] if re.match(r" *\d* \| ", line)]

    def test_tabs_are_kept(self):
        self.assertEqual(self.lines("#define f(a) a\n\tx\tf(1, 2)\n"), ["\tx\tf(1, 2)", "\t \t^"])

    def test_letters_by_their_width(self):
        # the last one has a character two columns wide, and one that combines with another
        for before, spaces in ("\u00e9\u00e9 ", 3), ("\u6f22\u5b57 ", 5), ("e\u0301 ", 2):
            self.assertEqual(self.lines("#define f(a) a\n%sf(1, 2)\n" % before), [before + "f(1, 2)", " " * spaces + "^"])

    def test_columns_count_bytes(self):
        found = self.members({"a.c": "#define f(a) a\n\t\u00e9 f(1, 2)\n"})[0]
        self.assertEqual((found["line"], found["column"]), (2, 5))

    def test_what_a_terminal_would_obey_or_not_show(self):
        found = self.lines("#define f(a) a\n\"\x1b[2J\u202e\" f(1, 2)\n")
        self.assertEqual(found, ["\"<U+001B>[2J<U+202E>\" f(1, 2)", " " * 22 + "^"])
        self.assertIn("#error %1B[2J [fault 34]", self.report({"a.c": "#error \x1b[2J\n"}))

    def test_bytes_that_are_no_text(self):
        self.assertEqual(self.lines(b"#define f(a) a\n\xff f(1, 2)\n"), ["<FF> f(1, 2)", "     ^"])

    def test_a_byte_order_mark_and_carriage_returns(self):
        self.assertEqual(self.lines(b"\xef\xbb\xbf#error x\r\n"), ["#error x", "^"])

    def test_a_long_line_is_cut(self):
        text, caret = self.lines("#define f(a) a\n%sf(1, 2)%s\n" % ("x " * 500, " y" * 500))
        self.assertEqual((text[:3], text[-3:], len(text)), ("...", "...", 206))
        self.assertEqual(text[len(caret) - 1:].split()[0], "f(1,")

    def test_lines_that_are_joined(self):
        self.assertEqual(self.lines("x \\\n y\n /* \n */ #error z\n"), [" */ #error z", "    ^"])

    def test_a_file_that_changed_or_is_gone(self):
        listed = self.listed({"a.c": "int x;\n#error x\n"})
        output, short = self.printed(listed), ["a.c:2:1: error: #error x [fault 34]", "note: " + FAULTS[34][2]]
        for text in ("int x;\n", "int x;\nerror\n", "", "x\n\n", None):
            os.unlink(self.path("a.c"))
            write(self.top, {} if text is None else {"a.c": text})
            self.assertEqual(self.report_of(listed, output).splitlines(), short)
            write(self.top, {"a.c": ""})
        os.unlink(self.path("a.c"))
        os.mkfifo(self.path("a.c"))
        self.assertEqual(self.report_of(listed, output).splitlines(), short)


class Chains(Faults):
    def chain(self, files, **more):
        found = self.members(files, inside=True, **more)[0]["chain"]
        return None if found is None else [(place["path"], place["line"]) for place in found]

    def test_the_text_of_a_chain(self):
        text = self.report({"a.c": "\n#include \"b.h\"\n", "b.h": "#include \"c.h\"\n", "c.h": "\n\n#include \"d.h\"\n", "d.h": "#error x\n"})
        self.assertTrue(text.startswith("In file included from c.h:3,\n                 from b.h:1,\n                 from a.c:2:\nd.h:1:1: "))

    def test_a_guarded_header_that_many_include(self):
        guarded = "#ifndef %s\n#define %s\n%s#endif\n"
        files = {"a.c": "#include \"x.h\"\n#include \"y.h\"\n#include \"base.h\"\n", "x.h": guarded % ("X", "X", "int x;\n"),
                 "y.h": guarded % ("Y", "Y", "#include \"base.h\"\n"), "base.h": guarded % ("B", "B", "#include \"x.h\"\n#error\n")}
        self.assertEqual(self.chain(files), [("y.h", 3), ("a.c", 2)])

    def test_lines_that_open_the_same_files(self):
        files = {"a.c": "#ifdef A\n#include \"h.h\"\n#else\n#include \"h.h\"\n#endif\n", "h.h": "#error x\n"}
        self.assertEqual(self.chain(files), [("a.c", 4)])
        self.assertEqual(self.chain(files, units=[{"file": "a.c", "define": ["A"]}]), [("a.c", 2)])

    def test_definitions_count(self):
        files = {"a.c": "#include \"h.h\"\n#include \"k.h\"\n", "h.h": "#ifndef G\n#define G\n#include \"k.h\"\n#endif\n",
                 "k.h": "#define N 1\n#error x\n"}
        self.assertEqual(self.chain(files, units=[{"file": "a.c", "define": ["N 1"]}]), [("h.h", 3), ("a.c", 1)])
        # if the guard is defined from the beginning, h.h does nothing
        self.assertEqual(self.chain(files, units=[{"file": "a.c", "define": ["G"]}]), [("a.c", 2)])

    def test_a_guard_with_a_second_branch(self):
        """Reads a file like gcc's limits.h: if it is opened again, it goes on after #else."""
        files = {"a.c": "#include <limits.h>\n", "one/limits.h": "#ifndef G\n#define G\n#include \"again.h\"\n#else\n#include_next <limits.h>\n#endif\n",
                 "one/again.h": "#include_next <limits.h>\n", "two/limits.h": "#error x\n"}
        above = [("one/limits.h", 5), ("one/again.h", 1), ("one/limits.h", 3), ("a.c", 1)]
        self.assertEqual(self.chain(files, search=["one", "two"], profile="gnu"), above)

    def test_trigraphs(self):
        """Wants the line above a comment's `??/` in the profile gnu alone, where it splices nothing."""
        files = {"a.c": "// a ??/\n#include \"h.h\"\n#include \"h.h\"\n", "h.h": "#ifndef H\n#define H\n#error x\n#endif\n"}
        for profile, line in ("gnu", 2), ("later", 3), ("c11", 3):
            self.assertEqual(self.chain(files, profile=profile), [("a.c", line)])

    def test_many_files_take_no_long_time(self):
        """Wants this also for a macro that any of the files may define."""
        files = {"a.c": "".join("#ifndef X\n#include \"%d.h\"\n#endif\n" % n for n in range(1000)), "999.h": "#define f(a) a\nf(1, 2)\n"}
        files = {**{"%d.h" % n: "#if X\n#include \"%d.h\"\n#include \"%d.h\"\n#endif\n" % (n * 7 % 1000, n) for n in range(999)}, **files}
        began = seconds()
        self.assertEqual(self.chain(files, units=[{"file": "a.c"}]), [("a.c", 2999)])
        self.assertLess(seconds() - began, 10)

    def test_names_that_macros_make_and_next_files(self):
        files = {"a.c": "#define H <h.h>\n#include H\n", "one/h.h": "#ifndef O\n#define O\n#include_next <h.h>\n#endif\n",
                 "two/h.h": "#error x\n"}
        self.assertEqual(self.chain(files, search=["one", "two"], profile="gnu"), [("one/h.h", 3), ("a.c", 2)])

    def test_a_file_of_which_nothing_is_processed(self):
        """Wants the unit instead of the include lines, and none of them above a fault of the unit's own file."""
        files = {"a.c": "#include \"g.h\"\n", "g.h": "#include \"h.h\"\n", "h.h": "#include \"k.h\"\n#if 1\n", "k.h": ""}
        self.assertIsNone(self.chain(files))
        self.assertTrue(self.report(files, inside=True).startswith("In unit a.c:\nh.h:2:1: error: unterminated #if"))
        self.assertEqual(self.chain({"a.c": "#include \"k.h\"\n#if 1\n", "k.h": ""}), [])

    def test_a_file_that_is_gone(self):
        listed = self.listed({"a.c": "#include \"b.h\"\n", "b.h": "#include \"c.h\"\n", "c.h": ""})
        os.unlink(self.path("c.h"))
        text = self.report_of(listed, self.printed(listed))
        self.assertTrue(text.startswith("In file included from a.c:1:\nb.h:1:1: error: the file can't be read: c.h [fault 6]\n    1 | #inc"), text)

    def test_includes_without_an_end(self):
        self.assertEqual(self.chain({"a.c": "#include \"a.c\"\n"}), [("a.c", 1)] * 200)

    def test_files_that_are_read_first(self):
        files = {"src/a.c": "#include \"k.h\"\n", "src/k.h": "#error k\n", "first.h": "#ifdef F\n#error first\n#endif\n", "more.h": "#include \"first.h\"\n"}
        units = [{"file": "src/a.c", "define": define, "first": first}
                 for define, first in (([], ["first.h"]), (["F"], ["first.h"]), (["F", "G"], [{"name": "more.h", "system": True}]))]
        found = self.members(files, inside=True, units=units)
        chains = [[(place["path"], place["line"]) for place in one["chain"]] for one in found]
        self.assertEqual(chains, [[("src/a.c", 1)], [("<command line>", 2)]])
        self.assertEqual([(one["source"], one["units"]) for one in found], [("src/a.c", 1), ("src/a.c", 2)])
        text = self.report(files, inside=True, units=units[2:])
        self.assertTrue(text.startswith("In unit src/a.c:\nIn file included from more.h:1,\n                 from <command line>:3:\nfirst.h:2:1: "), text)

    def test_a_file_that_is_read_first_and_gone(self):
        listed = self.listed({"a.c": "", "b.h": ""}, units=[{"file": "a.c", "define": ["X"], "first": ["b.h"]}])
        os.unlink(self.path("b.h"))
        text = self.report_of(listed, self.printed(listed))
        self.assertTrue(text.startswith("In unit a.c:\n<command line>:2:1: error: the file can't be read: b.h [fault 6]\n    2 | #include \"b.h\"\n"), text)

    def test_by_gcc_over_files_at_random(self):
        missed("gcc")
        count = 0
        for seed in range(60):
            files = at_random(random.Random(seed))
            listed = self.listed(files, inside=True, profile="gnu")
            output, to = self.printed(listed), io.StringIO()
            if faults.print_faults(listed, io.BytesIO(output), ".", to, form="json"):
                self.compare(files, json.loads(to.getvalue()))
                count += 1
        self.assertGreater(count, 5)

    def compare(self, files, found):
        """Wants that the chain is gcc's."""
        write(self.top, files)
        done = run(["gcc", "-E", "-P", "a.c"], cwd=self.top, env=dict(os.environ, LC_ALL="C"))
        head = done.stderr.decode().split(": error: ")[0]
        above = re.findall(r"from ([\w.]+):(\d+)[,:]", head)
        self.assertEqual(head.split("\n")[-1].split(":")[:2], [found["path"], str(found["line"])])
        self.assertEqual([(place["path"], str(place["line"])) for place in found["chain"]], above, files)


def seconds():
    """Returns the processor seconds of all commands so far: they depend less on what else the machine does."""
    return resource.getrusage(resource.RUSAGE_CHILDREN).ru_utime


def at_random(choice):
    """Returns files that include later ones, some of them guarded, with an error somewhere at the end."""
    count = choice.randint(3, 8)
    names, files = ["a.c"] + ["h%d.h" % at for at in range(1, count)], {}
    for at, name in enumerate(names):
        lines = []
        for _ in range(choice.randint(1, 4)):
            include = "#include \"%s\"" % choice.choice(names[at + 1:]) if at < count - 1 else "int x;"
            asked = "#ifdef X%d" % choice.randint(0, 2)
            lines += choice.choice([[include], [include], [asked, include, "#endif"], ["#define X%d" % choice.randint(0, 2)],
                                    [asked, "#error x", "#endif"], ["#if 0 /*", "*/", include, "#endif"]])
        if at and choice.random() < 0.8:
            lines = ["#ifndef G%d" % at, "#define G%d" % at, *lines, "#endif"]
        files[name] = "\n".join(lines) + ("\n#error last\n" if at == count - 1 else "\n")
    return files


class Explained(Faults):
    """Tests what is said of a fault beyond its number and text."""

    def told(self, text, number, profile="c11", **more):
        """Returns the object of the fault of a file, which must have this number."""
        found, = self.members({"a.c": text}, profile=profile, **more)
        self.assertEqual(found["number"], number, text)
        return found

    # number, text, line and column
    PLACES = (
        (24, "#if 08\n#endif\n", 1, 5), (24, "#if 1 && \\\n  0x1g\n#endif\n", 2, 3),
        (24, "#if 0\n#elif /* 08 */ (1 + 08)\n#endif\n", 2, 21), (24, "int a;\n#if /*\n*/ 1 + 08\n#endif\n", 3, 8),
        (24, "#define N 08\n  #if N\n#endif\n", 2, 3), (25, "#if 'a' == 'ab'\n#endif\n", 1, 12),
        (25, "#define C 'ab'\n#if C\n#endif\n", 2, 1), (31, "  #  include <x.h>\n", 1, 14),
        (31, "#include \\\r\n\"x.h\" /* */\r\n", 2, 1), (31, "\ufeff#include/**/\"x.h\"\n", 1, 13),
        (31, "#define X <x.h>\n#include X\n", 2, 1), (18, "#define f(a) a\nx f(1, 2)\n", 2, 3),
        (19, "#define f(a) a ## -\nx f(+)\n", 2, 3), (20, "#define f(a) #a\nx f(\\)\n", 2, 3),
        (23, " #if =\n#endif\n", 1, 2), (26, "#if 1 / 0\n#endif\n", 1, 1))

    def test_places(self):
        for number, text, line, column in self.PLACES:
            found = self.told(text, number)
            self.assertEqual((found["line"], found["column"]), (line, column), text)

    def test_lines_of_the_places(self):
        text = self.report({"a.c": "#if 1 && \\\n  0x1g\n#endif\n"})
        self.assertIn("a.c:2:3: error: 0x1g is no integer constant, or fits no type [fault 24]\n    2 |   0x1g\n      |   ^\n", text)

    def test_places_are_those_of_gcc(self):
        missed("gcc")
        for number, text, *_ in self.PLACES:
            if number in (24, 25, 31) and "#define" not in text and "\ufeff" not in text:
                found = self.told(text, number)
                write(self.top, {"a.c": text})
                said = run(["gcc", "-E", "-P", "a.c"], cwd=self.top, env=dict(os.environ, LC_ALL="C")).stderr.decode()
                theirs = re.search(r"^a.c:(\d+):(\d+): ", said, re.M)
                self.assertEqual(theirs.groups(), (str(found["line"]), str(found["column"])), text)

    CONDITIONS = (
        ("A = 1", "'=' is no operator"), ("", "missing operand"), ("1 +", "missing operand after '+'"), ("(1", "missing ')'"),
        ("== 1", "missing operand before '=='"), ("1)", "')' without '('"), ("()", "missing operand before ')'"),
        ("1 2", "missing operator before '2'"), ("(int) 1", "missing operator before '1'"), ("1 (2)", "missing operator before '('"),
        ("F(1)", "there is no function-like macro F"), ("\"a\"", "a string literal is no operand"), ("1 ? 2", "'?' without ':'"),
        ("(1 ? 2)", "'?' without ':'"), ("1 : 2", "':' without '?'"), ("1 , 2", "',' is no operator"), ("++1", "'++' is no operator"),
        ("defined X = defined ( Y )", "'=' is no operator"), ("1 \\\n /*\n*/ +", "missing operand after '+'"))

    def test_conditions(self):
        for line, reason in self.CONDITIONS:
            self.assertEqual(self.told("#if 0\n#elif %s\n#endif\n" % line, 23)["message"], "%s: %s" % (FAULTS[23][0], reason))
        found = self.told("#if __has_include(<x.h>) = 1\n#endif\n", 23, "gnu")["message"]
        self.assertEqual(found, FAULTS[23][0] + ": '=' is no operator")

    # a definition, a condition, and what is said; nothing is said if it isn't known what the macros stand for
    WITH_MACROS = (
        ("X", "X == 1", ": missing operand before '=='; X is empty"), ("X", "1 && X", ": missing operand after '&&'; X is empty"),
        ("X 3", "X = 1", ": '=' is no operator"), ("X 1 +", "X", ": missing operand after '+'"), ("X Y", "X = 1", ": '=' is no operator"),
        ("X \\\n 1 2", "X", ": missing operator before '2'"), ("/**/ X \"a\"", "X", ": a string literal is no operand"),
        ("F F", "F(1)", ": there is no function-like macro F"),
        ("__has_include __has_include", "__has_include (<x>)", ": there is no function-like macro __has_include; the profile gnu has it"),
        ("X Y\n#define Y 1", "X = 1", ""), ("X =", "1 X 2", ""), ("X(a) = a", "X(1)", ""), ("X(a)", "X(=)", ""), ("Y 1", "__FILE__", ""))

    def test_conditions_with_macros(self):
        for define, line, more in self.WITH_MACROS:
            found = self.told("#define %s\n#if %s\n#endif\n" % (define, line), 23)
            self.assertEqual(found["message"], FAULTS[23][0] + more, (define, line))
        units = [{"file": "a.c", "define": ["X", "F(a) a ="]}]
        self.assertTrue(self.told("#if X\n#endif\n", 23, units=units)["message"].endswith(": missing operand; X is empty"))
        self.assertEqual(self.told("#if F(1)\n#endif\n", 23, units=units)["message"], FAULTS[23][0])
        # there are two ways to read it, which lack different things
        found = self.told("#define X +\n#undef X\n#define X\n#if X == 1\n#endif\n", 23)
        self.assertEqual(found["message"], FAULTS[23][0])

    def test_conditions_at_random(self):
        """Wants a reason for each condition that the program refuses by fault 23, and none for those that it evaluates."""
        choice, signs = random.Random(74), "1 2 'a' X ( ( ) ) + - ! ~ * << == && || ? : , = \"s\" ++ #".split()
        lines = [" ".join(choice.choice(signs[:16] if at % 2 else signs) for _ in range(choice.randint(0, 7))) for at in range(4000)]
        operands = "1", "X", "- 2", "( 1 )"
        lines += ["%s %s %s" % (one, sign, other) for one in operands for sign in signs for other in operands]
        files = {"%d.c" % at: "#if %s\n#endif\n" % line for at, line in enumerate(lines)}
        listed = self.listed(files, [{"file": name} for name in files], inside=True)
        counts = [0, 0]
        for line, last in zip(lines, re.findall(rb"^(ok|fault \d+) ?.*$", self.printed(listed), re.M)):
            found = explain.condition(tokens_of(b"#if " + line.encode()), lambda name: [], "c11")
            if last in (b"ok", b"fault 23"):
                self.assertEqual(found is None, last == b"ok", line)
                counts[last == b"ok"] += 1
        self.assertGreater(min(counts), 100)

    # parameters, arguments, profile, and how many are given and wanted
    ARGUMENTS = (
        ("a", "(1, 2)", "c11", 2, "1"), ("", "(1)", "c11", 1, "0"), ("a, b", "()", "c11", 1, "2"), ("a, b", "((1, 2))", "c11", 1, "2"),
        ("a,\\\nb", "\n( 1,\n2 /* , */,\n\",\", ',')", "c11", 4, "2"), ("a, ...", "(1)", "c11", 1, "at least 2"),
        ("a, b, ...", "(1)", "gnu", 1, "at least 2"), ("a, b, c...", "(1)", "gnu", 1, "at least 2"))

    def test_arguments(self):
        for parameters, use, profile, given, wanted in self.ARGUMENTS:
            found = self.told("#define f(%s) x\nf%s\n" % (parameters, use), 18, profile)
            self.assertEqual(found["message"], "wrong number of arguments of macro f: %d given, %s wanted" % (given, wanted), use)
            self.assertEqual(found["definition"], {"path": "a.c", "line": 1, "column": 9})

    def test_arguments_that_are_not_certain(self):
        plain = message(18, "f")
        for text in ("#define f(a) a\n#define g f(1, 2)\ng\n", "#define f(a) a\n#undef f\n#define f(a, b) a\nf(1, 2, 3)\n",
                     "#define f(a) a\n#define h(a) f a\nh((1, 2))\n"):
            found = self.told(text, 18, "gnu")
            self.assertEqual((found["message"], found["definition"]), (plain, None), text)
        # a definition that takes what was given isn't the one
        found = self.told("#define f(a, b) a\n#undef f\n#define f(a) a\nf(1, 2)\n", 18)
        self.assertEqual((found["message"], found["definition"]["line"]), (plain + ": 2 given, 1 wanted", 3))
        # two definitions refuse it in the same way
        found = self.told("#define f(a) a\n#undef f\n#define f(a) b\nf(1, 2)\n", 18)
        self.assertEqual((found["message"], found["definition"]), (plain + ": 2 given, 1 wanted", None))

    def test_where_a_macro_is_defined(self):
        files = {"a.c": "#include \"h.h\"\nf(1, 2)\n", "h.h": "\n # /**/ define f(a) a\n"}
        self.assertTrue(self.report(files).endswith("      | ^\nh.h:2:16: note: macro f is defined here\nnote: " + FAULTS[18][2] + "\n"))
        units = [{"file": "a.c", "define": ["g", "f(a) a"]}]
        self.assertIn("\n<command line>:2:1: note: macro f is defined here\n", self.report({"a.c": "f(1, 2)\n"}, units=units))

    WORDS = (
        ("inclde", "c11", "; did you mean #include?"), ("elseif", "gnu", "; did you mean #elif?"), ("edif", "c11", "; did you mean #endif?"),
        ("warnin", "c11", ""), ("warnin", "gnu", "; did you mean #warning?"), ("warning", "c11", "; the profile gnu has it"),
        ("include_next", "later", "; the profile gnu has it"), ("elifdef", "c11", "; the profile later has it"), ("foo", "gnu", ""), ("1", "c11", ""))

    def test_directives(self):
        for word, profile, more in self.WORDS:
            self.assertEqual(self.told("#if 1\n#%s\n#endif\n" % word, 8, profile)["message"], message(8, word) + more)

    def test_definitions_in_files_that_a_unit_opened(self):
        """Wants a definition to be certain if another is in a file that the unit didn't open, and this is known."""
        files = {"a.c": "#include \"h.h\"\nf(1, 2)\n", "h.h": "#define f(a) a\n", "b.c": "#define f(a, b, c) a\n"}
        listed = self.listed(files)
        output, deps = self.printed(listed), cppunits("--root", self.top, "deps", input=json.dumps(listed).encode()).stdout
        write(self.top, {"deps": deps})
        self.assertNotIn("is defined here", self.report_of(listed, output))
        self.assertIn("\nh.h:1:9: note: macro f is defined here\n", self.report_of(listed, output, "--deps", "deps"))

    def test_names_of_directives_are_those_of_the_program(self):
        """Wants that the program knows each directive that may be suggested."""
        for profile, names in explain.DIRECTIVES.items():
            files = {name + ".c": "#if 1\n#%s\n#endif\n" % name for name in names}
            listed = self.listed(files, [{"file": name} for name in files], inside=True, profile=profile)
            self.assertNotIn(b"\nfault 8 ", self.printed(listed))

    def test_one_report_for_a_place(self):
        include = "#include \"h.h\"\n"
        files = {"a.c": include, "b.c": include, "c.c": "#if X\n%s#endif\n" % include, "h.h": "int a;\n#error stop\n"}
        units = [{"file": name + ".c", "define": define} for name, *define in (
            ("c",), ("b",), ("a",), ("c", "X 1"), ("c", "X+1"), ("a", "Y 1", "X+1"), ("c", "X+1"))]
        found = self.members(files, units=units)
        self.assertEqual([(one["path"], one["line"], one["number"], one["unit"], one["source"], one["units"]) for one in found],
                         [("h.h", 2, 34, 1, "b.c", 3), ("<command line>", 1, 12, 4, "c.c", 2), ("<command line>", 2, 12, 5, "a.c", 1)])
        text = self.report(files, units=units)
        wanted = ["In file included from b.c:1:", "h.h:2:1: error: #error stop [fault 34]", "    2 | #error stop", "      | ^",
                  "note: 3 units end here, the first is b.c", "note: " + FAULTS[34][2], "In unit c.c:"]
        self.assertEqual(text.splitlines()[:7], wanted)
        self.assertEqual(text.count("units end here"), 2)

    def test_a_file_that_changed(self):
        """Wants the fault's own place and message if the line isn't there any more."""
        files = {"a.c": "#define f(a) a\nf(1, 2)\n", "b.c": "#if 08\n#endif\n", "c.c": "#if A = 1\n#endif\n"}
        listed = self.listed(files, [{"file": name} for name in files])
        output = self.printed(listed)
        for text in ("", "\n\n\n", "#define f(a, b) a\nf(1, 2)\n#if 1\n", "#if", "/*", "\"", "\\"):
            write(self.top, {name: text for name in ("a.c", "b.c", "c.c")})
            found = self.report_of(listed, output)
            places = [one[1:3] + one[4:] for one in FIRST.findall(found)]
            self.assertEqual(places, [("2", "1", "18"), ("1", "1", "24"), ("1", "1", "23")], text)
            self.assertIn("error: " + message(18, "f") + " [", found)


class Forms(Faults):
    def test_an_object_for_each_fault(self):
        files = {"a.c": "#include \"b.h\"\n", "b.h": "#undef\n"}
        self.assertEqual(self.members(files), [{
            "path": "b.h", "line": 1, "column": 1, "number": 9, "message": "malformed #undef: one name is expected",
            "advice": "Write the name, and remove what follows it.", "text": "undef", "unit": 0, "source": "a.c", "units": 1,
            "definition": None, "chain": [{"path": "a.c", "line": 1}]}])

    def test_colors(self):
        listed = self.listed({"a.c": "#error x\n"})
        output = self.printed(listed)
        plain = self.report_of(listed, output)
        colored = self.report_of(listed, output, "--color", "always")
        self.assertNotIn("\33", plain + self.report_of(listed, output, "--color", "never"))
        self.assertTrue(colored.startswith("\33[1ma.c:1:1:\33[0m \33[1;31merror:\33[0m #error x"))
        self.assertEqual(re.sub("\33\\[[0-9;]*m", "", colored), plain)

    def test_colors_on_a_terminal_alone(self):
        listed = self.listed({"a.c": "#error x\n"})
        write(self.top, {"list.json": json.dumps(listed), "out": self.printed(listed)})
        command = [sys.executable, os.path.join(TOP, "scripts", "faults.py"), "list.json", "out"]
        for change, wanted in ({"TERM": "xterm"}, True), ({"TERM": "dumb"}, False), ({"TERM": "xterm", "NO_COLOR": "1"}, False):
            environment = {name: value for name, value in os.environ.items() if name != "NO_COLOR"}
            ours, theirs = pty.openpty()
            done = subprocess.run(command, cwd=self.top, stdout=theirs, env={**environment, **change})
            os.close(theirs)
            found = os.read(ours, 65536)
            os.close(ours)
            self.assertEqual((done.returncode, b"\33[1m" in found), (1, wanted))

    def test_any_encoding_of_the_output(self):
        listed = self.listed({"a.c": "#error \u00e9\n"})
        environment = dict(os.environ, PYTHONIOENCODING="ascii")
        self.assertIn("#error \u00e9", self.report_of(listed, self.printed(listed), env=environment))


class Refusals(Faults):
    def test_what_is_wrong_is_said_in_a_line(self):
        good = json.dumps(self.listed({"a.c": "#error x\n"}))
        unit = "unit 0 a.c\n"
        write(self.top, {"list": good, "none": "{}", "odd": '{"files":[{"name":1}],"units":[]}', "word": '{"files":[],"units":["a.c"]}',
                         "search": '{"files":[],"units":[],"search":3}', "define": '{"files":[],"units":[{"file":"a","define":[1]}]}',
                         "good": unit + "fault 34 0:1:1 x\n", "cut": unit, "row": unit + "fault 34 1:1:1 x\n",
                         "other": "unit 0 b.c\nfault 34 0:1:1 x\n", "dep": unit + "dep 0 a.c\nfault 34 0:1:1 x\n",
                         "far": unit + "in %s:1:1\nfault 34 0:1:1 x\n" % ("9" * 5000), "above": unit + "in 1:1:1\nfault 34 0:1:1 x\n",
                         "first": '{"files":[],"units":[{"file":"a","first":[{"shown":"a"}]}]}', "words": unit + "fault x\n",
                         "long": unit + "fault 34 0:%s:1 x\n" % ("9" * 5000), "text": "words\n"})
        write(self.top, {"macro": unit + "fault 23 0:1:1\n", "deps": "unit 0 a.c\ndep 0 b.c\nok\n", "deps2": "unit 0 a.c\ndep 1 a.c\nok\n"})
        cases = [(listed, "good", 3) for listed in ("none", "odd", "word", "search", "define", "first", "text")]
        cases += [("list", output, 3) for output in ("cut", "row", "other", "dep", "far", "above", "words", "long", "text")]
        cases += [("list", "macro", "--deps", name, 3) for name in ("deps", "deps2", "cut")] + [("list", "macro", "--deps", "absent", 5)]
        cases += [("list", "absent", 5), ("absent", "good", 5), ("-", "-", 2), ("list", "-", "--deps", "-", 2), ("--color", "blue", 2), ("--format", "xml", 2)]
        for *words, status in cases:
            done = script("faults.py", *words, cwd=self.top, stdin=subprocess.DEVNULL)
            found = done.returncode, done.stderr.count(b"\n"), done.stdout
            self.assertEqual(found, (status, 1, b""), (words, done.stderr))
            self.assertTrue(done.stderr.startswith(b"faults.py: "), done.stderr)

    def test_places_that_are_nowhere(self):
        listed = self.listed({"a.c": "#error x\n"})
        for place in ("0:9:1", "0:1:99", "0:0:1", "65535:1:1"):
            text = self.report_of(listed, b"unit 0 a.c\nfault 34 %s x\n" % place.encode())
            self.assertEqual(len(FIRST.findall(text)), 1)
            self.assertNotIn(" | ", text)

    def test_a_number_that_is_not_known(self):
        text = self.report_of(self.listed({"a.c": "#error x\n"}), b"unit 0 a.c\nfault 99 0:1:1 x\n")
        self.assertEqual(text, "a.c:1:1: error: x [fault 99]\n    1 | #error x\n      | ^\n")

    def test_help(self):
        done = script("faults.py", "--help")
        self.assertEqual((done.returncode, done.stderr), (0, b""))
        self.assertIn(b"status:\n  0  done\n", done.stdout)
        self.assertIn(b"Example:", done.stdout)


class Table(unittest.TestCase):
    def test_numbers_and_advices_are_those_of_the_document(self):
        with open(os.path.join(TOP, "docs", "FAULTS.md")) as file:
            parts = re.split(r"^### Fault (\d+): ", file.read().split("\n## Refusals")[0], flags=re.M)[1:]
        lines = {int(number): " ".join(part.split("*Remedy:* ")[1].split()) for number, part in zip(parts[::2], parts[1::2])}
        self.assertEqual(list(lines), list(FAULTS))
        for number, (with_text, without, advice) in FAULTS.items():
            self.assertTrue(lines[number].startswith(advice), number)
            self.assertEqual("%s" in with_text, without is not None, number)
            self.assertNotIn("%s", message(number, "text") + message(number, ""))

    def test_each_example_of_the_document_is_told(self):
        with open(os.path.join(TOP, "docs", "FAULTS.md")) as file:
            found = re.findall(r"^```json\n(.*)\n```\n\n`cppunits dump` prints.*\n\n```\n((?:.*\n)*?fault .*\n)```", file.read(), re.M)
        self.assertGreater(len(found), 30)
        for listed, output in found:
            to = io.StringIO()
            printed = re.sub(r"^(?:tok|prag|ptok|dep) .*\n", "", output, flags=re.M)
            faults.print_faults(json.loads(listed), io.BytesIO(printed.encode()), ".", to)
            number = re.search(r"^fault (\d+) ", output, re.M)[1]
            self.assertEqual(FIRST.search(to.getvalue())[5], number)
            # the line is there, but a file can't be read
            self.assertEqual(" | " in to.getvalue(), number not in ("6", "35"), to.getvalue())


if __name__ == "__main__":
    main()
