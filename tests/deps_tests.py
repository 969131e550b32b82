#!/usr/bin/env python3
"""Tests `build.py deps`: where dependency files are, their names, JSON and rules, what a further run does, and builds that take them.

    tests/deps_tests.py [PROGRAM] [-k NAME]

Names are compared with those of the machine's gcc and clang.  ninja and make build a copy of examples/demo with the files.
"""
import json
import os
import shutil
import sys
import time
import unittest

from build_tests import BUILD, Builds, names_of
from counted import TOP, Folder, main, missed, program, run, well, write

# a program that records the units of each run
RECORDING = """#!/bin/sh
cat > %(top)s/given
echo $(grep -o '"file":"[^"]*' %(top)s/given | sed 's/.*"//; s,.*/,,') >> %(top)s/runs
exec '%(program)s' "$@" < %(top)s/given
"""


class Dependencies(Builds):
    """Makes a build, and reads what `build.py deps` makes of it."""

    def setUp(self):
        super().setUp()
        self.compiler("bin/gcc")
        write(self.top, {"a.c": '#include "h.h"\n', "h.h": "", "b.c": ""})

    def read(self, name):
        with open(self.path(name)) as file:
            return file.read()

    def found(self):
        """Returns the names of the files that weren't there before, but for the one of what was seen."""
        known = {"a.c", "b.c", "h.h", "compile_commands.json", "compile_commands.json.seen", "asked"}
        names = [os.path.relpath(os.path.join(folder, name), self.top) for folder, _, names in os.walk(self.top) for name in names]
        return sorted(name for name in names if name not in known and not name.startswith(("bin/", "sys/", "tmp/")))

    def clear(self):
        for name in self.found():
            os.unlink(self.path(name))


class Places(Dependencies):
    def test_each_file_is_where_its_command_wants_it(self):
        """Wants gcc's places and targets for -o, -MF, -MD, -MT and -MQ, and otherwise OBJECT.d beside the object."""
        for options, name, target in (
                ("", "a.o.d", "a.o"), ("-o x.o", "x.o.d", "x.o"), ("-o sub/x.obj", "sub/x.obj.d", "sub/x.obj"), ("-osub/x", "sub/x.d", "sub/x"),
                ("-MD -o sub/x.y.o", "sub/x.y.d", "sub/x.y.o"), ("-MMD", "a.d", "a.o"), ("-MD -MF q -o x.o", "q", "x.o"),
                ("-MFsub/q.d", "sub/q.d", "a.o"), ("-MF p.d -MF q.d", "q.d", "a.o"), ("-MF -", "a.o.d", "a.o"), ("-MD -MF ''", "a.d", "a.o"),
                ("-Wp,-MMD,sub/.x.o.d -o sub/x.o", "sub/.x.o.d", "sub/x.o"), ("-Wp,-MD,q.d,-MT,t", "q.d", "t"),
                ("-MT t -o x.o", "x.o.d", "t"), ("'-MTt $(u)' -MQ 'v$ w'", "a.o.d", "t $(u) v$$\\ w"), ("-o 'x y$.o'", "x y$.o.d", "x\\ y$$.o"),
                ("-o -", "a.o.d", "a.o"), ("-o %s/out/x.o" % self.top, "out/x.o.d", self.path("out/x.o"))):
            with self.subTest(options):
                self.build("deps", ["gcc %s -c a.c" % options])
                self.assertEqual(self.found(), [name])
                self.assertEqual(self.read(name), target + ": \\\n  a.c \\\n  h.h\n")
                self.clear()

    def test_rules_for_headers(self):
        for options, words in ("-MP", []), ("", ["--phony"]), ("-MP", ["--phony"]):
            self.build("deps", ["gcc %s -c a.c" % options, ("gcc -c b.c", "b.c")], *words)
            self.assertEqual((self.read("a.o.d"), self.read("b.o.d")), ("a.o: \\\n  a.c \\\n  h.h\nh.h:\n", "b.o: \\\n  b.c\n"))

    def test_the_output_of_an_entry(self):
        """Wants the object of the entry's `output` if the command has no -o."""
        entry = {"directory": self.top, "file": "a.c", "output": "out/y.o"}
        for command, name, target in ("gcc -c a.c", "out/y.o.d", "out/y.o"), ("gcc -o z.o -c a.c", "z.o.d", "z.o"):
            write(self.top, {"c.json": json.dumps([{**entry, "command": command}])})
            well(self.words("deps", "c.json"), cwd=self.top, env=self.environment())
            self.assertTrue(self.read(name).startswith(target + ":"))

    def test_below_a_directory_by_the_objects_whole_name(self):
        """Wants no prefix cut off, names in a further directory below it, and absolute names from the root."""
        write(self.top, {"sub/b.c": ""})
        entries = [{"directory": self.top, "file": "a.c", "command": "gcc -o src/deep/a.o -MD -MF a.d -c a.c"},
                   {"directory": self.path("sub"), "file": "b.c", "command": "gcc -c b.c"},
                   {"directory": self.top, "file": "b.c", "command": "gcc -c b.c"},
                   {"directory": self.path("sub"), "file": "b.c", "command": "gcc -o ../../../over.o -c b.c"},
                   {"directory": self.top, "file": "a.c", "command": "gcc -o %s -c a.c" % self.path("out/a.o")}]
        write(self.top, {"c.json": json.dumps(entries)})
        well(self.words("deps", "--into", "d", "c.json"), cwd=self.top, env=self.environment())
        over = os.path.normpath(self.path("sub/../../../over.o"))
        wanted = ["d" + self.path("out/a.o.d"), "d/b.o.d", "d/c.json.seen", "d/src/deep/a.o.d", "d/sub/b.o.d", "d" + over + ".d"]
        self.assertEqual([name for name in self.found() if name.startswith("d/")], sorted(wanted))

    def test_no_two_commands_share_a_file(self):
        """Wants a number in the name of the second, and says so; it is status 1 if the command asks for the name."""
        both = [("gcc -o x.o -c a.c", "a.c"), ("gcc -o x.o -c b.c", "b.c"), ("gcc -o ./x.o -DX -c b.c", "b.c")]
        messages = self.build("deps", both)[1]
        self.assertEqual(self.found(), ["x.o.1.d", "x.o.2.d", "x.o.d"])
        self.assertEqual([self.read(name).split()[2] for name in ("x.o.d", "x.o.1.d", "x.o.2.d")], ["a.c", "b.c", "b.c"])
        self.assertEqual(messages[0], "build.py: %s: %s is that of another command, so its .d file is %s"
                         % tuple(map(self.path, ("b.c", "x.o.d", "x.o.1.d"))))
        self.clear()
        os.symlink(self.top, self.path("here"))
        messages = self.build("deps", ["gcc -MF q -c a.c", ("gcc -MF here/q -c b.c", "b.c")], status=1)[1]
        self.assertEqual((self.found(), len(messages)), (["q", "q.1.d"], 2))
        os.unlink(self.path("here"))
        self.clear()
        self.build("deps", both, "--into", "d")
        self.assertEqual(self.found(), ["d/compile_commands.json.seen", "d/x.o.1.d", "d/x.o.2.d", "d/x.o.d"])

    def test_a_fault_removes_the_old_file(self):
        both = ["gcc -o x.o -c a.c", ("gcc -MF y.d -c b.c", "b.c")]
        for words, names in ([], ["x.o.d", "y.d"]), (["--into", "d"], ["d/b.o.d", "d/x.o.d"]):
            self.build("deps", both, *words)
            self.assertEqual([name for name in self.found() if not name.endswith(".seen")], names)
            write(self.top, {"h.h": "#error no\n"})
            messages = self.build("deps", both, *words, status=1)[1]
            self.assertEqual(messages[0], "build.py: %s: fault 34 (`build.py faults` says more)" % self.path("a.c"))
            self.assertEqual([name for name in self.found() if not name.endswith(".seen")], [name for name in names if "x" not in name])
            write(self.top, {"h.h": ""})
            self.clear()

    def test_a_rule_that_can_not_be_written(self):
        """Wants a report, no old file, and the files of the others."""
        both = ["gcc -o x.o -c a.c", ("gcc -c b.c", "b.c")]
        self.build("deps", both)
        write(self.top, {"a.c": '#include "a|b.h"\n', "a|b.h": ""})
        messages = self.build("deps", both, status=1)[1]
        self.assertEqual((self.found(), messages[0]),
                         (["a|b.h", "b.o.d"], "build.py: %s: the name a|b.h can't be written so that ninja and make read it" % self.path("a.c")))
        write(self.top, {"a.c": ""})
        for option in ["-MT", "t\nall: x"], ["-MQ", "a\tb"], ["-o", "x\0.o"], ["-MF", "q\n.d"], ["-MF", "\0"]:
            messages = self.build("deps", [["gcc", *option, "-c", "a.c"], ("gcc -c b.c", "b.c")], status=1)[1]
            self.assertEqual((self.found(), len(messages)), (["a|b.h", "b.o.d"], 2), option)
            self.assertRegex(messages[0], "can't be (written so that|that of a file)")

    def test_what_is_no_dependency_file_stays(self):
        """Wants no file replaced or removed that has more than rules, or that the build reads, and the files of the others."""
        write(self.top, {"b.c": "// b: c\n", "notes": "all:\n\tcc x.c\n", "old.d": "# old\nx.o: y.h \\\n  z.h\n\ny.h:\n", "empty": ""})
        names = ["a.c", "b.c", "notes"]
        before = [self.read(name) for name in names]
        for fault in "", "#error no\n":
            write(self.top, {"h.h": fault})
            commands = [["gcc", "-MF", name, "-c", "a.c"] for name in names] + [["gcc", "-MF", "old.d", "-c", "a.c"], ["gcc", "-MF", "empty", "-c", "a.c"]]
            messages = self.build("deps", [*commands, ("gcc -c b.c", "b.c")], status=1)[1]
            lines = ["build.py: %s: %s is there and is no dependency file, so it stays" % (self.path("a.c"), self.path(name)) for name in names]
            self.assertEqual([line for line in messages if "stays" in line], lines)
            self.assertEqual([self.read(name) for name in names], before)
            self.assertEqual(self.found(), ["b.o.d", "notes"] if fault else ["b.o.d", "empty", "notes", "old.d"])

    def test_places_that_no_build_has(self):
        """Wants no file outside the directories of the build, which the commands may not choose, and none for an object that is no file."""
        for word in "-MF %s/../x%d.d", "-o %s/../x%d.o":
            word = word % (self.top, os.getpid())
            messages = self.build("deps", ["gcc %s -c a.c" % word, ("gcc -c b.c", "b.c")], status=1)[1]
            self.assertIn("is below neither this directory nor that of the commands (--into names another)", messages[0])
            self.assertFalse(os.path.exists(os.path.normpath(word.split()[1])))
            self.assertEqual(self.found(), ["b.o.d"])
        messages = self.build("deps", ["gcc -o /dev/null -c a.c", ("gcc -o sys -c b.c", "b.c")], status=1)[1]
        self.assertEqual([line.split(": ", 2)[2] for line in messages[:2]], ["the object %s is no file" % name for name in ("/dev/null", self.path("sys"))])
        self.build("deps", ["gcc -o /dev/null -c a.c"], "--into", "d")
        self.assertEqual(self.read("d/dev/null.d"), "/dev/null: \\\n  a.c \\\n  h.h\n")

    def test_names_of_what_is_no_file(self):
        """Wants a pipe and a directory to stay, and no wait for a reader."""
        os.mkfifo(self.path("pipe"))
        for name in "pipe", "sys":
            messages = self.build("deps", [["gcc", "-MF", name, "-c", "a.c"], ("gcc -c b.c", "b.c")], status=1, timeout=300)[1]
            self.assertEqual(messages[0], "build.py: %s: %s is there and is no file" % (self.path("a.c"), self.path(name)))
            self.assertEqual(self.found(), ["b.o.d", "pipe"])

    def test_files_that_can_not_be_written(self):
        """Wants status 5, the files of the others, and none half written."""
        for name in "h.h/x.d", "x" * 300:
            messages = self.build("deps", [["gcc", "-MF", name, "-c", "a.c"], ("gcc -c b.c", "b.c")], status=5)[1]
            self.assertRegex(messages[0], r"^build.py: %s/a.c: \S+: (Not a directory|File exists|File name too long)$" % self.top)
            self.assertEqual((self.found(), len(messages)), (["b.o.d"], 2))
            self.clear()


class Forms(Dependencies):
    """Tests the forms that are printed."""

    def test_a_json_object_for_each_unit(self):
        write(self.top, {"b.c": "\n#error no \\q\n", "src/c.c": '#include "../inc/h.h"\n#include <h.h>\n', "inc/h.h": "#if X\n"})
        printed, messages = self.build("deps", ["gcc -o x.o -c ./a.c", ("gcc -Iinc -c b.c", "b.c"), ("gcc '-DX=1 1' -Iinc -c src/c.c", "src/c.c")],
                                       "--format", "json", status=1)
        found = [json.loads(line) for line in printed.splitlines()]
        shared = {"directory": self.top, "fault": None}
        fault = {"number": 34, "path": self.path("b.c"), "line": 2, "column": 1, "text": "no \\q"}
        self.assertEqual(found[:2], [
            {**shared, "input-file": "./a.c", "output": "x.o", "file-deps": [self.path("a.c"), self.path("h.h")]},
            {**shared, "input-file": "b.c", "output": "b.o", "file-deps": [self.path("b.c")], "fault": fault}])
        self.assertEqual((found[2]["file-deps"], found[2]["fault"]["path"]), ([self.path("src/c.c"), self.path("src/../inc/h.h")], self.path("inc/h.h")))
        self.assertEqual((len(found), self.found()), (3, ["inc/h.h", "src/c.c"]))
        self.assertIn("3 units, 2 with a fault", messages[-1])

    def test_a_fault_in_the_command(self):
        printed, _ = self.build("deps", [["gcc", "-DF(a=1", "-c", "a.c"]], "--format", "json", status=1)
        fault = json.loads(printed)["fault"]
        self.assertEqual((fault["number"], fault["path"]), (11, "<command line>"))

    def test_clangs_scanner_gives_the_same(self):
        missed("clang-scan-deps-14")
        write(self.top, {"test/t.c": '#include "../src/x.c"\n#include <i.h>\n#include "own.h"\n', "src/x.c": '#include "y.h"\n', "src/y.h": "",
                         "test/own.h": "", "inc/i.h": ""})
        os.unlink(self.path("bin/gcc"))
        printed, _ = self.build("deps", [("clang -I./inc -o t.o -c test/t.c", "test/t.c")], "--format", "json")
        ours = json.loads(printed)
        theirs = json.loads(well(["clang-scan-deps-14", "-format=experimental-full", "-compilation-database", self.path("compile_commands.json")]))
        unit = theirs["translation-units"][0]
        self.assertEqual((ours["input-file"], ours["file-deps"]), (unit["input-file"], [name.replace("/./", "/") for name in unit["file-deps"]]))

    def test_rules_for_make(self):
        write(self.top, {"b.c": "#error no\n"})
        printed, messages = self.build("deps", ["gcc -MP -o x.o -c a.c", ("gcc -c b.c", "b.c"), "gcc -MT t -MF q.d -c a.c"], "--format", "make", status=1)
        self.assertEqual(printed, "x.o: \\\n  a.c \\\n  h.h\nh.h:\nt: \\\n  a.c \\\n  h.h\n")
        self.assertEqual((self.found(), messages[0]), ([], "build.py: %s: fault 34 (`build.py faults` says more)" % self.path("b.c")))

    def test_words_that_do_not_fit(self):
        for words in ["--format", "json", "--into", "d"], ["--into", "d", "--format=make"], ["--format", "xml"]:
            messages = self.build("deps", ["gcc -c a.c"], *words, status=2)[1]
            self.assertEqual((len(messages), self.found()), (1, []))


class Spellings(Dependencies):
    """Compares the names with those of compilers."""
    FILES = {"test/t.c": '#include "../src/x.c"\n#include <i.h>\n#include "own.h"\n#include "deep/d.h"\n#define N <n.h>\n#include N\n#include <q.h>\n'
                         '#include "z.h"\n#include <abs.h>\n',
             "src/x.c": '#include "y.h"\n', "src/y.h": '#include "../src/../src/w.h"\n', "src/w.h": "", "test/own.h": '#include "own2.h"\n',
             "test/own2.h": "#pragma once\n", "inc/i.h": '#include "j.h"\n', "inc/j.h": "", "inc/deep/d.h": '#include "../up.h"\n', "inc/up.h": "",
             "inc/n.h": "", "quote/z.h": "", "late/q.h": "#include_next <q.h>\n", "last/q.h": "", "abs/abs.h": "", "first.h": ""}

    def test_names_are_those_of_the_compiler(self):
        for compiler in "gcc", "clang":
            with self.subTest(compiler):
                missed(compiler)
                write(self.top, self.FILES)
                if os.path.exists(self.path("bin/gcc")):
                    os.unlink(self.path("bin/gcc"))
                shared = "-I./inc -iquote test/../quote/ -isystem late/ -idirafter ./last -I %s/abs/../abs" % self.top
                for number, file in enumerate(("test/t.c", "./test/t.c", "test/../test/t.c", ".//test/t.c", self.path("test/t.c"), self.path("src/../test/t.c"))):
                    for more in "", "-include ./first.h", "-include first.h":
                        words = [compiler, *shared.split(), *more.split(), "-c", file]
                        self.build("deps", [([*words, "-o", "%d.o" % number], file)])
                        theirs = names_of(well([*words, "-M"], cwd=self.top).decode())
                        self.assertEqual(names_of(self.read("%d.o.d" % number)), theirs, words)

    def test_a_file_that_the_entry_names_in_another_way(self):
        write(self.top, self.FILES)
        for word, name in ("./src/x.c", "src/x.c"), ("src/../src/x.c", "src/../src/x.c"), ("x.c", self.path("src/x.c")):
            folder = self.path("src") if word == "x.c" else self.top
            entries = [{"directory": folder, "file": self.path("src/x.c"), "arguments": ["gcc", "-c", word, "-o", self.path("x.o")]}]
            write(self.top, {"c.json": json.dumps(entries)})
            well(self.words("deps", "c.json"), cwd=self.top, env=self.environment())
            self.assertEqual(names_of(self.read("x.o.d"))[0], "x.c" if word == "x.c" else name)


class Again(Dependencies):
    """Tests that a further run runs the units that may have changed, and no other, and that its files are those of a first run."""

    def setUp(self):
        super().setUp()
        write(self.top, {"a.c": '#include "h.h"\n#include <sys.h>\n', "b.c": '#if __has_include("maybe.h")\n#include "b.h"\n#endif\n',
                         "c.c": "#define C <c.h>\n#include C\n#include <sys.h>\n", "h.h": "", "one/x": "", "two/c.h": ""})
        self.commands = [("gcc -Ione -Itwo -c %s" % name, name) for name in ("a.c", "b.c", "c.c")]
        self.compiler("bin/cppunits", RECORDING.replace("%(program)s", program()))

    def ran(self, *words, status=0, commands=None):
        """Returns the units that were run, and the lines on standard error."""
        messages = self.build("deps", commands or self.commands, "--program", self.path("bin/cppunits"), *words, status=status)[1]
        names = set()
        if os.path.exists(self.path("runs")):
            names = set(self.read("runs").split())
            os.unlink(self.path("runs"))
            os.unlink(self.path("given"))
        return "".join(sorted(name[0] for name in names)), messages

    def check(self, wanted, status=0, commands=None):
        """Checks which units run, that no file changes afterwards, and that a run of all units gives the same files and status."""
        ran, messages = self.ran(status=status, commands=commands)
        self.assertEqual(ran, wanted, messages)
        rules = self.rules()
        again, said = self.ran(status=status, commands=commands)
        self.assertEqual(self.rules(), rules)
        anew, _ = self.ran("--anew", status=status, commands=commands)
        self.assertEqual([rule[:2] for rule in self.rules()], [rule[:2] for rule in rules])
        self.assertEqual(anew, "abc")
        return again, messages, said

    def rules(self):
        return [(name, self.read(name), os.stat(self.path(name)).st_mtime_ns) for name in self.found() if name.endswith(".d")]

    def test_a_run_again_does_nothing(self):
        again, messages, said = self.check("abc")
        self.assertRegex(messages[-1], r"^build.py: 3 units, 0 with a fault, 6 files \(6 on the list\)")
        before = os.stat(self.path("compile_commands.json.seen")).st_mtime_ns
        self.ran()
        self.assertEqual(os.stat(self.path("compile_commands.json.seen")).st_mtime_ns, before)
        self.assertRegex(said[-1], r"^build.py: 3 units \(0 anew\), 0 with a fault, \d files, [0-9.]+ seconds$")
        self.assertEqual(again, "")

    def test_what_changed_is_run(self):
        self.ran()
        for files, wanted in (({"h.h": "int h;\n"}, "a"), ({"b.c": self.read("b.c") + "\n"}, "b"), ({"sys/sys.h": "int s;\n"}, "ac"), ({"two/c.h": "c\n"}, "c"),
                              ({"one/x": "y"}, ""), ({"b.h": "never read\n"}, "b"), ({"maybe.h": ""}, "b"), ({"b.h": "read\n"}, "b"),
                              ({"two/sys.h": ""}, "ac"), ({"one/sys.h": '#include "../h.h"\n'}, "ac"), ({"h.h": "// a\n"}, "ac"),
                              ({"one/c.h": ""}, "c"), ({"two/h.h": ""}, "ac")):
            write(self.top, files)
            with self.subTest(files):
                self.check(wanted)

    def test_what_is_gone(self):
        write(self.top, {"maybe.h": "", "b.h": "", "one/sys.h": "", "one/c.h": ""})
        self.ran()
        for name, wanted in ("one/sys.h", "ac"), ("maybe.h", "b"), ("one/c.h", "c"), ("b.h", "b"):
            os.unlink(self.path(name))
            with self.subTest(name):
                self.check(wanted)

    def test_a_change_that_keeps_size_and_time(self):
        """Wants the content to count where the time is that of the run."""
        self.ran()
        later = time.time_ns() + 60000000000
        for text, wanted in ("1\n", "a"), ("2\n", "a"), ("2\n", ""):
            write(self.top, {"h.h": text})
            os.utime(self.path("h.h"), ns=(later, later))
            self.assertEqual(self.ran()[0], wanted)


    def test_commands_options_and_compilers_that_change(self):
        self.ran()
        more = [("gcc -DX -Ione -Itwo -c a.c", "a.c"), ("gcc -Ione -Itwo -std=c99 -c b.c", "b.c"), self.commands[2]]
        self.check("ab", commands=more)
        self.check("", commands=[more[2], more[0], more[1]])
        self.check("b", commands=[more[2], more[0], ("gcc -Ione -Itwo -std=c99 -o x.o -iquote sys -c b.c", "b.c")])
        os.mkdir(self.path("three"))
        self.check("ab", commands=[(command.replace("-Ione", "-Ithree -Ione"), name) for command, name in more[:2]] + more[2:])
        self.compiler("bin/gcc", who="2")
        self.check("abc", commands=more)
        for words in ["--profile", "later"], ["--define", "Y"], ["--system", "one"]:
            self.assertEqual([self.ran(*words, commands=more[::2])[0] for _ in range(2)], ["ac", ""], words)

    def test_words_that_change_in_a_response_file(self):
        write(self.top, {"words": "-DX=1", "o.h": ""})
        commands = [("gcc @words -c a.c", "a.c"), ("gcc -include o.h -Itwo -c b.c", "b.c"), self.commands[2]]
        self.ran(commands=commands)
        write(self.top, {"words": "-DX=2"})
        self.assertEqual(self.ran(commands=commands)[0], "a")
        write(self.top, {"o.h": "int o;\n"})
        self.assertEqual(self.ran(commands=commands)[0], "b")
        write(self.top, {"two/o.h": ""})
        os.unlink(self.path("o.h"))
        self.assertEqual(self.ran(commands=commands)[0], "b")
        self.assertIn("two/o.h", self.read("b.o.d"))

    def test_faults_are_said_again(self):
        """Wants a unit with a fault to be run each time, and status 1."""
        write(self.top, {"two/c.h": "#error no\n"})
        for wanted in "abc", "c", "c":
            ran, messages = self.ran(status=1)
            self.assertEqual((ran, messages[0]), (wanted, "build.py: %s: fault 34 (`build.py faults` says more)" % self.path("c.c")))
            self.assertEqual([name for name, _, _ in self.rules()], ["a.o.d", "b.o.d"])
        write(self.top, {"two/c.h": ""})
        self.check("c")

    def test_reports_are_said_again(self):
        """Wants a line about a file said and counted also in a run that doesn't read the file."""
        write(self.top, {"h.h": "// ??/\n"})
        commands = [("gcc -std=c11 -Ione -Itwo -c a.c", "a.c"), *self.commands[1:]]
        for wanted in "abc", "":
            ran, messages = self.ran(status=1, commands=commands)
            self.assertEqual((ran, len(messages)), (wanted, 2))
            self.assertIn("h.h: has a trigraph", messages[0])
        write(self.top, {"b.c": "int b;\n"})
        ran, messages = self.ran(status=1, commands=commands)
        self.assertIn("h.h: has a trigraph", messages[0])
        write(self.top, {"h.h": ""})
        self.assertEqual((len(self.ran(commands=commands)[1]), len(self.ran(commands=commands)[1])), (1, 1))

    def test_dependency_files_that_are_gone_or_changed(self):
        self.ran()
        os.unlink(self.path("a.o.d"))
        write(self.top, {"b.o.d": "b.o: other\n"})
        self.check("")
        self.assertEqual(self.read("b.o.d"), "b.o: \\\n  b.c\n")

    def units(self):
        """Returns the units of the file of what was seen."""
        return json.loads(self.read("compile_commands.json.seen").split("\n")[1])["units"]

    def test_a_file_of_what_was_seen_that_is_broken(self):
        """Wants all units run, a line about it, and a whole file afterwards."""
        self.ran()
        whole, units = self.read("compile_commands.json.seen"), self.units()
        for text in "", "\n", "{}", whole[:-9], whole.replace("b.c", "a.c"), whole.replace("cppunits", "another"), whole.split("\n")[1], "[" * 100000, "\xff\n":
            write(self.top, {"compile_commands.json.seen": text.encode("latin-1")})
            ran, messages = self.ran()
            line = "build.py: %s: nothing can be learnt from it, so each unit is run" % self.path("compile_commands.json.seen")
            self.assertEqual((ran, messages[0]), ("abc", line))
            self.assertEqual((self.ran()[0], self.units()), ("", units))

    def test_where_what_was_seen_can_not_be_written(self):
        os.mkdir(self.path("compile_commands.json.seen"))
        for _ in range(2):
            ran, messages = self.ran()
            self.assertEqual((ran, len(messages)), ("abc", 3), messages)
            self.assertIn("Is a directory", messages[1])

    def test_it_is_beside_the_files(self):
        self.ran("--into", "d")
        self.assertIn("d/compile_commands.json.seen", self.found())
        self.assertFalse(os.path.exists(self.path("compile_commands.json.seen")))
        self.assertEqual((self.ran("--into", "d")[0], self.ran("--into", "e")[0], self.ran("--into", "d", "--list", "l")[0]), ("", "abc", "abc"))


class Built(Folder):
    """Builds a copy of examples/demo by ninja and make, which take the dependency files."""

    def setUp(self):
        super().setUp()
        missed("cc")
        shutil.copytree(os.path.join(TOP, "examples", "demo"), self.path("demo"))
        self.top = self.path("demo")
        self.deps()

    def read(self, name):
        with open(self.path(name)) as file:
            return file.read()

    def deps(self, *words):
        return well([sys.executable, BUILD, "--program", program(), "deps", *words], cwd=self.top)

    def with_extra(self, *names):
        """Defines the macro under which one of the objects has a further header."""
        for name in "compile_commands.json", *names:
            write(self.top, {name: self.read(name).replace("-DNAME", "-DEXTRA -DNAME")})
        self.deps()

    def objects(self):
        return {name: os.stat(self.path(name)).st_mtime_ns for name in ("main.o", "low.o") if os.path.exists(self.path(name))}

    def built(self, build):
        """Runs a build, and returns the objects that it made."""
        before = self.objects()
        well(build, cwd=self.top)
        return [name for name, time_of in self.objects().items() if before.get(name) != time_of]

    def check(self, build):
        self.assertEqual((self.built(build), self.built(build)), (["main.o", "low.o"], []))
        for name, wanted in (("lib/low.h", ["main.o", "low.o"]), ("src/extra.h", ["main.o"]), ("lib/low.c", ["low.o"]), ("src/main.c", ["main.o"])):
            self.touch(name)
            with self.subTest(name):
                self.assertEqual((self.built(build), self.built(build)), (wanted, []))
        write(self.top, {"lib/low.c": '#include "low.h"\n#include "new.h"\nint low(void) { return LOW; }\n', "lib/new.h": ""})
        self.deps()
        self.assertEqual((self.built(build), self.built(build)), (["low.o"], []))
        self.touch("lib/new.h")
        self.assertEqual((self.built(build), self.built(build)), (["low.o"], []))
        self.deps()
        self.assertEqual(self.built(build), [])

    def touch(self, name):
        # the clock of files may be coarse
        time.sleep(0.02)
        os.utime(self.path(name))

    def test_ninja(self):
        missed("ninja")
        self.with_extra("build.ninja")
        self.check(["ninja"])

    def test_make(self):
        missed("make")
        self.with_extra("Makefile")
        self.check(["make"])

    def test_a_header_that_no_object_has(self):
        """Builds the demo as it is, where an include line in a skipped group names a header."""
        for build in "ninja", "make":
            missed(build)
            self.built([build])
            self.touch("src/extra.h")
            self.assertEqual((self.built([build]), well(["./demo"], cwd=self.top)), ([], b"demo\n"))

    def test_make_reads_the_printed_rules(self):
        missed("make")
        self.with_extra("Makefile")
        write(self.top, {"rules": self.deps("--format", "make"), "Makefile": self.read("Makefile").replace("$(wildcard main.o.d low.o.d)", "rules")})
        self.assertEqual((self.built(["make"]), self.built(["make"])), (["main.o", "low.o"], []))
        self.touch("src/extra.h")
        self.assertEqual((self.built(["make"]), self.built(["make"])), (["main.o"], []))


if __name__ == "__main__":
    main()
