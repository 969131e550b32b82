#!/usr/bin/env python3
"""Tests scripts/depfile.py, text.py and shards.py, and gives their output to ninja, make, gcc and GNU parallel.

    tests/scripts_tests.py [PROGRAM] [-k NAME]
"""
import json
import os
import re
import shutil
import stat
import subprocess
import sys
import unittest
import xml.etree.ElementTree

from counted import LIST, TOP, Folder, cppunits, main, missed, program, run, script, well, write

MODES = ("dump", "deps", "faults", "text")
TEXT = b"unit 0 a.c\n|# 1 \"a.c\"\n|a\ndep 0 a.c\nok\n"
SCRIPTS = ("list_from_build.py", "depfile.py", "text.py", "shards.py", "faults.py")


def listed(files, units=None):
    rows = [{"name": name, "text": text} for name, text in files.items()]
    return json.dumps(dict(LIST, files=rows, units=units or [{"file": rows[0]["name"]}])).encode()


def read(*parts):
    with open(os.path.join(*parts), "rb") as file:
        return file.read()


def marked(output, number=0, count=1, digest="0" * 64):
    """Returns an output with the mark of a part at its end."""
    mark = "unit %d a.c\nfault 11 65535:1:1 cppunits_part_%d_of_%d_in_%s\n" % (output.count(b"unit "), number, count, digest)
    return output + mark.encode()


def form(language, begin):
    """Returns the block of docs/BUILDS.md that begins so."""
    blocks = re.findall(r"^```%s\n(.*?)^```$" % language, read(TOP, "docs", "BUILDS.md").decode(), re.M | re.S)
    return next(block for block in blocks if block.startswith(begin))


class All(Folder):
    def test_help_has_an_example_and_names_the_statuses(self):
        for name in ("build.py", *SCRIPTS):
            done = script(name, "--help")
            self.assertEqual((done.returncode, done.stderr), (0, b""), name)
            self.assertRegex(done.stdout, rb"\nExample[^\n]*:\s+[^\n]*%s (?:.*\n)*status:\n  0  done\n" % re.escape(name.encode()))

    def test_what_is_wrong_is_said_in_a_line(self):
        write(self.top, {"cut": "unit 0 a.c\ntok 0:1:1 0:1:1 i+ a\n", "half": "unit 0 a.c\nok",
                         "other": "unit 0 a.c\nwords\nok\n", "skipped": "unit 1 a.c\nok\n", "list": "{}", "faults": "unit 0 a.c\nok\n"})
        outputs = [(name, word, 3) for name in ("depfile.py", "text.py") for word in ("cut", "half", "other", "skipped", "faults")]
        others = [("shards.py", "join", "cut", 3), ("shards.py", "cut", "2", "list", 3), ("shards.py", "cut", "0", "list", 2),
                  ("shards.py", 2), ("text.py", "--unit", "x", 2), ("depfile.py", "none", 5), ("text.py", "none", 5),
                  ("shards.py", "join", "none", 5)]
        for name, *words, status in outputs + others:
            done = script(name, *words, cwd=self.top)
            found = done.returncode, done.stderr.count(b"\n"), done.stdout
            self.assertEqual(found, (status, 1, b""), (name, words, done.stderr))
            self.assertTrue(done.stderr.startswith(name.encode() + b": "), done.stderr)

    def test_options_of_a_task_before_its_name(self):
        write(self.top, {"list.json": listed({"a.c": ""})})
        for number, words in enumerate((["--into", "0", "cut", "2"], ["--into=1", "cut", "2"], ["cut", "--into", "2", "2"])):
            self.assertEqual(script("shards.py", *words, "list.json", cwd=self.top).returncode, 0)
            self.assertEqual(sorted(os.listdir(self.path(str(number)))), ["000.json", "001.json"])

    def test_no_file_is_left_half_written(self):
        whole = b"unit 0 a.c\nok\n"
        write(self.top, {"whole": marked(whole, 0, 2), "cut": whole + b"unit 1 b.c\n", "joined": "as it was"})
        done = script("shards.py", "join", "--output", "joined", "whole", "cut", cwd=self.top)
        self.assertEqual((done.returncode, read(self.top, "joined")), (3, b"as it was"))
        done = script("shards.py", "join", "whole", "cut", cwd=self.top)
        self.assertEqual((done.returncode, done.stdout), (3, b""))
        self.assertEqual(sorted(os.listdir(self.top)), ["cut", "joined", "whole"])

    def test_what_is_no_file_is_written_to(self):
        dump = cppunits("dump", input=listed({"a.c": "x\n"})).stdout
        write(self.top, {"kept": "old\n"})
        os.symlink("kept", self.path("link"))
        for name, found in ("link", b"kept"), ("new", None):
            self.assertEqual(script("shards.py", "join", "--output", name, "-", input=marked(dump), cwd=self.top).returncode, 0)
            self.assertEqual(os.readlink(os.fsencode(self.path(name))) if found else None, found)
            self.assertEqual(read(self.top, name), dump)
        self.assertEqual(read(self.top, "kept"), dump)
        os.mkfifo(self.path("pipe"))
        with subprocess.Popen(["cat", "pipe"], cwd=self.top, stdout=subprocess.PIPE) as reader:
            self.assertEqual(script("shards.py", "join", "--output", "pipe", "-", input=marked(dump), cwd=self.top).returncode, 0)
            self.assertEqual(reader.stdout.read(), dump)
        self.assertTrue(stat.S_ISFIFO(os.stat(self.path("pipe")).st_mode))

    def test_a_write_that_fails(self):
        if not os.path.exists("/dev/full"):
            raise unittest.SkipTest("this system has no /dev/full")
        write(self.top, {"text": TEXT, "part": marked(TEXT)})
        for words in (("text.py", "text"), ("shards.py", "join", "part")):
            with open("/dev/full", "wb") as full:
                command = [sys.executable, os.path.join(TOP, "scripts", words[0]), *words[1:]]
                done = subprocess.run(command, cwd=self.top, stdout=full, stderr=subprocess.PIPE)
            self.assertEqual((done.returncode, done.stderr.count(b"\n")), (5, 1), done.stderr)


class Dependencies(Folder):
    FILES = {"src/a b.c": '#include "x#y.h"\n#include "p$q.h"\n#include "c:d.h"\n#include "e\\f.h"\n#include "é.h"\n',
             "src/x#y.h": "", "src/p$q.h": "", "src/c:d.h": "", "src/e\\f.h": "", "src/é.h": ""}

    def made(self, *words, status=0):
        write(self.top, {**self.FILES, "deps": cppunits("deps", input=listed(self.FILES)).stdout})
        done = script("depfile.py", "deps", *words, cwd=self.top)
        self.assertEqual(done.returncode, status, done.stderr)

    def test_ninja_reads_them(self):
        missed("ninja")
        rule = "rule cc\n  command = touch $out\n  depfile = src/a b.c.d\n  deps = gcc\n"
        write(self.top, {"targets": "out.o\n", "build.ninja": rule + "build out.o: cc src/a$ b.c\n"})
        self.made("--targets", "targets")
        well(["ninja", "-d", "keepdepfile"], cwd=self.top)
        lines = well(["ninja", "-t", "deps"], cwd=self.top).decode().splitlines()
        self.assertEqual({line.strip() for line in lines[1:] if line}, set(self.FILES))

    def test_make_reads_them(self):
        missed("make")
        write(self.top, {"targets": "out.o\n", "Makefile": "out.o:\n\ttouch $@\ninclude src/a\\ b.c.d\n"})
        self.made("--targets", "targets", "--phony")
        well(["make"], cwd=self.top)
        well(["make", "--question"], cwd=self.top)
        for name in self.FILES:
            self.assertIn(b"touch out.o", well(["make", "-n", "-W", name], cwd=self.top), name)
        os.unlink(self.path("src/x#y.h"))
        self.assertIn(b"touch out.o", well(["make", "-n"], cwd=self.top))

    def test_gcc_writes_the_same_names(self):
        missed("gcc")
        self.made()
        theirs = well(["gcc", "-MM", "-MT", "src/a\\ b.o", "src/a b.c"], cwd=self.top)
        ours = read(self.top, "src/a b.c.d")
        # some versions of gcc write a backslash before a colon, and others don't
        self.assertEqual(*(text.replace(b"\\\n", b" ").replace(b"\\:", b":").split() for text in (ours, theirs)))

    def test_two_units_of_a_file_and_the_way_to_the_root(self):
        files = {"a.c": '#include "h.h"\n', "h.h": ""}
        deps = cppunits("deps", input=listed(files, [{"file": "a.c"}, {"file": "a.c", "define": ["X"]}])).stdout
        done = script("depfile.py", "--into", "d", "--prefix", "../", input=deps, cwd=self.top)
        self.assertEqual((done.returncode, done.stderr), (0, b""))
        self.assertEqual(sorted(os.listdir(self.path("d"))), ["a.c.1.d", "a.c.d"])
        self.assertEqual(read(self.top, "d/a.c.d"), b"a.o: \\\n  ../a.c \\\n  ../h.h\n")
        self.assertEqual(read(self.top, "d/a.c.1.d"), b"a.o: \\\n  ../a.c \\\n  ../h.h\n")

    def test_a_unit_with_a_fault_has_none(self):
        two = listed({"a.c": "#error no\n", "b.c": ""}, [{"file": "a.c"}, {"file": "b.c"}])
        deps = cppunits("deps", input=two).stdout
        done = script("depfile.py", input=deps, cwd=self.top)
        self.assertEqual((done.returncode, done.stderr), (1, b"depfile.py: unit 0, a.c: fault 34 0:1:1 no\n"))
        self.assertEqual(os.listdir(self.top), ["b.c.d"])
        self.assertEqual(script("depfile.py", "--partial", input=deps, cwd=self.top).returncode, 1)
        self.assertEqual(read(self.top, "a.c.d"), b"a.o: \\\n  a.c\n")

    def test_a_file_that_is_read_first(self):
        deps = cppunits("deps", input=listed({"src/a.c": "", "first.h": ""}, [{"file": "src/a.c", "first": ["first.h"]}])).stdout
        script("depfile.py", input=deps, cwd=self.top)
        rule = b"src/a.o: \\\n  src/a.c \\\n  first.h\n"
        self.assertEqual(read(self.top, "src/a.c.d"), rule)
        script("depfile.py", "--phony", input=deps, cwd=self.top)
        self.assertEqual(read(self.top, "src/a.c.d"), rule + b"first.h:\n")

    def test_an_output_without_dependencies(self):
        done = script("depfile.py", input=cppunits("faults", input=listed({"a.c": ""})).stdout, cwd=self.top)
        wanted = b"depfile.py: unit 0 has no dependencies: the output of `cppunits deps` is wanted\n"
        self.assertEqual((done.returncode, done.stderr, os.listdir(self.top)), (3, wanted, []))

    def test_names_that_no_rule_can_hold(self):
        for name in ("a*.c", "a|.c", "a\\ b.c", "a\\"):
            done = script("depfile.py", input=cppunits("deps", input=listed({name: ""})).stdout, cwd=self.top)
            self.assertEqual((done.returncode, done.stderr.count(b"\n"), os.listdir(self.top)), (3, 1, []), name)


PROGRAM = r"""#include "say.h"
#pragma GCC diagnostic ignored "-Wunused-variable"
#define SIGN -
#define GLUE(a, b) a ## b
#define STAR(x) x
#define EACH(f) f(1) f(22) f(333)
#define ROW(n) { n, #n, __LINE__ },
_Pragma("GCC diagnostic ignored \"-Wparentheses\"")
static struct { int n; const char *s; int line; } rows[] = {
EACH(ROW)
};
int main(void)
{
    int i = 5, *p = &i, unused;
    say("%d %d\n", - SIGN -i, i-SIGN-i);
    say("%d\n", GLUE(i, )+ +i);
    say("%d\n", i/STAR(*)p);
    say("%s%s\n", u8"\xc3\xa9" GLUE(,) "%", __FILE__);
    for (i = 0; i < 3; i++) say("%d %s %d\n", rows[i].n, rows[i].s, rows[i].line);
    say("%d %s\n", __LINE__, STR(a	  "b\n"));
    return 0;
}
"""
HEADER = """#ifndef SAY
#define SAY
int printf(const char *, ...);
#define say(...) printf(__VA_ARGS__)
#define STR(x) #x
#endif
"""


class Text(Folder):
    PROGRAM = {"main.c": PROGRAM, "say.h": HEADER}

    def printed(self, files, units=None):
        return cppunits("text", input=listed(files, units)).stdout

    def test_a_program_runs_as_before(self):
        missed("gcc")
        write(self.top, self.PROGRAM)
        done = script("text.py", "--into", "out", input=self.printed(self.PROGRAM), cwd=self.top)
        self.assertEqual((done.returncode, done.stderr), (0, b""))
        well(["gcc", "-std=c11", "-Wall", "-Werror", "-o", "ours", "out/main.c.i"], cwd=self.top)
        well(["gcc", "-std=c11", "-Wall", "-Werror", "-o", "theirs", "main.c"], cwd=self.top)
        printed = well(["./ours"], cwd=self.top)
        self.assertEqual(printed, well(["./theirs"], cwd=self.top))
        self.assertEqual(printed.count(b"\n"), 8)

    def test_the_bytes_are_those_of_the_output(self):
        printed = self.printed({"a.c": "#include \"h.h\"\n\"\u00e9|\r\" \x01 %41\n#pragma x |\n", "h.h": "\n\nint h;\n"})
        wanted = b"".join(line[1:] + b"\n" for line in printed.split(b"\n") if line.startswith(b"|"))
        self.assertEqual(script("text.py", input=printed).stdout, wanted)
        self.assertIn(b'"\xc3\xa9|', wanted)

    def test_one_unit_of_several(self):
        printed = self.printed({"a.c": "X\n"}, [{"file": "a.c", "define": ["X %d" % n]} for n in range(3)])
        self.assertEqual(script("text.py", "--unit", "2", input=printed).stdout, b'# 1 "a.c"\n2\n')
        self.assertEqual(script("text.py", "--unit", "3", input=printed).returncode, 3)
        for _ in range(2):
            self.assertEqual(script("text.py", "--into", ".", input=printed, cwd=self.top).returncode, 0)
        self.assertEqual([read(self.top, name)[-2:] for name in ("a.c.i", "a.c.1.i", "a.c.2.i")], [b"0\n", b"1\n", b"2\n"])

    def test_a_unit_with_a_fault_has_none(self):
        printed = self.printed({"a.c": "x\n#error no\n", "b.c": "y\n", "c.c": ""}, [{"file": "a.c"}, {"file": "b.c"}, {"file": "c.c", "define": ["A+1"]}])
        done = script("text.py", input=printed)
        self.assertEqual((done.returncode, done.stdout), (1, b""))
        self.assertEqual(done.stderr, b"text.py: unit 0, a.c: fault 34 0:2:1 no\n")
        self.assertEqual(script("text.py", "--partial", input=printed).stdout, b'# 1 "a.c"\nx\n')
        self.assertEqual(script("text.py", "--into", "one", input=printed, cwd=self.top).returncode, 1)
        self.assertEqual(os.listdir(self.path("one")), ["b.c.i"])
        self.assertEqual(script("text.py", "--into", "all", "--partial", input=printed, cwd=self.top).returncode, 1)
        self.assertEqual(sorted(os.listdir(self.path("all"))), ["a.c.i", "b.c.i", "c.c.i"])
        self.assertEqual(read(self.top, "all/c.c.i"), b"")
        # it isn't written over either
        write(self.top, {"one/a.c.i": '# 1 "old"\n'})
        script("text.py", "--into", "one", input=printed, cwd=self.top)
        self.assertEqual(read(self.top, "one/a.c.i"), b'# 1 "old"\n')

    def test_the_output_of_another_mode(self):
        for mode in "dump", "deps", "faults":
            done = script("text.py", "--into", "out", input=cppunits(mode, input=listed({"a.c": ""})).stdout, cwd=self.top)
            self.assertEqual((done.returncode, done.stderr), (3, b"text.py: unit 0 has no text: the output of `cppunits text` is wanted\n"))
        self.assertEqual(os.listdir(self.top), [])

    def test_an_output_that_is_cut(self):
        """Wants the units that are whole, and no other file."""
        printed = self.printed({"a.c": "x\n", "b.c": "y\n"}, [{"file": "a.c"}, {"file": "b.c"}])
        second = printed.index(b"unit 1")
        for end in range(second + 1, len(printed)):
            done = script("text.py", "--into", "out", input=printed[:end], cwd=self.top) if end % 5 == 0 else None
            if done:
                self.assertEqual((done.returncode, done.stderr.count(b"\n"), os.listdir(self.path("out"))), (3, 1, ["a.c.i"]), end)

    def test_files_of_another_kind_stay(self):
        write(self.top, {"a.c.i": "%module a\n"})
        os.mkdir(self.path("b.c.i"))
        for name, status in ("a.c", 3), ("b.c", 5):
            done = script("text.py", "--into", ".", input=self.printed({name: "x\n"}), cwd=self.top)
            self.assertEqual((done.returncode, done.stderr.count(b"\n"), done.stdout), (status, 1, b""), done.stderr)
        self.assertEqual((read(self.top, "a.c.i"), sorted(os.listdir(self.top))), (b"%module a\n", ["a.c.i", "b.c.i"]))


class Table(Folder):
    def test_a_table_and_its_picture(self):
        files = {"src/a.c": "#include <h.h>\nX F(1)\n", "inc/h.h": "#define X 1\n"}
        units = [{"file": "src/a.c", "define": ["F(a) a a", "Y"], "search": ["inc"]}]
        write(self.top, {"list.json": listed(files, units)})
        done = run([sys.executable, os.path.join(TOP, "bench", "table.py"), "--program", program(), "--runs", "1",
                    "--svg", "table.svg", "a<b=list.json"], cwd=self.top)
        self.assertEqual((done.stderr, done.returncode), (b"", 0))
        lines = [line for line in done.stdout.decode().splitlines() if line.startswith("| a<b (1 units) |")]
        self.assertEqual([line for line in lines if "error" in line], [])
        self.assertEqual(sum("| cppunits, " in line for line in lines), 4)
        picture = xml.etree.ElementTree.fromstring(read(self.top, "table.svg"))
        self.assertEqual(sum(one.tag.endswith("rect") for one in picture), len(lines) + 1)


class Shards(Folder):
    def make(self, count, parts, fault=False, **setting):
        last = {5: "#error\n"} if fault else {}
        files = {"u%d.c" % n: '#include "h.h"\nint u%d = X;\n%s' % (n, last.get(n, "")) for n in range(count)}
        files["h.h"] = "#ifndef H\n#define H\nint h = X;\n#endif\n"
        units = [{"file": "u%d.c" % n, "define": ["X %d" % n]} for n in range(count)]
        whole = json.loads(listed(files, units))
        write(self.top, {"list.json": json.dumps({**whole, "units": units, **setting})})
        done = script("shards.py", "cut", str(parts), "list.json", cwd=self.top)
        self.assertEqual((done.returncode, done.stdout, done.stderr), (0, b"", b""))
        names = sorted(os.listdir(self.path("shards")))
        self.assertEqual(len(names), parts)
        return ["shards/" + name for name in names]

    def compare(self, outputs, status):
        whole = cppunits("dump", input=read(self.top, "list.json"))
        for words in ((), ("--list", "list.json")):
            done = script("shards.py", "join", *words, *outputs, cwd=self.top)
            self.assertEqual((done.stdout, done.stderr, done.returncode), (whole.stdout, b"", status))
        self.assertEqual(whole.returncode, status)

    def test_four_jobs_of_gnu_parallel(self):
        missed("parallel")
        parts = self.make(23, 4, fault=True)
        done = self.in_shell(form("sh", "parallel "))
        self.assertEqual(done.returncode, 0, done.stderr)
        self.compare([part.replace(".json", ".out") for part in parts], 1)
        write(self.top, {parts[1]: "{"})
        # the status of parallel is the number of jobs that failed
        self.assertEqual(self.in_shell(form("sh", "parallel ")).returncode, 1)

    def in_shell(self, command):
        """Runs a command with cppunits and the scripts on PATH."""
        if not os.path.exists(self.path("tools")):
            os.mkdir(self.path("tools"))
            os.symlink(program(), self.path("tools/cppunits"))
        path = os.pathsep.join((self.path("tools"), os.path.join(TOP, "scripts"), os.environ["PATH"]))
        return run(["sh", "-c", command], cwd=self.top, env=dict(os.environ, PATH=path))

    def test_each_mode(self):
        parts = self.make(5, 2)
        for mode in MODES:
            outputs = [cppunits(mode, input=read(self.top, part)).stdout for part in parts]
            write(self.top, {"%d" % number: output for number, output in enumerate(outputs)})
            done = script("shards.py", "join", "0", "1", cwd=self.top)
            self.assertEqual((done.stdout, done.stderr, done.returncode), (cppunits(mode, input=read(self.top, "list.json")).stdout, b"", 0))

    def test_the_rules_of_ninja(self):
        missed("ninja")
        self.make(9, 2, fault=True)
        write(self.top, {"build.ninja": form("ninja", "rule part")})
        done = self.in_shell("ninja")
        self.assertEqual(done.returncode, 0, done.stdout)
        self.assertEqual(read(self.top, "deps"), cppunits("deps", input=read(self.top, "list.json")).stdout)
        self.assertIn(b"no work to do", self.in_shell("ninja").stdout)

    def test_four_jobs_at_once(self):
        parts = self.make(22, 4)
        jobs = []
        for part in parts:
            with open(self.path(part), "rb") as source, open(self.path(part + ".out"), "wb") as target:
                jobs.append(subprocess.Popen([program(), "dump"], stdin=source, stdout=target))
        # each part has its mark, which is a fault
        self.assertEqual([job.wait() for job in jobs], [1, 1, 1, 1])
        self.compare([part + ".out" for part in parts], 0)

    def test_more_parts_than_units(self):
        for count, parts in ((3, 5), (0, 2), (1, 1)):
            shutil.rmtree(self.path("shards"), ignore_errors=True)
            outputs = []
            for part in self.make(count, parts):
                write(self.top, {part + ".out": cppunits("dump", input=read(self.top, part)).stdout})
                outputs.append(part + ".out")
            self.compare(outputs, 0)

    def test_each_unit_has_the_budget_in_every_part(self):
        for budget, status in (3, 1), (4, 0):
            shutil.rmtree(self.path("shards"), ignore_errors=True)
            outputs = []
            for part in self.make(5, 2, budget=budget):
                write(self.top, {part + ".out": cppunits("dump", input=read(self.top, part)).stdout})
                outputs.append(part + ".out")
            self.compare(outputs, status)

    def test_parts_hold_the_same_files_and_setting(self):
        for part in self.make(7, 3, profile="later", budget=9):
            whole, one = json.loads(read(self.top, "list.json")), json.loads(read(self.top, part))
            self.assertEqual({**whole, "units": 0}, {**one, "units": 0})

    def test_parts_of_another_cut(self):
        self.make(4, 4)
        before = read(self.top, "shards", "000.json")
        done = script("shards.py", "cut", "3", "list.json", cwd=self.top)
        self.assertEqual((done.returncode, done.stderr), (3, b"shards.py: shards/003.json is left of another cut\n"))
        self.assertEqual(read(self.top, "shards", "000.json"), before)
        self.assertEqual(script("shards.py", "cut", "4", "list.json", cwd=self.top).returncode, 0)

    def outputs(self, *words, **setting):
        """Returns the outputs of the parts of a list."""
        names = []
        for part in self.make(*words, **setting):
            names.append(part.replace(".json", ".out"))
            write(self.top, {names[-1]: cppunits("dump", input=read(self.top, part)).stdout})
        return names

    def refused(self, *words):
        """Returns why a join is refused; nothing may be written."""
        for more in ("--output", "joined"), ():
            done = script("shards.py", "join", *more, *words, cwd=self.top)
            self.assertEqual((done.returncode, done.stdout, done.stderr.count(b"\n")), (3, b"", 1), done.stderr)
            self.assertFalse(os.path.exists(self.path("joined")))
        return done.stderr.decode()[len("shards.py: "):-1]

    def test_a_part_that_is_left_out(self):
        outputs = self.outputs(6, 3)
        for wrong, reason in ((outputs[:2], "part 2 of 3 is missing"),
                              (outputs[1:], "shards/001.out: it is part 1, and part 0 is wanted here"),
                              (outputs[::-1], "shards/002.out: it is part 2, and part 0 is wanted here"),
                              (outputs + outputs[:1], "shards/000.out: it is part 0, and part 3 is wanted here")):
            for words in (), ("--list", "list.json"):
                self.assertEqual(self.refused(*words, *wrong), reason)

    def test_a_part_of_another_list(self):
        outputs = self.outputs(6, 3)
        write(self.top, {"other.json": json.dumps(dict(json.loads(read(self.top, "list.json")), time="08:05:04"))})
        self.assertEqual(self.refused("--list", "other.json", *outputs), "shards/000.out: it is a part of another list")
        script("shards.py", "cut", "3", "other.json", cwd=self.top)
        write(self.top, {outputs[1]: cppunits("dump", input=read(self.top, "shards/001.json")).stdout})
        self.assertEqual(self.refused(*outputs), "shards/001.out: it is a part of another list")
        script("shards.py", "cut", "2", "--into", "halves", "list.json", cwd=self.top)
        write(self.top, {outputs[1]: cppunits("dump", input=read(self.top, "halves/001.json")).stdout})
        self.assertEqual(self.refused(*outputs), "shards/001.out: it is one of 2 parts, and the part before it one of 3")

    def test_a_part_without_its_end(self):
        outputs = self.outputs(6, 2)
        whole = read(self.top, outputs[1])
        ends = [found.start() for found in re.finditer(b"^unit ", whole, re.M)] + [0, len(whole) - 20, len(whole) - 1]
        for end in ends:
            write(self.top, {outputs[1]: whole[:end]})
            reason = r"^shards/001.out(: the end is missing: its last unit isn't the mark|, line \d+: the output is cut off)"
            self.assertRegex(self.refused(*outputs), reason)

    def test_bytes_that_no_output_has(self):
        outputs = self.outputs(6, 2)
        whole = read(self.top, outputs[1])
        good, at = b"tok 1:2:5 1:2:5 i+ u3\n", whole.index(b"tok ")
        before, after = whole[:at], whole[at:]
        lines = [good.replace(b"u3", word) for word in (b"\0" * 10000, b"", b"%41", b"%e9", b"50%", b"\xe9", b"u3\r")]
        lines += [good.replace(*words) for words in ((b"i+", b"h+"), (b"1:2:5", b"1:2"), (b"tok", b"tok "))]
        for line in lines + [b"prag 1:2\n", b"tok \n", b"dep 1\n", b"dep 1 a.c\n", b"fault 34\n", b"ok \n", b"\n"]:
            write(self.top, {outputs[1]: before + line + after})
            reason = r"^shards/001.out(, line \d+: no line that cppunits prints|: unit \d has a line that cppunits doesn't print)"
            self.assertRegex(self.refused(*outputs), reason, line)
        write(self.top, {outputs[1]: b"\0" * 100000})
        self.assertEqual(self.refused(*outputs), "shards/001.out, line 1: the output is cut off")
        write(self.top, {outputs[1]: before + good.replace(b"u3", b"%E9%25%7F%00~ ") + after})
        self.assertEqual(script("shards.py", "join", *outputs, cwd=self.top).returncode, 0)

    def test_a_part_that_is_cut_again(self):
        outputs = self.outputs(6, 2)
        whole = read(self.top, outputs[1])
        for count in 1, 3:
            done = script("shards.py", "cut", str(count), "--into", "again", "shards/001.json", cwd=self.top)
            self.assertEqual((done.returncode, done.stderr), (0, b""))
            again = ["again/%03d" % number for number in range(count)]
            for part in again:
                write(self.top, {part + ".out": cppunits("dump", input=read(self.top, part + ".json")).stdout})
            done = script("shards.py", "join", "--list", "shards/001.json", *(part + ".out" for part in again), cwd=self.top)
            self.assertEqual((done.stdout, done.returncode), (whole, 1))

    def test_no_file_is_opened_for_a_mark(self):
        """Runs parts in each profile, without a budget, over files that aren't there."""
        for profile in "c11", "later", "gnu":
            parts = self.make(2, 1, profile=profile, budget=0)
            names = json.loads(read(self.top, parts[0]))
            names["files"] = [{"name": row["name"]} for row in names["files"]]
            done = cppunits("--root", self.path("none"), "deps", input=json.dumps(names).encode())
            self.assertRegex(done.stdout, rb"\nunit 2 u0.c\nfault 11 65535:1:1 cppunits_part_0_of_1_in_[0-9a-f]{64}\n$")
            shutil.rmtree(self.path("shards"))

    def test_lists_that_no_cut_can_mark(self):
        one = {"file": "a.c"}
        lists = {"none": ([], []), "odd": ([{"text": ""}], []), "many": ([{"name": "a.c", "text": ""}], [one] * 65535)}
        write(self.top, {name + ".json": json.dumps(dict(LIST, files=files, units=units)) for name, (files, units) in lists.items()})
        for name, reason in (("none", "none.json: files[0] is to have a name"), ("odd", "odd.json: files[0] is to have a name"),
                             ("many", "1 parts are too few: with its mark a part has at most 65535 units")):
            done = script("shards.py", "cut", "1", name + ".json", cwd=self.top)
            self.assertEqual((done.returncode, done.stderr.decode()), (3, "shards.py: %s\n" % reason))
            self.assertFalse(os.path.exists(self.path("shards")))
        self.assertEqual(script("shards.py", "cut", "2", "many.json", cwd=self.top).returncode, 0)
        done = cppunits("deps", input=read(self.top, "shards/001.json"))
        self.assertEqual((done.returncode, done.stdout.count(b"\nok\n")), (1, 32768))


if __name__ == "__main__":
    main()
