#!/usr/bin/env python3
"""Tests scripts/list_from_build.py with the build files that cmake, meson, ninja and bear write for a small project.

    tests/list_tests.py [PROGRAM] [-k NAME]

The project has several directories, two targets and a header that the build makes.  The dependencies that cppunits prints for
the list are compared with those of `gcc -MM` over the build's own commands.
"""
import json
import os
import re
import shlex
import unittest

from counted import LIST, Folder, cppunits, main, missed, script, well, write

PROJECT = {
    "app/main.c": """#include "low.h"
#include "made.h"
#include "sub/part.h"
#if LEVEL > 3 && defined APP
#include <extra.h>
#endif
int main(void) { return low() - MADE; }
""",
    "app/more.c": '#include "../app/sub/part.h"\nint more(void) { return PART; }\n',
    "app/sub/part.h": "#ifndef PART\n#define PART 4\n#include \"own.h\"\n#endif\n",
    "app/sub/own.h": "typedef int own;\n",
    "lib/low.c": """#include <low.h>
/* a comment
*/ # /* and */ include "inner.h"
int low(void) { return LEVEL; }
const char *words = WORDS;
""",
    "lib/inner.h": "extern int inner;\n",
    "lib/public/low.h": "#pragma once\nint low(void);\n",
    "lib/public/extra.h": "#define EXTRA\n",
    "cfg/made.h.in": "#define MADE @NUMBER@\n",
    "CMakeLists.txt": """cmake_minimum_required(VERSION 3.10)
project(demo C)
set(CMAKE_EXPORT_COMPILE_COMMANDS ON)
set(NUMBER 7)
configure_file(cfg/made.h.in ${CMAKE_BINARY_DIR}/made/made.h)
add_library(low STATIC lib/low.c)
target_include_directories(low PUBLIC lib/public)
target_compile_definitions(low PRIVATE LEVEL=3 "WORDS=\\"a b\\"")
add_executable(app app/main.c app/more.c)
target_include_directories(app PRIVATE ${CMAKE_BINARY_DIR}/made)
target_compile_definitions(app PRIVATE APP LEVEL=3)
target_link_libraries(app low)
""",
    "meson.build": """project('demo', 'c', default_options: ['c_std=c11'])
configure_file(input: 'cfg/made.h.in', output: 'made.h', configuration: {'NUMBER': '7'})
low = static_library('low', 'lib/low.c', include_directories: 'lib/public', c_args: ['-DLEVEL=3', '-DWORDS="a b"'])
executable('app', 'app/main.c', 'app/more.c', include_directories: 'lib/public', c_args: ['-DAPP', '-DLEVEL=3'],
           link_with: low)
""",
    "Makefile": """all: made.h
\tgcc -c -Ilib/public -DLEVEL=3 -DWORDS='"a b"' lib/low.c -o low.o
\tgcc -c -I. -Ilib/public -DAPP -DLEVEL=3 app/main.c -o main.o
\tgcc -c -I. -Ilib/public -DAPP -DLEVEL=3 app/more.c -o more.o
\tgcc low.o main.o more.o -o demo
made.h: cfg/made.h.in
\tsed 's/@NUMBER@/7/' $< > $@
""",
}
UNITS = ["app/main.c", "app/more.c", "lib/low.c"]


def dependencies(printed):
    """Returns the sets of dependencies that `cppunits deps` prints, by unit."""
    found = {}
    for line in printed.decode().splitlines():
        words = line.split(" ", 2)
        if words[0] == "unit":
            found[words[2]] = names = set()
        elif words[0] == "dep":
            names.add(words[2])
    return found


def by_gcc(commands, root):
    """Returns the same sets from `gcc -MM` over a build's commands."""
    found = {}
    for entry in commands:
        words = entry.get("arguments") or shlex.split(entry["command"])
        words = re.sub(r"\0-((o|MF|MQ|MT)\0[^\0]*|c|MD)(?=\0)", "", "\0".join(words)).split("\0")[1:]
        rule = well(["gcc", "-MM", *words], cwd=entry["directory"]).decode().replace("\\\n", " ")
        paths = [os.path.join(entry["directory"], name) for name in rule.split(":", 1)[1].split()]
        names = [os.path.relpath(path, root) for path in paths]
        found[names[0]] = set(names)
    return found


class Lists(Folder):
    """Makes lists of commands over files below a root."""

    def setUp(self):
        super().setUp()
        self.root = os.path.join(self.top, "demo")

    def listed(self, path, *words, status=0, **more):
        """Returns the list that the script makes, and its lines on standard error."""
        done = script("list_from_build.py", path, *words, **more)
        self.assertEqual(done.returncode, status, done.stderr.decode())
        return json.loads(done.stdout), done.stderr.decode().splitlines()


class Builds(Lists):
    def setUp(self):
        super().setUp()
        missed("gcc")
        write(self.root, PROJECT)

    def compare(self, path, commands=None, **more):
        """Wants gcc's dependencies for the list's units, over a list of names and over one with contents."""
        with open(path) as file:
            commands = commands or json.load(file)
        listed, _ = self.listed(path, "--root", self.root, **more)
        printed = cppunits("--root", self.root, "deps", input=json.dumps(listed).encode())
        self.assertEqual((printed.stderr, printed.returncode), (b"", 0))
        inline, _ = self.listed(path, "--root", self.root, "--inline", **more)
        self.assertEqual(cppunits("deps", input=json.dumps(inline).encode()).stdout, printed.stdout)
        found = dependencies(printed.stdout)
        self.assertEqual(sorted(found), UNITS)
        self.assertEqual(found, by_gcc(commands, self.root))
        # one header is in a group that is skipped
        self.assertEqual({row["name"] for row in listed["files"]}, set().union({"lib/public/extra.h"}, *found.values()))

    def test_cmake(self):
        missed("cmake", "make")
        build = os.path.join(self.root, "build")
        well(["cmake", "-S", self.root, "-B", build, "-G", "Unix Makefiles"])
        self.compare(os.path.join(build, "compile_commands.json"))

    def test_cmake_with_ninja_and_its_own_commands(self):
        missed("cmake", "ninja")
        build = os.path.join(self.root, "build")
        well(["cmake", "-S", self.root, "-B", build, "-G", "Ninja"])
        path = os.path.join(build, "compile_commands.json")
        self.compare(path)
        with open(path) as file:
            commands = json.load(file)
        with open(path, "wb") as file:
            file.write(well(["ninja", "-C", build, "--quiet", "-t", "compdb"]))
        # ninja includes the commands that link, too
        self.compare(path, commands, status=1)

    def test_meson(self):
        missed("meson", "ninja")
        build = os.path.join(self.root, "build")
        well(["meson", "setup", build, self.root])
        self.compare(os.path.join(build, "compile_commands.json"))

    def test_bear(self):
        missed("bear", "make")
        path = os.path.join(self.root, "compile_commands.json")
        well(["bear", "--output", path, "--", "make", "-C", self.root])
        self.compare(path)

    def test_the_root_is_the_deepest_folder_of_all(self):
        missed("cmake", "make")
        build = os.path.join(self.top, "elsewhere", "build")
        well(["cmake", "-S", self.root, "-B", build, "-G", "Unix Makefiles"])
        listed, messages = self.listed(os.path.join(build, "compile_commands.json"))
        self.assertIn("root %s, 3 units, 9 files, 0 not expressed" % self.top, messages[-1])
        self.assertIn({"name": "elsewhere/build/made/made.h"}, listed["files"])
        self.assertEqual(cppunits("--root", self.top, "deps", input=json.dumps(listed).encode()).returncode, 0)


class Commands(Lists):
    """Tests single commands, written by hand."""

    def unit(self, command, files=(), words=(), **more):
        """Returns the one unit of a command, the list, and the messages before the last line."""
        write(self.root, {"a.c": "x\n", **dict(files)})
        path = os.path.join(self.top, "commands.json")
        entry = {"directory": self.root, "file": "a.c"}
        entry["arguments" if isinstance(command, list) else "command"] = command
        with open(path, "w") as file:
            json.dump([entry], file)
        listed, messages = self.listed(path, "--root", self.root, *words, **more)
        return listed["units"][0], listed, messages[:-1]

    def test_definitions(self):
        command = r"""cc -DA -DB=2 -D C='x y' '-DF(a,b)=a=b' -DE= -DG=1 -UG -DH=1 -DH=2 -UNEVER "-DT=\"q r\"" -DA=last -c a.c"""
        unit, _, messages = self.unit(command)
        self.assertEqual(unit["define"], ["B 2", "C x y", "F(a,b) a=b", "E", "H 2", 'T "q r"', "A last"])
        self.assertEqual(messages, [])

    def test_a_command_counts_for_more_than_what_is_defined_for_all(self):
        words = ["--define", "A 7", "--define", "B 7", "--define", "C 7", "--define", "F(a) 7", "--define", "G", "--define", "G 8"]
        unit, _, messages = self.unit("cc -DA=1 -DB=2 -UB '-DF(x)=x' -c a.c", words=words)
        self.assertEqual(unit["define"], ["C 7", "G 8", "A 1", "F(x) x"])
        self.assertEqual(messages, [])

    def test_words_that_can_not_be_expressed(self):
        unit, _, messages = self.unit("cc -D__FILE__=1 -Ddefined -U__STDC__ -imacros m.h -include gone.h -c a.c", status=1)
        self.assertNotIn("define", unit)
        self.assertEqual(len(messages), 5)
        self.assertTrue(all(line.startswith("list_from_build.py: %s/a.c: " % self.root) for line in messages), messages)

    def test_words_that_are_no_text(self):
        unit, _, messages = self.unit(["cc", "-DA=\udcff", "-DB=\ud800", "-I\ud800", "-c", "a.c"], status=1)
        self.assertNotIn("define", unit)
        found = [line.rsplit("/", 1)[1] for line in messages]
        self.assertEqual(found, ["a.c: -DA=%FF: no UTF-8 text", "a.c: -DB=%ED%A0%80: no UTF-8 text"])

    def test_folders_in_their_order(self):
        files = {name + "/x": "" for name in "abcdefg"}
        command = "cc -Ib -isystemc -iquote a -I c -idirafter g -isystem d --include-directory=e -Ib -Inone -c a.c"
        _, listed, messages = self.unit(command, files, ["--system", os.path.join(self.root, "f")])
        self.assertEqual(listed["search"], ["a", "b", "e", "c", "d", "f", "g"])
        self.assertEqual(messages, [])

    def test_arguments_and_response_files(self):
        files = {"more.rsp": "-DX='1 2' \"-DY=\\\"z\\\"\" @again.rsp\n-Iinc", "again.rsp": "-DZ", "inc/h.h": ""}
        unit, listed, _ = self.unit(["cc", "@more.rsp", "-Wp,-DW=3,-MD,a.d", "-DS=a b", "-c", "a.c"], files)
        self.assertEqual(unit["define"], ["X 1 2", 'Y "z"', "Z 1", "W 3", "S a b"])
        self.assertEqual(listed["search"], ["inc"])

    def test_a_file_that_is_included_first(self):
        files = {"cfg/first.h": '#include "second.h"\nfirst\n', "cfg/second.h": "second\n"}
        command = "cc -include first.h -Icfg -c a.c"
        unit, listed, messages = self.unit(command, files)
        self.assertEqual((unit["file"], unit["first"], messages), ("a.c", ["cfg/first.h"], []))
        dump = cppunits("--root", self.root, "dump", input=json.dumps(listed).encode())
        self.assertEqual(re.findall(r"^tok .* (\w+)$", dump.stdout.decode(), re.M), ["second", "first", "x"])
        unit, _, messages = self.unit("cc -include %s/cfg/second.h -include gone.h -include a.h -Icfg -c a.c" % self.root, {"a.h": "", "cfg/a.h": ""}, status=1)
        self.assertEqual((unit["first"], len(messages)), (["cfg/second.h", "a.h"], 1))
        self.assertIn("-include gone.h: there is no such file", messages[0])

    def test_spellings(self):
        files = {"inc/i.h": "", "sys/s.h": "", "quote/q.h": "", "first.h": "", "inc/more.h": ""}
        command = "cc -include first.h -include more.h -include ./inc/i.h -include %s/sys/s.h -I./inc -isystem sys/ -iquote quote -idirafter inc/. -c a.c" % self.root
        unit, listed, messages = self.unit(command, files, ["--shown"])
        self.assertEqual((unit["file"], unit["shown"], messages), ("a.c", "a.c", []))
        # a directory that -idirafter names as well is the system's
        self.assertEqual(listed["search"], [{"name": "quote", "shown": "quote"}, {"name": "sys", "shown": "sys/", "system": True},
                                            {"name": "inc", "shown": "./inc", "system": True}])
        self.assertEqual(unit["first"], [{"name": "first.h", "shown": "./first.h"}, {"name": "inc/more.h", "shown": "./inc/more.h", "system": True},
                                         {"name": "inc/i.h", "shown": "././inc/i.h"}, {"name": "sys/s.h", "shown": self.root + "/sys/s.h"}])
        self.assertEqual(cppunits("--root", self.root, "deps", input=json.dumps(listed).encode()).stderr, b"")

    def test_contents_that_are_no_text(self):
        _, listed, _ = self.unit("cc -c a.c", {"a.c": b'"\xff\xfe"\n'}, ["--inline"])
        self.assertEqual(listed["files"], [{"name": "a.c", "hex": "22fffe220a"}])

    def test_a_name_that_a_macro_makes_takes_all_headers(self):
        files = {"a.c": "#define H <deep/h.h>\n#include H\n", "inc/deep/h.h": '#include "k.h"\n', "inc/deep/k.h": "",
                 "inc/other.inc": "", "inc/.hidden/x.h": "", "inc/readme": ""}
        _, listed, _ = self.unit("cc -Iinc -c a.c", files)
        names = sorted(row["name"] for row in listed["files"])
        self.assertEqual(names, ["a.c", "inc/deep/h.h", "inc/deep/k.h", "inc/other.inc"])

    def test_include_lines_are_found(self):
        text = ('??=include "1.h"\n%: include <2.h>\n#inc\\\nlude "3.h"\n /* a\n b */ /**/ # /* c\n */ include/**/"4.h"\n'
                '#if 0\n#include "5.h"\n#endif\nchar *s = "/*";\n#include "6.h"\n#include_next "7.h"\n')
        files = {"%d.h" % n: "" for n in range(1, 8)}
        _, listed, _ = self.unit("cc -I. -c a.c", {**files, "a.c": text})
        self.assertEqual([row["name"] for row in listed["files"]], ["a.c"] + ["%d.h" % n for n in range(1, 7)])

    def test_the_profile_gnu_has_all_files_of_a_next_include(self):
        files = {"a.c": "#include <h.h>\n#if __has_include(<k.h>)\nk\n#endif\n", "one/h.h": "#include_next <h.h>\n", "two/h.h": "h\n",
                 "two/k.h": "", "three/h.h": ""}
        for words, profile, names in ([], None, ["a.c", "one/h.h"]), (["--profile", "gnu"], "gnu", sorted(files)):
            _, listed, _ = self.unit("cc -Ione -Itwo -Ithree -c a.c", files, words)
            self.assertEqual((listed.get("profile"), sorted(row["name"] for row in listed["files"])), (profile, names))
        done = cppunits("--root", self.root, "dump", input=json.dumps(listed).encode())
        self.assertEqual([line.split()[4] for line in done.stdout.splitlines() if line.startswith(b"tok ")], [b"h", b"k"])

    def test_a_folder_for_names_in_quotes_alone(self):
        files = {"a.c": "#include <h.h>\n", "q/h.h": "", "i/h.h": ""}
        _, _, messages = self.unit("cc -iquote q -Ii -c a.c", files, status=1)
        self.assertIn("is found in an -iquote directory", messages[0])
        self.unit("cc -iquote q -Ii -c a.c", {**files, "a.c": '#include "h.h"\n'})

    def test_what_is_outside_the_root(self):
        write(self.top, {"out/h.h": ""})
        _, _, messages = self.unit("cc -I../out -c a.c", {"a.c": "#include <h.h>\n"}, status=1)
        self.assertEqual(["not below the root" in messages[0], "no directory below the root" in messages[1]], [True, True])

    def test_what_each_unit_is_compiled_to(self):
        targets = os.path.join(self.top, "targets")
        self.unit("cc -o out/a.o -c a.c", words=["--targets", targets])
        with open(targets) as file:
            self.assertEqual(file.read(), "out/a.o\n")

    def test_the_time_of_a_build_that_can_be_repeated(self):
        environment = dict(os.environ, SOURCE_DATE_EPOCH="1707465903")
        _, listed, _ = self.unit("cc -c a.c", env=environment)
        self.assertEqual((listed["date"], listed["time"]), ("Feb  9 2024", "08:05:03"))

    def test_a_budget(self):
        files = {"a.c": "#define F(x) x\nF(1) F(2)\n"}
        self.assertNotIn("budget", self.unit("cc -c a.c", files, ["--inline"])[1])
        for budget, status in (2, 1), (3, 0), (4294967295, 0):
            _, listed, _ = self.unit("cc -c a.c", files, ["--inline", "--budget", str(budget)])
            self.assertEqual(listed["budget"], budget)
            self.assertEqual(cppunits("dump", input=json.dumps(listed).encode()).returncode, status)
        for word in ("-1", "4294967296", "1.0", "x", ""):
            self.assertEqual(script("list_from_build.py", "--budget", word).returncode, 2)

    def test_too_many_names(self):
        write(self.root, {"a.c": "#include X\n", "inc/0.h": ""})
        for number in range(1, 65535):
            os.symlink("0.h", os.path.join(self.root, "inc/%d.h" % number))
        path, old = os.path.join(self.top, "commands.json"), os.path.join(self.top, "list.json")
        write(self.top, {"list.json": "as it was", "commands.json": json.dumps(
            [{"directory": self.root, "file": "a.c", "command": "cc -Iinc -c a.c"}])})
        done = script("list_from_build.py", path, "--output", old)
        self.assertEqual((done.stdout, done.returncode), (b"", 3))
        self.assertEqual(done.stderr, b"list_from_build.py: 65536 names and 1 units: a list has at most 65535 of each\n")
        with open(old) as file:
            self.assertEqual(file.read(), "as it was")
        self.assertEqual(sorted(os.listdir(self.top)), ["commands.json", "demo", "list.json"])

    def test_what_is_no_build(self):
        for text, status in ("[", 3), ("{}", 3), ('[{"file":"a.c"}]', 3), ("[]", 3):
            write(self.top, {"commands.json": text})
            done = script("list_from_build.py", os.path.join(self.top, "commands.json"))
            self.assertEqual((done.returncode, done.stderr.count(b"\n")), (status, 1), text)
        self.assertEqual(script("list_from_build.py", os.path.join(self.top, "none.json")).returncode, 5)
        self.assertEqual(script("list_from_build.py", "--none").returncode, 2)


class Budgets(unittest.TestCase):
    """Tests lists with a budget."""
    FILES = [{"name": "a.c", "text": '#include "h.h"\n#include "h.h"\n#if X == 1\nf(2)(9) X\n#endif\n#error f(1)\n'},
             {"name": "h.h", "text": "#ifndef H\n#define H\n#define f(a) a*g\n#define g(a) f(a)\n#define X 1\n#endif\n"}]

    def printed(self, budget, **more):
        """Returns the result of `cppunits dump` for a list with this JSON text as its budget."""
        whole = json.dumps({**LIST, "files": self.FILES, "units": [{"file": "a.c"}, {"file": "h.h"}], **more})
        return cppunits("dump", input=('{"budget":%s,%s' % (budget, whole[1:])).encode())

    def test_refusals(self):
        for budget, number in [("-1", 10), ("4294967296", 10), ("18446744073709551616", 10), ("1.5", 10), ("1.0", 10), ("1e3", 10),
                               ("-0", 10), ('"5"', 2), ("null", 2), ("true", 2), ("[5]", 2), ("{}", 2), ("05", 1), ("1e999", 1)]:
            done = self.printed(budget)
            messages = b"cppunits: list refused L%d\n" % number
            self.assertEqual((done.stdout, done.stderr, done.returncode), (b"", messages, 3), budget)

    def test_the_least_number_is_printed(self):
        for number, more in (9, {"profile": "c23"}), (8, {"search": ["/"]}), (6, {"date": ""}), (3, {"files": self.FILES[:1] * 2}):
            self.assertEqual(self.printed("-1", **more).stderr, b"cppunits: list refused L%d\n" % number)

    def test_each_budget_gives_a_beginning(self):
        without = cppunits("dump", input=json.dumps({**LIST, "files": self.FILES, "units": [{"file": "a.c"}, {"file": "h.h"}]}).encode())
        wholes = parts(without.stdout)
        # three files are opened for a.c; X is replaced twice, then f, g and f once each
        for budget in range(10):
            found = parts(self.printed(str(budget)).stdout)
            for whole, one, count in zip(wholes, found, (8, 1), strict=True):
                with self.subTest(budget=budget, unit=one[0]):
                    for lines, front in zip(whole[1:3], one[1:3]):
                        self.assertEqual(lines[:len(front)], front)
                    if count <= budget:
                        self.assertEqual(one, whole)
                    else:
                        self.assertTrue(one[3].startswith("fault 35 "), one[3])
        self.assertEqual(parts(self.printed("4294967295").stdout), wholes)


def parts(printed):
    """Returns the parts of each unit of an output: its first line, its items, its dependencies and its last line."""
    found = []
    for line in printed.decode().splitlines():
        word = line.split(" ", 1)[0]
        if word == "unit":
            found.append([line, [], [], None])
        elif word in ("ok", "fault"):
            found[-1][3] = line
        else:
            found[-1][2 if word == "dep" else 1].append(line)
    return found


if __name__ == "__main__":
    main()
