#!/usr/bin/env python3
"""Tests the compile_commands.json that `build.py text --into` writes: what it compiles is compared with what the build itself makes.

    tests/database_tests.py [PROGRAM] [-k NAME]

ZLIB may name a directory with the sources of zlib, which then are built by CMake, too.
"""
import json
import os
import shlex
import shutil
import unittest

from build_tests import Builds
from counted import TOP, Folder, main, missed, program, run, script, well, write

ZLIB = os.environ.get("ZLIB", "")
ENVIRONMENT = dict(os.environ, SOURCE_DATE_EPOCH="1707465903", LC_ALL="C")
PROJECT = {
    "CMakeLists.txt": "cmake_minimum_required(VERSION 3.10)\nproject(p C)\nadd_compile_options(${DEBUG})\nadd_library(low STATIC low.c sub/low.c)\n"
                      "add_executable(p main.c low.c)\ntarget_include_directories(p PRIVATE inc)\ntarget_compile_definitions(p PRIVATE NAME=\"p\" MORE)\n"
                      "target_compile_options(p PRIVATE -Wall -Wextra -Werror -std=gnu99)\ntarget_link_libraries(p low)\n",
    "main.c": "#include <stdio.h>\n#include <name.h>\nint low(int);\nint main(void)\n{\n    printf(NAME \" %s:%d\\n\", __FILE__, __LINE__);\n    return low(0);\n}\n",
    "low.c": "#ifdef MORE\n#define N 2\n#else\n#define N 1\n#endif\nint low(int n)\n{\n    switch (n) {\n    case 0:\n        n = N; /* fall through */\n"
             "    default:\n        n++;\n    }\n    return n;\n}\n",
    "sub/low.c": "int sub(void) { return __LINE__; }\n", "inc/name.h": "#define UNUSED 1\n"}
# options for debug information that doesn't depend on the columns of macros; clang names the text in it
DEBUG = {"gcc": "-g -gno-column-info", "clang": ""}
# the words of a command after `gcc`, and those of its entry; T is the text
WORDS = [
    ("-c a.c", "-c T -o a.o"), ("-S d/../a.c", "-S T -o a.s"), ("-c a.c -o x.o", "-c T -o x.o"), ("-ox.o -c a.c", "-c T -o x.o"),
    ("-O2 -std=c99 -g -Wall -c a.c", "-O2 -std=c99 -g -Wall -c T -o a.o"), ("a.c", "T"), ("a.c -lm -o p", "T -lm -o p"),
    ("-Isys -I sys -iquote . -isystem sys -idirafter sys -D A -DB=1 -UC -include sys/sys.h -nostdinc -c a.c", "-c T -o a.o"),
    ("-MD -MP -MF d -MT t -MQq -Wp,-MD,f -Wp,-DX -P -undef -trigraphs -c a.c", "-c T -o a.o"), ("@words -c a.c", "-O1 -c T -o a.o"),
    ("-x c -c a.c -x none", "-x none -c T -x none -o a.o"), ("-fsyntax-only a.c", "-fsyntax-only T"),
    ("-Werror -c a.c", "-Werror -c T -o a.o -Wno-error=address -Wno-error=tautological-compare -Wno-error=int-in-bool-context "
                       "-Wno-error=logical-not-parentheses -Wno-error=misleading-indentation"),
    ("-c a.c b.c", "-c T -o a.o"), ("-DX -c a.c s.S", "-DX -c T s.S -o a.o"),
]
NONE = [
    ("-E a.c", "its command compiles nothing"), ("-MM a.c", "its command compiles nothing"), ("--version a.c", "its command compiles nothing"),
    ("-c b.c", "its command doesn't name it as a C file"), ("-x c++ -c a.c -x c", "its command doesn't name it as a C file"),
    ("a.c b.c -o p", "its command links several C files"), ("-H -c a.c", "-H isn't supported"),
    ("-ffile-prefix-map=./=y -include named -c a.c", "-ffile-prefix-map isn't supported for its __FILE__"), ("-include strange -c a.c", "stray '#' in program"),
]


def words_of(entry):
    return entry["arguments"] if "arguments" in entry else shlex.split(entry["command"])


def output_of(entry):
    words = words_of(entry)
    return entry["output"] if "output" in entry else words[words.index("-o") + 1]


def compiled(path):
    """Runs the commands of a database, which must say nothing, and returns the contents of the files that they write."""
    found = []
    with open(path) as file:
        entries = json.load(file)
    for entry in entries:
        done = run(words_of(entry), cwd=entry["directory"], env=ENVIRONMENT)
        if done.returncode or done.stderr:
            raise AssertionError("%s: status %d: %s" % (entry["file"], done.returncode, done.stderr.decode()))
        with open(os.path.join(entry["directory"], output_of(entry)), "rb") as file:
            found.append(file.read())
    return found


class Entries(Builds):
    """Tests the words of entries, with a compiler that these tests make."""

    def setUp(self):
        super().setUp()
        self.compiler("bin/gcc")
        write(self.top, {"a.c": "int a;\n", "b.c": "int b;\n", "words": "-O1 -DN", "s.S": "", "named": "char *s = __FILE__;\n",
                         "strange": "#define H #\nH x\n", "d/x": ""})

    def entries(self):
        with open(self.path("t/compile_commands.json")) as file:
            return json.load(file)

    def test_the_words_of_each_command(self):
        self.build("text", [["gcc", *words.split()] for words, _ in WORDS], "--into", "t")
        found = self.entries()
        self.assertEqual(len({entry["file"] for entry in found}), len(WORDS))
        for (words, wanted), entry in zip(WORDS, found):
            text = entry["file"]
            self.assertEqual((entry["directory"], os.path.dirname(text)), (self.top, self.path("t")))
            self.assertEqual(" ".join(entry["arguments"]).replace("-x cpp-output %s -x none" % text, "T"), "gcc " + wanted, words)
            self.assertEqual(entry.get("output"), wanted.split(" -o ")[1].split()[0] if " -o " in wanted else None)
            with open(text) as file:
                self.assertIn("int a;\n", file.read())

    def test_clang_and_programs_in_front(self):
        self.compiler("bin/clang", self.GIVEN % ("#define __clang__ 1", self.top))
        self.build("text", ["clang -c a.c", "ccache -x env A=1 gcc -c a.c", "/nowhere/clang -c a.c"], "--into", "t", status=1)
        more = ["-fno-trigraphs", "-Wno-unused-command-line-argument"]
        found = [entry["arguments"] for entry in self.entries()]
        self.assertEqual([(words[:words.index("-c")], words[words.index("-o") + 1:]) for words in found],
                         [(["clang"], ["a.o", *more]), (["ccache", "-x", "env", "A=1", "gcc"], ["a.o"]), (["/nowhere/clang"], ["a.o", *more])])

    GIVEN = "#!/bin/sh\ncase \" $* \" in *\" -v \"*) printf '#include <...> search starts here:\\nEnd of search list.\\n' >&2 ;; *) echo '%s' ;; esac # %s\n"

    def test_units_without_an_entry(self):
        """Wants a line for each, their number, and the entries of the others."""
        _, messages = self.build("text", ["gcc -c a.c", *("gcc " + words for words, _ in NONE)], "--into", "t", status=1)
        messages = [line for line in messages if "is that of another command" not in line]
        wanted = ["build.py: %s: no entry in t/compile_commands.json: %s" % (self.path("a.c"), reason) for reason in dict.fromkeys(reason for _, reason in NONE)]
        wanted.append("build.py: %d of %d units have no entry in t/compile_commands.json" % (len(NONE), len(NONE) + 1))
        self.assertEqual(messages[:-1], wanted)
        self.assertEqual(len(self.entries()), 1)

    def test_a_unit_with_a_fault(self):
        write(self.top, {"b.c": "#error no\n"})
        for commands, count in (["gcc -c a.c"], 1), ([], 0):
            _, messages = self.build("text", [("gcc -c b.c", "b.c"), *commands], "--into", "t", status=1)
            self.assertEqual(messages[0], "build.py: %s: fault 34, so there is no text (`build.py faults` says more)" % self.path("b.c"))
            self.assertEqual(messages[1], "build.py: 1 of %d units have no entry in t/compile_commands.json" % (count + 1))
            self.assertEqual(len(self.entries()), count)

    def test_what_is_no_database_of_texts_stays(self):
        _, messages = self.build("text", ["gcc -c a.c"], "--into", ".", status=3)
        self.assertEqual(messages, ["build.py: ./compile_commands.json is there and isn't one for texts, so it stays (--into names another directory)"])
        self.assertFalse(os.path.exists(self.path("a.i")))
        for text in "", "{}", "[1]", '[{"file":"a.i"}]', '[{"file":"a.c","arguments":["cc","a.c"]}]':
            write(self.top, {"t/compile_commands.json": text})
            self.build("text", ["gcc -c a.c"], "--into", "t", status=3)
            with open(self.path("t/compile_commands.json")) as file:
                self.assertEqual(file.read(), text)
        write(self.top, {"t/compile_commands.json": "[]"})
        for _ in range(2):
            self.build("text", ["gcc -c a.c"], "--into", "t")
            self.assertEqual(len(self.entries()), 1)


class Objects(Folder):
    """Compares the objects of builds with those of their texts."""

    def same(self, folder):
        """Wants from the texts of a build's commands the files that the commands themselves write."""
        theirs = compiled(os.path.join(folder, "compile_commands.json"))
        done = script("build.py", "text", "--program", program(), "--into", self.path("text"), cwd=folder, env=ENVIRONMENT)
        self.assertEqual((done.returncode, done.stderr.count(b"\n")), (0, 1), done.stderr.decode())
        ours = compiled(self.path("text/compile_commands.json"))
        self.assertEqual((len(ours), [one == other for one, other in zip(ours, theirs)]), (len(theirs), [True] * len(theirs)))
        return len(theirs)

    def configured(self, sources, compiler, *words):
        """Returns the directory of a build that CMake configures."""
        missed("cmake", "make", compiler)
        folder = self.path("build")
        well(["cmake", "-DCMAKE_BUILD_TYPE=Release", "-DCMAKE_C_COMPILER=" + compiler, "-DCMAKE_EXPORT_COMPILE_COMMANDS=ON", *words, "-S", sources, "-B", folder])
        return folder

    def demo(self, compiler):
        missed(compiler)
        folder = self.path("demo")
        shutil.copytree(os.path.join(TOP, "examples", "demo"), folder)
        path = os.path.join(folder, "compile_commands.json")
        with open(path) as file:
            text = file.read().replace('"cc ', '"%s -O2 %s ' % (compiler, DEBUG[compiler])).replace('": "."', '": "%s"' % folder)
        write(folder, {"compile_commands.json": text})
        self.assertEqual(self.same(folder), 2)
        well([compiler, "main.o", "low.o", "-o", "demo"], cwd=folder)
        self.assertEqual(well([os.path.join(folder, "demo")]), b"demo\n")

    def project(self, compiler):
        """Wants the build of CMake to make all of its texts by their commands, too."""
        write(self.top, {"p/" + name: text for name, text in PROJECT.items()})
        folder = self.configured(self.path("p"), compiler, "-DDEBUG=" + DEBUG[compiler].replace(" ", ";"))
        self.assertEqual(self.same(folder), 4)

    def zlib(self, compiler):
        if not os.path.isfile(os.path.join(ZLIB, "CMakeLists.txt")):
            raise unittest.SkipTest("zlib's sources are missing (ZLIB names their directory; Debian's `apt-get source zlib`)")
        shutil.copytree(ZLIB, self.path("zlib"))
        # Debian leaves this file out, and CMake asks for it
        write(self.top, {"zlib/win32/zlib1.rc": ""})
        self.assertGreater(self.same(self.configured(self.path("zlib"), compiler)), 30)

    def test_demo_by_gcc(self):
        self.demo("gcc")

    def test_demo_by_clang(self):
        self.demo("clang")

    def test_project_by_gcc(self):
        self.project("gcc")

    def test_project_by_clang(self):
        self.project("clang")

    def test_zlib_by_gcc(self):
        self.zlib("gcc")

    def test_zlib_by_clang(self):
        self.zlib("clang")


if __name__ == "__main__":
    main()
