#!/usr/bin/env python3
"""Tests scripts/build.py, with compilers that these tests make and with the machine's gcc and its headers.

    tests/build_tests.py [PROGRAM] [-k NAME]

A compiler that these tests make is a shell script.  It records its arguments, and answers the questions for directories, macros and
operators.  With the machine's gcc, tokens are compared with those of `gcc -E -P`, and dependencies with those of `gcc -M`.
"""
import json
import os
import pty
import re
import signal
import subprocess
import sys
import time
import unittest

from counted import TOP, Folder, cppunits, main, missed, program, run, spelled, well, write

BUILD = os.path.join(TOP, "scripts", "build.py")
COMPILER = """#!/bin/sh
echo "${0##*/} $*" >> "%(top)s/asked"
case " $* " in
    *" -v "*) printf '#include <...> search starts here:\\n %(top)s/sys\\nEnd of search list.\\n' >&2 ;;
    *" -dM "*) printf '#define %%s\\n' 'WHO %(who)s' '__STDC__ 1' '__STDC_HOSTED__ 1' '__STDC_VERSION__ 199901L' 'F(a,b) a b' ;;
    *) sed -n 's/^#ifdef __has_attribute$/@ has_attribute :/p; s/^#if __has_attribute(good)$/@ has_attribute good : 1/p' ;;
esac
"""
# a preprocessing token in the text of gcc -E -P
TOKEN = re.compile(r"""(?:u8|[uUL])?"(?:\\.|[^"\\\n])*" | [uUL]?'(?:\\.|[^'\\\n])*' | \.?[0-9](?:[eEpP][+-]|[\w.])* | [A-Za-z_$][\w$]*
    | \.\.\. | <<= | >>= | -> | \+\+ | -- | << | >> | [<>=!*/%+&^|-]= | && | \|\| | \#\# | \S""", re.VERBOSE)
HEADERS = "stdio.h limits.h stdint.h errno.h sys/socket.h"
REAL = {
    "src/a.c": "".join("#include <%s>\n" % name for name in HEADERS.split()) + '#include "own.h"\n#include NAMED\n'
               "#if __has_attribute(__nonnull__) && defined __has_include\nint limit = INT_MAX + OWN + PATH_MAX;\n#endif\n"
               "long version = __STDC_VERSION__;\n",
    "src/b.c": "#include <sys/socket.h>\n#ifdef __OPTIMIZE__\nint optimized;\n#endif\nint family = AF_INET6;\n",
    "inc/own.h": "#pragma once\n#include <errno.h>\n#define OWN EINTR\n",
    "inc/named/first.h": "int first;\n#include SECOND\n", "inc/second.h": "int second;\n", "inc/never.h": "int never;\n",
}


class Builds(Folder):
    """Makes builds in a temporary directory, with compilers in its directory `bin`, which comes first on PATH."""

    def setUp(self):
        super().setUp()
        write(self.top, {"sys/sys.h": "int sys;\n", "a.c": "#include <sys.h>\nWHO\n", "tmp/x": ""})
        self.path_of = os.pathsep.join([self.path("bin"), os.environ["PATH"]])

    def compiler(self, name, text=COMPILER, who="1"):
        """Makes a compiler, and returns its path."""
        write(self.top, {name: text % {"top": self.top, "who": who} if "%(" in text else text})
        os.chmod(self.path(name), 0o755)
        return self.path(name)

    def words(self, task, *words):
        return [sys.executable, BUILD, task, "--program", program(), *words]

    def environment(self):
        return dict(os.environ, PATH=self.path_of, TMPDIR=self.path("tmp"))

    def build(self, task, commands, *words, status=0, **more):
        """Returns the output of build.py and its lines on standard error; each command is words or a text for a.c, or has the name of its file."""
        entries = []
        for command in commands:
            command, file = command if isinstance(command, tuple) else (command, "a.c")
            entries.append({"directory": self.top, "file": file, "command" if isinstance(command, str) else "arguments": command})
        write(self.top, {"compile_commands.json": json.dumps(entries)})
        done = run(self.words(task, *words), cwd=self.top, env=self.environment(), **more)
        self.assertEqual(done.returncode, status, done.stderr.decode())
        self.assertEqual(os.listdir(self.path("tmp")), ["x"])
        return done.stdout.decode(), done.stderr.decode().splitlines()

    def tokens(self, commands, *words, **more):
        """Returns the spellings of each unit's tokens, and the lines on standard error."""
        printed, messages = self.build("dump", commands, *words, **more)
        units = re.split(r"^unit .*\n", printed, flags=re.MULTILINE)[1:]
        return [[spelled(word.encode()) for word in re.findall(r"^tok \S+ \S+ \S+ (.*)$", unit, re.MULTILINE)] for unit in units], messages

    def asked(self):
        try:
            with open(self.path("asked")) as file:
                return file.read().splitlines()
        except FileNotFoundError:
            return []


class Compilers(Builds):
    """Tests which compilers are asked, and what."""

    def test_folders_macros_and_operators_are_the_compilers(self):
        self.compiler("bin/gcc")
        write(self.top, {"a.c": "#include <sys.h>\nWHO F(1, 2) __STDC_VERSION__ __STDC_HOSTED__\n#if defined __has_include && __has_attribute(good)\n"
                                "good\n#endif\n#define OWN(a) __has_attribute(a)\n#if OWN(good)\nown\n#endif\n"
                                "#if __has_attribute(bad)\nbad\n#endif\n#ifdef __has_builtin\nno\n#endif\n"})
        tokens, messages = self.tokens(["gcc -DX -c a.c"])
        self.assertEqual(tokens, [["int", "sys", ";", "1", "1", "2", "199901L", "1", "good", "own"]])
        self.assertRegex(messages[0], r"^build.py: 1 units, 0 with a fault, 2 files \(2 on the list\), [0-9.]+ seconds$")
        self.assertEqual(len(messages), 1)

    def test_the_units_own_file_and_the_module_that_is_built(self):
        """Wants `__BASE_FILE__` as the command spells it, and 0 of a compiler that has `__building_module`, as clang's headers ask."""
        self.compiler("bin/gcc", COMPILER.replace("sed -n '", "sed -n 's/^#ifdef __building_module$/@ building_module :/p; s/^#if __building_module(one)$/@ building_module one : 1/p; "))
        write(self.top, {"a.c": "__BASE_FILE__\n#if defined(__building_module) && !__building_module(_Builtin_x) && __building_module(one)\nyes\n#endif\n"})
        self.assertEqual(self.tokens(["gcc -c ./a.c", "gcc -U__BASE_FILE__ -D__building_module=1 -c a.c"], status=1)[0],
                         [['"./a.c"', "yes"], ["__BASE_FILE__"]])
        self.compiler("bin/gcc")
        write(self.top, {"a.c": "#ifdef __building_module\nyes\n#endif\n__BASE_FILE__\n"})
        self.assertEqual(self.tokens(["gcc -c a.c"])[0], [['"a.c"']])

    def test_names_that_may_not_be_defined(self):
        """Wants a line for each option, with the fault that the definition would be, and the unit without it."""
        self.compiler("bin/gcc")
        options = ["-D__DATE__=\"x\"", "-D__TIME__", "-D__FILE__=1", "-Ddefined"]
        tokens, messages = self.tokens([["gcc", *options, "-c", "a.c"]], status=1)
        self.assertEqual(messages[:-1], ["build.py: %s: %s: this name may not be defined (fault 10)" % (self.path("a.c"), option) for option in options])
        self.assertEqual(tokens, [["int", "sys", ";", "1"]])

    def test_profiles(self):
        """Wants no operators and no `__STDC_VERSION__` of the compiler in a profile that doesn't allow them."""
        self.compiler("bin/gcc")
        write(self.top, {"a.c": "#ifdef __has_include\nhas\n#endif\n__STDC_VERSION__ WHO\n"})
        for words, wanted in ([], ["has", "199901L", "1"]), (["gnu"], ["has", "199901L", "1"]), (["later"], ["201112L", "1"]), (["c11"], ["201112L", "1"]):
            self.assertEqual(self.tokens(["gcc -c a.c"], *["--profile" for _ in words], *words)[0], [wanted])
        write(self.top, {"a.c": "#define A 1\n#define A 2\n"})
        for profile, status in ("gnu", 0), ("c11", 1):
            self.build("faults", ["gcc -c a.c"], "--profile", profile, status=status)

    def test_what_a_command_says_of_a_name_counts_for_more(self):
        self.compiler("bin/gcc")
        self.assertEqual(self.tokens(["gcc -DWHO=x -c a.c", "gcc -UWHO -c a.c"])[0], [["int", "sys", ";", "x"], ["int", "sys", ";", "WHO"]])

    def test_each_compiler_and_each_set_of_options_is_asked_once(self):
        self.compiler("bin/gcc")
        self.compiler("bin/clang-14", who="2")
        options = "-std=c99 -O2 -m32 -fPIC -pthread -nostdinc -undef"
        refused = ("-fplugin=./x.so -specs=x -B. -wrapper x -Xclang x -fdump-tree-all -fpreprocessed -fsanitize=../x -DWHO=3 -g -Wall -o x -MD -MF d "
                   "-march=../x -std=@x --sysroot=sub -mllvm=-load=x.so")
        commands = ["gcc -c a.c", "gcc -DX -c a.c", "gcc %s -c a.c" % options, "clang-14 -c a.c", "gcc %s -c a.c" % refused]
        tokens, _ = self.tokens(commands)
        self.assertEqual([unit[-1] for unit in tokens], ["1", "1", "1", "2", "3"])
        asked = sorted(self.asked())
        self.assertEqual(sorted(set(asked)), asked)
        wanted = ["clang-14 -E -v -x c -", "gcc -E -v -x c -", "gcc -E -v -x c %s -" % options, "gcc -E -v -x c --sysroot=%s/sub -" % self.top]
        self.assertEqual([line for line in asked if " -v " in line], sorted(wanted))

    def test_programs_in_front_of_a_compiler(self):
        self.compiler("bin/gcc")
        self.compiler("bin/ccache", "#!/bin/sh\ntouch %(top)s/ran\n")
        fronts = "ccache", "distcc ccache", "env A=b ccache", "/usr/bin/ccache", "sccache"
        self.assertEqual(self.tokens([front + " gcc -c a.c" for front in fronts])[0], [["int", "sys", ";", "1"]] * len(fronts))
        self.assertFalse(os.path.exists(self.path("ran")))

    def test_arguments(self):
        self.compiler("bin/gcc")
        self.assertEqual(self.tokens([["ccache", "gcc", "-DWHO=x y", "-c", "a.c"]])[0], [["int", "sys", ";", "x", "y"]])

    def test_compilers_that_are_not_there(self):
        for word in "nowhere-gcc", "/usr/nowhere/gcc", "", "./gcc":
            tokens, messages = self.tokens([["%s" % word, "-Isys", "-c", "a.c"]], status=1)
            self.assertEqual(tokens, [["int", "sys", ";", "WHO"]])
            self.assertIn("this compiler isn't asked: there is no such program", messages[0])

    def test_what_is_run_is_what_is_trusted(self):
        """Refuses other names, relative paths, and paths elsewhere; runs each of them if --query-driver allows it."""
        self.compiler("bin/nocc")
        self.compiler("here/gcc")
        self.compiler("bin/gcc; touch x")
        for word, reason in (("nocc", "its name is none"), ("here/gcc", "its path is relative"), ("gcc; touch x", "its name is none"),
                             (self.path("here/gcc"), "neither on PATH nor below /usr or /opt"),
                             ("/usr/../%s/here/gcc" % self.top, "neither on PATH")):
            tokens, messages = self.tokens([[word, "-Isys", "-c", "a.c"]], status=1)
            self.assertEqual(tokens, [["int", "sys", ";", "WHO"]])
            self.assertEqual((reason in messages[0], "--query-driver" in messages[0], self.asked()), (True, True, []), messages)
        self.assertEqual(self.tokens([["here/gcc", "-c", "a.c"]], "--query-driver", self.path("here/*"))[0], [["int", "sys", ";", "1"]])
        self.assertNotEqual(self.asked(), [])
        self.assertFalse(os.path.exists(self.path("x")))

    def test_words_that_are_no_text(self):
        for words in ["\ud800/gcc"], ["g\0cc"], ["gcc", "--sysroot=\ud800"], ["gcc", "-isysroot", "\0"], ["gcc", "-o", "\ud800"]:
            self.compiler("bin/gcc")
            messages = self.build("deps", [[*words, "-Isys", "-c", "a.c"]], status=1)[1]
            self.assertRegex(messages[0], "this compiler isn't asked: its name is no text|no answer|no text")

    def test_a_path_that_path_has(self):
        path = self.compiler("bin/arm-none-eabi-gcc-12.2")
        self.assertEqual(self.tokens([[path, "-c", "a.c"]])[0], [["int", "sys", ";", "1"]])

    def test_compilers_that_hang(self):
        self.compiler("bin/gcc", "#!/bin/sh\necho $$ >> %(top)s/numbers\nsleep 100 &\necho $! >> %(top)s/numbers\nwait\n")
        began = time.monotonic()
        tokens, messages = self.tokens(["gcc -O%d -Isys -c a.c" % (n % 4) for n in range(8)], "--seconds", "0.3", status=1)
        self.assertLess(time.monotonic() - began, 10)
        self.assertEqual(tokens, [["int", "sys", ";", "WHO"]] * 8)
        self.assertIn("no answer: it takes more than 0.3 seconds", messages[0])
        with open(self.path("numbers")) as file:
            numbers = file.read().split()
        self.assertEqual([number for number in numbers if self.runs(number)], [])

    def runs(self, number):
        try:
            with open("/proc/%s/stat" % number) as file:
                return file.read().split()[2] != "Z"
        except OSError:
            return False

    def test_compilers_that_answer_nonsense(self):
        folders = "printf '#include <...> search starts here:\\n /none\\n relative\\nEnd of search list.\\n\\377' >&2; "
        for text, reason in (("echo nonsense", "it names no directories"), ("exit 3", "it says: nothing"), ("kill -9 $$", "it names no directories"),
                             ("echo '#define 1' >&2; echo '#define 1'", "it names no directories"), (folders + "echo '#define 1'", "it names no macros"),
                             ("cat /dev/zero; cat /dev/zero >&2", "no answer: it ")):
            self.compiler("bin/gcc", "#!/bin/sh\n%s\n" % text)
            tokens, messages = self.tokens(["gcc -Isys -c a.c"], "--seconds", "3", status=1)
            self.assertEqual((tokens, reason in messages[0]), ([["int", "sys", ";", "WHO"]], True), messages)
        self.compiler("bin/gcc", "#!")
        self.assertIn("no answer", self.tokens(["gcc -Isys -c a.c"], status=1)[1][0])

    def test_a_folder_that_stands_twice(self):
        """Wants gcc's order: a system directory keeps its place, and a link is the directory that it leads to."""
        self.compiler("bin/gcc")
        write(self.top, {"a.c": "#include <h.h>\n", "one/h.h": "one\n#include_next <h.h>\n", "sys/h.h": "sys\n#include_next <h.h>\n",
                         "late/h.h": "late\n"})
        os.symlink("one", self.path("link"))
        for options in "-Isys -Ione -Ilink -I one -idirafter late", "-iquote one -I link -isystem sys -idirafter late -idirafter sys":
            self.assertEqual(self.tokens(["gcc %s -c a.c" % options])[0], [["one", "sys", "late"]], options)


class Lists(Builds):
    """Tests which files are on the list."""

    def setUp(self):
        super().setUp()
        self.compiler("bin/gcc")

    def names(self, commands, *words, **more):
        """Returns the tokens of units, and the names on the list."""
        tokens, messages = self.tokens(commands, "--list", self.path("list.json"), *words, **more)
        with open(self.path("list.json")) as file:
            listed = json.load(file)
        return tokens, sorted("/" + row["name"] for row in listed["files"]), messages

    def check(self, commands, wanted, names):
        tokens, listed, messages = self.names(commands)
        self.assertEqual(tokens, wanted)
        self.assertEqual([os.path.relpath(name, self.top) for name in listed], sorted(names))
        self.assertEqual(len(messages), 1, messages)

    def test_every_file_that_a_name_may_be(self):
        write(self.top, {"a.c": '#include <h.h>\n#include "b/q.h"\n', "one/h.h": "#include_next <h.h>\n", "two/h.h": "two\n", "two/b/q.h": "no\n",
                         "b/q.h": '#include "r.h"\n', "b/r.h": "#if __has_include(<k.h>) && !__has_include(<none.h>)\nk\n#endif\n",
                         "two/k.h": "", "two/other.h": "", "one/r.h": "", "b/h.h": ""})
        self.check(["gcc -Ione -Itwo -c a.c"], [["two", "k"]],
                   ["a.c", "one/h.h", "two/h.h", "two/b/q.h", "b/q.h", "b/r.h", "one/r.h", "two/k.h"])

    def test_trigraphs(self):
        """Wants a report of each file with a trigraph that a unit reaches whose command makes gcc replace it; the last option counts."""
        write(self.top, {"a.c": '#include "h.h"\n#include "n.h"\n', "h.h": 'a "??)" // ??/\nb\n', "n.h": "/* ??-?? ?= */\n", "b.c": "n ??? :\n"})
        wanted = ["build.py: %s/%s: has a trigraph, which the compiler replaces under -std, -ansi or -trigraphs, and the profile gnu doesn't"
                  % (self.top, name) for name in ("h.h", "n.h")]
        for options in ("-std=c90", "-std=c99", "-std=c11", "-std=iso9899:1999", "-ansi", "-trigraphs", "-std=gnu11 -trigraphs", "-Wp,-trigraphs",
                        "-std=gnu99 -std=c99"):
            tokens, messages = self.tokens(["gcc %s -c a.c" % options, "gcc %s -DX -c a.c" % options], status=1)
            self.assertEqual((tokens, messages[:-1]), ([["a", '"??)"', "b"]] * 2, wanted), options)
        for options in "", "-std=gnu11", "-std=c11 -std=gnu11", "-trigraphs -std=gnu90", "-ansi -std=gnu17", "-std=c23", "-o -ansi", "-MF -trigraphs":
            tokens, messages = self.tokens(["gcc %s -c a.c" % options, ("gcc -std=c11 -c b.c", "b.c")])
            self.assertEqual((tokens, len(messages)), ([["a", '"??)"', "b"], ["n", "?", "?", "?", ":"]], 1), options)
        for task in "deps", "faults":
            self.assertEqual(self.build(task, ["gcc -std=c11 -c a.c"], status=1)[1][:-1], wanted)
        for profile in "c11", "later":
            tokens, messages = self.tokens(["gcc -std=c11 -c a.c"], "--profile", profile)
            self.assertEqual((tokens, len(messages)), ([["a", '"]"']], 1))

    def test_include_lines_after_a_trigraph(self):
        """Wants the file of an include line after a comment that `??/` ends, which splices no lines in the profile gnu."""
        write(self.top, {"a.c": "// why??/\n#include \"h.h\"\n??=include \"n.h\"\n", "h.h": "h\n", "n.h": "n\n"})
        self.check(["gcc -c a.c"], [["h", "?", "?", "=", "include", '"n.h"']], ["a.c", "h.h"])
        tokens, names, _ = self.names(["gcc -c a.c"], "--profile", "later")
        self.assertEqual((tokens, [os.path.relpath(name, self.top) for name in names]), ([["n"]], ["a.c", "n.h"]))

    def test_folders_for_names_in_quotes_alone(self):
        """Wants a report if a name in angle brackets is found in such a directory, and only then."""
        write(self.top, {"a.c": "#include <h.h>\n", "b/b.c": '#include "h.h"\n', "q/h.h": "q\n", "i/h.h": "i\n"})
        self.check(["gcc -iquote q -Ii -c a.c"], [["i"]], ["a.c", "i/h.h"])
        messages = self.names(["gcc -iquote q -Ii -c a.c", ("gcc -iquote q -c b/b.c", "b/b.c")], status=1)[2]
        self.assertEqual(messages[0], "build.py: %s/a.c: <h.h> is found in an -iquote directory, as %s/q/h.h" % (self.top, self.top))

    def test_whether_there_is_a_next_file(self):
        """Tests the way in which clang's headers ask: files that a unit opens have different answers."""
        asks = "#if 1 && __has_include_next(<%s.h>)\n#include_next <%s.h>\n#endif\n%s\n"
        write(self.top, {"a.c": "#include <h.h>\n#include <k.h>\n", "two/h.h": "two\n", **{"one/%s.h" % name: asks % (name, name, name) for name in "hk"}})
        self.check(["gcc -Ione -Itwo -c a.c"], [["two", "h", "k"]], ["a.c", "one/h.h", "one/k.h", "two/h.h"])

    def test_a_file_that_is_asked_for_alone(self):
        """Wants a file on the list that no include line names, so that its operator is 1."""
        write(self.top, {"a.c": "#include <h.h>\n", "one/h.h": "#if __has_include_next(<k.h>)\nk\n#endif\n", "two/k.h": ""})
        self.check(["gcc -Ione -Itwo -c a.c"], [["k"]], ["a.c", "one/h.h", "two/k.h"])

    def test_names_that_macros_make(self):
        """Finds more in each round; lists no directory as a whole, and takes no comment for an include line."""
        write(self.top, {"a.c": "#define STR(x) #x\n#include FIRST\n#include STR(sub/third.h)\n", "inc/sub/third.h": "third\n",
                         "inc/first.h": '#define S "second.h"\n#include S\nfirst\n', "inc/never.h": "", "inc/sub/never.h": "",
                         "inc/second.h": "second\n/* this is\n   #include what_is not\n*/\n"})
        self.check(["gcc -Iinc '-DFIRST=<first.h>' -c a.c"], [["second", "first", "third"]],
                   ["a.c", "inc/first.h", "inc/second.h", "inc/sub/third.h"])

    def test_a_name_that_a_macro_makes_is_found_where_the_compiler_finds_it(self):
        """Takes the right file, though another unit has a file of this name on the list, which comes after it."""
        write(self.top, {"a.c": "#include X\n", "b.c": "#include <x.h>\n", "sub/c.c": "#define X \"x.h\"\n#include X\n", "sub/x.h": "sub\n",
                         "one/x.h": "one\n", "two/x.h": "two\n"})
        self.check(["gcc -Ione -Itwo '-DX=<x.h>' -c a.c", ("gcc -Itwo -c b.c", "b.c"), ("gcc -Itwo -c sub/c.c", "sub/c.c")],
                   [["one"], ["two"], ["sub"]], ["a.c", "b.c", "sub/c.c", "one/x.h", "two/x.h", "sub/x.h"])

    def test_units_that_ask_for_the_same_and_then_for_others(self):
        write(self.top, {"a.c": '#include "both.h"\n', "inc/first.h": "first\n",
                         "both.h": "#define FIRST <first.h>\n#include FIRST\n#include SECOND\n#include THIRD\n",
                         **{"inc/%s%d.h" % (name, n): "%s%d\n" % (name, n) for name in ("second", "third") for n in range(4)}})
        commands = [["gcc", "-Iinc", "-DSECOND=<second%d.h>" % n, "-DTHIRD=\"third%d.h\"" % (n // 2), "-c", "a.c"] for n in range(3)]
        self.check(commands, [["first", "second%d" % n, "third%d" % (n // 2)] for n in range(3)],
                   ["a.c", "both.h", "inc/first.h", "inc/second0.h", "inc/second1.h", "inc/second2.h", "inc/third0.h", "inc/third1.h"])

    def test_units_that_are_run_for_names_that_macros_make(self):
        """Runs only the units that reach such a line, and none if its macro is never defined."""
        self.compiler("bin/cppunits", "#!/bin/sh\ncat > %(top)s/given\necho $(grep -o '\"file\":\"[^\"]*' %(top)s/given) >> %(top)s/runs\n"
                                      "exec '" + program() + "' \"$@\" < %(top)s/given\n")
        write(self.top, {"a.c": "#include <one.h>\n", "b.c": "#include <two.h>\n", "inc/one.h": "#include \"low.h\"\n", "inc/two.h": "two\n",
                         "inc/low.h": "#ifdef LOW\n#include LOW\n#endif\n", "inc/named.h": "named\n"})
        both = [("gcc -Iinc %s-c a.c", "a.c"), ("gcc -Iinc %s-c b.c", "b.c")]
        define = "#if 0\n#define /* */ \\\n LOW <named.h>\n#endif\n"
        for text, option, wanted, runs in (("", "", ["one.h"], []), ("", "'-DLOW=<named.h>' ", ["named"], ["a.c", "a.c"]),
                                           (define[6:-7], "", ["named"], ["a.c", "a.c"]), (define, "", [], ["a.c"]),
                                           ("#define LOWER 1\n", "", [], [])):
            write(self.top, {"a.c": text + "#include <one.h>\n"})
            found, _ = self.tokens([(command % option, file) for command, file in both], "--program", self.path("bin/cppunits"))
            self.assertEqual(found, [[word for word in wanted if word != "one.h"], ["two"]])
            with open(self.path("runs")) as file:
                lines = [re.findall(r'/(\w\.c)', line) for line in file.read().splitlines()]
            os.unlink(self.path("runs"))
            self.assertEqual(lines, [[name] for name in runs] + [["a.c", "b.c"]], text)

    def test_rounds_end(self):
        """Stops for a unit that always asks for more."""
        files = {"inc/%d.h" % n: "#define N <%d.h>\n#include N\n#undef N\n" % (n + 1) for n in range(70)}
        write(self.top, {"a.c": "#include <0.h>\n", "inc/70.h": "", **files})
        printed, messages = self.build("faults", ["gcc -Iinc -c a.c"], status=1)
        self.assertIn("1 units ask for ever more names that macros make: no more than 64 rounds are gone", messages[0])
        self.assertIn("inc/64.h:2:1: error: no such file: 65.h [fault 31]\n    2 | #include N\n", printed)

    def test_names_that_are_not_there_are_told_where_a_unit_faults(self):
        write(self.top, {"a.c": "#if 0\n#include <none.h>\n#endif\n", "b.c": "\n#include \"gone%d.h\"\n"})
        printed, messages = self.build("faults", ["gcc -c a.c", ("gcc -c b.c", "b.c")], status=1)
        self.assertEqual(printed.splitlines()[:2], ["b.c:2:10: error: no such file: gone%d.h [fault 31]", "    2 | #include \"gone%d.h\""])
        self.assertRegex("\n".join(messages), r"^build.py: 2 units, 1 with a fault, 2 files on the list, \S+ seconds$")

    def test_the_lines_above_a_fault(self):
        """Tests this also for a file of -include, and for the JSON form."""
        write(self.top, {"a.c": "int a;\n#include \"own.h\"\n", "own.h": "#error no\n", "first.h": "#error first\n", "good.h": ""})
        commands = [["gcc", "-include", name, "-c", "a.c"] for name in ("good.h", "first.h")]
        printed, _ = self.build("faults", commands, status=1)
        places = [line for line in printed.splitlines() if ":" in line and not line.startswith("note: ")]
        places = [re.sub("line>:[0-9]+", "line>:N", line) for line in places]
        self.assertEqual(places, ["In file included from a.c:2:", "own.h:1:1: error: #error no [fault 34]", "In unit a.c:",
                                  "In file included from <command line>:N:", "first.h:1:1: error: #error first [fault 34]"])
        printed, _ = self.build("faults", commands, "--format", "json", status=1)
        found = [json.loads(line) for line in printed.splitlines()]
        self.assertEqual([(fault["path"], fault["source"], fault["chain"][0]["path"]) for fault in found],
                         [("own.h", "a.c", "a.c"), ("first.h", "a.c", "<command line>")])

    def test_a_file_that_is_included_first(self):
        write(self.top, {"cfg.h": "cfg\n", "a.c": "WHO\n"})
        tokens, messages = self.tokens(["gcc -include cfg.h -c a.c"], "--list", "list.json")
        self.assertEqual((tokens, len(messages)), ([["cfg", "1"]], 1))
        with open(self.path("list.json"), "rb") as file:
            self.assertIn(b" i+ cfg\n", cppunits("--root", "/", "dump", stdin=file).stdout)
        self.build("deps", ["gcc -include cfg.h -o x.o -c a.c"])
        with open(self.path("x.o.d")) as file:
            self.assertEqual(file.read(), "x.o: \\\n  a.c \\\n  cfg.h\n")

    def test_commands_that_are_left_out(self):
        tokens, messages = self.tokens([("g++ -c b.cc", "b.cc"), ("g++ -c c.cc", "c.cc"), "gcc -c a.c"])
        self.assertEqual((len(tokens), messages[0]), (1, "build.py: 2 commands are left out: no C file"))

    def test_what_is_missing_is_named_and_counted(self):
        """Wants the other units, a line for each command and one for each reason, and status 1."""
        write(self.top, {"words": "-DWHO=2 @more", "more": "-DMORE"})
        os.mkdir(self.path("folder"))
        commands = ["gcc -c a.c", ("gcc -c none.c", "none.c"), "gcc @nothing -c a.c", "gcc @words -c a.c", "gcc @folder -c a.c", "gcc -install_name @here -c a.c"]
        tokens, messages = self.tokens(commands, status=1)
        self.assertEqual([unit[-1] for unit in tokens], ["1", "2", "1"])
        self.assertEqual([line.replace(self.top + "/", "") for line in messages[:-1]], ["build.py: " + line for line in (
            "none.c: there is no such file (is it made by the build?)", "a.c: there is no response file nothing",
            "a.c: the response file folder can't be read: Is a directory",
            "1 commands are left out: there is no such file (is it made by the build?)", "2 commands are left out: a response file is missing")])

    def test_a_directory_that_is_missing(self):
        entries = [{"directory": folder, "file": self.path("a.c"), "command": "gcc -c a.c"} for folder in (self.top, self.path("gone"))]
        write(self.top, {"c.json": json.dumps(entries)})
        for task, status in ("faults", 1), ("deps", 1), ("dump", 1), ("text", 1):
            done = run(self.words(task, "c.json"), cwd=self.top, env=self.environment())
            self.assertEqual(done.returncode, status)
            messages = done.stderr.decode().splitlines()
            self.assertEqual(messages[:2], ["build.py: %s: there is no directory %s" % (self.path("a.c"), self.path("gone")),
                                            "build.py: 1 commands are left out: their directory is missing"])
            self.assertIn("1 units, 0 with a fault", messages[2])

    def test_no_unit_at_all(self):
        """Wants a refusal that says why."""
        for task in "deps", "dump", "faults", "text":
            self.assertEqual(self.build(task, [], status=3)[1], ["build.py: compile_commands.json: there is no C unit among its 0 commands"])
            messages = self.build(task, [("gcc -c none.c", "none.c"), ("g++ -c b.cc", "b.cc")], status=3)[1]
            self.assertEqual(messages[0], "build.py: %s: there is no such file (is it made by the build?)" % self.path("none.c"))
            self.assertEqual(messages[1:], ["build.py: 1 commands are left out: there is no such file (is it made by the build?)",
                                            "build.py: 1 commands are left out: no C file",
                                            "build.py: compile_commands.json: there is no C unit among its 2 commands"])
        self.assertEqual([name for name in os.listdir(self.top) if name.endswith((".d", ".seen"))], [])

    def test_list_from_build_asks_the_program(self):
        write(self.top, {"a.c": "#include X\n", "x/x.h": "x\n", "x/y.h": ""})
        write(self.top, {"c.json": json.dumps([{"directory": self.top, "file": "a.c", "command": "gcc -Ix '-DX=<x.h>' -c a.c"}])})
        command = [sys.executable, os.path.join(TOP, "scripts", "list_from_build.py"), "--program", program(), self.path("c.json")]
        for words in [], ["--inline"]:
            listed = json.loads(well([*command, *words]))
            self.assertEqual([row["name"] for row in listed["files"]], ["a.c", "x/x.h"])

    def test_five_thousand_commands(self):
        files = {"src/%d.c" % n: '#include "%d.h"\n#include <sys.h>\nint f;\n' % (n % 100) for n in range(5000)}
        files.update({"inc/%d.h" % n: "#include <%d.h>\n" % (n // 2) if n else "" for n in range(100)})
        write(self.top, files)
        began = time.monotonic()
        commands = [("gcc -O%d -DN=%d -Iinc -o %d.o -c src/%d.c" % (n % 3, n, n, n), "src/%d.c" % n) for n in range(5000)]
        printed, messages = self.build("faults", commands)
        self.assertLess(time.monotonic() - began, 60)
        self.assertEqual((printed, len(self.asked())), ("", 9))
        self.assertIn("5000 units, 0 with a fault, 5101 files", messages[0])


class Texts(Builds):
    """Tests the texts of `build.py text`; what compilers make of them is in text_tests.py."""

    def setUp(self):
        super().setUp()
        self.compiler("bin/gcc")

    def text(self, name):
        with open(self.path(name)) as file:
            return file.read()

    def test_files_by_the_names_of_objects(self):
        write(self.top, {"d/b.c": "#include \"b.h\"\n", "d/b.h": "b\n"})
        commands = [("gcc -c d/b.c -o o/b.lo", "d/b.c"), "gcc -c a.c", ("gcc -c ./d/b.c -o o/b.o", "d/b.c"), ("gcc -c d/b.c -o d/b.c.o", "d/b.c"),
                    ("gcc -c %s/d/b.c -o /elsewhere/b.o" % self.top, "d/b.c")]
        printed, messages = self.build("text", commands, "--into", "t")
        self.assertEqual((printed, len(messages)), ("", 2))
        self.assertIn("t/o/b.i is that of another command, so its .i file is t/o/b.2.i", messages[0])
        found = sorted(os.path.relpath(os.path.join(folder, name), self.path("t")) for folder, _, names in os.walk(self.path("t")) for name in names)
        self.assertEqual(found, ["a.i", "compile_commands.json", "d/b.c.i", "elsewhere/b.i", "o/b.2.i", "o/b.i"])
        self.assertEqual(self.text("t/a.i"), '# 1 "a.c"\n# 1 "%s/sys/sys.h" 1 3\nint sys;\n# 2 "a.c" 2\n1\n' % self.top)
        for name, begin in ("o/b", "d/b"), ("o/b.2", "./d/b"), ("elsewhere/b", self.top + "/d/b"):
            self.assertEqual(self.text("t/%s.i" % name), '# 1 "%s.c"\n# 1 "%s.h" 1\nb\n# 2 "%s.c" 2\n' % (begin, begin, begin))
        # a further run writes the same
        self.build("text", commands, "--into", "t")
        self.assertEqual(self.text("t/elsewhere/b.i"), self.text("t/elsewhere/b.i"))

    def test_the_stream(self):
        printed, _ = self.build("text", ["gcc -c a.c", "gcc -DWHO=2 -c ./a.c"])
        self.assertEqual([line[1:] for line in printed.splitlines() if line[:1] == "|" and line[1:2] != "#"], ["int sys;", "1", "int sys;", "2"])
        self.build("text", ["gcc -c a.c", "gcc -DWHO=2 -c ./a.c"], "--output", "out")
        self.assertEqual(self.text("out"), printed)
        self.assertEqual(re.findall(r'^\|# 1 "(\S*a.c)"$', printed, re.M), ["a.c", "./a.c"])

    def test_a_fault(self):
        """Wants no text, and an older one to stay."""
        write(self.top, {"b.c": "#error no\n", "t/b.i": '# 1 "old"\n'})
        printed, messages = self.build("text", [("gcc -c b.c", "b.c"), "gcc -c a.c"], "--into", "t", status=1)
        self.assertEqual((printed, messages[0]), ("", "build.py: %s/b.c: fault 34, so there is no text (`build.py faults` says more)" % self.top))
        self.assertRegex(messages[2], "^build.py: 2 units, 1 with a fault, ")
        self.assertEqual((sorted(os.listdir(self.path("t"))), self.text("t/b.i")), (["a.i", "b.i", "compile_commands.json"], '# 1 "old"\n'))

    def test_files_that_can_not_be_written(self):
        """Wants a line for each, and the other texts."""
        write(self.top, {"t/a.i": "%module a\n", "t/c.i/x": "", "b.c": "b\n", "c.c": "c\n"})
        _, messages = self.build("text", ["gcc -c a.c", ("gcc -c b.c", "b.c")], "--into", "t", status=1)
        self.assertEqual(messages[0], "build.py: %s/a.c: t/a.i is there and is no text of a compiler's preprocessor, so it stays" % self.top)
        self.assertEqual((self.text("t/a.i"), self.text("t/b.i")), ("%module a\n", '# 1 "b.c"\nb\n'))
        _, messages = self.build("text", [("gcc -c c.c", "c.c"), ("gcc -c b.c", "b.c")], "--into", "t", status=5)
        self.assertEqual(messages[0], "build.py: %s/c.c: t/c.i: Is a directory" % self.top)
        _, messages = self.build("text", [(["gcc", "-c", "b.c", "-o", "b\n.o"], "b.c")], "--into", "t", status=1)
        self.assertEqual(messages[0], "build.py: %s/b.c: the name t/b%%0A.i can't be that of a file" % self.top)
        self.assertEqual(sorted(os.listdir(self.path("t"))), ["a.i", "b.i", "c.i", "compile_commands.json"])

    def test_names_that_can_not_be_shown(self):
        """Wants a line about each, and the name in the list in its place."""
        write(self.top, {"d/h.h": "__FILE__\n", "b.c": "#include <h.h>\n"})
        printed, messages = self.build("text", [(["gcc", "-I" + "./" * 2100 + "d", "-c", "b.c"], "b.c")], status=1)
        self.assertRegex(messages[0], r"^build.py: [./]{100}\.\.\.: no name that a list may show$")
        self.assertIn('\n|"%s/d/h.h"\n' % self.top[1:], printed)


class Runs(Builds):
    """Tests how it runs: terminals, interrupts, refusals."""

    def setUp(self):
        super().setUp()
        self.compiler("bin/gcc")

    def test_progress_stands_on_terminals_alone(self):
        write(self.top, {"compile_commands.json": json.dumps([{"directory": self.top, "file": "a.c", "command": "gcc -c a.c"}])})
        ours, theirs = pty.openpty()
        done = subprocess.run(self.words("faults"), cwd=self.top, env=self.environment(), stdout=subprocess.PIPE, stderr=theirs, check=False)
        os.close(theirs)
        messages = os.read(ours, 65536).decode()
        os.close(ours)
        self.assertEqual(done.returncode, 0)
        self.assertIn("\r\x1b[Krunning 1 units over 2 files", messages)
        self.assertIn("\r\x1b[K1 of 1 units are written", messages)
        self.assertRegex(messages, "\r\x1b\\[Kbuild.py: 1 units, 0 with a fault")

    def test_workers_are_the_programs(self):
        """Wants the given number of workers, or the program's own, in each run: those for names that macros make, and that for the units."""
        self.compiler("bin/cppunits", "#!/bin/sh\necho \"$*\" >> %(top)s/words\nexec '" + program() + "' \"$@\"\n")
        write(self.top, {"a.c": "#define H <sys.h>\n#include H\nWHO\n"})
        for words, option in (["--workers", "3"], "--workers 3 "), ([], ""):
            wanted = [option + "--root / " + word for word in ("deps", "deps", "dump")]
            tokens, _ = self.tokens(["gcc -c a.c"], "--program", self.path("bin/cppunits"), *words)
            with open(self.path("words")) as file:
                self.assertEqual((tokens, file.read().splitlines()), ([["int", "sys", ";", "1"]], wanted))
            os.unlink(self.path("words"))

    def test_interrupts_leave_nothing(self):
        """Interrupts it while it waits for compilers or the program; existing files must stay as they were."""
        write(self.top, {"compile_commands.json": json.dumps([{"directory": self.top, "file": "a.c", "command": "gcc -c a.c"}]), "out": "as it was"})
        slow = "#!/bin/sh\ntouch %(top)s/begun\nprintf 'unit 0 '\nexec sleep 30\n"
        self.compiler("bin/slow", slow)
        for number in signal.SIGINT, signal.SIGTERM, signal.SIGHUP:
            for compiler, word in (COMPILER, self.path("bin/slow")), (slow, program()):
                self.compiler("bin/gcc", compiler)
                for task, more in ("dump", ["--output", "out"]), ("deps", ["--into", "d"]), ("text", ["--output", "out"]), ("text", ["--into", "d"]):
                    with self.subTest(number=number, word=word, task=task):
                        self.interrupted([sys.executable, BUILD, task, "--program", word, *more], number)
        with open(self.path("out")) as file:
            self.assertEqual(file.read(), "as it was")

    def interrupted(self, words, number):
        # a shell that runs these tests in the background makes them ignore SIGINT, and nohup SIGHUP
        process = subprocess.Popen(words, cwd=self.top, env=self.environment(), stdout=subprocess.PIPE, stderr=subprocess.PIPE,
                                   preexec_fn=lambda: signal.signal(number, signal.SIG_DFL))
        while not os.path.exists(self.path("begun")) and process.poll() is None:
            time.sleep(0.02)
        os.unlink(self.path("begun"))
        process.send_signal(number)
        printed = process.communicate(timeout=10)
        self.assertEqual((process.returncode, printed), (130, (b"", b"")))
        there = {"a.c", "bin", "compile_commands.json", "out", "sys", "tmp"}
        self.assertEqual(set(os.listdir(self.top)) - {"asked"}, there)
        self.assertEqual(os.listdir(self.path("tmp")), ["x"])

    def test_programs_that_fail(self):
        for text, reason in (("exit 3", "it refuses the list"), ("exit 4", "it is out of memory"), ("exit 77", "status 77"),
                             ("kill -9 $$", "status -9"), ("echo no >&2; exit 5", "it can't read or write: no")):
            self.compiler("bin/cppunits", "#!/bin/sh\n%s\n" % text)
            _, messages = self.build("deps", ["gcc -c a.c"], "--program", self.path("bin/cppunits"), status=3)
            self.assertEqual(messages, ["build.py: %s: %s" % (self.path("bin/cppunits"), reason)])
        self.assertIn("there is no such program (--program names one)", self.build("deps", ["gcc -c a.c"], "--program", "none", status=3)[1][0])
        self.compiler("bin/cppunits", "#!/bin/sh\necho nonsense\n")
        self.build("deps", ["gcc -c a.c"], "--program", self.path("bin/cppunits"), status=3)

    def test_what_is_no_build(self):
        for text, status in (("[", 3), ("{}", 3), ('[{"file":"a.c"}]', 3), ("[]", 3),
                             ('[{"directory":1,"file":"a","arguments":[]}]', 3), ('[{"directory":".","file":"a.c","command":"gcc \\""}]', 3),
                             ('[{"directory":".","file":"a.c","command":"gcc","output":7}]', 3)):
            write(self.top, {"c.json": text})
            done = run(self.words("faults", "c.json"), cwd=self.top, env=self.environment())
            self.assertEqual((done.returncode, done.stderr.count(b"\n")), (status, 1), text)
        for entry, wrong in ((1, " is no object"), ({}, ".directory is missing"), ({"directory": ".", "file": "a"}, ".command is missing"),
                             ({"directory": ".", "file": 1, "command": ""}, ".file is no text"), ({"directory": "."}, ".file is missing"),
                             ({"directory": ".", "file": "a", "arguments": {}}, ".arguments is no array"),
                             ({"directory": ".", "file": "a", "arguments": ["gcc", None]}, ".arguments[1] is no text"),
                             ({"directory": ".", "file": "a.c", "command": "gcc '"}, ".command: No closing quotation"),
                             ({"directory": ".", "file": "a", "command": "gcc", "output": []}, ".output is no text")):
            write(self.top, {"c.json": json.dumps([{"directory": ".", "file": "a.c", "command": "gcc -c a.c"}, entry])})
            done = run(self.words("deps", "c.json"), cwd=self.top, env=self.environment())
            line = "build.py: c.json, entry 1: no `directory`, `file` and `command` or `arguments` ([1]%s)\n" % wrong
            self.assertEqual((done.returncode, done.stderr.decode(), os.path.exists(self.path("a.o.d"))), (3, line, False))
        self.assertEqual(run(self.words("faults", "none.json"), cwd=self.top).returncode, 5)
        for words in (["--none"], [], ["dump", "--workers", "0"], ["deps", "--workers", "65"], ["deps", "--seconds", "x"], ["--seconds", "x", "deps"],
                      ["--phony", "dump"], ["c.json", "deps"], ["--workers"], ["dump", "--into", "d"], ["text", "--into", "d", "--output", "out"]):
            done = run([sys.executable, BUILD, *words])
            self.assertEqual((done.returncode, done.stdout, done.stderr.count(b"\n")), (2, b"", 1), words)
        for words in ["--help"], ["deps", "--help"], ["--workers", "3", "deps", "--help"]:
            self.assertEqual(run([sys.executable, BUILD, *words]).returncode, 0)

    def test_options_before_and_after_the_task(self):
        """Wants the same from each order, also for a value that is a task's name, an option with `=`, and a shortened one."""
        write(self.top, {"a.c": "WHO deps more\n", "c.json": json.dumps([{"directory": self.top, "file": "a.c", "command": "gcc -c a.c"}])})
        options = ["--program", program(), "--define", "deps 3", "--define=more 4", "--wor", "2", "--output", "dump"]
        for count in range(0, len(options) + 1):
            if count and options[count - 1] in ("--program", "--define", "--wor", "--output"):
                continue
            done = run([sys.executable, BUILD, *options[:count], "dump", *options[count:], "c.json"], cwd=self.top, env=self.environment())
            self.assertEqual(done.returncode, 0, done.stderr)
            with open(self.path("dump")) as file:
                self.assertEqual(re.findall(r"^tok .* (.*)$", file.read(), re.MULTILINE), ["1", "3", "4"])
            os.unlink(self.path("dump"))


class Real(Builds):
    """Tests with the machine's gcc and its headers."""

    def setUp(self):
        super().setUp()
        missed("gcc")
        if run(["gcc", "-E", "-x", "c", "-"], input="".join("#include <%s>\n" % name for name in HEADERS.split()).encode()).returncode:
            raise unittest.SkipTest("the headers of the C library are missing (Debian package libc6-dev)")
        write(self.top, REAL)

    def test_tokens_and_dependencies_are_those_of_gcc(self):
        named = "-DNAMED=<named/first.h> -DSECOND=\"second.h\"".split()
        options = [["-O2", "-D_FORTIFY_SOURCE=2"], ["-std=c99", "-m64"], ["-std=gnu89", "-D_GNU_SOURCE", "-pthread"],
                   ["-std=c11", "-fPIC", "-D_POSIX_C_SOURCE=200809L"]]
        commands = [(["gcc", *more, *named, "-Iinc", "-c", "src/a.c"], "src/a.c") for more in options[:2] + options[3:]]
        commands += [(["gcc", *more, "-Iinc", "-c", "src/b.c"], "src/b.c") for more in options]
        tokens, messages = self.tokens(commands, "--list", "list.json")
        for (words, file), found in zip(commands, tokens):
            text = re.sub("(?m)^#pragma.*", "", well([*words, "-E", "-P"], cwd=self.top).decode())
            self.assertTrue(found == TOKEN.findall(text), words)
        self.build("deps", [([*words, "-o", "%d.o" % number], file) for number, (words, file) in enumerate(commands)])
        for number, (words, file) in enumerate(commands):
            with open(self.path("%d.o.d" % number)) as rule:
                found = names_of(rule.read())
            wanted = names_of(well([*words, "-M"], cwd=self.top).decode())
            self.assertEqual(found, wanted, words)
        self.assertEqual(len(messages), 1, messages)
        with open(self.path("list.json")) as file:
            self.assertNotIn(self.path("inc/never.h")[1:], file.read())


def names_of(rule):
    """Returns the names of a rule's prerequisites, without the header that gcc includes by itself."""
    names = rule.split(":", 1)[1].replace("\\\n", " ").split()
    return [name for name in names if not name.endswith("/stdc-predef.h")]


if __name__ == "__main__":
    main()
