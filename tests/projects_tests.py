#!/usr/bin/env python3
"""Tests bench/projects.py and its cutter: a small project with the machine's own headers, compared with the machine's gcc.

    tests/projects_tests.py [PROGRAM] [-k NAME]
"""
import json
import os
import sys
import unittest

from counted import LIST, TOP, Folder, main, missed, program, run, well, write

sys.path.insert(0, os.path.join(TOP, "bench"))
from cutter import spellings  # noqa: E402

SYSTEM = "#include <stdio.h>\n#include <limits.h>\n#include <stdint.h>\n#include <errno.h>\n#include <sys/socket.h>\n"
MAIN = SYSTEM + """#include "own.h"
_Pragma("GCC diagnostic ignored \\"-Wunused\\"")
#pragma GCC diagnostic push
#ident "a name"
const char *where = __FILE__, *when = __DATE__ " " __TIME__;
int line = __LINE__, most = INT_MAX, stopped = EINTR;
int64_t wide = INT64_MAX;
LOG("%d", line) LOG("none")
"""
OWN = "#pragma once\n#define LOG(format, ...) log(format, ##__VA_ARGS__);\nint log(const char *, ...);\nconst char *own = __FILE__;\n"


class Projects(Folder):
    def compared(self, files, commands, *words):
        """Returns the cells of the project's row, the messages about its units, and the status."""
        missed("gcc")
        write(self.top, {**files, "p/compile_commands.json": json.dumps(
            [{"directory": self.path("p"), "file": file, "command": command} for file, command in commands])})
        done = run([sys.executable, os.path.join(TOP, "bench", "projects.py"), "--program", program(), *words, self.path("p")])
        lines = done.stdout.decode().splitlines()
        self.assertEqual(len(lines), 3, done.stderr.decode())
        messages = [line for line in done.stderr.decode().splitlines() if not line.startswith("build.py: ")]
        cells = [cell.strip() for cell in lines[2].strip("|").split("|")]
        return cells[:6] + cells[8:], messages, done.returncode

    def test_headers_of_the_system(self):
        files = {"p/main.c": MAIN, "p/inc/own.h": OWN, "p/first.h": "#define FIRST\n"}
        commands = [("main.c", "gcc -O2 -Iinc -c main.c -o main.o"), ("main.c", "gcc -std=c11 -Iinc -MD -MF x.d -c main.c"),
                    ("main.c", "gcc -g3 -D_GNU_SOURCE -include first.h -Iinc -c main.c")]
        cells, messages, status = self.compared(files, commands)
        self.assertEqual((cells, messages, status), (["p", "3", "3", "3", "3", "3", "none"], [], 0))

    def test_what_differs_is_told(self):
        files = {"p/level.c": "int a, b = __INCLUDE_LEVEL__;\n", "p/same.c": "int a;\n", "p/fault.c": "#if 'ab'\n#endif\n",
                 "p/wrong.c": "#error no\n"}
        cells, messages, status = self.compared(files, [(name[2:], "gcc -c " + name[2:]) for name in files], "--jobs", "2")
        self.assertEqual((cells[1:6], status), (["4", "3", "2", "1", "2"], 1))
        self.assertEqual(cells[6], "fault 25: 1, refused by the compiler: 1, tokens: 1")
        self.assertEqual([line.split(": ", 1)[1] for line in messages],
                         ["tokens: token 5: b = __INCLUDE_LEVEL__ ;, and the compiler has b = 0 ;", "fault: 25 %d:1:1 'ab'" % self.row(messages)])

    def test_a_compiler_that_hangs(self):
        """Stops a compiler with the programs that it started; its unit counts as one that the compiler refuses."""
        write(self.top, {"bin/gcc": "#!/bin/sh\ncase $* in *slow.c*) sleep 1000; exit;; esac\nexec /usr/bin/gcc \"$@\"\n"})
        os.chmod(self.path("bin/gcc"), 0o755)
        files = {"p/slow.c": "int a;\n", "p/skipped.c": "int b;\n", "p/quick.c": "int c;\n"}
        commands = [(name[2:], "%s -c %s" % (self.path("bin/gcc"), name[2:])) for name in files]
        cells, messages, _ = self.compared(files, commands, "--every", "2", "--seconds", "2")
        self.assertEqual(cells, ["p, one command of 2", "2", "1", "1", "1", "1", "no answer of the compiler in 2 seconds: 1"], messages)

    def row(self, messages):
        return int(messages[1].split("fault: 25 ")[1].split(":")[0])

    def test_dependencies_in_another_order(self):
        sys.path.insert(0, os.path.join(TOP, "scripts"))
        import projects
        self.assertIsNone(projects.order_difference([b"a", b"b"], [b"a", b"b"]))
        self.assertIn("dependency 1: b, and the compiler has c", projects.order_difference([b"a", b"b", b"c"], [b"a", b"c", b"b"]))
        self.assertIn("1 dependencies, and the compiler has 2", projects.order_difference([b"a"], [b"a", b"b"]))

    def test_names_in_a_rule(self):
        import projects
        entry = projects.Entry({"directory": "/d", "file": "a.c", "command": "ccache gcc -c a.c -o 'a b.o' -MF x -DX"})
        self.assertEqual(entry.words, ["gcc", "a.c", "-DX"])
        names = projects.dependencies_of_compiler(b"a.o: a.c \\\n b\\ c.h e$$.h \\#.h /usr/include/stdc-predef.h\n", entry)
        self.assertEqual(names, [b"/d/a.c", b"/d/b c.h", b"/d/e$.h", b"/d/#.h"])


class Objects(Folder):
    """Tests bench/texts.py."""

    def compared(self, files, units, *words, **more):
        """Returns the row of a list, the lines on standard error, and the status."""
        missed("gcc")
        rows = [{"name": name, "text": text} for name, text in files.items()]
        write(self.top, {"list.json": json.dumps(dict(LIST, profile="gnu", search=["inc"], files=rows, units=units, **more))})
        done = run([sys.executable, os.path.join(TOP, "bench", "texts.py"), "--program", program(), "--jobs", "2", *words, self.path("list.json")])
        cells = [cell.strip() for cell in done.stdout.decode().splitlines()[2:][-1].strip("|").split("|")] if done.returncode < 2 else []
        return cells[1:6], done.stderr.decode().splitlines(), done.returncode

    def test_objects(self):
        files = {"src/a.c": "#include <h.h>\nconst char *f(void) { return __FILE__ __DATE__ F; }\nint line = A(__LINE__) + FIRST;\n",
                 "inc/h.h": "#define F __FILE__\n", "first.h": "#define FIRST 1\n", "b.c": "#error no\n", "c.c": "int\n"}
        units = [{"file": "src/a.c", "define": ["A(x) x", "B"], "first": ["first.h"]}, {"file": "b.c"}, {"file": "c.c"}]
        cells, lines, status = self.compared(files, units)
        self.assertEqual((cells, status), (["3", "2", "1", "1", "1"], 0))
        self.assertEqual(sorted(line.split(":")[0] for line in lines), ["1 b.c", "2 c.c"])

    def test_what_differs_is_told(self):
        cells, lines, status = self.compared({"a.c": "int a = 0\n#ifdef __x86_64__\n+ 1\n#elif defined __ELF__\n+ 2\n#endif\n;\nint level = __INCLUDE_LEVEL__;\n",
                                              "b.c": "#ifdef __has_attribute\nint b;\n#endif\n"}, [{"file": "a.c"}, {"file": "b.c"}])
        self.assertEqual((cells, status), (["2", "2", "2", "1", "0"], 1))
        self.assertIn("0 a.c: text: ", "\n".join(lines))
        self.assertIn("1 b.c: the objects differ", lines)

    def test_macros_of_the_compiler(self):
        cells, _, status = self.compared({"a.c": "#ifdef __GNUC__\nint gnu = __GNUC__;\n#endif\nint i = __INT_MAX__;\n"}, [{"file": "a.c"}], "--macros")
        self.assertEqual((cells, status), (["1", "1", "1", "1", "1"], 0))

    def test_what_is_no_list(self):
        self.assertEqual(self.compared({"a.c": ""}, [{"file": "b.c"}])[2], 3)
        for text in "{", "{}", '{"files":[],"units":[]}':
            write(self.top, {"none": text})
            done = run([sys.executable, os.path.join(TOP, "bench", "texts.py"), "--program", program(), self.path("none")])
            self.assertEqual((done.returncode, done.stderr.count(b"\n")), (3, 1), done.stderr)


class Cutter(unittest.TestCase):
    def test_tokens(self):
        rows = [("a+++b", "a ++ + b"), ("x->y...z", "x -> y ... z"), ("1e+5f .5.x 0x1p-3+1", "1e+5f .5.x 0x1p-3 + 1"), ("%:%:<:%>", "%:%: <: %>"),
                ("u8\"a\\\"b\" L'\\'' 'x'y", "u8\"a\\\"b\" L'\\'' 'x' y"), ("a<<=b>>c", "a <<= b >> c"), ("\u00e9$1 @ `", "\u00e9$1 @ `"),
                ("don't", "don ' t"), ("a.b..c", "a . b . . c"), ("\\u00e9x \\q", "\\u00e9x \\ q"), ("*/ /=", "* / /=")]
        for text, wanted in rows:
            self.assertEqual([one.decode() for one in spellings(text.encode())], wanted.split(" "), text)

    def test_as_the_program_cuts(self):
        missed("gcc")
        text = well(["gcc", "-E", "-P", "-x", "c", "-"], input=SYSTEM.encode())
        listed = {"date": "Feb  9 2024", "time": "08:05:03", "files": [{"name": "a.c", "text": text.decode()}], "units": [{"file": "a.c"}]}
        lines = well([program(), "dump"], input=json.dumps(listed).encode()).split(b"\n")
        self.assertEqual([line.split(b" ", 4)[4].replace(b"%25", b"%") for line in lines if line.startswith(b"tok ")], spellings(text))


if __name__ == "__main__":
    main()
