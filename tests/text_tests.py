#!/usr/bin/env python3
"""Tests `cppunits text` by a reader that knows nothing of the program: it follows the line markers, and tokenizes each line by the standard's
6.4.  What it reads must be what `cppunits dump` prints, each token at its presumed line of its presumed file.

    tests/text_tests.py [PROGRAM] [-k NAME]

The units are all pairs and many triples of spellings that could join, and ten thousand random units.  Rows have exact bytes (text_rows.py).
gcc and clang compile texts to the objects that they make of the sources, with the warnings of gcc's own text, and gcc's markers are those of the texts.
"""
import filecmp
import json
import os
import random
import re
import shutil
import sys
import unittest

from counted import LIST, TOP, Folder, cppunits, main, missed, program, run, spelled, well, write
from text_rows import ROWS

# ---- the reader

NONDIGIT = r"(?:[A-Za-z_$\x80-\xff]|\\u[0-9A-Fa-f]{4}|\\U[0-9A-Fa-f]{8})"
LITERAL = r"(?:[^%s\\\n]|\\[^\n])"
PUNCTUATORS = (
    "[ ] ( ) { } . -> ++ -- & * + - ~ ! / % << >> < > <= >= == != ^ | && || ? : ; ... = *= /= %= += -= <<= >>= &= ^= |= , # ## "
    "<: :> <% %> %: %:%:").split()
KINDS = {
    "i": "%s(?:%s|[0-9])*" % (NONDIGIT, NONDIGIT),
    "n": r"\.?[0-9](?:[eEpP][+-]|%s|[0-9.])*" % NONDIGIT,
    "c": "[uUL]?'%s+'" % (LITERAL % "'"),
    "s": '(?:u8|[uUL])?"%s*"' % (LITERAL % '"'),
    "p": "|".join(re.escape(word) for word in sorted(PUNCTUATORS, key=len, reverse=True)),
    "o": r"[^ \t\v\f\r\n]",
}
GRAMMAR = [(kind, re.compile(text)) for kind, text in KINDS.items()]
BLANKS = re.compile(r"[ \t\v\f\r]*")
TRIGRAPH = re.compile(r"\?\?[=/'()!<>-]")


def tokens_of(line):
    """Returns the tokens of a line: kind, spelling and column from 0.  There must be no comment."""
    found, at = [], BLANKS.match(line).end()
    while at < len(line):
        if line[at:at + 2] in ("//", "/*"):
            raise AssertionError("a comment in %r" % line)
        kind, end = "", at
        for name, grammar in GRAMMAR:
            match = grammar.match(line, at)
            if match and match.end() > end:
                kind, end = name, match.end()
        found.append((kind, line[at:end], at))
        at = BLANKS.match(line, end).end()
    return found


def read(text):
    """Returns what a compiler reads of a text: tokens and pragmas with name, line and system flag, and the files that it enters and leaves."""
    found, name, number, system = [], None, 0, False
    for line in text.split("\n")[:-1]:
        tokens = tokens_of(line)
        words = [token[1] for token in tokens]
        if not line.startswith("#"):
            found += [("token", name, number, system, *token, index == 0) for index, token in enumerate(tokens)]
            number += 1
        elif words[1] == "pragma":
            found.append(("pragma", name, number, system, [token[:2] for token in tokens[2:]]))
            number += 1
        else:
            if [token[0] for token in tokens[:3]] != ["p", "n", "s"]:
                raise AssertionError("no marker: %r" % line)
            number, name, system = int(words[1]), words[2], "3" in words[3:]
            found += [(flag, name) for flag in words[3:] if flag != "3"]
    return found


# ---- what the reader is to find

class Files:
    """The files of a list: their presumed names and lines, by the `#line` of their own texts, and which are system headers."""

    def __init__(self, texts, shown, system):
        self.names, self.system, self.lines = list(texts), set(), []
        for row, (name, text) in enumerate(texts.items()):
            if name.startswith(system):
                self.system.add(row)
            numbers, presumed, number = [], '"%s"' % shown(name), 1
            for line in text.split("\n"):
                numbers.append((presumed, number))
                number += 1
                match = re.match(r'#line (\d+)(?: (".*"))?$', line)
                if match:
                    number, presumed = int(match[1]), match[2] or presumed
            self.lines.append(numbers)

    def place(self, used, at):
        """Returns the presumed name and line of a line, and whether what the file at `at` spells belongs to a system header."""
        name, number = self.lines[used[0]][used[1] - 1]
        return name, number, (used[0] if at == 65535 else at) in self.system


def place(word):
    return tuple(int(part) for part in word.split(":"))


def destringized(literal):
    """Returns the tokens of an operator's literal, or None if it has an open comment or an unmatched quote."""
    text = re.sub(r'\\(["\\])', r"\1", literal[literal.index('"') + 1:-1]).split(" //")[0]
    if len(literal) > 4095 or "/*" in text:
        return None
    tokens = [token[:2] for token in tokens_of(text)]
    return None if any(kind == "o" and word in "'\"" for kind, word in tokens) else tokens


def items_of(lines, files):
    """Returns the items of a dump with their presumed locations: tokens, and the pragmas that aren't the preprocessor's own."""
    items = []
    for line in lines:
        word, _, rest = line.partition(b" ")
        fields = rest.decode("latin-1").split(" ", 3)
        if word == b"tok":
            at, used = place(fields[0]), place(fields[1])
            column = used[2] if at == used else None
            items.append(("token", *files.place(used, at[0]), fields[2][0], spelled(fields[3].encode("latin-1")), column))
        elif word == b"prag":
            used = place(fields[0])
            items.append(("pragma", *files.place(used, used[0]), []))
        elif word == b"ptok":
            items[-1][4].append((fields[2][0], spelled(fields[3].encode("latin-1"))))
    return items


def with_pragmas(items):
    """Returns the items with the pragma of each operator in its place, and without the preprocessor's own pragmas."""
    found, index = [], 0
    while index < len(items):
        four = items[index:index + 4]
        if [item[4:6] for item in four[:2]] + [item[4:6] for item in four[3:]] == [("i", "_Pragma"), ("p", "("), ("p", ")")] and four[2][4] == "s":
            tokens = destringized(four[2][5])
            if tokens is not None:
                found.append(("pragma", *four[0][1:4], tokens))
                index += 4
                continue
        found.append(items[index])
        index += 1
    return [item for item in found if item[0] != "pragma" or not is_own([word for _, word in item[4]] + ["", ""])]


def is_own(words):
    return words[0] in ("once", "push_macro", "pop_macro") or (
        words[0] == "GCC" and words[1] in ("poison", "system_header", "dependency", "warning", "error"))


def printed(mode, options):
    """Returns the lines that a mode prints for each unit."""
    done = cppunits("--workers", "2", mode, input=json.dumps(options).encode())
    if done.returncode not in (0, 1) or done.stderr:
        raise AssertionError("status %d: %s" % (done.returncode, done.stderr.decode()))
    return [unit.split(b"\n")[:-1] for unit in re.split(rb"^unit .*\n", done.stdout, flags=re.MULTILINE)[1:]]


class Reading(unittest.TestCase):
    def compare(self, texts, units, search=(), shown=lambda name: name, system="\0", profile="gnu"):
        """Compares what is read of the text of each unit with its dump.  Returns the number of items."""
        options = dict(LIST, files=[{"name": name, "text": text} for name, text in texts.items()], units=units, search=list(search), profile=profile)
        files, count = Files(texts, shown, system), 0
        for dump, text in zip(printed("dump", options), printed("text", options)):
            whole = b"".join(line[1:] + b"\n" for line in text if line.startswith(b"|")).decode("latin-1")
            wanted = with_pragmas(items_of(dump, files))
            self.compare_unit(whole, wanted)
            self.assertEqual([line for line in dump if line.startswith((b"dep", b"ok", b"fault"))], [line for line in text if not line.startswith(b"|")])
            count += len(wanted)
        return count

    def compare_unit(self, text, wanted):
        self.assertTrue(text.startswith("#") or not text and not wanted, text[:100])
        for broken in "\\\n", "\r\n":
            self.assertNotIn(broken, text)
        found, depth = [], 0
        for item in read(text):
            if item[0] in "12":
                depth += 1 if item[0] == "1" else -1
                self.assertGreaterEqual(depth, 0, text)
            else:
                found.append(item)
        for got, want in zip(found, wanted):
            self.assertEqual(got[:6 if got[0] == "token" else 5], want[:6 if want[0] == "token" else 5], text)
            if got[0] == "token" and got[7] and want[6] and want[6] <= 1025 and want[5] not in ("#", "##", "%:"):
                self.assertEqual(got[6] + 1, want[6], text)
        self.assertEqual(len(found), len(wanted), text)
        if not any(TRIGRAPH.search(word) for word in words_of(wanted)):
            self.assertIsNone(TRIGRAPH.search(text), text)


def words_of(items):
    """Yields the spellings and names of items."""
    for item in items:
        yield item[1]
        if item[0] == "token":
            yield item[5]
        else:
            yield from (word for _, word in item[4])


# ---- spellings that could join

NASTY = PUNCTUATORS + ["1", "1e", "0x1p", ".5", "1.", "1e+5", "x", "u", "U", "L", "u8", "R", "e", "\\u00e9", "u1234", '"x"', 'L"x"', "'x'", "U'x'", "\\", "@"]
THIRD = ["", ".", "%", ":", "=", "#", ">", "5", "u0041", '""', "\\"]
NAMED = {",": "COMMA", "(": "OPEN", ")": "CLOSE"}
HEAD = "#define I(x) x\n#define COMMA ,\n#define OPEN (\n#define CLOSE )\n#define E\n"


def joined(words):
    """Returns source text whose expansion has these tokens, with no white space between them."""
    return "".join("I(%s)" % NAMED.get(word, word) for word in words if word)


class Pairs(Reading):
    def test_pairs_and_triples_read_back(self):
        lines = [joined(words) for first in NASTY for second in NASTY for words in [(first, second, third) for third in THIRD]]
        texts = {"a%d.c" % number: HEAD + "\n".join(lines[number::16]) + "\n" for number in range(16)}
        self.assertGreater(self.compare(texts, [{"file": name} for name in texts]), 2 * len(lines))


# ---- random units

WORDS = ["x", "u", "u8", "L", "R", "include", "define", "e", "\\u00e9", "$", "pragma", "once", "line", "_Pragma", "\xe9"]
NUMBERS = ["1", "1e", "0x1p", ".5", "1.", "1..", "0x", "1e+5", "5E", ".0.", "1\\u00e9"]
LITERALS = ['""', '"x"', 'L"a"', '"\\\\"', '"\\""', '"/*"', '"//"', '"#"', 'U"%:"', '"a\\?b"', "'x'", "L'\\''", "'\"'", "'\\\\'", "'/*'"]
PRAGMAS = ["once", "pack(1)", "GCC poison zz", "GCC diagnostic push", "omp parallel for", "", "a ## b", "STDC FENV_ACCESS ON", "x \\ y \\ ", "include <x>"]
OPERANDS = ['"pack(1)"', 'L"GCC diagnostic ignored \\"-Wx\\""', '"a /* b"', '"a // b"', '"once"', '""', '"it\'s"', '"  a\tb  "', '"\\\\"']


class Source:
    """The text of a random file."""

    def __init__(self, chance):
        self.chance = chance

    def word(self):
        return self.chance.choice(self.chance.choice([PUNCTUATORS, PUNCTUATORS, WORDS, NUMBERS, LITERALS, ["\\", "@", "`"]]))

    def piece(self):
        """Returns part of a line of text."""
        word, form = self.word(), self.chance.random()
        if form < 0.45 and word not in "(),":
            return "I(%s)" % word
        if form < 0.5:
            return "SYSTEM(%s)" % self.chance.choice(WORDS[:4])
        if form < 0.55:
            return "USER"
        if form < 0.6:
            return "_Pragma%s(%s)" % (self.chance.choice(["", " "]), self.chance.choice(OPERANDS))
        if form < 0.62:
            return "P(%s)" % self.chance.choice(["pack(2)", "GCC poison q", "a b"])
        if form < 0.65:
            return "__LINE__ __FILE__"
        return " E "[self.chance.randrange(3)] + (word if word not in ("#", "%:", "##", "%:%:", "(", ")") else "x") + self.chance.choice([" ", "  ", " E ", "\t"])

    def line(self):
        form = self.chance.random()
        if form < 0.08:
            return "\n" * self.chance.choice([1, 2, 7, 8, 9, 12])
        if form < 0.12:
            return "#pragma " + self.chance.choice(PRAGMAS)
        if form < 0.15:
            return "#line %d%s" % (self.chance.choice([1, 2, 100, 2147483000]), self.chance.choice(["", ' "g.y"', ' "a\\\\\\"b"']))
        if form < 0.18:
            return "I(a\n  b /*\n*/ c\n)x"
        if form < 0.21:
            return "a b\\\n c d"
        indent = " " * self.chance.choice([0, 0, 1, 4, 9, 1023, 1024, 1025])
        return indent + "".join(self.piece() for _ in range(self.chance.randrange(1, 9)))

    def text(self, lines, includes):
        """Returns the lines, among them these include lines."""
        found = [self.line() for _ in range(lines)]
        for name in includes:
            found.insert(self.chance.randrange(len(found) + 1), "#include " + name)
        return "\n".join(found) + "\n"


SYSTEM_MACROS = "#define SYSTEM(x) (x + sys)\n"
MACROS = "#define I(x) x\n#define E\n#define USER u-v\n#define P(x) _Pragma(#x)\n"


class Random(Reading):
    def test_random_units_read_back(self):
        chance, count = random.Random(1), 0
        for _ in range(100):
            source = Source(chance)
            texts = {
                "sys/s.h": SYSTEM_MACROS + source.text(6, ['"t.h"']),
                "sys/t.h": source.text(3, []),
                "inc/u.h": source.text(5, ['"n.h"', "<s.h>"]),
                "inc/n.h": source.text(4, []),
            }
            units = ["a%d.c" % number for number in range(100)]
            for name in units:
                texts[name] = MACROS + source.text(chance.choice([3, 8, 15]), chance.choice([[], ["<s.h>"], ['"u.h"', '"n.h"'], ["<u.h>", "<u.h>"]]))
            search = ["inc", {"name": "sys", "shown": "/usr/include", "system": True}]
            count += self.compare(texts, [{"file": name} for name in units], search, lambda name: name.replace("sys/", "/usr/include/"), "sys/",
                                  chance.choice(["gnu", "gnu", "c11"]))
        self.assertGreater(count, 100000)


class Rows(unittest.TestCase):
    def test_rows(self):
        for name, files, more, wanted in ROWS:
            rows = [{"name": file, "text": text} for file, text in files.items()]
            listed = dict(LIST, **{"profile": "gnu", "units": [{"file": "a.c"}], **more}, files=rows)
            done = cppunits("text", input=json.dumps(listed).encode())
            self.assertEqual((done.stdout.decode("latin-1"), done.stderr), (wanted, b""), name)
            self.assertEqual(done.returncode, int("\nfault " in wanted), name)


# ---- compilers

UNIT = r"""#include <assert.h>
#include <ctype.h>
#include <errno.h>
#include <limits.h>
#include <math.h>
#include <setjmp.h>
#include <signal.h>
#include <stdarg.h>
#include <stdio.h>
#include <stdlib.h>
#include <string.h>
#include <sys/select.h>
#include <sys/wait.h>
#include "own.h"
#include <api.h>

#define EACH(f) f(1) f(22) f(333)
#define ROW(n) { n, #n, __LINE__, __FILE__ },
_Pragma("GCC diagnostic push") _Pragma("GCC diagnostic ignored \"-Wunused-variable\"")
static int quiet(void) { int unused; return 0; }
_Pragma("GCC diagnostic pop")
#pragma pack(push, 1)
struct packed { char a; int b; };
#pragma pack(pop)
static struct { int n; const char *text; int line; const char *file; } rows[] = {
EACH(ROW)
};
#line 300 "other.y"
static int total(int count, ...)
{
    va_list list; int sum = 0;
    va_start(list, count); while (count--) sum += va_arg(list, int); va_end(list);
    return sum;
}
#line 40
int main(int argc, char **argv)
{
    fd_set set; FD_ZERO(&set); FD_SET(0, &set);
    assert(argc > 0 && "argc"); errno = 0; signal(SIGINT, SIG_IGN);
    OWN_SWAP(argc, *(int *)rows);
    if (argc == INT_MAX || WEXITSTATUS(argc) || isalpha(argv[0][0])) return EXIT_FAILURE;
    putc('x', stderr); printf("%s %s:%d\n", NAME, __FILE__, __LINE__);
    return total(2, api(NAN != NAN), quiet()) + (int)sizeof(struct packed) + FD_ISSET(0, &set) + -+- -argc+ +argc - -(HUGE_VAL > 1);
}
"""
OWN = "#define OWN_SWAP(a, b) do { int own_temp = (a); (a) = (b); \\\n    (b) = own_temp; } while (0)\nstatic inline const char *own_file(void) { return __FILE__; }\n"
API = "static int api(int x)\n{\n    int unused;\n    return x;\n}\n"
WARNED = r"""#include "own.h"
#define UNSIGNED(x) ((x) < 0u)
#define SHOW(x) printf("%s", x)
int printf(const char *, ...);

int f(int a, unsigned b)
{
    int unused;


    /* */ if (a == b) return UNSIGNED(b);
    SHOW(1);
#line 7 "grammar.y"
    if (a = 1)
        return own_file() == 0;
}
"""
WARNING = re.compile(r"^([^\s:]+):(\d+):.*(?:warning|error): .*\[(-W[^]]*)\]$", re.M)


class Builds(Folder):
    def texts(self, commands):
        """Writes the texts of commands to the directory `text`."""
        entries = [{"directory": self.top, "file": file, "arguments": [*words, "-c", file, "-o", name + ".o"]} for name, words, file in commands]
        write(self.top, {"compile_commands.json": json.dumps(entries)})
        done = run([sys.executable, os.path.join(TOP, "scripts", "build.py"), "text", "--program", program(), "--into", "text"], cwd=self.top)
        self.assertEqual((done.returncode, done.stderr.count(b"\n")), (0, 1), done.stderr.decode())


class Compiled(Builds):
    FILES = {"src/a.c": UNIT, "src/own.h": OWN, "sys/api.h": API, "src/w.c": WARNED}

    def of_text(self, words, name):
        """Returns the words of a command for the text in place of the source."""
        return [*words, *(["-fno-trigraphs", "-Wno-unused-command-line-argument"] if words[0] == "clang" else []), "-x", "cpp-output", "-c", "text/%s.i" % name, "-o", "ours.o"]

    def objects(self, compiler, more, commands):
        missed(compiler)
        commands = [(name, [compiler, *more, *words], file) for name, words, file in commands]
        self.texts(commands)
        for name, words, file in commands:
            well(self.of_text(words, name), cwd=self.top)
            well([*words, "-c", file, "-o", "theirs.o"], cwd=self.top)
            self.assertTrue(filecmp.cmp(self.path("ours.o"), self.path("theirs.o"), shallow=False), words)

    COMMANDS = [("a%d" % number, ["-Isrc", "-isystem", "sys", "-DNAME=\"demo\"", *more], "src/a.c")
                for number, more in enumerate((["-O2"], ["-O0"], ["-O2", "-DNDEBUG", "-D_FORTIFY_SOURCE=2"], ["-O2", "-include", "limits.h"]))]

    def test_objects_of_gcc(self):
        write(self.top, self.FILES)
        self.objects("gcc", ["-Wall", "-Wextra", "-Werror"], self.COMMANDS)

    def test_objects_of_clang(self):
        write(self.top, self.FILES)
        self.objects("clang", ["-Wall", "-Wextra", "-Werror"], self.COMMANDS)

    def test_headers_that_are_read_once(self):
        """Wants no word about markers: gcc warns of a flag 2 without its flag 1, and clang refuses it."""
        missed("gcc")
        once, guarded = "#pragma once\nint once;\n", "#ifndef G\n#define G\nint guarded;\n#endif\n"
        line = '#include "once.h"\n#include "guarded.h"\n'
        write(self.top, {"b.c": line + line + '#include "in.h"\nint last;\n', "once.h": once, "guarded.h": guarded, "in.h": line + "int in;\n"})
        self.texts([("b", ["gcc"], "b.c")])
        for compiler in ("gcc", "clang") if shutil.which("clang") else ("gcc",):
            done = run(self.of_text([compiler, "-Wall", "-Wextra"], "b"), cwd=self.top)
            self.assertEqual((done.returncode, done.stderr), (0, b""))

    def test_objects_of_the_demo(self):
        shutil.copytree(os.path.join(TOP, "examples", "demo"), self.top, dirs_exist_ok=True)
        for compiler in "gcc", "clang":
            with self.subTest(compiler):
                shutil.rmtree(self.path("text"), ignore_errors=True)
                self.objects(compiler, ["-Wall", "-Wextra", "-Werror", "-O2"],
                             [("main", ["-Ilib", "-DNAME=\"demo\""], "src/main.c"), ("low", ["-Ilib"], "lib/low.c")])

    def test_warnings_of_gcc(self):
        """Wants the file, the line and the name of each, as from gcc's own text; from the source gcc places those in macros at their definitions."""
        missed("gcc")
        write(self.top, self.FILES)
        words = ["gcc", "-Wall", "-Wextra", "-O2", "-isystem", "sys", "-Isrc"]
        self.texts([("w", words, "src/w.c")])
        well([*words, "-E", "src/w.c", "-o", "text/theirs.i"], cwd=self.top)
        ours, theirs = (WARNING.findall(run(self.of_text(words, name), cwd=self.top, env=dict(os.environ, LC_ALL="C")).stderr.decode())
                        for name in ("w", "theirs"))
        self.assertEqual(len(theirs), 5)
        self.assertEqual(ours, theirs)


MARKER = re.compile(r'^# \d+ "(.*)" 1( 3)?', re.M)


class Markers(Builds):
    FILES = {"src/a.c": '#include "../src/b.h"\n#include <i.h>\n#define N <n.h>\n#include N\n#include "sub/d.h"\n#include <s.h>\n',
             "src/b.h": '#include "./c.h"\n', "src/c.h": "", "inc/i.h": '#include "j.h"\n', "inc/j.h": "int j;\n", "inc/n.h": "",
             "inc/sub/d.h": '#include "../up.h"\n', "inc/up.h": "", "sys/s.h": '#include "t.h"\n#include <l.h>\n', "sys/t.h": "",
             "late/l.h": "#include_next <l.h>\n", "last/l.h": "", "first.h": '#include "f.h"\n', "f.h": ""}

    def test_files_are_entered_as_by_gcc(self):
        missed("gcc")
        write(self.top, self.FILES)
        shared = "-I./inc -isystem sys/ -idirafter late -idirafter ./last/. -include first.h -include ./f.h -include i.h"
        for number, file in enumerate(("src/a.c", "./src/a.c", "src/../src/a.c", self.path("src/a.c"))):
            words = ["gcc", *shared.split()]
            self.texts([("m%d" % number, words, file)])
            with open(self.path("text/m%d.i" % number)) as text:
                ours = MARKER.findall(text.read())
            theirs = MARKER.findall(well([*words, "-E", file], cwd=self.top).decode())
            self.assertEqual(ours, [pair for pair in theirs if not pair[0].endswith("stdc-predef.h")])


if __name__ == "__main__":
    main()
