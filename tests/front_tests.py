#!/usr/bin/env python3
"""Tests scripts/cppunits-cc, the compiler that preprocesses by cppunits: what it makes is compared with what gcc and clang make alone.

    tests/front_tests.py [PROGRAM] [-k NAME]
"""
import os
import re
import shlex
import shutil
import signal
import subprocess
import sys
import time

from counted import TOP, Folder, main, missed, program, run, well, write

sys.path.insert(0, os.path.join(TOP, "bench"))
from cutter import spellings  # noqa: E402

FRONT = os.path.join(TOP, "scripts", "cppunits-cc")
MAIN = r"""#include "own.h"
#include <stdio.h>
#include <api.h>
#ifndef N
#define N 7
#endif
#define SHOW(x) printf("%s %d\n", #x, (x))
int low(int);
int main(void) { SHOW(low(N) + OWN + API); return __LINE__ - 10; }
"""
NAMED = """#include "names.h"
#include <name.h>
#define STRING(x) #x
#define SPELLED(x) STRING(x)
char **all = names, *spelled = SPELLED(__FILE__ "a") __FILE__, *where = __FILE__ "@"; int size = sizeof __FILE__; int line(void) { return __LINE__; }
"""
FILES = {"src/main.c": MAIN, "src/own.h": "#define OWN 1\n", "inc/api.h": "#define API 2\n", "src/low.c": "int low(int n) { return n + 30; }\n",
         "src/named.c": NAMED, "src/names.h": 'static char *names[] = { __FILE__, __BASE_FILE__, "./src/x" };\n',
         "inc/name.h": "#include \"../more/last.h\"\nchar *name = __FILE__;\n", "more/last.h": "char *last = __FILE__;\n",
         "first.h": "#define N 9\n", "words": "-Iinc -DN=4\n", "src/text": MAIN,
         "src/date.c": "char *date = __DATE__ __TIME__;\n",
         "src/atomic.c": "#include <stdatomic.h>\nint n;\n#pragma clang final(ATOMIC_INT_LOCK_FREE)\n_Pragma(\"clang deprecated(ATOMIC_INT_LOCK_FREE)\") char *s = __BASE_FILE__;\n"}


def read(*parts):
    with open(os.path.join(*parts), "rb") as file:
        return file.read()


class Fronts(Folder):
    """Runs the front with a cache and a directory for texts of its own."""

    compiler = "gcc"

    def setUp(self):
        super().setUp()
        missed(self.compiler)
        os.mkdir(self.path("tmp"))
        os.mkdir(self.path("w"))
        self.work = self.path("w")
        write(self.work, FILES)

    def environment(self, **more):
        here = dict(os.environ, CPPUNITS=program(), CPPUNITS_CC=self.compiler, XDG_CACHE_HOME=self.path("cache"), TMPDIR=self.path("tmp"), LC_ALL="C")
        for name in "CPPUNITS_FALLBACK", "CPATH", "C_INCLUDE_PATH":
            here.pop(name, None)
        here.update(more)
        return here

    def front(self, *words, given=b"", **more):
        done = run([FRONT, *words], cwd=self.work, env=self.environment(**more), input=given)
        self.assertEqual(os.listdir(self.path("tmp")), [], words)
        return done

    def made(self, *words, **more):
        """Runs the front, which must say nothing."""
        done = self.front(*words, **more)
        self.assertEqual((done.returncode, done.stderr), (0, b""), words)
        return done.stdout

    def refused(self, *words, **more):
        """Returns what the front says, which must end with status 1 and write nothing."""
        before = self.tree()
        done = self.front(*words, **more)
        self.assertEqual((done.returncode, done.stdout), (1, b""), words)
        self.assertEqual(self.tree(), before, words)
        return done.stderr.decode()

    def tree(self):
        return sorted(os.path.join(where, name) for where, _, names in os.walk(self.work) for name in names)

    def fresh(self):
        """Empties the directory of all that a compiler wrote."""
        shutil.rmtree(self.work)
        os.mkdir(self.work)
        write(self.work, FILES)

    def both(self, *words, given=b""):
        """Runs the front and the compiler, and compares the files that they write, what they print, and their status."""
        found = []
        for command in [FRONT], [self.compiler]:
            self.fresh()
            done = run([*command, *words], cwd=self.work, env=self.environment(), input=given)
            files = {path: self.plain(path) for path in self.tree()}
            found.append((done.returncode, files))
        self.assertEqual(*found, words)
        self.assertEqual(found[0][0], 0, words)

    @staticmethod
    def plain(path):
        """Returns a file's content; of a dependency file the words, since its lines may end elsewhere."""
        data = read(path)
        if path.endswith(".d"):
            return [rule.split() for rule in data.replace(b"\\\n", b" ").split(b"\n") if rule]
        return data


class Options(Fronts):
    COMMANDS = [
        "-Iinc -c src/main.c", "-Iinc -c src/main.c -o main.out", "-Iinc -O2 -Wall -Wextra -Werror -c src/main.c -omain.o", "-I inc -S src/main.c",
        "-Iinc -c src/main.c src/low.c", "-Iinc src/main.c src/low.c -o prog", "-isystem inc -D N=3 -c src/main.c", "-idirafter inc -DN -c src/main.c",
        "-Iinc -DN=3 -UN -c src/main.c", "-iquote inc -iquote none -Iinc -c src/main.c", "-Iinc -include first.h -c src/main.c",
        "-Iinc -include src/own.h -D'N=(1 + 2)' -c src/main.c", "@words -c src/main.c", "-Isrc -Iinc -x c -c src/text -x none", "-Iinc -Isrc -c -xc src/text",
        "-Iinc -std=c99 -pedantic -c src/main.c", "--include-directory=inc -c src/main.c", "-Iinc -fsyntax-only src/main.c", "-Iinc -Wp,-DN=5 -c src/main.c",
        "-Iinc -O2 -D_FORTIFY_SOURCE=2 -fPIC -c src/main.c", "-Iinc -ffunction-sections -Wl,--gc-sections src/main.c src/low.c",
        "-I/none -Iinc -P -c src/main.c", "-Iinc -ffile-prefix-map=/src=x -fdebug-prefix-map=src=x -c src/main.c",
        "-c src/atomic.c", "-std=c11 -O2 -c src/atomic.c", "-Wno-builtin-macro-redefined -D__DATE__='\"Jan  2 2030\"' -D__TIME__='\"03:04:05\"' -c src/date.c",
        "-w -D__DATE__='\"redacted\"' -D__TIMESTAMP__='\"redacted\"' -D__TIME__= -Iinc -c src/main.c"]

    def test_the_same_files(self):
        for command in self.COMMANDS:
            self.both(*shlex.split(command))

    def test_other_languages_pass(self):
        write(self.work, {"s.S": "#if N\n.globl two\ntwo:\n#endif\n"})
        self.assertEqual(self.made("-Iinc", "-DN=1", "-c", "src/main.c", "s.S"), b"")
        self.assertIn(b"two", read(self.work, "s.o"))
        self.made("-c", "src/low.c")
        self.made("-Iinc", "src/main.c", "low.o", "-o", "prog")
        self.assertEqual(run([os.path.join(self.work, "prog")]).stdout, b"low(N) + OWN + API 40\n")
        self.made("-o", "again", "main.o", "low.o")
        self.assertEqual(run([os.path.join(self.work, "again")]).stdout, b"low(N) + OWN + API 34\n")

    def test_standard_input(self):
        if self.compiler == "gcc":
            # clang's object has the input's name, which is another
            self.both("-Isrc", "-Iinc", "-x", "c", "-c", "-", "-o", "in.o", given=b'#include "src/own.h"\n#include <api.h>\nint i = OWN + API;\n')
        self.assertEqual(self.made("-E", "-P", "-", given=b"a __LINE__\n__FILE__ __BASE_FILE__\n"), b'a 1\n"<stdin>" "<stdin>"\n')
        self.assertEqual(self.made("-E", "-P", "-x", "c", "/dev/null"), b"")

    def test_questions_go_to_the_compiler(self):
        for words in (["--version"], ["-dumpmachine"], ["-print-search-dirs"], ["-dM", "-E", "-x", "c", "/dev/null"], ["-E", "-dM", "src/low.c"]):
            self.assertEqual(self.made(*words), well([self.compiler, *words], cwd=self.work), words)

    def test_the_text(self):
        text = self.made("-Iinc", "-E", "src/main.c")
        self.assertTrue(text.startswith(b'# 1 "src/main.c"\n# 1 "src/own.h" 1\n'), text[:99])
        self.made("-Iinc", "-E", "src/main.c", "-o", "main.i")
        self.assertEqual(read(self.work, "main.i"), text)
        self.assertEqual(self.made("-E", "-P", "src/own.h", "src/low.c"), b"int low(int n) { return n + 30; }\n")
        self.assertEqual(self.made("-E", "-o", "/dev/null", "src/low.c"), b"")

    def test_the_directories_are_told(self):
        done = self.front("-v", "-Iinc", "-iquote", "src", "-c", "src/low.c")
        told = re.search(rb'^#include "..." search starts here:\n (.*)\n#include <...> search starts here:\n (.*)\n(.*\n)*End of search list.$', done.stderr, re.M)
        self.assertEqual((done.returncode, told[1], told[2]), (0, self.work.encode() + b"/src", self.work.encode() + b"/inc"))

    def test_names_that_macros_make(self):
        write(self.work, {"m.c": "#define NAME(x) <x.h>\n#include NAME(api)\n#define OTHER \"src/own.h\"\n#include OTHER\nint i = API + OWN;\n"})
        for _ in range(2):
            self.made("-Iinc", "-c", "m.c", "-o", "ours.o")
        well([self.compiler, "-Iinc", "-c", "m.c", "-o", "theirs.o"], cwd=self.work)
        self.assertEqual(read(self.work, "ours.o"), read(self.work, "theirs.o"))

    def test_names_that_options_map(self):
        if self.compiler != "gcc":
            self.assertIn("-fmacro-prefix-map isn't supported for its __FILE__", self.refused("-Iinc", "-fmacro-prefix-map=src=x", "-c", "src/named.c"))
            return
        for words in ("-fmacro-prefix-map=./=", "-ffile-prefix-map=./src=n", "-fmacro-prefix-map=./s=q/ -fmacro-prefix-map=./=r/", "-fmacro-prefix-map=./=a",
                      "-fmacro-prefix-map=./src/own.h=", "-fmacro-prefix-map=%s=/w" % self.work, "-fmacro-prefix-map==/", "-fmacro-prefix-map=none=x"):
            self.made(*words.split(), "-I./inc", "-I" + self.path("w/more"), "-c", "./src/named.c", "-o", "ours.o")
            well([self.compiler, *words.split(), "-I./inc", "-I" + self.path("w/more"), "-c", "./src/named.c", "-o", "theirs.o"], cwd=self.work)
            self.assertEqual(read(self.work, "ours.o"), read(self.work, "theirs.o"), words)

    def test_names_that_are_defined_again(self):
        """Defines names of the compiler and names of its own again: a warning, which is an error under -Werror."""
        rows = [("-D__SIZEOF_INT128__=0", 1), ("-U__SIZEOF_INT128__ -D__SIZEOF_INT128__=0", 0), ("-D__CHAR_BIT__=8", 0), ("-DX=1 -DX=2", 1), ("-DX=1 -DX", 0),
                ("-DX=1 -UX -DX=2", 0), ("-w -DX=1 -DX=2", 0)]
        for words, count in rows:
            for compiler in [FRONT], [self.compiler]:
                done = run([*compiler, *words.split(), "-S", "-x", "c", "/dev/null", "-o", "x.s"], cwd=self.work, env=self.environment())
                self.assertEqual((done.returncode, done.stderr.count(b" warning: ")), (0, count), (compiler, words))
                done = run([*compiler, "-Werror", *words.split(), "-S", "-x", "c", "/dev/null", "-o", "x.s"], cwd=self.work, env=self.environment())
                self.assertEqual((done.returncode, done.stderr.count(b" error: ")), (count, count), (compiler, words))

    def test_comments_and_macros_that_silence_warnings(self):
        write(self.work, {"f.c": "int f(int n)\n{\n    switch (n) {\n    case 1: n++;\n        /* fall through */\n    case 2: n++; // FALLTHRU\n"
                                 "    default: n++;\n    }\n    return n;\n}\n",
                          "m.c": "#define CHECK(p) ((p) != 0)\n#define SAME(a, b) ((a) == (b))\nint a[2];\n"
                                 "int g(void) { if (SAME(a[0], a[1])) return 1; return CHECK(a); }\n",
                          "body.c": "#define CASES case 1: n++; /* fall through */ case 2: n++;\nint f(int n) { switch (n) {\nCASES }\nreturn n; }\n"})
        self.made("-Wall", "-Wextra", "-Werror", "-c", "f.c")
        self.assertEqual(self.front("-Wall", "-Werror", "-c", "m.c").returncode, 0)
        # a comment in the body of a macro stays dropped
        done = self.front("-Wimplicit-fallthrough", "-c", "body.c")
        self.assertEqual((done.returncode, done.stderr.count(b" warning: ")), (0, 1), done.stderr)


class OptionsOfClang(Options):
    compiler = "clang"


class Tcc(Fronts):
    """Tests tcc, which preprocesses the text once more, and whose objects have its name."""

    compiler = "tcc"

    def test_a_program(self):
        self.made("-Iinc", "src/main.c", "src/low.c", "-o", "prog")
        self.assertEqual(run([os.path.join(self.work, "prog")]).stdout, b"low(N) + OWN + API 40\n")
        self.made("-Iinc", "-MMD", "-c", "src/main.c")
        self.assertEqual(read(self.work, "main.d").replace(b"\\\n", b" ").split(), [b"main.o:", b"src/main.c", b"src/own.h", b"inc/api.h"])
        self.assertIn(b"src/main.c:3: error: include file 'api.h' not found", run(["tcc", "-c", "src/main.c"], cwd=self.work).stderr)
        self.assertIn("src/main.c:3:10: error: no such file: api.h [fault 31]", self.refused("-c", "src/main.c"))

    def test_the_same_tokens(self):
        names = "assert ctype errno float limits math pthread setjmp signal stdarg stdbool stddef stdint stdio stdlib string sys/socket time unistd wchar"
        write(self.work, {"u.c": "".join("#include <%s.h>\n" % name for name in names.split()) + "char *b = __BASE_FILE__, *f = __FILE__; int l = __LINE__;\n"
                                 "#ifdef __has_include\nint has;\n#endif\n"})
        self.assertEqual(*(spellings(text) for text in (self.made("-E", "-P", "u.c"), well(["tcc", "-E", "-P", "u.c"], cwd=self.work))))

    def test_macros_of_its_own_that_are_none_in_a_unit(self):
        write(self.work, {"u.c": "#undef unix\n#undef __x86_64__\nint unix, __x86_64__;\n"})
        self.made("-c", "u.c")


class Dependencies(Fronts):
    COMMANDS = [
        "-MD -c src/main.c", "-MMD -c src/main.c -o x.o", "-MMD src/main.c src/low.c -o prog", "-MMD -S src/main.c",
        "-MD -MF f.d -c src/main.c", "-MMD -MP -MFf.d -c src/main.c", "-MMD -MT t$x -MQ q$x -c src/main.c", "-c -Wp,-MD,f.d src/main.c",
        "-c -Wp,-MMD,f.d -MT t src/main.c", "-MM src/main.c -MF f.d", "-M src/main.c -o f.d",
        "-MMD -include first.h -c src/main.c", "-MM src/main.c src/low.c -MF f.d", "-MD src/main.c src/low.c", "-MMD -MT t src/main.c src/low.c",
        "-MMD -fsyntax-only src/main.c"]

    def test_the_same_rules(self):
        for command in self.COMMANDS:
            self.both("-isystem", "inc", *command.split())

    def test_rules_on_standard_output(self):
        for words in (["-MM", "src/main.c"], ["-MM", "-MP", "-MT", "t", "src/main.c"], ["-M", "src/low.c"]):
            ours, theirs = (text.replace(b"\\\n", b" ").split() for text in (self.made("-Iinc", *words), well([self.compiler, "-Iinc", *words], cwd=self.work)))
            self.assertEqual(ours, theirs, words)

    def test_a_rule_beside_the_text(self):
        self.made("-Iinc", "-E", "-MMD", "src/main.c", "-o", "x.i")
        self.assertEqual(read(self.work, "x.d").replace(b"\\\n", b" ").split(), [b"main.o:", b"src/main.c", b"src/own.h", b"inc/api.h"])

    def test_none_if_the_compilation_fails(self):
        write(self.work, {"bad.c": "int x\n"})
        done = self.front("-MD", "-c", "bad.c")
        self.assertEqual((done.returncode, os.path.exists(os.path.join(self.work, "bad.d"))), (1, False))


# commands that are refused, and what is said of each
REFUSED = {
    "-imacros first.h -c src/main.c": "-imacros isn't supported",
    "-E -C src/low.c": "-C isn't supported",
    "-Xpreprocessor -P -c src/low.c": "-Xpreprocessor isn't supported",
    "-MM -MG src/low.c": "-MG isn't supported",
    "-specs=none -c src/low.c": "-specs=none isn't supported",
    "-D__FILE__=1 -c src/low.c": "-D__FILE__=1: this name may not be defined (fault 10)",
    "-D__DATE__=\"redacted\" -c src/date.c": "src/date.c: error: -D__DATE__=\"redacted\": a list can't have this date, which the unit uses [fault 10]",
    "-D__DATE__=\"Feb\u00a030\u00a02024\" -D__TIME__ -c src/date.c": "src/date.c: error: -D__DATE__=",
    "-D__TIME__=\"24:00:00\" -c src/date.c": "src/date.c: error: -D__TIME__=\"24:00:00\": a list can't have this time",
    "-U__DATE__ -c src/low.c": "-U__DATE__: this name stays defined",
    "-include no.h -c src/low.c": "-include no.h: there is no such file",
    "-std=c11 -c tri.c": "tri.c: error: has a trigraph",
    "-ffreestanding -c host.c": "host.c: error: tests __STDC_HOSTED__",
    "-iquote src -c shadow.c": "<own.h> is found in an -iquote directory",
    "-ffile-prefix-map=fi=x -c line.c": "line.c: error: -ffile-prefix-map isn't supported for its __FILE__",
    "-fmacro-prefix-map=a\"=x -c quote.c": "quote.c: error: -fmacro-prefix-map isn't supported for its __FILE__",
    "-c up.c": "up.h: reached by a symbolic link",
    "-Ilink/../inc -c src/low.c": "inc: reached by a symbolic link",
    "-Ilink/../b -c src/low.c": "b: reached by a symbolic link",
    "-c link/../up.c": "link/../up.c: reached by a symbolic link",
    "-c no.c": "no.c: No such file or directory",
    "-c @no": "there is no response file ",
}


class DependenciesOfClang(Dependencies):
    compiler = "clang"


class Faults(Fronts):
    BAD = {"none.c": '\n#include "deep.h"\n', "deep.h": "#  include <nonesuch.h>\n", "stop.c": "#error no such system\n", "stray.c": "#define H #\nH x\n"}

    def setUp(self):
        super().setUp()
        write(self.work, self.BAD)

    def test_the_form_of_gcc(self):
        for words in (["-c", "none.c"], ["-E", "none.c", "-o", "x.i"], ["-MD", "-c", "none.c"], ["-M", "none.c", "-o", "x.d"], ["none.c", "src/low.c", "-o", "p"]):
            said = self.refused(*words).split("\n")
            self.assertEqual(said[:2], ["In file included from none.c:2:", "deep.h:1:12: error: no such file: nonesuch.h [fault 31]"], words)
        self.assertIn("stop.c:1:1: error: #error no such system [fault 34]\n", self.refused("-c", "stop.c"))
        self.assertEqual(self.refused("-c", "stray.c"), "stray.c: error: stray '#' in program\n")

    def test_the_others_are_compiled(self):
        self.assertEqual(self.front("-c", "none.c", "src/low.c").returncode, 1)
        self.assertEqual([name for name in os.listdir(self.work) if name.endswith(".o")], ["low.o"])

    def test_errors_of_the_compiler(self):
        write(self.work, {"wrong.c": "\n\nint x = ;\n"})
        done = self.front("-c", "wrong.c")
        self.assertEqual((done.returncode, done.stderr.count(b"wrong.c:3:9: error:")), (1, 1))
        self.assertEqual(self.front("src/low.c", "-o", "p").returncode, 1)

    def test_a_configure_script(self):
        probe = """ask() { printf '%s\\n' "$2" > conftest.c
            if $CC $CPPFLAGS $1 conftest.c -o conftest.out 2> conftest.err; then echo yes; else echo no; fi; }
            ask -c '#include <stdio.h>'; ask -c '#include <nonesuch.h>'; ask -E '#include <nonesuch.h>'; ask -E '#include <limits.h>'
            ask '' 'int main(void) { return strange(); }'; ask '' 'int main(void) { return 0; }'; ask -c 'int a[sizeof(long) == 3 ? 1 : -1];'
            ask -c '#ifndef __GNUC__
            #error not GNU
            #endif'; ask -c '#if !HAVE_X
            choke me
            #endif'"""
        for compiler in FRONT, self.compiler:
            done = run(["sh", "-c", probe], cwd=self.work, env=self.environment(CC=compiler, CPPFLAGS="-DHAVE_Y"))
            self.assertEqual(done.stdout.split(), b"yes no no yes no yes no yes no".split(), compiler)

    def test_the_fallback_says_so(self):
        done = self.front("-c", "none.c", "src/low.c", CPPUNITS_FALLBACK="1")
        said = [line for line in done.stderr.decode().split("\n") if line.startswith("cppunits-cc: ")]
        self.assertEqual(said, ["cppunits-cc: warning: none.c: fault 31 of cppunits"] + [
            "cppunits-cc: warning: %s: taken by the preprocessor of gcc, not by cppunits (CPPUNITS_FALLBACK)" % name for name in ("none.c", "src/low.c")])
        self.assertEqual(done.returncode, 1)
        done = self.front("-imacros", "first.h", "-Iinc", "-c", "src/main.c", CPPUNITS_FALLBACK="1")
        self.assertEqual((done.returncode, done.stderr.count(b"\n"), os.path.exists(os.path.join(self.work, "main.o"))), (0, 2, True))
        self.assertIn(b"taken by the preprocessor of gcc", done.stderr)
        # what was read from standard input can't be read again
        done = self.front("-x", "c", "-c", "-", "-o", "in.o", given=b"#include <nonesuch.h>\n", CPPUNITS_FALLBACK="1")
        self.assertEqual((done.returncode, os.path.exists(os.path.join(self.work, "in.o"))), (1, False))

    def test_what_it_cannot_do_is_said(self):
        os.makedirs(os.path.join(self.work, "a/b"))
        os.symlink("a/b", os.path.join(self.work, "link"))
        os.mkdir(os.path.join(self.work, "a/inc"))
        write(self.work, {"a/up.h": "", "up.h": "", "tri.c": 'char *s = "??=";\n',
                          "host.c": "#if __STDC_HOSTED__\n#endif\n", "shadow.c": "#include \"own.h\"\n#include <own.h>\n",
                          "a/up.c": "", "up.c": '#include "link/../up.h"\n', "line.c": '#line 2 "file.c"\nchar *s = __FILE__;\n',
                          "quote.c": '#line 2 "a\\"b"\nchar *s = __FILE__;\n'})
        for words, said in REFUSED.items():
            line = self.refused(*words.split())
            self.assertRegex(line, r"\A[^\n]*error: [^\n]*\n\Z", words)
            self.assertIn(said, line)
        self.made("-c", "src/low.c", "-ffreestanding", "-std=c11")


class Environment(Fronts):
    def test_programs(self):
        rows = [({"CPPUNITS": "/none"}, "there is no program /none (CPPUNITS names one)"), ({"CPPUNITS": "/bin/false"}, None),
                ({"CPPUNITS": "/bin/true"}, "/bin/true: it prints no unit"), ({"CPPUNITS": "/bin/sh"}, None),
                ({"CPPUNITS_CC": "/none"}, "there is no compiler /none (CPPUNITS_CC names one)"), ({"CPPUNITS_CC": FRONT}, "there is no compiler " + FRONT),
                ({"CPPUNITS_CC": "/bin/true"}, "/bin/true: no answer: it names no directories; it says: nothing"),
                ({"CPATH": "inc:/usr"}, "CPATH names a relative directory"),
                ({"CPPUNITS_CC": "gcc -specs=none"}, "-specs=none isn't supported")]
        for more, said in rows:
            line = self.refused("-c", "src/low.c", **more)
            self.assertRegex(line.split("\n")[-2] if said is None else line, r"\A[^\n]*cppunits-cc: error: [^\n]*\n?\Z", more)
            self.assertIn(said or "error", line)

    def test_a_compiler_with_options(self):
        self.made("-Iinc", "-c", "src/main.c", CPPUNITS_CC="gcc -DN=2")
        well(["gcc", "-DN=2", "-Iinc", "-c", "src/main.c", "-o", "theirs.o"], cwd=self.work)
        self.assertEqual(read(self.work, "main.o"), read(self.work, "theirs.o"))

    def test_help(self):
        self.assertRegex(self.made("--help-cppunits"), rb"(?s)\Ausage: cppunits-cc .*CPPUNITS_CC .*CPPUNITS_FALLBACK .*\nstatus: ")

    def test_it_does_not_run_itself(self):
        os.mkdir(self.path("bin"))
        os.symlink(FRONT, self.path("bin/gcc"))
        self.made("-c", "src/low.c", CPPUNITS_CC="", PATH=self.path("bin") + ":" + os.environ["PATH"])

    def test_beside_the_script(self):
        shutil.copytree(os.path.join(TOP, "scripts"), self.path("scripts"), ignore=shutil.ignore_patterns("__pycache__"))
        os.symlink(program(), self.path("scripts/cppunits"))
        done = run([self.path("scripts/cppunits-cc"), "-c", "src/low.c"], cwd=self.work, env=self.environment(CPPUNITS=""))
        self.assertEqual((done.returncode, done.stderr), (0, b""))

    def test_an_interrupt_leaves_no_file(self):
        write(self.top, {"slow": "#!/bin/sh\nexec sleep 60\n"})
        os.chmod(self.path("slow"), 0o755)
        self.made("-c", "src/low.c")
        before = self.tree()
        with subprocess.Popen([FRONT, "-MD", "-c", "src/low.c"], cwd=self.work, env=self.environment(CPPUNITS=self.path("slow"))) as front:
            time.sleep(1)
            front.send_signal(signal.SIGTERM)
            self.assertEqual(front.wait(10), 130)
        self.assertEqual((self.tree(), os.listdir(self.path("tmp"))), (before, []))


class Kept(Fronts):
    def setUp(self):
        super().setUp()
        # files that are younger aren't kept
        for name in FILES:
            os.utime(os.path.join(self.work, name), (1e9, 1e9))

    def object(self, *words, **more):
        self.made("-Iinc", "-c", "src/main.c", "-o", "ours.o", *words, **more)
        return read(self.work, "ours.o")

    def theirs(self, *words):
        well([self.compiler, "-Iinc", "-c", "src/main.c", "-o", "theirs.o", *words], cwd=self.work)
        return read(self.work, "theirs.o")

    def kept(self):
        folder = self.path("cache/cppunits")
        return {name: read(folder, name) for name in os.listdir(folder)}

    def test_the_compiler_is_asked_once(self):
        write(self.top, {"gcc": "#!/bin/sh\necho \"$@\" >> %s\nexec gcc \"$@\"\n" % self.path("log")})
        os.chmod(self.path("gcc"), 0o755)
        for count in 4, 1, 1:
            write(self.top, {"log": ""})
            self.object(CPPUNITS_CC=self.path("gcc"))
            self.assertEqual(read(self.top, "log").count(b"\n"), count)
        self.object("-O2", CPPUNITS_CC=self.path("gcc"))
        self.assertGreater(read(self.top, "log").count(b"-O2"), 1)

    def test_another_compiler_behind_a_link(self):
        """Runs two compilers by links to one program, as with ccache."""
        missed("clang")
        write(self.top, {"launcher": '#!/bin/sh\nexec "$(basename "$0")" "$@"\n'})
        os.chmod(self.path("launcher"), 0o755)
        write(self.work, {"which.c": "#ifdef __clang__\nint clang;\n#else\nint gcc;\n#endif\n"})
        for name in "gcc", "clang", "gcc":
            os.makedirs(self.path("links"), exist_ok=True)
            if not os.path.lexists(self.path("links/" + name)):
                os.symlink("../launcher", self.path("links/" + name))
            self.assertIn(b"int %s;" % name.encode(), self.made("-E", "which.c", CPPUNITS_CC=self.path("links/" + name)))

    def test_broken_files_are_made_anew(self):
        wanted, before = self.object(), self.kept()
        self.assertEqual(wanted, self.theirs())
        for change in (lambda data: b"", lambda data: data[:len(data) // 2], lambda data: data.replace(b'"', b"'"), lambda data: b"\0" * 100,
                       lambda data: b"00000000\n[]", lambda data: data[:9] + b'["x",1]'):
            write(self.path("cache/cppunits"), {name: change(data) for name, data in before.items()})
            self.assertEqual(self.object(), wanted)
            self.assertEqual({name: len(data) for name, data in self.kept().items()}, {name: len(data) for name, data in before.items()})

    def test_many_at_once(self):
        for _ in range(2):
            shutil.rmtree(self.path("cache"), ignore_errors=True)
            command = [FRONT, "-Iinc", "-c", "src/main.c", "-o"]
            fronts = [subprocess.Popen([*command, "%d.o" % number], cwd=self.work, env=self.environment(), stderr=subprocess.PIPE) for number in range(8)]
            self.assertEqual([(front.communicate()[1], front.returncode) for front in fronts], [(b"", 0)] * 8)
            self.assertEqual({read(self.work, "%d.o" % number) for number in range(8)}, {self.theirs()})
            self.assertEqual([name for name in self.kept() if not re.fullmatch(r"(?:answer|headers)-[0-9a-f]{8}", name)], [])

    def test_changed_files_are_seen(self):
        self.assertEqual(self.object(), self.theirs())
        write(self.work, {"src/own.h": '#include "more.h"\n', "src/more.h": "#define OWN 5\n"})
        self.assertEqual(self.object(), self.theirs())
        # a header that comes before another of its name
        write(self.work, {"src/stdio.h": "", "new/api.h": "#define API 8\n"})
        self.assertEqual(self.object("-Inew"), self.theirs("-Inew"))
        write(self.work, {"inc/stdio.h": "int printf(const char *, ...);\n"})
        self.assertEqual(self.object(), self.theirs())

    def test_a_cache_that_cannot_be_written(self):
        write(self.top, {"file": ""})
        for more in {"XDG_CACHE_HOME": self.path("file")}, {"XDG_CACHE_HOME": "", "HOME": ""}:
            self.assertEqual(self.object(**more), self.theirs())
        self.object(XDG_CACHE_HOME="", HOME=self.path("home"))
        self.assertIn("cppunits", os.listdir(self.path("home/.cache")))


class Builds(Fronts):
    def test_the_demo_by_make(self):
        missed("make")
        objects = []
        for compiler in FRONT, self.compiler:
            folder = self.path(os.path.basename(compiler))
            shutil.copytree(os.path.join(TOP, "examples", "demo"), folder)
            done = run(["make", "CC=" + compiler], cwd=folder, env=self.environment())
            self.assertEqual((done.returncode, done.stderr), (0, b""))
            self.assertEqual(run([os.path.join(folder, "demo")]).stdout, b"demo\n")
            objects.append([read(folder, name) for name in ("main.o", "low.o")])
        self.assertEqual(*objects)

    def test_make_reads_the_dependency_files(self):
        missed("make")
        rules = "p: main.o low.o\n\t$(CC) -o $@ $^\n%.o: src/%.c\n\t$(CC) -Iinc -MMD -MP -c $<\n-include main.d low.d\n"
        write(self.work, {"Makefile": rules})
        well(["make", "CC=" + FRONT], cwd=self.work, env=self.environment())
        well(["make", "--question"], cwd=self.work)
        self.assertIn(b"src/main.c", well(["make", "-n", "-W", "inc/api.h"], cwd=self.work))
        os.unlink(os.path.join(self.work, "src/own.h"))
        self.assertIn(b"src/main.c", well(["make", "-n"], cwd=self.work))

    def test_a_project_by_cmake(self):
        missed("cmake", "make")
        write(self.work, {"CMakeLists.txt": "cmake_minimum_required(VERSION 3.10)\nproject(p C)\ninclude(CheckIncludeFile)\n"
                          "check_include_file(stdio.h STDIO)\ncheck_include_file(nonesuch.h NONESUCH)\nmessage(\"found ${STDIO},${NONESUCH}\")\n"
                          "include_directories(inc)\nadd_executable(p src/main.c src/low.c)\n"})
        done = run(["cmake", "-DCMAKE_C_COMPILER=" + FRONT, "-B", "b", "."], cwd=self.work, env=self.environment())
        self.assertEqual((done.returncode, b"found 1,\n" in done.stderr), (0, True), done.stderr.decode())
        well(["cmake", "--build", "b"], cwd=self.work, env=self.environment())
        self.assertEqual(run([os.path.join(self.work, "b/p")]).stdout, b"low(N) + OWN + API 40\n")


if __name__ == "__main__":
    main()
