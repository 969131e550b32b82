#!/usr/bin/env python3
"""Tests build.py with each compiler that is installed: each header of C11, and fifty of POSIX, alone in a unit.

    tests/headers_tests.py [PROGRAM] [-k NAME]
    tests/headers_tests.py --table             prints the table of docs/COMPATIBILITY.md for the compilers of this machine

A unit must have no fault, and the tokens and dependencies of its compiler, as bench/projects.py compares them, and the compiler must take its
text.  Versions of clang are tested where they are, in addition to the compilers that the full check wants.
"""
import glob
import json
import os
import re
import shutil
import sys
import tempfile
from concurrent.futures import ThreadPoolExecutor

from counted import PACKAGES, TOP, Folder, main, missed, program, run, script, well, write
from database_tests import compiled

sys.path.insert(0, os.path.join(TOP, "bench"))
from projects import compared, entries, pairs  # noqa: E402

C11 = """assert complex ctype errno fenv float inttypes iso646 limits locale math setjmp signal stdalign stdarg stdatomic stdbool stddef stdint stdio
    stdlib stdnoreturn string tgmath threads time uchar wchar wctype""".split()
POSIX = """aio arpa/inet dirent dlfcn fcntl fnmatch ftw glob grp iconv langinfo libgen monetary mqueue net/if netdb netinet/in netinet/tcp nl_types
    poll pthread pwd regex sched search semaphore spawn strings sys/ipc sys/mman sys/msg sys/resource sys/select sys/sem sys/shm sys/socket sys/stat
    sys/statvfs sys/time sys/times sys/types sys/uio sys/un sys/utsname sys/wait syslog termios unistd utime wordexp""".split()
OPTIONS = [["-std=c11", "-D_POSIX_C_SOURCE=200809L"], ["-std=gnu17", "-O2", "-fPIC", "-D_GNU_SOURCE", "-D_FORTIFY_SOURCE=2"]]
WANTED = ["gcc", "clang", "clang-19", "musl-gcc", "aarch64-linux-gnu-gcc"]
CLANG = re.compile(r"clang-\d+")
# clang counts a file that `__has_include_next` names, also in an operand that it doesn't evaluate
KNOWN = re.compile(r"clang\S* .*\btgmath.c")
SECONDS = 60
HEAD = "| Compiler | Version | Units | ok | Same tokens | Same dependencies |\n| --- | --- | ---: | ---: | ---: | ---: |"


def other_compilers():
    """Returns the names of further versions of clang on PATH."""
    found = {os.path.basename(path) for folder in os.environ.get("PATH", os.defpath).split(os.pathsep) for path in glob.glob(os.path.join(folder, "clang-*"))}
    taken = {os.path.realpath(path) for path in map(shutil.which, WANTED) if path}
    return sorted(name for name in found if CLANG.fullmatch(name) and os.path.realpath(shutil.which(name)) not in taken)


def written(compiler, folder, all_options):
    """Writes a build with a unit for each header under each of these options, and returns the words of each."""
    files = {name: name.replace("/", "_") + ".c" for name in C11 + POSIX}
    write(folder, {file: "#include <%s.h>\n" % name for name, file in files.items()})
    commands = [[compiler, *options, "-c", file] for options in all_options for file in files.values()]
    write(folder, {"compile_commands.json": json.dumps([{"directory": folder, "file": words[-1], "arguments": words} for words in commands])})
    return [" ".join(words) for words in commands]


def results(compiler, folder):
    """Returns for each unit its words, and what differs by kind, or words if the compiler refuses it; and what build.py says."""
    commands = written(compiler, folder, OPTIONS)
    done = script("build.py", "dump", "--program", program(), "--output", "dump", cwd=folder)
    with ThreadPoolExecutor(2) as pool:
        by_file = entries(os.path.join(folder, "compile_commands.json"))
        found = pool.map(lambda pair: compared(*pair, SECONDS), pairs(os.path.join(folder, "dump"), by_file))
        faults = [faults for _, _, faults in found]
    return list(zip(commands, faults)), done.stderr.decode().splitlines()


def table():
    """Prints a row for each compiler of the machine."""
    print(HEAD)
    for compiler in filter(shutil.which, [*WANTED, *other_compilers()]):
        with tempfile.TemporaryDirectory() as folder:
            found, _ = results(compiler, os.path.realpath(folder))
        taken = [faults for _, faults in found if not isinstance(faults, str)]
        counts = [sum(not kinds & faults.keys() for faults in taken) for kinds in ({"fault"}, {"fault", "tokens"}, {"fault", "dependencies"})]
        print("| %s | %s | %s |" % (compiler, well([compiler, "-dumpversion"]).decode().strip(), " | ".join(map(str, [len(taken), *counts]))))


class Headers(Folder):
    def check(self, compiler):
        missed(compiler)
        if run([compiler, "-E", "-x", "c", "-"], input=b"#include <stdio.h>\n").returncode:
            self.skipTest("the headers of its C library are missing (Debian packages %s)" % PACKAGES.get(compiler, "libc6-dev"))
        found, said = results(compiler, self.top)
        self.assertEqual(len(found), len(OPTIONS) * len(C11 + POSIX))
        self.assertEqual([(words, faults) for words, faults in found if faults and not (KNOWN.fullmatch(words) and list(faults) == ["dependencies"])], [])
        self.assertEqual(len(said), 1, said)
        self.check_texts(compiler)

    def check_texts(self, compiler):
        """Wants the compiler to take the text of each header without a word."""
        count = len(written(compiler, self.top, OPTIONS[-1:]))
        well([sys.executable, os.path.join(TOP, "scripts", "build.py"), "text", "--program", program(), "--into", "text"], cwd=self.top)
        self.assertEqual(len(compiled(self.path("text/compile_commands.json"))), count)

    def test_gcc(self):
        self.check("gcc")

    def test_clang(self):
        self.check("clang")

    def test_clang_19(self):
        self.check("clang-19")

    def test_musl(self):
        self.check("musl-gcc")

    def test_a_cross_compiler(self):
        self.check("aarch64-linux-gnu-gcc")

    def test_other_versions_of_clang(self):
        for compiler in other_compilers():
            with self.subTest(compiler):
                self.check(compiler)


if __name__ == "__main__":
    if sys.argv[1:] == ["--table"]:
        table()
    else:
        main()
