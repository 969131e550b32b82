#!/usr/bin/env python3
"""Build whole projects directly and by way of cppunits-cc, run their tests, and write a table of what is equal.

    bench/builds.py --work DIR [--program FILE] [--jobs N] [--seconds N] [--output FILE] NAME..

Example:  bench/builds.py --work ../builds --program crates/cppunits/out/cppunits lua zlib=1:1.2.13.dfsg-1

apt-get gets the source of each project, from the machine's deb-src or from the Debian mirror.  NAME=VERSION gets this
version of Debian.  A source that is below DIR already is taken as it is.  Without a NAME all projects are built.

Each project is configured, built and tested twice, from fresh copies of its source in one directory.  The compiler's name
is cppunits-cc both times: a script that is gcc in the first build, and scripts/cppunits-cc with an empty cache in the
second.  It records its words, from which the C files are counted.  Objects are compared byte by byte.  Warnings are
compared by file, line and option.  Standard error names each object and warning that differs, and the C files that didn't
go through cppunits-cc.  The logs are in DIR/NAME.

Status: 0 all is equal, 1 something differs, 2 the command line is wrong, 3 a source or a build failed.
"""
import argparse
import collections
import contextlib
import filecmp
import glob
import os
import re
import resource
import shlex
import shutil
import signal
import stat
import subprocess
import sys

BENCH = os.path.dirname(os.path.abspath(__file__))
TOP = os.path.dirname(BENCH)
sys.path.insert(0, os.path.join(TOP, "scripts"))
from commands import LeftOut  # noqa: E402
from parsed import Parsed  # noqa: E402

# steps of a project are commands of the shell in its directory; `passed` matches once for each passed test, or has their number as its group
Project = collections.namedtuple("Project", "name source configure build tests passed note", defaults=["none"])
LUA_TEST = """for _, e in ipairs{'7 // 2 == 3', '("x"):rep(3) == "xxx"', 'string.format("%5.2f", 2 / 3) == " 0.67"', '#{1, 2, 3} == 3', '7 & 3 | 8 == 11',
'select("#", 1, nil) == 2', 'utf8.char(0x20AC):byte() == 0xE2', 'math.tointeger(2^53) == 1 << 53', 'not pcall(error, 1)', 'string.pack("<i4", 7):byte() == 7',
'table.concat({1, 2}, "-") == "1-2"', 'os.time{year=2024, month=2, day=9} > 0'} do print((load("return " .. e)() and "passed " or "failed ") .. e) end"""
TMUX_TEST = """t() { ./tmux -L builds -f /dev/null "$@"; }
t new-session -d -x 80 -y 24 'cat' && t send-keys 'by cppunits' Enter && sleep 1 && t capture-pane -p | sed -n 's/^by cppunits/passed/p'
t list-commands | sed 's/^/passed /'; t show-options -g | sed 's/^/passed /'
t split-window -h cat && t list-panes | sed 's/^/passed /'; t kill-server"""
KERNEL = "make -j$JOBS ARCH=x86_64 CC=cppunits-cc HOSTCC=gcc KBUILD_BUILD_TIMESTAMP=2024-02-09 KBUILD_BUILD_USER=u KBUILD_BUILD_HOST=h"
BOOT = """mkdir -p initramfs && gcc -static -O2 $BENCH/linux/init.c -o initramfs/init && (cd initramfs && echo init | cpio -o -H newc > ../initramfs.cpio) &&
timeout 300 qemu-system-x86_64 -m 256 -display none -monitor none -serial stdio -no-reboot -kernel arch/x86/boot/bzImage -initrd initramfs.cpio \\
-append 'console=ttyS0 panic=-1'"""
PROJECTS = [
    Project("lua", "lua5.4", "for n in 0002-lua-modules-paths 0001-build-system; do patch -R -p1 < debian/patches/$n.patch; done",
            "make -C src -j$JOBS CC='cppunits-cc -std=gnu99' linux-readline",
            "src/lua -e %s" % shlex.quote(LUA_TEST), "^passed ", "a script, since the source has no tests; two patches are left out"),
    Project("zlib", "zlib", "./configure", "make -j$JOBS", "make test", r"zlib .*test OK"),
    Project("bzip2", "bzip2", "true", "make -j$JOBS CC=cppunits-cc CFLAGS='-Wall -Winline -O2 -D_FILE_OFFSET_BITS=64'",
            "make check | tee /dev/stderr && for n in 1 2 3; do ./bzip2 -dc sample$n.bz2 | cmp - sample$n.ref && echo passed; done", "^passed"),
    Project("cJSON", "cjson", "cmake -B b -DENABLE_CJSON_UTILS=ON", "make -C b -j$JOBS", "cd b && ctest", r"^ *\d+/\d+ Test .* Passed "),
    Project("libpng", "libpng1.6", "./configure CFLAGS=-O2", "make -j$JOBS && make -j$JOBS check TESTS=", "make check", r"^# PASS: +(\d+)$"),
    Project("jq", "jq", "autoreconf -fi && ./configure CFLAGS=-O2 --disable-docs --disable-valgrind", "make -j$JOBS", "make check; cat tests/*.log",
            r"^(\d+) of \d+ tests passed"),
    Project("tmux", "tmux", "./configure CFLAGS=-O2", "make -j$JOBS", TMUX_TEST, "^passed", "a script, since the source has no tests"),
    Project("libevent", "libevent", "autoreconf -fi && ./configure CFLAGS=-O2", "make -j$JOBS",
            "test/regress util/.. evbuffer/.. heap/.. evtag/.. finalize/.. rpc/..", r"\bOK$",
            "tests: the groups util, evbuffer, heap, evtag, finalize and rpc of `regress`"),
    Project("libyaml", "libyaml", "autoreconf -fi && ./configure CFLAGS=-O2", "make -j$JOBS && make -j$JOBS check TESTS=", "make check", r"^# PASS: +(\d+)$"),
    Project("expat", "expat", "cd expat && ./buildconf.sh && ./configure CFLAGS=-O2 --without-docbook",
            "make -C expat -j$JOBS && make -C expat -j$JOBS check TESTS=", "cd expat && make check; cat tests/*.log",
            r"^100%: Checks: (\d+), Failed: 0$"),
    Project("xz", "xz-utils", "./configure CFLAGS=-O2", "make -j$JOBS && make -j$JOBS check TESTS=", "make check", r"^# PASS: +(\d+)$"),
    Project("zstd", "libzstd", "true", "make -j$JOBS MOREFLAGS=-O1 zstd && make -C tests -j$JOBS MOREFLAGS=-O1 datagen poolTests",
            "cd tests && ./poolTests; ./cli-tests/run.py --zstd=../programs/zstd --datagen=./datagen", r"\bPASS\b", "`-O1`; tests: `poolTests` and `cli-tests`"),
    Project("redis", "redis", "true", "make -j$JOBS CC=cppunits-cc MALLOC=libc OPTIMIZATION=-O2 DEBUG= DEBUG_FLAGS=",
            "./runtest --clients 1 --single unit/type/string --single unit/type/incr", r"^\[.*ok.*\]: ", "tests: two of the files of `runtest`"),
    Project("sqlite", "sqlite3", "./configure --disable-amalgamation --disable-shared CFLAGS=-O1", "make -j$JOBS sqlite3 testfixture",
            "for t in select1 select3 expr func join where like date insert trigger1 pragma; do ./testfixture test/$t.test; done",
            r"^0 errors out of (\d+) tests", "`-O1`; tests: eleven of the files of `testfixture`"),
    Project("curl", "curl", "autoreconf -fi && ./configure --with-openssl --disable-shared CFLAGS=-O2", "make -j$JOBS && make -C tests/server -j$JOBS",
            "cd tests && ./runtests.pl -a -n 1 to 200", r"^TESTDONE: (\d+) tests out of", "tests: 1 to 200"),
    Project("git", "git", "true", "make -j$JOBS CC=cppunits-cc CFLAGS='-O2 -Wall' NO_GETTEXT=1 NO_PERL=1 NO_PYTHON=1 NO_TCLTK=1",
            "cd t && for t in t00[0-6]*.sh; do ./$t; done", "^ok [0-9]+ - ", "tests: `t00[0-6]*.sh`"),
    Project("linux", "linux", "%s tinyconfig && scripts/kconfig/merge_config.sh -m .config $BENCH/linux/fragment.config && %s olddefconfig" % (KERNEL, KERNEL),
            KERNEL + " bzImage", BOOT, r"^init runs under Linux", "tinyconfig and bench/linux/fragment.config, booted in QEMU; programs of the host by gcc"),
]
SCRIPT = """#!/bin/sh
printf '%%s\\0' "$#" "$PWD" "$@" >> %s/$$
exec %s "$@"
"""
WARNING = re.compile(r"^([^\s:][^:\n]*):(\d+):(?:\d+:)? warning: .*?(?: \[(-W[^\]\n]+)\])?$", re.MULTILINE)
SHOWN = 20
# the type of an ELF file (x86-64)
RELOCATABLE = b"\1\0"
CHANGELOG = re.compile(r"\S+ \(([^)]+)\)")
MIRROR = "deb-src http://deb.debian.org/debian %s main\n"
HEAD = ["Project", "Debian's version", "Units", "Objects", "Equal objects", "Warnings", "Equal warnings", "Tests passed: gcc", "Tests passed: cppunits-cc",
        "Processor seconds: gcc", "Processor seconds: cppunits-cc", "Tests left out, and more"]


class Failed(Exception):
    """Says in a line why a project has no row."""


# ---- sources


class Sources:
    """Gets sources by apt-get, with its lists and downloads in a directory of its own if the machine has no deb-src."""

    def __init__(self, work):
        self.work, self.words = work, None

    def folder(self, project, version):
        """Returns the directory of a project's source, which is got if it isn't there."""
        place = os.path.join(self.work, project.name, "source")
        if not glob.glob(place + "/*/"):
            os.makedirs(place, exist_ok=True)
            self.get(project.source + ("=" + version if version else ""), place)
        found = glob.glob(place + "/*/debian/changelog")
        if len(found) != 1:
            raise Failed("%s has no source of Debian" % place)
        return os.path.dirname(os.path.dirname(found[0]))

    def get(self, name, place):
        if self.words is None:
            self.words = self.begin()
        log = os.path.join(os.path.dirname(place), "source.log")
        if ran(["apt-get", *self.words, "source", "--only-source", name], place, os.environ, log):
            raise Failed("apt-get has no source %s: %s says why" % (name, log))

    def begin(self):
        """Returns the options for apt-get that name where the sources are."""
        told = subprocess.run(["apt-get", "indextargets", "Created-By: Sources"], stdout=subprocess.PIPE, check=False).stdout
        if told.strip():
            return []
        folder = os.path.join(self.work, "apt")
        for name in "lists/partial", "cache/archives/partial":
            os.makedirs(os.path.join(folder, name), exist_ok=True)
        with open(os.path.join(folder, "sources.list"), "w", encoding="utf-8") as file:
            file.write(MIRROR % codename())
        options = {"Dir::Etc::SourceList": folder + "/sources.list", "Dir::Etc::SourceParts": "/dev/null", "Dir::State::Lists": folder + "/lists",
                   "Dir::Cache": folder + "/cache"}
        words = [word for pair in options.items() for word in ("-o", "=".join(pair))]
        if ran(["apt-get", *words, "update"], folder, os.environ, os.path.join(folder, "update.log")):
            raise Failed("apt-get update failed: %s/update.log says why" % folder)
        return words


def codename():
    """Returns the name of this release of Debian."""
    with open("/etc/os-release", encoding="utf-8") as file:
        found = re.search(r"^VERSION_CODENAME=(\w+)$", file.read(), re.MULTILINE)
    if not found:
        raise Failed("/etc/os-release names no release of Debian")
    return found[1]


def version_of(source):
    """Returns Debian's version of a source."""
    with open(os.path.join(source, "debian", "changelog"), encoding="utf-8") as file:
        return CHANGELOG.match(file.readline())[1]


# ---- builds


def ran(words, folder, environment, log, seconds=None):
    """Runs a program with a log for all that it prints, and returns its status; after some seconds it is stopped, with its child processes."""
    with open(log, "ab") as file:
        process = subprocess.Popen(words, cwd=folder, env=environment, stdin=subprocess.DEVNULL, stdout=file, stderr=file, process_group=0)
        try:
            return process.wait(seconds)
        except BaseException as reason:
            with contextlib.suppress(OSError):
                os.killpg(process.pid, signal.SIGKILL)
            process.wait()
            if isinstance(reason, subprocess.TimeoutExpired):
                return None
            raise


def processor_seconds():
    """Returns the seconds of all programs that were run until now."""
    used = resource.getrusage(resource.RUSAGE_CHILDREN)
    return used.ru_utime + used.ru_stime


class Build:
    """Is a build of a project, directly or by the front: what its compilers were given, its warnings, passed tests and seconds.

    `units` has the C files that cppunits-cc was given, `past` those that gcc was given by its own name, and `made` the objects of these."""

    def __init__(self, project, place, way, asked):
        self.project, self.way, self.seconds, self.asked = project, way, 0.0, asked
        self.place, self.tree, self.logs = place, os.path.join(place, "tree"), os.path.join(place, way)
        self.units, self.past, self.made, self.warnings, self.passed = [], [], set(), set(), 0

    def run(self, source):
        """Configures, builds and tests a fresh copy of the source."""
        for path in self.tree, self.logs, os.path.join(self.place, "cache"):
            shutil.rmtree(path, ignore_errors=True)
        shutil.copytree(source, self.tree, symlinks=True)
        self.write_compilers()
        self.step("configure")
        self.forget()
        began = processor_seconds()
        self.step("build")
        self.seconds = processor_seconds() - began
        self.warnings = warnings(self.said("build"))
        self.units, self.past = self.compiled("front"), self.compiled("past")
        self.made = {os.path.relpath(path, self.tree) for path in self.given("past", outputs)}
        self.step("tests", self.asked.seconds)
        self.passed = passed(self.project.passed, self.said("tests"))

    def write_compilers(self):
        """Writes the compilers of the build, which record their words; gcc's other names are recorded too."""
        folder = os.path.join(self.place, "bin")
        shutil.rmtree(folder, ignore_errors=True)
        os.mkdir(folder)
        front = "/usr/bin/gcc" if self.way == "direct" else os.path.join(TOP, "scripts", "cppunits-cc")
        for name, real, log in ("cppunits-cc", front, "front"), ("gcc", "/usr/bin/gcc", "past"), ("cc", "/usr/bin/gcc", "past"):
            log = os.path.join(self.logs, log)
            os.makedirs(log, exist_ok=True)
            with open(os.path.join(folder, name), "w", encoding="utf-8") as file:
                file.write(SCRIPT % (shlex.quote(log), shlex.quote(real)))
            os.chmod(file.name, 0o755)

    def environment(self):
        """Returns the environment of a step: equal in both builds, and without what changes a compiler or make."""
        more = {"CC": "cppunits-cc", "PATH": os.path.join(self.place, "bin") + ":" + os.environ["PATH"], "LC_ALL": "C", "SOURCE_DATE_EPOCH": "1707465903",
                "XDG_CACHE_HOME": os.path.join(self.place, "cache"), "CPPUNITS": self.asked.program, "CPPUNITS_CC": "/usr/bin/gcc",
                "JOBS": str(self.asked.jobs), "BENCH": BENCH}
        left_out = {"CPPUNITS_FALLBACK", "CFLAGS", "CPPFLAGS", "LDFLAGS", "MAKEFLAGS", "MAKELEVEL", "CPATH", "C_INCLUDE_PATH", "GCC_COLORS"}
        return dict({name: value for name, value in os.environ.items() if name not in left_out}, **more)

    def log(self, step):
        return os.path.join(self.logs, step + ".log")

    def said(self, step):
        with open(self.log(step), encoding="utf-8", errors="replace") as file:
            return file.read()

    def step(self, name, seconds=None):
        """Runs a step; one of a build that fails ends the project."""
        status = ran(["sh", "-c", getattr(self.project, name)], self.tree, self.environment(), self.log(name), seconds)
        if status is None:
            print("builds.py: %s, %s: the tests were stopped after %d seconds" % (self.project.name, self.way, seconds), file=sys.stderr)
        elif status and name != "tests":
            raise Failed("%s, %s: %s failed: %s says why" % (self.project.name, self.way, name, self.log(name)))

    def forget(self):
        """Removes what was recorded until now."""
        for name in "front", "past":
            for path in glob.glob(os.path.join(self.logs, name, "*")):
                os.unlink(path)

    def compiled(self, log):
        """Returns the C files that were given to compilers."""
        return sorted(self.given(log, sources))

    def given(self, log, names):
        """Yields the names that a function finds in the commands of compilers."""
        for path in glob.glob(os.path.join(self.logs, log, "*")):
            with open(path, "rb") as file:
                data = file.read()
            for folder, words in recorded(data):
                yield from (os.path.normpath(os.path.join(folder, name)) for name in names(folder, words))


def recorded(data):
    """Yields the directory and the words of each command of a record."""
    parts = [os.fsdecode(part) for part in data.split(b"\0")]
    at = 0
    while at + 1 < len(parts):
        end = at + 2 + int(parts[at])
        yield parts[at + 1], parts[at + 2:end]
        at = end


def sources(folder, words):
    """Returns the C files that a command compiles; what a build asks a compiler, by no file or by a pipe, is none."""
    try:
        asked = Parsed(words, folder)
    except LeftOut:
        return []
    if asked.question or asked.rules or asked.step in ("-E", "-fsyntax-only"):
        return []
    return [one.name for one in asked.sources() if one.name not in ("-", "/dev/null")]


def outputs(folder, words):
    """Returns the objects that a command makes of C files."""
    names, asked = sources(folder, words), Parsed(words, folder)
    if asked.step != "-c":
        return []
    return [asked.output] if asked.output else [os.path.splitext(os.path.basename(name))[0] + ".o" for name in names]


def warnings(text):
    """Returns the file, line and option of each warning."""
    return {(found[1], int(found[2]), found[3] or "") for found in WARNING.finditer(text)}


def passed(pattern, text):
    """Returns the number of passed tests: the numbers that the pattern's group has, or how often it matches."""
    pattern = re.compile(pattern, re.MULTILINE)
    found = pattern.findall(text)
    return sum(map(int, found)) if pattern.groups else len(found)


def objects(tree):
    """Returns the names of all objects below a directory."""
    found = (os.path.join(where, name) for where, _, names in os.walk(tree) for name in names)
    return {os.path.relpath(path, tree) for path in found if is_object(path)}


def is_object(path):
    """Returns whether a file is an object by its content, whatever its suffix: builds have .o, .lo and others."""
    if not stat.S_ISREG(os.lstat(path).st_mode):
        return False
    with open(path, "rb") as file:
        head = file.read(18)
    return head[:4] == b"\x7fELF" and head[16:] == RELOCATABLE


def unequal(one, other, left_out):
    """Returns the objects of two trees but for some, and those of them that only one has or that differ in a byte."""
    mine, others = objects(one) - left_out, objects(other) - left_out
    found = mine ^ others
    found |= {name for name in mine & others if not filecmp.cmp(os.path.join(one, name), os.path.join(other, name), shallow=False)}
    return sorted(mine | others), sorted(found)


# ---- the table


class Row:
    """Is the comparison of the two builds of a project; `trees` has their directories."""

    def __init__(self, version, direct, front, trees):
        self.project, self.version, self.direct, self.front = direct.project, version, direct, front
        self.objects, self.unequal = unequal(*trees, direct.made | front.made)

    def same(self):
        return not self.unequal and self.direct.warnings == self.front.warnings and self.direct.passed == self.front.passed

    def cells(self):
        direct, front = self.direct, self.front
        all_warnings, equal = direct.warnings | front.warnings, direct.warnings & front.warnings
        counts = [len(front.units), len(self.objects), len(self.objects) - len(self.unequal), len(all_warnings), len(equal), direct.passed, front.passed]
        return [self.project.name, self.version, *map(str, counts), "%.0f" % direct.seconds, "%.0f" % front.seconds, self.project.note]

    def differences(self):
        """Yields a line for each thing that differs, and for the C files that went past the front."""
        yield from some("unequal object", self.unequal)
        for way, more in ("gcc", self.direct.warnings - self.front.warnings), ("cppunits-cc", self.front.warnings - self.direct.warnings):
            yield from some("warning of %s only" % way, ["%s:%d %s" % one for one in sorted(more)])
        if self.direct.units != self.front.units:
            yield "%d C files went to cppunits-cc, and %d in the direct build" % (len(self.front.units), len(self.direct.units))
        if self.front.past:
            yield from some("C file past cppunits-cc", self.front.past)


def some(kind, names):
    """Yields a line for each of the first names of a kind, and one for the number of all."""
    yield from ("%s: %s" % (kind, name) for name in names[:SHOWN])
    if len(names) > SHOWN:
        yield "%s: %d in all" % (kind, len(names))


def table(rows):
    lines = [HEAD, ["---"] * 2 + ["---:"] * (len(HEAD) - 3) + ["---"], *(row.cells() for row in rows)]
    return "".join("| %s |\n" % " | ".join(cells) for cells in lines)


def compared(project, version, found, asked):
    """Builds a project in both ways, and returns its row."""
    source, place = found.folder(project, version), os.path.join(asked.work, project.name)
    kept = os.path.join(place, "tree.direct")
    direct, front = Build(project, place, "direct", asked), Build(project, place, "front", asked)
    direct.run(source)
    shutil.rmtree(kept, ignore_errors=True)
    os.rename(direct.tree, kept)
    front.run(source)
    return Row(version_of(source), direct, front, (kept, front.tree))


def wanted(names, form):
    """Returns the projects that are asked for, each with its version or an empty text."""
    by_name = {project.name: project for project in PROJECTS}
    pairs = [name.partition("=")[::2] for name in names or by_name]
    for name, _ in pairs:
        if name not in by_name:
            form.error("there is no project %s, only %s" % (name, ", ".join(by_name)))
    return [(by_name[name], version) for name, version in pairs]


def main():
    form = argparse.ArgumentParser(description=__doc__, formatter_class=argparse.RawDescriptionHelpFormatter)
    form.add_argument("names", metavar="NAME", nargs="*", help="build this project: %s" % ", ".join(project.name for project in PROJECTS))
    form.add_argument("--work", metavar="DIR", required=True, help="work below this directory, which may need some gigabytes")
    form.add_argument("--program", metavar="FILE", default=shutil.which("cppunits"), help="run this program (default: cppunits on PATH)")
    form.add_argument("--jobs", metavar="N", type=int, default=2, help="run N compilers in parallel (default: 2)")
    form.add_argument("--seconds", metavar="N", type=int, default=600, help="stop tests after N seconds (default: 600)")
    form.add_argument("--output", metavar="FILE", help="write the table here (default: standard output)")
    asked = form.parse_args()
    if not asked.program or not os.access(asked.program, os.X_OK):
        form.error("there is no program cppunits: --program names one")
    asked.program, asked.work = os.path.abspath(asked.program), os.path.abspath(asked.work)
    rows, status, found = [], 0, Sources(asked.work)
    for project, version in wanted(asked.names, form):
        try:
            rows.append(compared(project, version, found, asked))
        except Failed as reason:
            print("builds.py: %s" % reason, file=sys.stderr)
            status = 3
            continue
        for line in rows[-1].differences():
            print("%s: %s" % (project.name, line), file=sys.stderr)
    with open(asked.output, "w", encoding="utf-8") if asked.output else contextlib.nullcontext(sys.stdout) as file:
        file.write(table(rows))
    return status or (0 if all(row.same() for row in rows) else 1)


if __name__ == "__main__":
    sys.exit(main())
