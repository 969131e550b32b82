"""Compiles C by way of cppunits: does what a command line of a compiler asks for, with `cppunits text` as its preprocessor."""
import errno
import os
import re
import signal
import stat
import sys
import time

from commands import LeftOut, place, split_command
from common import Refused, say, written
from parsed import Parsed, stray

TEXT = """\
usage: cppunits-cc OPTION.. FILE..

Compiles C as gcc or clang does, with cppunits as the preprocessor: give it to a build as its compiler.

  CC=cppunits-cc ./configure          cmake -DCMAKE_C_COMPILER=cppunits-cc          make CC=cppunits-cc

Options are those of the compiler.  C files are preprocessed by `cppunits text`, and the compiler gets the text.
All else goes to the compiler as it is.

environment:
  CPPUNITS           the program cppunits (default: beside this script, then on PATH)
  CPPUNITS_CC        the compiler, with options if it needs some (default: gcc, then cc)
  CPPUNITS_FALLBACK  1: if cppunits refuses a unit, say so, and take the compiler's own preprocessor
  XDG_CACHE_HOME     its directory cppunits keeps what is learned of compilers and headers (default: ~/.cache)

status: that of the compiler; 1 if cppunits finds a fault, or can't do what is asked
"""
FAILED, INTERRUPTED = 1, 130
# Python ignores these signals, which programs that it runs aren't to do
IGNORED = (signal.SIGPIPE, signal.SIGXFSZ)
MARKER = re.compile(rb'^# \d+ "((?:[^"\\]|\\.)*)"((?: \d)*)\n', re.MULTILINE)


class Real:
    """Is the compiler after the preprocessor: its path, and the words that always follow it."""

    def __init__(self, own):
        words = split_command(os.environ.get("CPPUNITS_CC", ""))
        names = words[:1] or ["gcc", "cc"]
        found = (path for name in names for path in paths_of(name) if place(path) != place(own))
        self.path, self.words = next(found, None), words[1:]
        if self.path is None:
            raise Refused("there is no compiler %s (CPPUNITS_CC names one)" % " or ".join(names))

    def name(self):
        return os.path.basename(self.path)

    def command(self, words):
        return [self.path, *self.words, *words]

    def replace(self, words):
        """Runs the compiler in place of this process, without the signals that Python ignores."""
        for number in IGNORED:
            signal.signal(number, signal.SIG_DFL)
        os.execv(self.path, self.command(words))


def paths_of(name):
    """Yields the paths of the programs that a name may be: itself if it has a slash, otherwise those on PATH."""
    folders = [""] if "/" in name else os.environ.get("PATH", os.defpath).split(os.pathsep)
    for folder in folders:
        path = os.path.abspath(os.path.join(folder, name))
        if os.path.isfile(path) and os.access(path, os.X_OK):
            yield path


def run(words, given=None):
    """Runs a program, and returns its status; a program that a signal ends has 128 and its number.

    With `given`, bytes for its standard input, it also returns its output."""
    ends, actions = [], []
    if given is not None:
        (take, give), (read, put) = os.pipe(), os.pipe()
        ends, actions = [take, put], [(os.POSIX_SPAWN_DUP2, take, 0), (os.POSIX_SPAWN_DUP2, put, 1)]
    try:
        child = os.posix_spawn(words[0], words, os.environ, file_actions=actions, setsigdef=IGNORED)
    except OSError as error:
        raise Refused("%s can't be run: %s" % (words[0], error.strerror)) from None
    for end in ends:
        os.close(end)
    try:
        output = talk(give, read, given) if given is not None else None
        status = ended(child)
    except BaseException:
        os.kill(child, signal.SIGTERM)
        ended(child)
        raise
    return status if given is None else (status, output)


def talk(give, read, given):
    """Writes bytes to a program that reads all of them before it writes, and returns what it writes."""
    try:
        with open(give, "wb") as file:
            file.write(given)
    except BrokenPipeError:
        # its status says why
        pass
    with open(read, "rb") as file:
        return file.read()


def ended(child):
    _, status = os.waitpid(child, 0)
    return os.WEXITSTATUS(status) if os.WIFEXITED(status) else 128 + os.WTERMSIG(status)


class Folder:
    """Is a directory for texts, which is removed at the end."""

    def __init__(self):
        base = next((path for path in (os.environ.get("TMPDIR"), "/tmp", ".") if path and os.path.isdir(path)), ".")
        self.path, self.files = os.path.join(os.path.abspath(base), "cppunits-cc.%d.%d" % (os.getpid(), time.monotonic_ns())), []
        os.mkdir(self.path, 0o700)

    def write(self, name, data):
        """Writes a file in a directory of its own, and returns its path."""
        folder = os.path.join(self.path, str(len(self.files)))
        os.mkdir(folder)
        path = os.path.join(folder, name)
        self.files.append(path)
        with open(path, "wb") as file:
            file.write(data)
        return path

    def remove(self):
        for path in self.files:
            for remove, what in (os.unlink, path), (os.rmdir, os.path.dirname(path)):
                try:
                    remove(what)
                except OSError:
                    pass
        try:
            os.rmdir(self.path)
        except OSError:
            # the compiler left something beside a text (-save-temps)
            import shutil
            shutil.rmtree(self.path, ignore_errors=True)


class Front:
    """Does what a command line asks for."""

    def __init__(self, words):
        self.own, self.cwd = os.path.abspath(sys.argv[0]), os.getcwd()
        self.real, self.given, self.folder = Real(self.own), words, None
        self.fallback = os.environ.get("CPPUNITS_FALLBACK", "") == "1"

    def main(self):
        asked = self.asked = Parsed(self.given, self.cwd)
        sources = asked.sources()
        if asked.question or not sources:
            self.real.replace(self.given)
        unknown = asked.unknown + Parsed(self.real.words, self.cwd).unknown
        if unknown:
            return self.fall_back(["%s isn't supported" % word for word in unknown])
        self.folder = Folder()
        try:
            return self.compile(sources)
        finally:
            self.folder.remove()

    def compile(self, sources):
        """Preprocesses the C files, and does with the texts what is asked for."""
        from units import Maker, Stopped
        maker, made, stopped = Maker(self), [], 0
        for source in sources:
            try:
                unit = maker.unit(source)
                self.check(unit)
                made.append(unit)
            except (Stopped, Refused) as reason:
                stopped += 1
                if self.fallback and not maker.taken:
                    return self.fall_back([str(reason)])
                (reason.tell if isinstance(reason, Stopped) else lambda: complain(reason))()
        maker.keep()
        for unit in made if "-v" in self.asked.flags else ():
            unit.tell_search()
        if self.asked.rules or self.asked.step == "-E":
            return self.printed(made) or (FAILED if stopped else 0)
        if stopped and (self.asked.step == "link" or not made):
            return FAILED
        return self.compiled(made, stopped)

    def fall_back(self, reasons):
        """Takes the compiler's own preprocessor, if that is allowed, and says so; otherwise says what is wrong."""
        names = " ".join(one.name for one in self.asked.sources())
        for reason in reasons:
            say("%s: %s" % ("warning" if self.fallback else "error", reason))
        if not self.fallback:
            return FAILED
        for name in names.split(" "):
            say("warning: %s: taken by the preprocessor of %s, not by cppunits (CPPUNITS_FALLBACK)" % (name, self.real.name()))
        return run(self.real.command(self.given))

    def check(self, unit):
        """Refuses a text that a compiler would read in another way; no C program has such a token."""
        from units import Stopped
        reason = stray(unit.text) if self.asked.step != "-E" and not self.asked.rules else None
        if reason:
            raise Stopped("%s: error: %s" % (unit.source.name, reason))

    def printed(self, made):
        """Prints texts, or rules."""
        asked = self.asked
        if not made:
            return FAILED
        if not asked.rules or not (self.beside() or made[0].command.wanted.file):
            with written(asked.output or "-") as file:
                file.writelines(self.rule(unit) if asked.rules else without_markers(unit.text) if "-P" in asked.flags else unit.text for unit in made)
        self.write_rules(made)
        return 0

    def compiled(self, made, stopped):
        """Gives the texts to the compiler, and returns the status."""
        for unit in made:
            base = os.path.splitext(os.path.basename(unit.source.name))[0]
            unit.source.text = self.folder.write(base + ".i", self.for_compiler(unit))
        status = run(self.real.command(self.asked.second(made[0].answer.macros, [unit.text for unit in made])))
        if status == 0:
            self.write_rules(made)
        return status or (FAILED if stopped else 0)

    def for_compiler(self, unit):
        """Returns a text with the comments that the compiler looks for."""
        if not self.asked.wants_comments():
            return unit.text
        from fallthrough import with_comments
        return with_comments(unit.text, self.cwd)

    def beside(self):
        """Returns whether a dependency file is wanted beside the object."""
        return bool({"-MD", "-MMD"} & self.asked.flags)

    def write_rules(self, made):
        """Writes the dependency files that are asked for; of several units with one name for it, gcc leaves that of the last."""
        for unit in made:
            if not self.beside() and not (self.asked.rules and unit.command.wanted.file):
                continue
            with written(self.place_of_rule(unit)) as file:
                file.write(self.rule(unit))

    def place_of_rule(self, unit):
        """Returns the name of a unit's dependency file."""
        named, stem = unit.command.wanted.file, self.asked.output
        if stem in (None, "-"):
            # gcc names it for the program a.out
            stem = ("a-" if self.asked.step in ("link", "-fsyntax-only") and unit.is_after_gcc_11() else "") + os.path.basename(unit.source.name)
        return named or os.path.splitext(stem)[0] + ".d"

    def rule(self, unit):
        """Returns a unit's dependencies as a rule for make."""
        from deps import Result
        if self.asked.rules or self.asked.step == "-E":
            # the target is an object, and -o names something else
            unit.command.target = unit.command.output = None
        user = self.asked.rules == "-MM" or (self.asked.rules is None and "-MMD" in self.asked.flags)
        return Result(unit.command, [], unit.names(not user), None).rule(False)


def complain(reason):
    """Says why the front can't go on."""
    say("error: %s" % reason)


def without_markers(text):
    """Returns the lines of a text that are neither empty nor markers."""
    return b"".join(line for line in text.splitlines(True) if line.strip() and not MARKER.fullmatch(line))


def is_special(path):
    """Returns whether an input is no file that cppunits reads: standard input, a device or a pipe."""
    if path == "-":
        return True
    try:
        return not stat.S_ISREG(os.stat(path).st_mode)
    except OSError as error:
        raise Refused("%s: %s" % (path, os.strerror(error.errno or errno.EIO))) from None


def start():
    """Runs the front, and ends the process."""
    words = sys.argv[1:]
    if words == ["--help-cppunits"]:
        print(TEXT, end="")
        sys.exit(0)
    for number in signal.SIGTERM, signal.SIGHUP:
        if signal.getsignal(number) != signal.SIG_IGN:
            signal.signal(number, signal.default_int_handler)
    try:
        status = Front(words).main()
        sys.stdout.flush()
    except (Refused, LeftOut) as refusal:
        complain(refusal)
        status = FAILED
    except OSError as error:
        complain("%s%s" % (error.filename + ": " if error.filename else "", error.strerror or error))
        status = FAILED
        os.dup2(os.open(os.devnull, os.O_WRONLY), 1)
    except KeyboardInterrupt:
        status = INTERRUPTED
    sys.stderr.flush()
    # all is written, and to take the process apart takes time
    os._exit(status)
