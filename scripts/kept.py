"""Keeps what a compiler's front learns, for its next runs: answers of compilers, and include lines of headers by directory.

Each is a file of its own below the cache's directory: a line with a checksum, and JSON.  It is written under another name and then renamed,
so other runs see all of it or nothing.  A file that is broken, or of other content, counts as missing, and is written anew."""
import contextlib
import json
import os
import time
import zlib

from compilers import OPERATORS, Answer, Compilers
from files import TIE, Files, content, seen_in

# changes with the form of what is kept
FORM = "2"
# variables that change the directories of a compiler
VARIABLES = ("CPATH", "C_INCLUDE_PATH", "COMPILER_PATH", "GCC_EXEC_PREFIX", "SDKROOT")


def cache_folder():
    """Returns the directory of the cache, or None if no home is known."""
    base, home = os.environ.get("XDG_CACHE_HOME", ""), os.environ.get("HOME", "")
    if os.path.isabs(base):
        return os.path.join(base, "cppunits")
    return os.path.join(home, ".cache", "cppunits") if os.path.isabs(home) else None


class Cache:
    """Reads and writes the files of the cache.  What can't be written isn't kept."""

    def __init__(self, folder):
        self.folder = folder

    def path(self, key):
        return os.path.join(self.folder, "%s-%08x" % (key[0], zlib.crc32(json.dumps(key).encode())))

    def read(self, key):
        """Returns what is kept under a key, an array of texts and numbers, or None."""
        if self.folder is None:
            return None
        try:
            with open(self.path(key), "rb") as file:
                sum_line, _, data = file.read().partition(b"\n")
            if sum_line != b"%08x" % zlib.crc32(data):
                return None
            known, value = json.loads(data)
        except (OSError, ValueError, TypeError):
            return None
        return value if known == key else None

    def write(self, key, value):
        if self.folder is None:
            return
        data = json.dumps([key, value], separators=(",", ":")).encode()
        path = self.path(key)
        beside = "%s.%d.%d.part" % (path, os.getpid(), time.monotonic_ns())
        try:
            os.makedirs(self.folder, 0o700, exist_ok=True)
            try:
                with open(os.open(beside, os.O_WRONLY | os.O_CREAT | os.O_EXCL, 0o600), "wb") as file:
                    file.write(b"%08x\n" % zlib.crc32(data) + data)
                os.replace(beside, path)
            except BaseException:
                with contextlib.suppress(OSError):
                    os.unlink(beside)
                raise
        except OSError:
            # for want of space or of a right: the next run learns it again
            self.folder = None


def stamped(path):
    """Returns a program's path, the file that it leads to, and that file's size and time; None if there is none."""
    real = os.path.realpath(path)
    try:
        found = os.stat(real)
    except OSError:
        return None
    return [path, real, found.st_size, found.st_mtime_ns]


class KeptCompilers(Compilers):
    """Takes answers from the cache, and puts new ones there.  The program is known, and isn't looked for."""

    def __init__(self, report, program, cache):
        super().__init__(report)
        self.path, self.cache, self.before = program, cache, {}

    def program(self, command):
        return self.path

    def key_of(self, key):
        """Returns the key of an answer in the cache: the program by path, size and time, the options, and the environment.

        The program may be a link to ccache or the like, which runs another of its name on PATH, so these count, too."""
        folders = [os.path.dirname(key[0]), *os.environ.get("PATH", "").split(os.pathsep)]
        programs = [stamped(path) for path in dict.fromkeys(os.path.join(folder, os.path.basename(key[0])) for folder in folders)]
        return ["answer", FORM, programs, list(key[1]), [os.environ.get(name) for name in VARIABLES]]

    def ask_for(self, all_commands):
        for key in map(self.key, all_commands):
            kept = None if key in self.answers else self.cache.read(self.key_of(key))
            if kept is not None and not any(map(os.path.isdir, kept[6])):
                folders, macros, operators, known, hosted, asked, absent = kept
                answer = self.answers[key] = Answer(folders, macros)
                answer.operators, answer.known, answer.hosted, answer.asked, answer.absent = operators, known, hosted, asked, absent
                self.before[key] = self.count(answer)
        super().ask_for(all_commands)

    @staticmethod
    def count(answer):
        """Returns how many values of operators are known."""
        return [answer.asked, *(len(answer.known[operator]) for operator in OPERATORS)]

    def keep(self):
        """Writes the answers that are new, or know more."""
        for key, answer in self.answers.items():
            if answer is not None and self.before.get(key) != self.count(answer):
                self.cache.write(self.key_of(key), [answer.folders, answer.macros, answer.operators, answer.known, answer.hosted, answer.asked,
                                                      answer.absent])


class KeptFiles(Files):
    """Takes the include lines of files from the cache, by path, size and time, and puts new ones there, by directory.

    Names that a macro makes are kept with the file that includes them.  They only say which files the list has in addition."""

    def __init__(self, report, cache):
        super().__init__(report, True, True)
        self.cache, self.kept, self.changed = cache, {}, set()

    def of_folder(self, folder):
        """Returns what is kept of a directory's files: size, time, include lines, names for operators and settled names."""
        if folder not in self.kept:
            self.kept[folder] = self.cache.read(["headers", FORM, folder]) or {}
        return self.kept[folder]

    def seen(self, path):
        folder, _, name = path.rpartition("/")
        rows = self.of_folder(folder)
        try:
            found = os.stat(path)
        except OSError:
            return [], []
        row = rows.get(name)
        if row is not None and row[:2] == [found.st_size, found.st_mtime_ns]:
            if row[4]:
                self.settled.setdefault(path, {}).update(dict.fromkeys(row[4]))
            return list(map(tuple, row[2])), row[3]
        lines, names = seen_in(content(path), True)
        # a file that is younger may change again and keep its time
        if found.st_mtime_ns + TIE < time.time_ns():
            rows[name] = [found.st_size, found.st_mtime_ns, lines, names, []]
            self.changed.add(folder)
        return lines, names

    def keep(self):
        """Writes the directories of which more is known."""
        for path, names in self.settled.items():
            folder, _, name = path.rpartition("/")
            row = self.of_folder(folder).get(name)
            if row is not None and row[4] != list(names):
                row[4] = list(names)
                self.changed.add(folder)
        for folder in self.changed:
            self.cache.write(["headers", FORM, folder], self.kept[folder])

    def say_trigraphs(self, paths):
        """Says nothing: what the unit doesn't open doesn't count, and that isn't known yet."""

    def say_shadows(self, members):
        """Says nothing, for the same reason."""
