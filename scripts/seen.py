"""Remembers what a run of `build.py deps` saw, so that the next runs only the units that may have changed.

The file has the names that each unit's rule has, the size and time of each file, and the paths that were looked for in vain.  A unit is
run again if its command, its compiler's answer or a file that it opened changed, or if a file came or went whose last part is that of a
name in an include line of these, or of a file that the unit opened by a name that a macro makes.  A unit with a fault is run always."""
import json
import os

from commands import is_text, place
from common import compact, say, written
from files import COMPUTED, hashed, is_same

FORM = "cppunits seen 1"


class Memory:
    """Holds what is in the file: files with their stamps and the names of their include lines, units, and paths that weren't there."""

    def __init__(self):
        # by path: the stamp, the last parts of the names of its include lines, and whether a macro makes a name
        self.files = {}
        # by a unit's key: pairs of a path and a name
        self.units = {}
        # by directory: the last parts of paths that weren't there
        self.absent = {}
        # what was said of the list; and whether the file is as this is
        self.lines, self.written = [], False

    @classmethod
    def read(cls, path, setting):
        """Returns the memory of a file, or an empty one if there is none or its setting is another."""
        memory = cls()
        try:
            with open(path, "rb") as file:
                mark, data = file.readline(), file.read()
            if mark != mark_of(data):
                raise ValueError
            value = json.loads(data.decode())
            if value["setting"] == setting:
                memory.fill(value)
        except FileNotFoundError:
            pass
        except (OSError, ValueError, KeyError, TypeError, IndexError, AttributeError, RecursionError):
            say("%s: nothing can be learnt from it, so each unit is run" % path)
            return cls()
        return memory

    def fill(self, value):
        """Takes a file's object."""
        rows = value["files"]
        self.files = {path: (stamped, frozenset(words), makes) for path, stamped, words, makes in rows}
        names = [(rows[file][0], name) for file, name in value["names"]]
        self.units = {key: [names[number] for number in numbers] for key, numbers in value["units"].items()}
        self.absent = {folder: set(names) for folder, names in value["absent"].items()}
        self.lines, self.written = value["lines"], True

    def write(self, path, setting):
        """Writes the file, unless it is as it was; without it nothing is lost but time."""
        if self.written:
            return
        places = {file: number for number, file in enumerate(self.files)}
        pairs = {pair: number for number, pair in enumerate(dict.fromkeys(pair for pairs in self.units.values() for pair in pairs))}
        value = {"setting": setting, "lines": self.lines, "absent": {folder: sorted(names) for folder, names in self.absent.items()},
                 "files": [[file, stamped, sorted(words), makes] for file, (stamped, words, makes) in self.files.items()],
                 "names": [[places[file], name] for file, name in pairs],
                 "units": {key: [pairs[pair] for pair in own] for key, own in self.units.items()}}
        data = compact(value)
        try:
            with written(path) as file:
                file.writelines([mark_of(data), data])
        except OSError as error:
            say("%s: %s, so the next run runs each unit" % (path, error.strerror))

    def forget(self):
        """Drops the units that may have another result by now, and returns the last parts of the paths that came or went."""
        changed = {path for path, (stamped, _, _) in self.files.items() if not is_same(path, stamped)}
        gone = {path for path in changed if not os.path.isfile(path)}
        come = self.come()
        words = {os.path.basename(path) for path in gone | come}
        changed |= {path for path, (_, named, _) in self.files.items() if not named.isdisjoint(words)}
        makers = {path for path, (_, _, makes) in self.files.items() if makes}
        if changed or words:
            self.units = {key: pairs for key, pairs in self.units.items() if is_kept({path for path, _ in pairs}, changed, words, makers)}
        for path in come:
            self.absent[os.path.dirname(path)].discard(os.path.basename(path))
        for path in gone:
            self.lack(path)
            del self.files[path]
        self.written = self.written and not (changed or words)
        return words

    def lack(self, path):
        """Takes a path that isn't there."""
        folder, name = os.path.split(path)
        self.absent.setdefault(folder, set()).add(name)

    def come(self):
        """Returns the paths that weren't there and are."""
        found = [os.path.join(folder, name) for folder, names in self.absent.items() for name in names & listing(folder)]
        return {path for path in found if os.path.isfile(path)}

    def take(self, units):
        """Takes all units of a run."""
        self.written = self.written and units.keys() == self.units.keys()
        self.units = units

    def learn(self, files):
        """Takes what was read and looked for."""
        self.written = False
        for path, lines in files.lines.items():
            words = [*(name for form, name in lines if form != COMPUTED), *files.settled.get(path, ())]
            self.files[path] = (files.stamps[path], frozenset(map(os.path.basename, words)), any(form == COMPUTED for form, _ in lines))
        for path, there in files.there.items():
            if not there and is_text(path):
                self.lack(path)


def is_kept(paths, changed, words, makers):
    """Returns whether a unit that opened these files has the same result: none changed, and none that a macro names may be another."""
    return changed.isdisjoint(paths) and (makers.isdisjoint(paths) or words.isdisjoint(map(os.path.basename, paths)))


def mark_of(data):
    """Returns the first line of a file, which shows that the rest is whole."""
    return b"%s %s\n" % (FORM.encode(), hashed(data).encode())


def listing(folder):
    """Returns the names in a directory."""
    try:
        return set(os.listdir(folder))
    except OSError:
        return set()


def setting_of(asked, program):
    """Returns all that decides of every unit's result: the program, and the options."""
    found = os.stat(program)
    return [program, found.st_size, found.st_mtime_ns, asked.profile, asked.system, asked.define]


def key_of(command, builder, compilers):
    """Returns the hash of all in a command that decides of its result, but for the contents of files."""
    answer, (program, options) = compilers.answer(command), compilers.key(command)
    parts = [command.directory, command.file, command.spelled, builder.search(command), list(command.definitions.items()),
             sorted(command.named), command.includes, command.trigraphs, program, program and place(program), options, answer and answer.key]
    return hashed(repr(parts).encode("utf-8", "surrogatepass"))
