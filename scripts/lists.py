"""Makes a list: names below a root, and units with their definitions, directories and files to read first."""
import os
import re
import time

from commands import defined_name, is_name, is_text, place, unique
from common import Refused, compact
from files import Files, Lookup

MAX_NAMES, MAX_INPUT, MAX_FILE, MAX_SHOWN, MAX_TOLD = 65535, 268435456, 16777216, 4096, 100
MONTHS = "Jan Feb Mar Apr May Jun Jul Aug Sep Oct Nov Dec".split()


class Additions:
    """Holds the directories and definitions that all units get in addition to those of their commands."""

    def __init__(self, folders, texts):
        self.system = unique(os.path.abspath(folder) for folder in folders)
        self.texts = {defined_name(text): text for text in texts}

    def folders(self, command):
        return self.system

    def definitions(self, command):
        """Returns the definitions by name."""
        return self.texts


class Builder:
    """Makes a list: rows of names below a root, and units.  With `asked.shown` the list says how the commands spell files and directories,
    and which directories are the system's."""

    def __init__(self, asked, report, additions, every=False):
        self.asked, self.report, self.additions = asked, report, additions
        self.files = Files(report, asked.profile == "gnu", every)
        self.root, self.paths, self.computing, self.searches = None, [], set(), {}
        # by search: its directories as the list has them
        self.folders = {}

    def build(self, all_commands):
        """Returns the rows of all gathered files, and these commands with their units."""
        self.folders = {}
        self.root = os.path.abspath(self.asked.root) if self.asked.root else self.common(self.paths, all_commands)
        names = {path: name for path in self.paths if (name := self.name(path)) is not None}
        pairs = [(command, unit) for command in all_commands if (unit := self.unit(command, names)) is not None]
        rows = [row for path, name in names.items() if (row := self.row(path, name)) is not None]
        if len(rows) > MAX_NAMES or len(pairs) > MAX_NAMES:
            raise Refused("%d names and %d units: a list has at most %d of each" % (len(rows), len(pairs), MAX_NAMES))
        listed = {row["name"] for row in rows}
        return rows, [(command, unit) for command, unit in pairs if listed.issuperset([unit["file"], *map(name_of, unit["first"])])]

    def gather(self, all_commands):
        """Finds all files that the units reach, each once; `computing` gets the units that reach an include line whose name a macro makes."""
        groups, reached = {}, {}
        for command in all_commands:
            groups.setdefault(self.search(command), []).append(command)
        self.computing = set()
        for (search, quotes), members in groups.items():
            lookup = Lookup(self.files, search, quotes)
            found = self.reached(members, lookup)
            reached.update(dict.fromkeys(found))
            if self.files.gnu:
                self.files.say_trigraphs(self.reached([command for command in members if command.trigraphs], lookup))
            if self.files.every:
                self.computing.update(self.computing_of(members, found, lookup))
        self.files.say_shadows(reached)
        self.paths = list(reached)

    def reached(self, members, lookup):
        """Returns the files that these units reach over a search."""
        return self.files.reach([path for command in members for path in self.starts(command)], lookup)

    def computing_of(self, members, found, lookup):
        """Returns the units that reach an include line whose name is made by a macro that some file or command defines."""
        macros = {path: names for path in found if (names := self.files.computed_by(path))}
        if not macros:
            return []
        names = set().union(*macros.values())
        defined = self.files.defined_of(names, found).union(*(names & self.macros(command) for command in members))
        above = self.files.above(found, [path for path, own in macros.items() if own & defined], lookup)
        return [command for command in members if not above.isdisjoint(self.starts(command))]

    def starts(self, command):
        """Returns a unit's file, and the files that -include names."""
        return [command.file, *(path for word in command.includes if (path := self.first_of(command, word)) is not None)]

    def macros(self, command):
        """Returns the names that a unit's definitions define."""
        return {*self.additions.definitions(command), *command.definitions}

    def search(self, command):
        """Returns a command's directories, and how many of them are for names in quotes only."""
        if command not in self.searches:
            self.searches[command] = command.search(self.additions.folders(command))
        return self.searches[command]

    def first_of(self, command, word):
        """Returns the file of an -include, or None."""
        return self.found_first(command, word)[0]

    def found_first(self, command, word):
        """Returns the file of an -include, or None, how its compiler spells it, and whether it is the system's.

        It is looked for in the command's own directory first, then as a name in quotes."""
        if os.path.isabs(word):
            return self.files.first(("/",), word.lstrip("/")), word, False
        for folder, shown, system in [(command.directory, "./", False), *self.shown_search(command)]:
            path = self.files.first((folder,), word)
            if path is not None:
                return path, shown + ("" if shown.endswith("/") else "/") + word, system
        return None, word, False

    def shown_search(self, command):
        """Returns a command's directories, each with its spelling and whether it is the system's."""
        search, quotes = self.search(command)
        system = {place(folder) for folder in command.late(self.additions.folders(command))}
        return tuple((folder, command.spelled.get(folder, folder), number >= quotes and place(folder) in system) for number, folder in enumerate(search))

    def common(self, paths, all_commands):
        folders = {os.path.dirname(path) for path in paths}
        for command in all_commands:
            folders.update(self.search(command)[0])
        return os.path.commonpath(folders) if folders else os.getcwd()

    def below(self, path):
        """Returns the path relative to the root, or None if it isn't below the root."""
        front = os.path.join(self.root, "")
        return "." if path == self.root else path[len(front):] if path.startswith(front) else None

    def name(self, path):
        """Returns a file's name in the list, or None if the list can't have it, which is reported."""
        name = self.below(path)
        if name is None:
            self.report.add("%s: not below the root %s" % (path, self.root))
        elif not is_name(name):
            self.report.add("%s: no name that a list may hold (UTF-8, no control bytes, at most 1,024 bytes)" % path)
        else:
            return name
        return None

    def unit(self, command, names):
        file = names.get(command.file)
        if file is None:
            return None
        search = self.shown_search(command)
        if search not in self.folders:
            self.folders[search] = [self.shown(name, *words) for folder, *words in search if (name := self.folder(folder)) is not None]
        return {"file": file,
                "define": self.defined(command),
                "first": [name for word in command.includes if (name := self.included_first(command, word, names)) is not None],
                "search": self.folders[search],
                "shown": self.spelling(command.spelled[command.file]) if self.asked.shown else None}

    def shown(self, name, spelled, system):
        """Returns a directory, or a file that is read first, as the list has it."""
        if not self.asked.shown:
            return name
        found = {"name": name, "shown": self.spelling(spelled), "system": system}
        return {member: value for member, value in found.items() if value}

    def spelling(self, word):
        """Returns a spelling if the list can have it, otherwise None, which is reported."""
        if is_text(word) and re.fullmatch("[^\x00-\x1f\x7f]+", word) and len(word.encode()) <= MAX_SHOWN:
            return word
        self.report.add("%s%s: no name that a list may show" % (word[:MAX_TOLD], "..." if len(word) > MAX_TOLD else ""))
        return None

    def defined(self, command):
        """Returns a command's definitions; before them the ones for all units, without names that the command itself defines or undefines."""
        added = self.additions.definitions(command)
        return [text for name, text in added.items() if name not in command.named] + list(command.definitions.values())

    def folder(self, path):
        name = self.below(path)
        if name is None or (name != "." and not is_name(name)):
            self.report.add("%s: no directory below the root %s" % (path, self.root))
            return None
        return name

    def included_first(self, command, word, names):
        path, *words = self.found_first(command, word)
        name = names.get(path)
        if name is None:
            self.report.add("%s: -include %s: there is no such file" % (command.file, word))
            return None
        return self.shown(name, *words)

    def row(self, path, name):
        """Returns a file's row in the list, or None if its content is too long for a list."""
        if not self.asked.inline:
            return {"name": name}
        with open(path, "rb") as file:
            data = file.read(MAX_FILE + 1)
        if len(data) > MAX_FILE:
            self.report.add("%s: more than %d bytes" % (path, MAX_FILE))
            return None
        try:
            return {"name": name, "text": data.decode()}
        except UnicodeDecodeError:
            return {"name": name, "hex": data.hex()}


def name_of(one):
    """Returns the name of a directory or file of a list, which may be a member of an object."""
    return one.get("name") if isinstance(one, dict) else one


def now():
    """Returns the date and the time as gcc has them: from SOURCE_DATE_EPOCH in UTC, otherwise the local time."""
    epoch = os.environ.get("SOURCE_DATE_EPOCH", "")
    moment = time.gmtime(int(epoch)) if epoch.isdecimal() else time.localtime()
    date = "%s %2d %04d" % (MONTHS[moment.tm_mon - 1], moment.tm_mday, moment.tm_year)
    return date, time.strftime("%H:%M:%S", moment)


def list_of(asked, rows, pairs):
    """Returns the list; directories that all units share are written once."""
    units = [unit for _, unit in pairs]
    date, clock = now()
    chosen = {"budget": asked.budget, "profile": asked.profile}
    whole = {name: value for name, value in chosen.items() if value is not None}
    whole.update({"date": asked.date or date, "time": asked.time or clock, "search": [], "files": rows, "units": units})
    if units and all(unit["search"] == units[0]["search"] for unit in units):
        whole["search"] = units[0]["search"]
        whole["units"] = [{k: v for k, v in unit.items() if k != "search"} for unit in units]
    whole["units"] = [{k: v for k, v in unit.items() if v} for unit in whole["units"]]
    return whole


def bytes_of(listed):
    """Returns the list's bytes; refuses a list that is larger than cppunits reads."""
    data = compact(listed)
    if len(data) > MAX_INPUT:
        raise Refused("the list has %d bytes, more than %d" % (len(data), MAX_INPUT))
    return data
