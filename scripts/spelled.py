"""Names the dependencies of a unit as its compiler does: by the words of the command and the names in include lines."""
import os

from files import ANGLE, COMPUTED, EACH, joined


class Names:
    """Holds what the include lines of files name, by search and by the includer's own name."""

    def __init__(self, builder):
        self.builder, self.files = builder, builder.files
        self.searches, self.known = {}, {}

    def of(self, command, paths):
        """Returns the names of the files that a unit opened, in this order; a file that several lines name has the name of the last includer."""
        search, quotes = self.builder.search(command)
        fronts = tuple(front(command.spelled.get(folder, folder)) for folder in search)
        number = self.searches.setdefault((command.directory, search, fronts, quotes), len(self.searches))
        pairs = list(zip(search, fronts))
        found, names, makers = self.first(command, pairs), [], []
        for path in paths:
            name = found.get(path) or below(path, [*reversed(makers), *pairs])
            key = number, path, name
            if key not in self.known:
                self.known[key] = self.named(path, name, pairs, quotes)
            here, makes = self.known[key]
            found.update(here)
            if makes:
                makers.append((os.path.dirname(path), folder_of(name)))
            names.append(without_dots(name))
        return names

    def first(self, command, pairs):
        """Returns the names of the command's own file and of those that -include names."""
        found = {command.file: command.spelled[command.file]}
        for word in command.includes:
            for folder, name in (command.directory, ""), *pairs:
                if self.files.is_file(path := joined(folder, word)):
                    found.setdefault(path, name + word)
                    break
        return found

    def named(self, path, name, pairs, quotes):
        """Returns the files that the include lines of a file may name, each with its name, and whether a macro makes a name."""
        here, own = {}, (os.path.dirname(path), folder_of(name))
        lines = self.files.includes(path)
        for form, word in [*lines, *((EACH, word) for word in self.files.settled.get(path, ()))]:
            if form == COMPUTED or word.startswith("/"):
                continue
            for folder, before in pairs[quotes:] if form == ANGLE else [own, *pairs]:
                if self.files.is_file(target := joined(folder, word)):
                    here.setdefault(target, before + word)
        return here, any(form == COMPUTED for form, _ in lines)


def front(folder):
    """Returns what comes before a name in a directory."""
    return folder if folder.endswith("/") else folder + "/"


def folder_of(name):
    """Returns the directory of a name, with its slash, as the name spells it."""
    return name[:len(name) - len(os.path.basename(name))]


def below(path, pairs):
    """Returns the name of a path by the first directory that has it below, or the path."""
    return next((name + path[len(front(folder)):] for folder, name in pairs if path.startswith(front(folder))), path)


def without_dots(name):
    """Returns a name without the leading `./`, which compilers drop."""
    while name.startswith("./"):
        name = name[2:].lstrip("/")
    return name
