"""Writes the compile_commands.json that compiles the texts of a build in place of its sources."""
import json
import os

from commands import at
from common import Refused, compact, opened, written
from fallthrough import with_comments
from parsed import Parsed, for_clang, stray

NAME = "compile_commands.json"
# what a command without -o writes, by its last step
ENDS = {"-c": ".o", "-S": ".s"}


class NoEntry(Exception):
    """Says why a command can't be given a text."""


class Database:
    """Gathers an entry for each text."""

    def __init__(self, into):
        """Refuses to replace a file that is no such database, as the one that is read."""
        self.path, self.entries = os.path.join(into, NAME), []
        if os.path.lexists(self.path) and not is_database(self.path):
            raise Refused("%s is there and isn't one for texts, so it stays (--into names another directory)" % self.path)

    def write(self):
        """Writes all entries, one a line."""
        with written(self.path) as file:
            file.write(b"[\n" + b",\n".join(compact(one)[:-1] for one in self.entries) + b"\n]\n")


def is_database(path):
    """Returns whether a file has only entries for texts, as Database writes them."""
    try:
        with opened(path) as file:
            entries = json.loads(file.read())
        return isinstance(entries, list) and all(["-x", "cpp-output", one["file"]] in triples(one["arguments"]) for one in entries)
    except (OSError, ValueError, RecursionError, KeyError, TypeError):
        return False


def triples(words):
    return [words[number:number + 3] for number in range(len(words) - 2)]


class Compilation:
    """Is a unit's command with its text in place of the source.  The text is as its compiler wants it."""

    def __init__(self, command, text, macros):
        self.command, self.asked, self.macros = command, Parsed(command.words, command.directory), macros
        text = for_clang(text) if "__clang__" in macros else text
        self.text = with_comments(text, command.directory) if self.asked.wants_comments() else text

    def entry(self, path):
        """Returns the entry for the text, which is the file of this path."""
        asked, command, source = self.asked, self.command, self.source()
        if reason := stray(self.text):
            raise NoEntry(reason)
        if option := asked.renames(self.text):
            raise NoEntry("%s isn't supported for its __FILE__" % option)
        source.text = os.path.abspath(path)
        if asked.output is None and asked.step in ENDS:
            # the text may have another name
            asked.output = os.path.splitext(os.path.basename(source.name))[0] + ENDS[asked.step]
        found = {"directory": command.directory, "arguments": [*command.before, *asked.second(self.macros, [self.text])], "file": source.text}
        output = asked.output or command.output
        return {**found, "output": output} if output else found

    def source(self):
        """Returns the command's input that is the unit's file; refuses a command that does something else than to compile this file."""
        asked, sources = self.asked, self.asked.sources()
        source = next((one for one in sources if at(self.command.directory, one.name) == self.command.file), None)
        if asked.unknown:
            raise NoEntry("%s isn't supported" % asked.unknown[0])
        if asked.question or asked.rules or asked.step == "-E":
            raise NoEntry("its command compiles nothing")
        if source is None:
            raise NoEntry("its command doesn't name it as a C file")
        if asked.step == "link" and len(sources) > 1:
            raise NoEntry("its command links several C files")
        return source
