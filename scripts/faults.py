#!/usr/bin/env python3
"""Prints the faults of an output of cppunits as compilers do: path, line, column, message and remedy, once for each place."""
import contextlib
import os
import re
import sys
import unicodedata

import explain
from common import DONE, PARTLY, Refused, compact, opened, parser, plain, read_list, run, shown, units, units_of
from fault_texts import advice, message
from lists import name_of
from tokens import Text, Unclear, tokens_of

TEXT = """\
Print the faults of an output of `cppunits faults` as compilers do, one for each place where units end:

  In file included from src/main.c:2:
  lib/low.h:7:10: error: no such file: word.h [fault 31]
      7 | #include "word.h"
        |          ^
  note: 12 units end here, the first is src/main.c
  note: Give the directory that has it: by `-I` in a build's command, by `search` in a list, whose `files` name it.

LIST is the input of cppunits.  The include lines above a fault are those of the first unit.  The source line is printed
if it fits the fault.  The place is that of the constant, the macro name or the header name if it is on the line,
otherwise that of the directive.  Columns count bytes, from 1.  A path below the current directory is relative to it.
<command line> is the unit's definitions and then its files of `first`, one a line.

More is said of a condition, and of a wrong number of arguments, if the macros' definitions make it certain.  They are
looked for in all files of the list, or with --deps in those that the unit opened.

Use --format json for a JSON object a line for each place: path, line, column, number, message, advice, text, unit (the
number of the first), source (the path of its file), units (how many), definition (path, line and column of the macro's
name, or null) and chain (path and line of each include line, the innermost first; null for faults 1 to 5 of headers,
for which they aren't known).

Example:
  cppunits --root . faults < list.json | faults.py --root . list.json"""
FAULT = re.compile(rb"fault (\d{1,2}) (\d{1,5}):(\d{1,9}):(\d{1,9})(?: (.*))?", re.DOTALL)
OPENED = re.compile(rb"in (\d{1,5}):(\d{1,9}):(\d{1,9})")
DEPENDENCY = re.compile(rb"dep (\d{1,5}) (.+)", re.DOTALL)
COMMAND_LINE, DEFINITIONS = "<command line>", 65535
# what is at a fault's location: a name for some faults, otherwise the directive's #, which may be written in other ways
AT_NAMES = range(17, 22)
# faults of a file that isn't entered for them: cppunits doesn't print the include line that leads to it
NOT_ENTERED = range(1, 6)
# faults of which more is said by the definitions of macros
ABOUT_MACROS = (explain.CONDITION, explain.ARGUMENTS)
AT_OTHERS = {1: (b"/",), 2: (b"\\", b"??/"), 7: (b"'", b'"')}
HASHES = (b"#", b"%:", b"??=", b"%\\")
PLACE, ERROR, NOTE, CARET, PLAIN = "\33[1m", "\33[1;31m", "\33[1;36m", "\33[1;32m", "\33[0m"
MAX_LETTERS, BEFORE_CARET, MAX_FILE = 200, 100, 16777216


class Sources:
    """Holds a list's files and units, and reads the files."""

    def __init__(self, listed, root):
        self.root, self.here = os.path.abspath(root), os.getcwd()
        self.read, self.split, self.macros = {}, {}, {}
        self.files, self.units = listed["files"], listed["units"]
        self.profile = listed.get("profile", "c11")
        # whether trigraphs are replaced
        self.trigraphs = self.profile != "gnu"
        self.names = [name_of(row) for row in self.files]
        lists = [unit.get(member, []) for unit in self.units if isinstance(unit, dict) for member in ("define", "first")]
        texts = self.names + [name_of(one) for words in lists for one in (words if isinstance(words, list) else [None])]
        texts += [unit.get("file") if isinstance(unit, dict) else None for unit in self.units]
        if not all(isinstance(text, str) for text in texts):
            raise Refused("the list isn't as docs/FORMAT.md says: a name or a definition is no text")

    def path(self, name):
        """Returns the path of a file as it is printed: relative to the current directory if the file is below it."""
        path = os.path.join(self.root, name)
        inside = os.path.relpath(path, self.here)
        return path if inside == ".." or inside.startswith("../") else inside

    def data(self, row):
        """Returns a file's bytes, or None if it has none."""
        if row not in self.read:
            self.read[row] = self.contents(self.files[row])
        return self.read[row]

    def contents(self, file):
        try:
            if "hex" in file:
                return bytes.fromhex(file["hex"])
            if "text" in file:
                return file["text"].encode("utf-8", "surrogatepass")
            path = os.path.join(os.fsencode(self.root), as_bytes(file["name"]))
            if not os.path.isfile(path) or os.path.getsize(path) > MAX_FILE:
                return None
            with open(path, "rb") as source:
                return source.read()
        except (OSError, ValueError, TypeError, AttributeError):
            return None

    def lines(self, row):
        """Returns the lines of a file, which may end in a carriage return, or None."""
        if row not in self.split:
            data = self.data(row)
            data = data[3:] if data is not None and data.startswith(b"\xef\xbb\xbf") else data
            self.split[row] = None if data is None else data.split(b"\n")
        return self.split[row]

    def line(self, row, number):
        """Returns a line of a file without its line end, or None."""
        lines = self.lines(row)
        if lines is None or not 1 <= number <= len(lines):
            return None
        return lines[number - 1].rstrip(b"\r")

    def definitions_of(self, name, row):
        """Returns the definitions of a macro in a file."""
        if (name, row) not in self.macros:
            data = self.data(row)
            known = data is not None and name in data
            self.macros[name, row] = explain.definitions(name, self.lines(row), row, self.trigraphs) if known else []
        return self.macros[name, row]

    def definitions(self, unit):
        return self.units[unit.number].get("define", [])

    def command_lines(self, unit):
        """Returns a unit's definitions and its files that are read first, as the lines that they stand for."""
        first = self.units[unit.number].get("first", [])
        return ["#define " + text for text in self.definitions(unit)] + ['#include "%s"' % name_of(one) for one in first]

    def check(self, agrees, number):
        """Refuses an output that doesn't belong to the list."""
        if not agrees:
            raise Refused("the output isn't that of the list: unit %d or its files are others" % number)

    def opened(self, unit):
        """Returns the rows of the files that a unit opened, from its lines in the output of `cppunits deps`."""
        rows = []
        for found in filter(None, map(DEPENDENCY.fullmatch, unit.lines)):
            rows.append(int(found[1]))
            self.check(rows[-1] < len(self.names) and as_bytes(self.names[rows[-1]]) == plain(found[2]), unit.number)
        return rows


class Fault:
    """Is a unit's fault: its number, location and text, and the locations of the include lines above it, the outermost first."""

    def __init__(self, unit, sources):
        found = FAULT.fullmatch(unit.last)
        if not found:
            raise Refused("unit %d: no fault as cppunits prints it" % unit.number)
        self.number, self.row, self.line, self.column = (int(word) for word in found.groups()[:4])
        self.text = plain(found[5] or b"").decode("utf-8", "surrogateescape")
        self.unit, self.sources, self.count = unit, sources, 1
        above = [OPENED.fullmatch(line) for line in unit.lines]
        if None in above:
            raise Refused("unit %d: a line that `cppunits faults` doesn't print, whose output is wanted" % unit.number)
        self.above = [(int(found[1]), int(found[2])) for found in above]
        # the files in which definitions of macros are looked for
        self.opened = range(len(sources.names))
        sources.check(unit.number < len(sources.units) and as_bytes(sources.units[unit.number]["file"]) == unit.name, unit.number)
        rows = [self.row, *(row for row, _ in self.above)]
        sources.check(all(row == DEFINITIONS or row < len(sources.names) for row in rows), unit.number)

    @property
    def source(self):
        """Returns the path of the file that is compiled."""
        return self.sources.path(self.unit.name.decode("utf-8", "surrogateescape"))

    @property
    def path(self):
        return self.path_of(self.row)

    def path_of(self, row):
        return COMMAND_LINE if row == DEFINITIONS else self.sources.path(self.sources.names[row])

    def key(self):
        """Returns what two units have in common if the same place ends them."""
        texts = self.sources.command_lines(self.unit)[self.line - 1:self.line] if self.row == DEFINITIONS else ()
        return self.row, self.line, self.column, self.number, self.text, tuple(texts)

    def is_own(self):
        """Returns whether the fault is in the file that is compiled."""
        return self.row != DEFINITIONS and as_bytes(self.sources.names[self.row]) == self.unit.name

    def own_line(self):
        """Returns the source line, or None if no line is there or the line doesn't have what the fault is about."""
        if self.row == DEFINITIONS:
            texts = self.sources.command_lines(self.unit)
            return as_bytes(texts[self.line - 1]) if 1 <= self.line <= len(texts) else None
        line = self.sources.line(self.row, self.line)
        if line is None or not line.strip():
            return None
        rest = line[self.column - 1:]
        is_name = re.match(rb"[\w$\\\x80-\xff]", rest) is not None
        if self.number in AT_OTHERS:
            fits = rest.startswith(AT_OTHERS[self.number])
        else:
            fits = is_name if self.number in AT_NAMES else rest.startswith(HASHES) or (is_name and self.number == 35)
        return line if fits else None

    def shown_line(self):
        """Returns the source line of the place, or None."""
        line = self.own_line()
        return line if line is None or self.place[0] == self.line else self.sources.line(self.row, self.place[0])

    def explain(self):
        """Finds the place of the token, what more the message says, and the definition of the macro."""
        self.place, self.more, self.definition = (self.line, self.column), "", None
        if self.number == explain.DIRECTIVE:
            self.more = explain.directive(self.text, self.sources.profile) or ""
        elif self.number in explain.BY_SOURCE and self.row != DEFINITIONS and self.own_line() is not None:
            with contextlib.suppress(Unclear):
                self.explain_by(Text(self.sources.lines(self.row), self.line, self.column, self.sources.trigraphs))

    def explain_by(self, source):
        """Finds the same in the source, which begins at the fault's own place."""
        text, profile = self.text.encode("utf-8", "surrogateescape"), self.sources.profile
        if self.number == explain.CONDITION:
            found = explain.condition(source.line(), self.definitions_of, profile)
            self.more = ": " + found if found else ""
        elif self.number == explain.ARGUMENTS:
            given = explain.given_arguments(text, source)
            if given is not None:
                self.more, self.definition = explain.arguments(self.definitions_of(text), given, profile)
        else:
            self.place = explain.token_place(self.number, text, source) or self.place

    def definitions_of(self, name):
        """Returns the definitions of a macro that the unit may have met."""
        own = [explain.definition(tokens_of(text), DEFINITIONS)._replace(line=number)
               for number, text in enumerate(map(as_bytes, self.sources.definitions(self.unit)), 1)
               if re.match(re.escape(name) + rb"(?![\w$\x80-\xff])", text)]
        return own + [one for row in self.opened for one in self.sources.definitions_of(name, row)]

    def chain(self):
        """Returns the path and line of each include line above the fault, the innermost first; None if they aren't known."""
        if self.number in NOT_ENTERED and not self.is_own():
            return None
        return [(self.path_of(row), line) for row, line in reversed(self.above)]

    def members(self):
        """Returns the members of the fault's JSON object (--format json)."""
        self.explain()
        chain = self.chain()
        above = None if chain is None else [{"path": path, "line": line} for path, line in chain]
        line, column = self.place
        told, one = message(self.number, self.text) + self.more, self.definition
        defined = one and {"path": self.path_of(one.row), "line": one.line, "column": one.column}
        return {"path": self.path, "line": line, "column": column, "number": self.number, "message": told,
                "advice": advice(self.number), "text": self.text, "unit": self.unit.number, "source": self.source,
                "units": self.count, "definition": defined, "chain": above}

    def lines(self, color):
        """Returns the lines that are printed for the fault (--format text)."""
        self.explain()

        def set_in(style, text):
            return style + text + PLAIN if color else text

        yield from self.lines_above(set_in)
        place = "%s:%d:%d:" % (readable(self.path), *self.place)
        told = readable(message(self.number, self.text) + self.more)
        yield "%s %s %s [fault %d]" % (set_in(PLACE, place), set_in(ERROR, "error:"), told, self.number)
        line = self.shown_line()
        if line is not None:
            text, before = excerpt(line, self.place[1])
            yield "%5d | %s" % (self.place[0], text)
            yield "      | %s%s" % (before, set_in(CARET, "^"))
        if self.definition:
            place = "%s:%d:%d:" % (readable(self.path_of(self.definition.row)), self.definition.line, self.definition.column)
            yield "%s %s macro %s is defined here" % (set_in(PLACE, place), set_in(NOTE, "note:"), readable(self.text))
        notes = ["%d units end here, the first is %s" % (self.count, readable(self.source))] if self.count > 1 else []
        for note in notes + [advice(self.number)] * bool(advice(self.number)):
            yield "%s %s" % (set_in(NOTE, "note:"), note)

    def lines_above(self, set_in):
        """Returns the lines before the message: the unit, if neither the place nor an include line is in its file; the include lines."""
        chain = self.chain() or []
        if not self.is_own() and (not chain or chain[-1][0] == COMMAND_LINE):
            yield "In unit %s:" % set_in(PLACE, readable(self.source))
        above = ["%s:%d" % (readable(path), line) for path, line in chain]
        for at, place in enumerate(above):
            begin = "                 from" if at else "In file included from"
            yield "%s %s%s" % (begin, set_in(PLACE, place), ":" if at == len(above) - 1 else ",")


def as_bytes(name):
    """Returns a name as the program has it."""
    return name.encode("utf-8", "surrogatepass")


def readable(text):
    return "".join(shown(letter) for letter in text)


def excerpt(line, column):
    """Returns a line as it is printed, and the text before the caret in the next line; shortens a long line."""
    begin = len(line[:column - 1].decode("utf-8", "surrogateescape"))
    letters = line.decode("utf-8", "surrogateescape")
    if len(letters) <= MAX_LETTERS:
        return "".join(map(letter, letters)), "".join(map(blank, letters[:begin]))
    first = max(0, begin - BEFORE_CARET)
    last = first + MAX_LETTERS
    left, right = "..." if first else "", "..." if last < len(letters) else ""
    text = left + "".join(map(letter, letters[first:last])) + right
    return text, " " * len(left) + "".join(map(blank, letters[first:begin]))


def letter(one):
    """Returns a character as it is printed on a terminal: tabs stay, an invisible character becomes its number."""
    if one == "\t" or one.isprintable():
        return one
    if "\udc80" <= one <= "\udcff":
        return "<%02X>" % (ord(one) - 0xdc00)
    return "<U+%04X>" % ord(one)


def blank(one):
    """Returns as much white space as a character is wide."""
    if one == "\t":
        return one
    if one.isprintable():
        wide = unicodedata.east_asian_width(one) in "WF"
        return "" if unicodedata.combining(one) else "  " if wide else " "
    return " " * len(letter(one))


def print_faults(listed, output_lines, root=".", to=None, color=False, form="text", deps=None):
    """Prints one report for each place where units end, and returns how many units have a fault.

    listed: the list's object; output_lines: the output of `cppunits faults`, as lines of bytes (for example an open binary file); root:
    the directory that names in the list are relative to; to: a text file; color: whether to print colors; form: `text` or `json`; deps: a
    function from the numbers of units to those units in the output of `cppunits deps`."""
    to, found = sys.stdout if to is None else to, {}
    sources = Sources(listed, root)
    for unit in units_of("the output", output_lines):
        if unit.fault is not None:
            fault = Fault(unit, sources)
            first = found.setdefault(fault.key(), fault)
            first.count += first is not fault
    about_macros = {fault.unit.number: fault for fault in found.values() if fault.number in ABOUT_MACROS}
    for unit in deps(list(about_macros)) if deps and about_macros else ():
        about_macros[unit.number].opened = sources.opened(unit)
    for fault in found.values():
        if form == "json":
            put(to, compact(fault.members()))
        else:
            text = "".join(line + "\n" for line in fault.lines(color))
            put(to, text.encode("utf-8", "backslashreplace"))
    return sum(fault.count for fault in found.values())


def put(to, data):
    """Writes UTF-8 bytes to a text file, whatever the file's encoding is."""
    if hasattr(to, "buffer"):
        to.flush()
        to.buffer.write(data)
    else:
        to.write(data.decode())


def wants_color(word, to):
    """Returns whether to print colors; with `auto`, whether the output is a terminal with colors."""
    if word != "auto":
        return word == "always"
    return to.isatty() and os.environ.get("TERM", "dumb") != "dumb" and "NO_COLOR" not in os.environ


def forms(asked):
    """Adds the options for the form in which faults are printed."""
    asked.add_argument("--color", "--colour", dest="color", choices=("auto", "always", "never"), default="auto",
                       help="use colors (default: auto, if standard output is a terminal)")
    asked.add_argument("--format", dest="form", choices=("text", "json"), default="text",
                       help="print text for readers and editors, or a JSON object a line (default: text)")


def main():
    asked = parser(TEXT, "some unit has a fault, as for cppunits")
    asked.add_argument("list", metavar="LIST", help="read this list, the input of cppunits; `-` is standard input")
    asked.add_argument("output", metavar="OUTPUT", nargs="?", default="-",
                       help="read this output of `cppunits faults` (default: standard input)")
    asked.add_argument("--deps", metavar="FILE", help="read the files that units opened from this output of `cppunits deps`")
    asked.add_argument("--root", metavar="DIR", default=".", help="take the list's names relative to this directory (default: the current one)")
    forms(asked)
    words = asked.parse_args()
    if [words.list, words.output, words.deps].count("-") > 1:
        asked.error("only one of the list and the outputs can come from standard input")
    listed = read_list(words.list)
    with opened(words.output) as lines:
        deps = None if words.deps is None else lambda numbers: [unit for unit in units(words.deps) if unit.number in numbers]
        count = print_faults(listed, lines, words.root, sys.stdout, wants_color(words.color, sys.stdout), words.form, deps)
    return PARTLY if count else DONE


if __name__ == "__main__":
    run(main)
