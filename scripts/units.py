"""Makes the text of a C file by cppunits, as the command line of a compiler asks for it."""
import os
import re
import sys
import types

from commands import Command, at, is_folder, place
from common import Refused, say, units_of
from compilers import CompilerAdditions
from files import PASSED, TRIGRAPH, content, uncommented
from front import MARKER, is_special, paths_of, run
from kept import VARIABLES, Cache, KeptCompilers, KeptFiles, cache_folder
from lists import MONTHS, Builder, bytes_of, list_of
from parsed import for_clang
from runs import MAX_ROUNDS, STATUSES, MissingFiles

FACTS = types.SimpleNamespace(inline=False, shown=True, budget=None, date=None, time=None, root="/", profile="gnu", system=(), define=())
# the names of date and time: the list's member, what a list may have, and what no unit is to have
DATES = {"__DATE__": ("date", '"((?:%s) (?: [1-9]|[12][0-9]|3[01]) [0-9]{4})"' % "|".join(MONTHS), "Dec 31 9999"),
         "__TIME__": ("time", '"((?:[01][0-9]|2[0-3]):[0-5][0-9]:[0-5][0-9])"', "23:59:60")}
# variables that have directories for headers
PATHS = VARIABLES[:2]
HOSTED = b"__STDC_HOSTED__"
# a directory before each name, which says where a text has names of files; and names that no literal escapes
TAG, PLAIN = b"@cppunits@/", re.compile(rb"[ !#-\[\]-~]*")


class Stopped(Exception):
    """Says that a unit has no text: in a line, or by the function that prints its fault."""

    def __init__(self, line, tell=None):
        super().__init__(line)
        self.tell = tell or (lambda: print(line, file=sys.stderr))


class Notes:
    """Holds what a list can't express.  What is said of a file counts only if the unit opens that file."""

    def __init__(self):
        # `dates` has definitions of `__DATE__` and `__TIME__`: the words of their options, by name
        self.lines, self.files, self.dates = [], [], {}

    def add(self, line):
        if "__STDC_HOSTED__ is 0" not in line:
            self.lines.append(line)

    def takes_date(self, word):
        """Takes a definition of `__DATE__` or `__TIME__`: the list has one unit."""
        self.dates[word.partition("=")[0]] = word
        return True

    def same(self, asked, taken):
        """Notes a path where removing `..` by name gives another file than the disk does."""
        if ".." in asked and place(asked) != place(taken):
            line = "%s: reached by a symbolic link; %s would be taken" % (asked, taken)
            if os.path.isfile(taken):
                self.files.append((taken, line))
            else:
                # it is a directory, or what is taken isn't there, so that another may be
                self.lines.append(line)


class Unit:
    """Is a C file with its command and its text."""

    def __init__(self, source, command, text, builder):
        self.source, self.command, self.text, self.builder = source, command, text, builder

    def names(self, system):
        """Returns the names of its dependencies as a compiler has them, its own file first; those of the system only if they are asked for."""
        found = {self.source.name: None}
        if system and self.has_first():
            found.update(dict.fromkeys(path for path in map("%s/stdc-predef.h".__mod__, self.builder.additions.folders(self.command)) if os.path.isfile(path)))
        for marker in MARKER.finditer(self.text):
            flags = marker[2].split()
            if b"1" in flags and (system or b"3" not in flags):
                name = os.fsdecode(re.sub(rb"\\(.)", rb"\1", marker[1]))
                while name.startswith("./"):
                    name = name[2:].lstrip("/")
                found[name] = None
        return list(found)

    def tell_search(self):
        """Prints the directories in the form of gcc -v, which CMake reads."""
        folders = [" " + folder for folder in self.builder.search(self.command)[0]]
        quotes = self.builder.search(self.command)[1]
        lines = ['#include "..." search starts here:', *folders[:quotes], "#include <...> search starts here:", *folders[quotes:], "End of search list."]
        print("\n".join(lines), file=sys.stderr, flush=True)

    @property
    def answer(self):
        return self.builder.additions.compilers.answer(self.command)

    def has_first(self):
        """Returns whether the compiler itself reads stdc-predef.h first, whose macros are among its own."""
        return self.answer.hosted and "__GNUC__" in self.answer.macros and "__clang__" not in self.answer.macros

    def is_after_gcc_11(self):
        """Returns whether the compiler is gcc 11 or a later one."""
        macros = self.answer.macros
        return "__clang__" not in macros and int(macros.get("__GNUC__", "x 0").split()[-1]) >= 11


class Maker:
    """Makes units, with what they share: the program, the compiler's answers, and what the cache has."""

    def __init__(self, front):
        # whether an input was read that can't be read again
        self.front, self.cache, self.taken = front, Cache(cache_folder()), False
        self.program = self.found_program()
        for name in PATHS:
            if any(not os.path.isabs(folder) for folder in os.environ.get(name, "/").split(os.pathsep)):
                raise Refused("%s names a relative directory, which isn't supported" % name)
        self.compilers, self.files = KeptCompilers(Notes(), front.real.path, self.cache), KeptFiles(None, self.cache)

    def found_program(self):
        """Returns the path of cppunits."""
        named = os.environ.get("CPPUNITS", "")
        beside = os.path.join(os.path.dirname(os.path.realpath(self.front.own)), "cppunits")
        for name in [named] if named else [beside, "cppunits"]:
            for path in paths_of(name):
                return path
        raise Refused("there is no program %s (CPPUNITS names one)" % (named or "cppunits"))

    def keep(self):
        self.compilers.keep()
        self.files.keep()

    def unit(self, source):
        """Returns the unit of an input, with its text; a unit without one is stopped."""
        notes = Notes()
        command, builder = self.command(source, notes)
        unit, listed = self.run(command, builder)
        opened = ["/" + listed["files"][int(line.split(b" ", 2)[1])]["name"] for line in unit.lines if line.startswith(b"dep ")]
        wrong = notes.lines + self.compilers.report.lines
        if not wrong and unit.fault is None:
            wrong = list(self.wrong_files(command, builder, set(opened)))
        if wrong:
            lines = [line[len(command.file) + 2:] if line.startswith(command.file + ": ") else line for line in wrong]
            raise Stopped("\n".join("%s: error: %s [cppunits]" % (source.name, line) for line in lines))
        if unit.fault is not None:
            number = unit.fault.split(" ")[0]
            raise Stopped("%s: fault %s of cppunits" % (source.name, number), lambda: self.tell(listed, unit))
        if reason := dated(notes.dates, unit.text):
            raise Stopped("%s: error: %s" % (source.name, reason))
        self.check_definitions(command, builder)
        clang = "__clang__" in self.compilers.macros(command)
        text = self.mapped(source.name, listed, unit.text, clang)
        return Unit(source, command, for_clang(text) if clang else text, builder)

    def check_definitions(self, command, builder):
        """Says which names -D defines anew, as a compiler does; a build may ask so whether the compiler defines a name."""
        words = self.front.asked.words
        names = [] if {"-w", "-Wno-macro-redefined"} & set(words) else command.redefined(builder.additions.definitions(command))
        if names and [word for word in words if word in ("-Werror", "-Wno-error")][-1:] == ["-Werror"]:
            raise Stopped("\n".join('<command-line>: error: "%s" redefined [-Werror]' % name for name in names))
        for name in names:
            print('<command-line>: warning: "%s" redefined' % name, file=sys.stderr)

    def mapped(self, name, listed, text, clang):
        """Returns a text in which `__FILE__` is as -fmacro-prefix-map and -ffile-prefix-map want it.  Where it is, a second text says."""
        option, maps = self.front.asked.renames(text), self.front.asked.prefix_maps()
        if option is None:
            return text
        if not clang and TAG not in text and all(PLAIN.fullmatch(word) for pair in maps for word in pair[1:]):
            marked = self.output("text", tagged(listed)).text
            lines = [marker[1] for marker in MARKER.finditer(marked) if not marker[1].startswith(TAG)]
            # a name of #line has no tag, and is mapped too
            if marked.replace(TAG, b"") == text and not any(line.startswith(old) for line in lines for _, old, _ in maps):
                return untagged(marked, {old: new for _, old, new in maps})
        raise Stopped("%s: error: %s isn't supported for its __FILE__" % (name, option))

    def command(self, source, notes):
        """Returns the command of an input, and a builder for its list."""
        path, front = at(self.front.cwd, source.name), self.front
        special = is_special(source.name)
        if not special and place(source.name) != place(path):
            raise Refused("%s: reached by a symbolic link; %s would be taken" % (source.name, path))
        if special:
            self.taken = True
            path = front.folder.write(os.path.basename(source.name) + ".c", special_content(source.name))
        command = Command({"directory": front.cwd, "arguments": [front.real.path, *front.real.words, *front.asked.words], "file": path}, notes)
        command.spelled[path] = "<stdin>" if source.name == "-" else source.name
        if special:
            # names in quotes are looked for here
            command.folders["quote"].insert(0, front.cwd)
            command.spelled.setdefault(front.cwd, ".")
        builder = Builder(FACTS, notes, CompilerAdditions(self.compilers, FACTS), True)
        builder.files = self.files
        self.files.report = notes
        return command, builder

    def run(self, command, builder):
        """Runs cppunits until the unit asks for no more files under names that macros make; returns the unit as it is printed, and the list."""
        for _ in range(MAX_ROUNDS):
            builder.gather([command])
            self.compilers.learn(builder.files.names_for_operators(builder.paths))
            if self.compilers.report.lines:
                raise Refused(self.compilers.report.lines[0])
            rows, pairs = builder.build([command])
            if not pairs:
                raise Refused("; ".join(builder.report.lines) or "%s: no list can have this unit" % command.file)
            listed = list_of(facts_of(builder.report.dates), rows, pairs)
            unit = self.output("text", listed)
            if command not in builder.computing:
                break
            missing, names = MissingFiles(builder), ["/" + row["name"] for row in rows]
            found = [names[int(line.split(b" ", 2)[1])] for line in unit.lines if line.startswith(b"dep ")]
            more = missing.of_files(command, found) + missing.of_fault(command, unit.fault, names)
            for pair in more:
                builder.files.settle(*pair)
            if not more:
                break
        return unit, listed

    def output(self, mode, listed):
        """Returns what cppunits prints of the unit."""
        status, output = run([self.program, "--workers", "1", "--root", "/", mode], bytes_of(listed))
        if status not in (0, 1):
            raise Refused("%s: %s" % (self.program, STATUSES.get(status, "status %d" % status)))
        if mode == "faults":
            return output
        if not output:
            raise Refused("%s: it prints no unit" % self.program)
        head, text, rest = parts(output)
        unit = next(units_of("the output of %s" % self.program, [head, *rest.splitlines(True)]))
        unit.text = text
        return unit

    def tell(self, listed, unit):
        """Prints the unit's fault."""
        from faults import print_faults, wants_color
        lines = self.output("faults", listed).splitlines(True)
        print_faults(listed, lines, "/", sys.stderr, wants_color("auto", sys.stderr), "text", lambda numbers: [unit] if numbers else [])

    def wrong_files(self, command, builder, opened):
        """Yields what is wrong with files that the unit opened: the list can't say what the compiler does with them."""
        yield from (line for path, line in builder.report.files if path in opened)
        for (path, name), found in builder.files.shadows.items():
            if found in opened:
                yield "%s: <%s> is found in an -iquote directory, as %s" % (path, name, found)
        hosted = self.compilers.answer(command).hosted
        if hosted and not command.trigraphs:
            return
        for path in opened:
            data = content(path)
            if not hosted and HOSTED in data:
                yield "%s: tests __STDC_HOSTED__, which is 0 under the command's options, and 1 for cppunits" % path
            if command.trigraphs and TRIGRAPH.search(data) and TRIGRAPH.search(PASSED.sub(uncommented, data)):
                yield "%s: has a trigraph, which the compiler replaces, and cppunits doesn't under gnu" % path


def value_of(name, word):
    """Returns the date or time of an option that defines it, if a list can have it; otherwise None."""
    found = re.fullmatch(DATES[name][1], word.partition("=")[2])
    return found and found[1]


def facts_of(dates):
    """Returns what a list has beside files and units.  A date or time that a list can't have becomes one that no unit is to have."""
    facts = types.SimpleNamespace(**vars(FACTS))
    for name, word in dates.items():
        setattr(facts, DATES[name][0], value_of(name, word) or DATES[name][2])
    return facts


def dated(dates, text):
    """Returns what is wrong with a text that has the value of a date or time which a list can't have, or None."""
    for name, word in dates.items():
        if value_of(name, word) is None and DATES[name][2].encode() in text:
            return "-D%s: a list can't have this %s, which the unit uses [fault 10]" % (word, DATES[name][0])
    return None


def tagged(listed):
    """Returns the list of a unit with a tag at the beginning of each shown name."""
    tag, unit = TAG.decode(), listed["units"][0]

    def named(rows):
        rows = [{"name": row} if isinstance(row, str) else row for row in rows]
        return [dict(row, shown=tag + row.get("shown", "" if row["name"] == "." else row["name"])) for row in rows]

    base = '__BASE_FILE__ "'
    more = {"shown": tag + unit.get("shown", unit["file"]), "define": [text.replace(base, base + tag, 1) for text in unit.get("define", [])]}
    more.update({name: named(unit[name]) for name in ("first", "search") if name in unit})
    return dict(listed, search=named(listed["search"]), units=[dict(unit, **more)])


def untagged(text, maps):
    """Returns a text without tags; in names that aren't in markers the beginning is replaced."""
    text = re.sub(rb'^(# \d+ ")' + TAG, rb"\1", text, flags=re.MULTILINE)
    olds = b"|".join(map(re.escape, maps))
    return re.sub(TAG + b"(" + olds + b"|)", lambda found: maps.get(found[1], b""), text)


def parts(output):
    """Returns the first line of a unit as `cppunits text` prints it, its text, and the lines after that."""
    head, end, rest = output.partition(b"\n")
    last = (b"\n" + rest).rfind(b"\n|")
    if last < 0:
        return head + end, b"", rest
    after = rest.index(b"\n", last) + 1
    return head + end, rest[1:after].replace(b"\n|", b"\n"), rest[after:]


def special_content(name):
    """Returns what a device, a pipe or standard input has."""
    if name == "-":
        return sys.stdin.buffer.read()
    if is_folder(name):
        raise Refused("%s: it is a directory" % name)
    with open(name, "rb") as file:
        return file.read()
