"""Writes the dependency files of a build: where the commands and their objects want them, below a directory, or on standard output."""
import os
import re
import sys

import depfile
from common import Refused, compact, plain, say, units, written
from seen import Memory, key_of, setting_of
from spelled import Names

# a logical line of a dependency file: empty, a comment, or a rule without a recipe
LINE = re.compile(rb"(?:[ \t]*|#[^\n]*|[^\t\n#:][^\n]*:(?:[ \t][^\n]*)?)")
CONTROL = re.compile("[\x00-\x1f\x7f]")


class Result:
    """Is what is known of a unit: its command, the paths that it opened and their names in order, and its fault or None."""

    def __init__(self, command, paths, names, fault):
        self.command, self.paths, self.names, self.fault = command, paths, names, fault

    @property
    def target(self):
        """Returns the object's name, as the command spells it."""
        command = self.command
        names = [name for name in (command.target, command.output) if name not in (None, "", "-")]
        return names[0] if names else depfile.object_of(os.path.basename(command.file))

    def rule(self, phony):
        """Returns the text of the dependency file."""
        command, names = self.command, [os.fsencode(name) for name in self.names]
        targets = [verbatim(word) if option == "-MT" else depfile.escaped(os.fsencode(word)) for option, word in command.wanted.targets]
        text = b" ".join(targets) or depfile.escaped(os.fsencode(self.target))
        return depfile.rule(text, names, names[1:] if phony or command.wanted.phony else [])

    def members(self, names):
        """Returns the members of its JSON object; `names` are the paths of the list."""
        command = self.command
        return {"directory": command.directory, "input-file": command.spelled[command.file], "output": self.target,
                "file-deps": [os.path.join(command.directory, name) for name in self.names], "fault": fault_of(self.fault, names)}


def verbatim(word):
    """Returns the target of -MT, which stays as it is."""
    if CONTROL.search(word):
        raise Refused("the target %s can't be written so that ninja and make read it" % word)
    return os.fsencode(word)


def fault_of(fault, names):
    """Returns the members of a fault: its number, its location, and its text."""
    if fault is None:
        return None
    number, place, text = (fault + "  ").split(" ", 2)
    row, line, column = map(int, place.split(":"))
    path = names[row] if row < len(names) else "<command line>"
    return {"number": int(number), "path": path, "line": line, "column": column,
            "text": os.fsdecode(plain(text[:-2].encode()))}


def run_units(work):
    """Runs the units of the list, and returns their results."""
    path, names = work.run("deps"), Names(work.builder)
    rows = ["/" + row["name"] for row in work.listed["files"]]
    found = []
    for unit, (command, _) in zip(units(path), work.pairs):
        paths = [rows[int(line.split(b" ", 2)[1])] for line in unit.lines]
        if command.file in paths:
            # compilers name it before the files of -include, which are read first
            paths.insert(0, paths.pop(paths.index(command.file)))
        found.append(Result(command, paths, names.of(command, paths), unit.fault))
    return found


class Places:
    """Finds the path of each unit's file: none is shared, and none is outside the build's directories unless --into names one."""

    suffix = ".d"

    def __init__(self, build, into):
        self.into, self.taken = into, set()
        here = [os.getcwd()] if build == "-" else [os.path.dirname(os.path.abspath(build)), os.path.dirname(os.path.realpath(build)), os.getcwd()]
        self.base, self.allowed = here[0], [os.path.join(os.path.realpath(folder), "") for folder in here]

    def named(self, path):
        """Returns the name below --into, from that of the object."""
        return path + self.suffix

    def place(self, result):
        """Returns the path of a unit's file, before it is known whether another has it."""
        command, target = result.command, result.target
        path = os.path.join(command.directory, target)
        if self.into is not None:
            path = os.path.normpath(path)
            inside = not os.path.isabs(target) and path.startswith(os.path.join(self.base, ""))
            return os.path.join(self.into, self.named(os.path.relpath(path, self.base) if inside else path[1:]))
        if command.wanted.file not in (None, "", "-"):
            return os.path.join(command.directory, command.wanted.file)
        if os.path.exists(path) and not os.path.isfile(path):
            raise Refused("the object %s is no file" % path)
        return os.path.splitext(path)[0] + ".d" if command.wanted.beside else path + ".d"

    def own(self, result, number, report):
        """Returns the path of a unit's own file; a further unit with the path of another gets its number in it."""
        path = self.place(result)
        if CONTROL.search(path):
            raise Refused("the name %s can't be that of a file" % path)
        real, first = os.path.realpath(path), path
        while real in self.taken:
            path = "%s.%d%s" % (path[:-2] if path.endswith(self.suffix) else path, number, self.suffix)
            real = os.path.realpath(path)
        if path != first:
            # a name that no command asks for can't be missed
            tell = say if self.into is not None or result.command.wanted.file is None else report.add
            tell("%s: %s is that of another command, so its %s file is %s" % (result.command.file, first, self.suffix, path))
        if self.into is None and not real.startswith(tuple(self.allowed)):
            raise Refused("%s is below neither this directory nor that of the commands (--into names another)" % first)
        self.taken.add(real)
        return path


def is_rules(data):
    """Returns whether a file has nothing but rules without recipes, as dependency files have."""
    return all(LINE.fullmatch(line) for line in data.replace(b"\\\r\n", b" ").replace(b"\\\n", b" ").splitlines())


def settle(path, text, read):
    """Writes a dependency file unless it has this text, or removes it if the text is None; refuses to replace a file of another kind."""
    there = os.path.isfile(path)
    if os.path.exists(path) and not there:
        raise Refused("%s is there and is no file" % path)
    if there:
        with open(path, "rb") as file:
            data = file.read()
        if data == text:
            return
        if os.path.realpath(path) in read or not is_rules(data):
            raise Refused("%s is there and is no dependency file, so it stays" % path)
    if text is not None:
        with written(path) as file:
            file.write(text)
    elif there:
        os.unlink(path)


def write_files(work, results):
    """Writes the dependency file of each unit, and removes that of a unit with a fault."""
    places = Places(work.asked.build, work.asked.into)
    for number, result in enumerate(results):
        try:
            path = places.own(result, number, work.report)
            settle(path, text_of(work, result), work.read)
        except Refused as refusal:
            work.report.add("%s: %s" % (result.command.file, refusal))
        except OSError as error:
            work.fail("%s: %s: %s" % (result.command.file, error.filename, error.strerror))


def text_of(work, result):
    """Returns the rules of a unit, or None if it has a fault or they can't be written."""
    if result.fault is not None:
        return None
    try:
        return result.rule(work.asked.phony)
    except Refused as refusal:
        work.report.add("%s: %s" % (result.command.file, refusal))
        return None


def print_rules(work, results):
    """Prints the rules of all units, for make."""
    for result in results:
        sys.stdout.buffer.write(text_of(work, result) or b"")


def print_objects(work, results):
    """Prints a JSON object for each unit on a line of its own."""
    names = ["/" + row["name"] for row in work.listed["files"]]
    for result in results:
        sys.stdout.buffer.write(compact(result.members(names)))


FORMS = {"files": write_files, "make": print_rules, "json": print_objects}


def deps(work):
    """Writes or prints the dependencies of all units."""
    if work.asked.form == "files":
        results = run_changed(work)
    else:
        work.prepare()
        results = run_units(work)
    work.expect(len(results))
    for result in results:
        if result.fault is not None:
            say("%s: fault %s (`build.py faults` says more)" % (result.command.file, result.fault.split(" ")[0]))
            work.faults += 1
        work.read.update(result.paths)
    FORMS[work.asked.form](work, results)


def seen_path(asked):
    """Returns the path of the file of what was seen: with the dependency files below --into, otherwise with the commands."""
    name = "commands" if asked.build == "-" else os.path.basename(asked.build)
    return os.path.join(asked.into or Places(asked.build, None).base, name + ".seen")


def run_changed(work):
    """Runs the units that changed since the last run, and returns the results of all."""
    path, setting = seen_path(work.asked), setting_of(work.asked, work.program.path)
    memory = Memory() if work.asked.anew or work.asked.list else Memory.read(path, setting)
    work.begin()
    pairs = [(command, key_of(command, work.builder, work.compilers)) for command in work.commands]
    words = memory.forget()
    kept = {id(command): Result(command, *zip(*memory.units[key]), None) for command, key in pairs
            if key in memory.units and words.isdisjoint(map(os.path.basename, command.includes))}
    if memory.lines and len(kept) < len(pairs):
        # which unit a line is about isn't known
        memory, kept = Memory(), {}
    fresh = [command for command in work.commands if id(command) not in kept]
    results = {**kept, **{id(result.command): result for result in run_fresh(work, fresh, memory)}}
    memory.take({key: list(zip(result.paths, result.names)) for command, key in pairs
                 if (result := results.get(id(command))) is not None and result.fault is None})
    memory.write(path, setting)
    if kept:
        work.anew = len(fresh)
    return [results[id(command)] for command in work.commands if id(command) in results]


def run_fresh(work, fresh, memory):
    """Runs these units, and returns their results; the memory takes what was seen and said."""
    if not fresh:
        for line in memory.lines:
            work.report.add(line)
        return []
    before = set(work.report.lines)
    work.make_list(fresh)
    results = run_units(work) if work.pairs else []
    memory.learn(work.builder.files)
    memory.lines = sorted(work.report.lines - before)
    return results
