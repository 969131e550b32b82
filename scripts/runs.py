"""Runs cppunits over a list, and learns from these runs the names of headers that macros make."""
import os

from commands import unique
from common import Refused, plain, units
from lists import bytes_of, list_of

MAX_ROUNDS, PIECE, MOMENT = 64, 4194304, 0.1
NO_FILE = "31"
STATUSES = {2: "it refuses its command line", 3: "it refuses the list", 4: "it is out of memory", 5: "it can't read or write"}


class Program:
    """Holds the program, the directory for its lists and outputs, and its number of workers."""

    def __init__(self, path, folder, workers=None):
        self.path, self.folder, self.workers = path, folder, workers

    def run(self, word, listed, root, output):
        """Runs `dump` or `deps` over a list, and writes the output to an open binary file."""
        output.writelines(self.pieces(word, listed, root))

    def pieces(self, word, listed, root):
        """Runs the program, and yields its output in pieces that end with whole lines; units with faults are no failure."""
        import subprocess
        import tempfile
        path = os.path.join(self.folder, "list.json")
        with open(path, "wb") as file:
            file.write(bytes_of(listed))
        words = [self.path, *(["--workers", str(self.workers)] if self.workers else [])]
        if not any("text" in row or "hex" in row for row in listed["files"]):
            words += ["--root", root]
        with open(path, "rb") as given, tempfile.TemporaryFile() as errors:
            try:
                process = subprocess.Popen([*words, word], stdin=given, stdout=subprocess.PIPE, stderr=errors)
            except OSError as error:
                raise Refused("%s can't be run: %s (--program names another)" % (self.path, error.strerror)) from None
            try:
                yield from whole_lines(process.stdout)
                process.wait()
            finally:
                process.kill()
                process.wait()
                process.stdout.close()
            errors.seek(0)
            self.judge(process.returncode, errors.read(1000).decode("utf-8", "replace").strip().split("\n")[0])

    def judge(self, status, message):
        """Refuses a run that failed."""
        if status not in (0, 1):
            reason = STATUSES.get(status, "status %d" % status)
            raise Refused("%s: %s%s" % (self.path, reason, message and ": " + message))


def whole_lines(stream):
    """Yields what comes through a pipe, in pieces that end with whole lines; it waits in short steps, so that it sees an interrupt."""
    import select
    rest, data = b"", b"\n"
    while data:
        if not select.select([stream], [], [], MOMENT)[0]:
            continue
        data = os.read(stream.fileno(), PIECE)
        end = data.rfind(b"\n") + 1
        if end:
            yield rest + data[:end]
            rest = b""
        rest += data[end:]
    if rest:
        yield rest


def gather_all(builder, all_commands, program, ask=lambda: None, progress=lambda text: None):
    """Gathers the files of all units, and adds the files of names that macros make, until no unit asks for more.

    `ask` is called after each gathering, because the questions to compilers depend on the files.  A name that cppunits doesn't find is
    looked for next to its includer and in each directory.  So is each name that a unit with such include lines found, since another file of
    that name may come first."""

    def gather():
        builder.gather(all_commands)
        ask()

    gather()
    waiting = [command for command in all_commands if command in builder.computing]
    for number in range(1, MAX_ROUNDS + 1):
        if not waiting:
            return
        progress("round %d: %d units with names that macros make" % (number, len(waiting)))
        before = len(builder.paths)
        waiting = asking_units(builder, waiting, program)
        gather()
        if len(builder.paths) == before:
            return
    builder.report.add("%d units ask for ever more names that macros make: no more than %d rounds are gone" % (len(waiting), MAX_ROUNDS))


def run_units(builder, some_commands, program):
    """Runs these units, and yields each command with the paths that its unit opened, its fault, and the paths of the list."""
    rows, pairs = builder.build(some_commands)
    listed = list_of(builder.asked, rows, pairs)
    names = [os.path.join(builder.root, row["name"]) for row in listed["files"]]
    path = os.path.join(program.folder, "deps")
    with open(path, "wb") as output:
        program.run("deps", listed, builder.root, output)
    for unit, (command, _) in zip(units(path), pairs):
        yield command, [names[int(line.split(b" ", 2)[1])] for line in unit.lines], unit.fault, names


def asking_units(builder, waiting, program):
    """Runs these units, and returns those that ask for files which aren't on the list."""
    missing, asking = MissingFiles(builder), []
    for command, found, fault, names in run_units(builder, waiting, program):
        pairs = missing.of_files(command, found) + missing.of_fault(command, fault, names)
        if pairs:
            asking.append(command)
        for pair in pairs:
            builder.files.settle(*pair)
    return asking


class MissingFiles:
    """Finds files that a unit looks for under names that macros make and that aren't on the list: pairs of an includer and a name."""

    def __init__(self, builder):
        self.files, self.builder, self.here = builder.files, builder, set(builder.paths)
        self.searches, self.known = {}, {}

    def of_fault(self, command, fault, names):
        """Returns the pair of the unit's fault, if the fault is that there is no such file and yet there is one."""
        words = (fault or "").split(" ", 2)
        if words[0] != NO_FILE or len(words) < 3:
            return []
        row, name = int(words[1].split(":")[0]), os.fsdecode(plain(words[2].encode()))
        if row >= len(names) or not self.is_missing(names[row], self.builder.search(command)[0], name):
            return []
        return [(names[row], name)]

    def of_files(self, command, found):
        """Returns pairs for the files that were read: each may have been found by a name that a macro made, and not be the first of that name."""
        includers = [path for path in found if path in self.files.lines and self.files.computed_by(path)]
        if not includers:
            return []
        search = self.builder.search(command)[0]
        number, pairs = self.searches.setdefault(search, len(self.searches)), []
        for includer in includers:
            for path in found:
                key = number, includer, path
                if key not in self.known:
                    self.known[key] = [(includer, name) for name in names_of(path, (os.path.dirname(includer), *search))
                                       if self.is_missing(includer, search, name)]
                pairs += self.known[key]
        return pairs

    def is_missing(self, includer, search, name):
        if name.startswith("/"):
            return False
        return any(path not in self.here for path in self.files.each((os.path.dirname(includer), *search), name))


def names_of(path, folders):
    """Returns the names by which a file is found below these directories."""
    fronts = [os.path.join(folder, "") for folder in folders]
    return unique(path[len(front):] for front in fronts if path.startswith(front))
