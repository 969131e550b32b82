"""Has what the scripts share: exit statuses, files written whole or not at all, and a reader of the output of cppunits."""
import contextlib
import json
import os
import re
import signal
import sys
import time

DONE, PARTLY, USAGE, REFUSED, STREAM = 0, 1, 2, 3, 5

STATUSES = """\
status:
  0  done
  1  %s
  2  the command line is refused
  3  an input is refused: one line on standard error says why
  5  a file can't be read or written
  130  interrupted
"""


class Refused(Exception):
    """Is raised if an input doesn't have the required form."""


def parser(text, partly):
    """Returns a parser whose help ends with the exit statuses; `partly` says when the status is 1."""
    # loaded here, since a compiler's front has no use for it and starts for each file
    import parsing
    return parsing.Parser(description=text, epilog=STATUSES % partly, formatter_class=parsing.FORM)


def say(text):
    """Prints a line on standard error, after the script's name; a byte that isn't text is printed as %XX."""
    line = "%s: %s" % (os.path.basename(sys.argv[0]), text)
    print("".join(shown(c) for c in line), file=sys.stderr)


def shown(character):
    if character.isprintable():
        return character
    errors = "surrogateescape" if "\udc80" <= character <= "\udcff" else "surrogatepass"
    return "".join("%%%02X" % byte for byte in character.encode("utf-8", errors))


def run(main):
    """Runs a script, prints at most one line if it fails, and exits with its status."""
    try:
        # exit as an interrupt does, so that no file is left; under nohup SIGHUP is ignored
        for number in signal.SIGTERM, signal.SIGHUP:
            if signal.getsignal(number) != signal.SIG_IGN:
                signal.signal(number, signal.default_int_handler)
        status = main()
        sys.stdout.flush()
    except Refused as refusal:
        say(refusal)
        status = REFUSED
    except OSError as error:
        say("%s: %s" % (error.filename, error.strerror) if error.filename else error.strerror or error)
        status = STREAM
        with contextlib.suppress(OSError):
            os.dup2(os.open(os.devnull, os.O_WRONLY), 1)
    except KeyboardInterrupt:
        status = 130
    sys.exit(status)


@contextlib.contextmanager
def written(path):
    """Opens a binary file that gets its name, or the target of its link, only when all is written; `-` is standard output."""
    if path == "-":
        yield sys.stdout.buffer
        return
    if os.path.exists(path) and not os.path.isfile(path):
        # a device or a pipe isn't replaced, but written to
        with open(path, "wb") as file:
            yield file
        return
    path = os.path.realpath(path)
    folder = os.path.dirname(path)
    os.makedirs(folder, exist_ok=True)
    beside = os.path.join(folder, ".%d.%d.part" % (os.getpid(), time.monotonic_ns()))
    try:
        with open(os.open(beside, os.O_WRONLY | os.O_CREAT | os.O_EXCL, 0o666), "wb") as file:
            yield file
        os.replace(beside, path)
    except BaseException:
        with contextlib.suppress(OSError):
            os.unlink(beside)
        raise


@contextlib.contextmanager
def opened(path):
    """Opens a binary file to read; `-` is standard input."""
    if path == "-":
        yield sys.stdin.buffer
        return
    with open(path, "rb") as file:
        yield file


def read_list(path):
    """Reads a list's JSON object; checks only that it has files and units."""
    with opened(path) as file:
        value = read_json(path, file.read())
    if not isinstance(value, dict) or not all(isinstance(value.get(k), list) for k in ("files", "units")):
        raise Refused("%s is no list: it is to be an object with the arrays `files` and `units`" % path)
    return value


def read_json(path, data):
    try:
        return json.loads(data.decode("utf-8"))
    except (ValueError, RecursionError) as error:
        raise Refused("%s is no JSON: %s" % (path, error)) from None


def compact(value):
    """Returns a list's bytes: JSON on one line.  A lone surrogate, which UTF-8 can't have, stays as it was written."""
    text = json.dumps(value, ensure_ascii=False, separators=(",", ":")) + "\n"
    return text.encode("utf-8", "backslashreplace")


def plain(word):
    """Returns the bytes that a printed name or spelling stands for."""
    return re.sub(rb"%([0-9A-F]{2})", lambda pair: bytes([int(pair[1], 16)]), word)


class Unit:
    """Is a unit of the output: its number, its name as printed, the lines after that, and its last line."""

    def __init__(self, number, printed):
        self.number, self.printed, self.lines, self.last = number, printed, [], None

    @property
    def name(self):
        """Returns its file's name, as bytes."""
        return plain(self.printed)

    @property
    def fault(self):
        """Returns what follows `fault` in its last line, or None."""
        return None if self.last == b"ok" else self.last[6:].decode("ascii", "replace")

    def dependencies(self):
        """Returns the names of its dependencies, as bytes, in a compiler's order: its own file comes before those that are read first."""
        names = [plain(line.split(b" ", 2)[2]) for line in self.lines if line.startswith(b"dep ")]
        return sorted(names, key=lambda name: name != self.name)


INSIDE = (b"tok ", b"prag ", b"ptok ", b"|", b"in ", b"dep ")


def units(path):
    """Yields the units of an output in order; refuses a file that isn't a complete output."""
    with opened(path) as file:
        yield from units_of(path, file)


def units_of(path, lines):
    """Yields the units from an output's lines, as bytes; error messages use the path as the name."""
    unit, count = None, 0
    for number, line in enumerate(lines, 1):
        if not line.endswith(b"\n"):
            raise Refused("%s, line %d: the output is cut off" % (path, number))
        line = line[:-1]
        if unit is None:
            unit = begun("%s, line %d" % (path, number), line, count)
            count += 1
        elif line.startswith(INSIDE):
            unit.lines.append(line)
        elif line == b"ok" or line.startswith(b"fault "):
            unit.last = line
            yield unit
            unit = None
        else:
            raise Refused("%s, line %d: no line that cppunits prints within a unit" % (path, number))
    if unit is not None:
        raise Refused("%s: the output is cut off within unit %d" % (path, unit.number))


def begun(where, line, number):
    words = line.split(b" ", 2)
    if len(words) != 3 or words[:2] != [b"unit", b"%d" % number]:
        raise Refused("%s: `unit %d` and a name are wanted" % (where, number))
    return Unit(number, words[2])


def own_names(all_units, end):
    """Yields each unit with a file name of its own: its file's name and the suffix, with its number if that name is taken."""
    taken = set()
    for unit in all_units:
        name = os.fsdecode(unit.name)
        own = name + end
        while own in taken:
            name += ".%d" % unit.number
            own = name + end
        taken.add(own)
        yield unit, own
