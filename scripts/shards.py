#!/usr/bin/env python3
"""Cuts a list by its units, and joins the outputs of the parts."""
import argparse
import contextlib
import hashlib
import itertools
import os
import re
import shutil
import tempfile

from common import DONE, PARTLY, Refused, compact, parser, read_list, run, units, written

TEXT = """\
Cut a list by its units, and join the outputs of the parts.

  shards.py cut N [--into DIR] LIST        write DIR/000.json, DIR/001.json ..: N lists with the same files and
                                           setting, each with a part of the units, in order
  shards.py join [--list LIST] OUTPUT ..   write to standard output what one run over the whole list prints, from
                                           the outputs of all parts in the order of the lists

Example:  shards.py cut 4 --into shards list.json

The last unit of a part is its mark.  It ends in fault 11, whose text names the part, the number of parts and the SHA-256
of the whole list.  So cppunits ends with status 1 for each part that is done.  `join` checks the marks and leaves them
out.  It refuses an output without its end, a part of another list, a part that is missing or in the wrong place, and
bytes that cppunits doesn't print.

Use --list to refuse the parts of every list but this one.
LIST may be `-`, standard input."""
MAX_SHARDS, MAX_UNITS = 65535, 65535
# a parameter list without its end: in each profile fault 11, before any file is opened
MARK = "cppunits_part_%d_of_%d_in_%s("
MARKED = re.compile(rb"fault 11 65535:\d+:\d+ cppunits_part_(\d{1,5})_of_(\d{1,5})_in_([0-9a-f]{64})")
# a byte that isn't printed as it is, or a number of a byte that is
OTHER = re.compile(rb"[^ -~]|%(?![0189A-F][0-9A-F]|25|7F)")
PLACE = rb"\d{1,5}:\d{1,10}:\d{1,10}"
NAME = re.compile(rb".+")
ITEM = re.compile(rb"p?tok %s %s [incspo][+-] .+|(?:prag|in) %s" % (PLACE, PLACE, PLACE))
DEPENDENCY = re.compile(rb"dep \d{1,5} .+")
LAST = re.compile(rb"ok|fault \d{1,2} %s(?: .+)?" % PLACE)


def cut(asked):
    whole = read_list(asked.list)
    all_units = whole["units"]
    if -(-len(all_units) // asked.count) >= MAX_UNITS:
        raise Refused("%d parts are too few: with its mark a part has at most %d units" % (asked.count, MAX_UNITS))
    file, digest = any_file(asked.list, whole["files"]), digest_of(whole)
    width = max(3, len(str(asked.count - 1)))
    numbers = ["%0*d" % (width, number) for number in range(asked.count)]
    refuse_others(asked.into, set(numbers))
    for at, number in enumerate(numbers):
        begin, end = (part * len(all_units) // asked.count for part in (at, at + 1))
        mark = {"file": file, "define": [MARK % (at, asked.count, digest)]}
        with written(os.path.join(asked.into, number + ".json")) as part:
            part.write(compact(dict(whole, units=all_units[begin:end] + [mark])))
    return DONE


def any_file(path, files):
    """Returns the name of a list's first file."""
    name = files[0].get("name") if files and isinstance(files[0], dict) else None
    if not isinstance(name, str):
        raise Refused("%s: files[0] is to have a name" % path)
    return name


def digest_of(whole):
    return hashlib.sha256(compact(whole)).hexdigest()


def refuse_others(folder, numbers):
    """Refuses a directory that has files of a cut into more parts, which would be taken for parts of this one."""
    for name in sorted(os.listdir(folder)) if os.path.isdir(folder) else ():
        number = re.match(r"(\d{3,})\.", name)
        if number and number[1] not in numbers:
            raise Refused("%s is left of another cut" % os.path.join(folder, name))


class Marks:
    """Checks that the marks are those of all parts of one list, in order."""

    def __init__(self, digest):
        # the digest and the number of parts are those of the first mark, if no list says which digest is wanted
        self.digest, self.count, self.next = digest, None, 0

    def take(self, path, unit):
        """Checks the last unit of an output, which is to be the mark of the next part."""
        found = MARKED.fullmatch(unit.last) if unit and not unit.lines else None
        if not found:
            raise Refused("%s: the end is missing: its last unit isn't the mark of a part" % path)
        number, count, digest = int(found[1]), int(found[2]), found[3].decode()
        if (self.digest or digest) != digest:
            raise Refused("%s: it is a part of another list" % path)
        if (self.count or count) != count:
            raise Refused("%s: it is one of %d parts, and the part before it one of %d" % (path, count, self.count))
        if number != self.next:
            raise Refused("%s: it is part %d, and part %d is wanted here" % (path, number, self.next))
        self.digest, self.count, self.next = digest, count, number + 1

    def end(self):
        if self.next != self.count:
            raise Refused("part %d of %d is missing" % (self.next, self.count))


@contextlib.contextmanager
def written_at_once(path):
    """Opens the output; standard output gets nothing before all is there."""
    with written(path) as file:
        if path != "-":
            yield file
            return
        with tempfile.TemporaryFile() as whole:
            yield whole
            whole.seek(0)
            shutil.copyfileobj(whole, file)


def join(asked):
    marks = Marks(digest_of(read_list(asked.list)) if asked.list else None)
    count, faults = 0, False
    with written_at_once(asked.output) as file:
        for path in asked.outputs:
            last = None
            for unit in units(path):
                check(path, unit)
                if last:
                    put(file, last, count)
                    count += 1
                    faults |= last.fault is not None
                last = unit
            marks.take(path, last)
        marks.end()
    return PARTLY if faults else DONE


def check(path, unit):
    """Refuses a unit with a line that cppunits doesn't print."""
    # the lines of a text have any bytes
    texts = len(list(itertools.takewhile(lambda line: line.startswith(b"|"), unit.lines)))
    items = sum(not line.startswith(b"dep ") for line in unit.lines)
    for form, lines in (NAME, [unit.printed]), (ITEM, unit.lines[texts:items]), (DEPENDENCY, unit.lines[items:]), (LAST, [unit.last]):
        if not all(map(form.fullmatch, lines)) or any(map(OTHER.search, lines)):
            line = next(line for line in lines if not form.fullmatch(line) or OTHER.search(line))
            raise Refused("%s: unit %d has a line that cppunits doesn't print: %s" % (path, unit.number, line[:60].decode("latin-1")))


def put(file, unit, number):
    file.write(b"unit %d %s\n" % (number, unit.printed))
    file.writelines(line + b"\n" for line in unit.lines)
    file.write(unit.last + b"\n")


def number_of_parts(word):
    count = int(word) if word.isdecimal() else 0
    if not 1 <= count <= MAX_SHARDS:
        raise argparse.ArgumentTypeError("a number from 1 to %d is expected" % MAX_SHARDS)
    return count


def main():
    asked = parser(TEXT, "join: some unit has a fault, as for cppunits")
    words = asked.add_subparsers(required=True, metavar="cut|join")
    word = words.add_parser("cut", help="cut a list into N lists")
    word.add_argument("count", metavar="N", type=number_of_parts, help="the number of lists, 1 to 65535")
    word.add_argument("list", metavar="LIST", help="read this list; `-` is standard input")
    word.add_argument("--into", metavar="DIR", default="shards", help="write the lists to this directory (default: shards)")
    word.set_defaults(task=cut)
    word = words.add_parser("join", help="join the outputs")
    word.add_argument("outputs", metavar="OUTPUT", nargs="+")
    word.add_argument("--list", metavar="LIST", help="refuse the parts of every list but this one")
    word.add_argument("--output", metavar="FILE", default="-", help="write here (default: standard output)")
    word.set_defaults(task=join)
    asked = asked.parse_args()
    return asked.task(asked)


if __name__ == "__main__":
    run(main)
