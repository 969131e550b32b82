#!/usr/bin/env python3
"""Cuts the output of `cppunits text` into files, one for each unit, which a compiler takes as preprocessed."""
import os
import re

from common import DONE, PARTLY, Refused, own_names, parser, run, say, units, written

TEXT = """\
Cut the output of `cppunits text` into files, one for each unit.  A compiler takes them as preprocessed text by their
suffix, or under -x cpp-output; give clang -fno-trigraphs.

Example:
  cppunits --root . text < list.json | text.py --into text
  gcc -c text/src/main.c.i

Without --into, write one unit's text to standard output: that of --unit, or the first.  With --into, write DIR/NAME.i
for each unit, and DIR/NAME.I.i if unit I is a further unit of that file.

A unit with a fault has its text only up to the fault, so it isn't written; use --partial to write it."""
LINE = b"|"
MARKER = re.compile(rb'(?:# \d+ "|\Z)')


def text_of(unit):
    """Returns the lines of a unit's text; refuses a unit of another output, since no text of a unit without a fault is empty."""
    found = [line[1:] + b"\n" for line in unit.lines if line.startswith(LINE)]
    if not found and unit.fault is None:
        raise Refused("unit %d has no text: the output of `cppunits text` is wanted" % unit.number)
    return found


def write_text(text, path):
    """Writes a text to a file; refuses to replace a file of another kind."""
    if path != "-" and os.path.isfile(path):
        with open(path, "rb") as file:
            if not MARKER.match(file.read(100)):
                raise Refused("%s is there and is no text of a compiler's preprocessor, so it stays" % path)
    with written(path) as file:
        file.write(text)


def main():
    asked = parser(TEXT, "a unit has a fault and no text; one line on standard error for each")
    asked.add_argument("output", metavar="OUTPUT", nargs="?", default="-",
                       help="read this output of `cppunits text` (default: standard input)")
    asked.add_argument("--unit", metavar="I", type=int, default=0, help="write the text of this unit (default: 0)")
    asked.add_argument("--into", metavar="DIR", help="write a file for each unit to this directory")
    asked.add_argument("--partial", action="store_true", help="write the text of a unit with a fault too")
    asked = asked.parse_args()
    status, found = DONE, False
    for unit, own in own_names(units(asked.output), ".i"):
        if asked.into is None and unit.number != asked.unit:
            continue
        found = True
        if unit.fault is not None:
            say("unit %d, %s: fault %s" % (unit.number, os.fsdecode(unit.name), unit.fault))
            status = PARTLY
        if unit.fault is None or asked.partial:
            write_text(b"".join(text_of(unit)), "-" if asked.into is None else os.path.join(asked.into, own))
    if asked.into is None and not found:
        raise Refused("there is no unit %d" % asked.unit)
    return status


if __name__ == "__main__":
    run(main)
