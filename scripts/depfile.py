#!/usr/bin/env python3
"""Makes dependency files for make and ninja from the output of `cppunits deps`, one for each unit."""
import functools
import os
import re

from common import DONE, PARTLY, Refused, opened, own_names, parser, run, say, units, written

TEXT = """\
Make dependency files from the output of `cppunits deps` (or `dump`), one for each unit: DIR/NAME.d for the unit of the
file NAME, and DIR/NAME.I.d if unit I is a further unit of that file.  Each has one rule, escaped for ninja and GNU make
(as gcc -MD does): the target, a colon, and the unit's dependencies.

Example:  cppunits --root . deps < list.json | depfile.py --into d

The target is NAME with its last suffix replaced by `.o`.  Use --targets for other targets: a file with one on each
line, as list_from_build.py --targets writes it.  Names are relative to the list's root.  Use --prefix to add the path
from the build directory to the root.

A unit with a fault has its dependencies only up to the fault, so its file isn't written; use --partial to write it."""
# bytes that can't be written in a way that both ninja and make read
UNWRITABLE = re.compile(rb"[\x00-\x1f\x7f*;<>|^`]|\\$|\\ ")


@functools.lru_cache(maxsize=65536)
def escaped(name):
    """Returns a name escaped for a rule.  A backslash elsewhere needs no escape."""
    if UNWRITABLE.search(name):
        raise Refused("the name %s can't be written so that ninja and make read it" % os.fsdecode(name))
    return name.replace(b"$", b"$$").replace(b"#", b"\\#").replace(b" ", b"\\ ").replace(b":", b"\\:")


def rule(targets, names, headers):
    """Returns the rule's text, and an empty rule for each header, so that make goes on if a header is gone; the targets are escaped."""
    text = targets + b":" + b"".join(b" \\\n  " + escaped(name) for name in names) + b"\n"
    return text + b"".join(escaped(name) + b":\n" for name in headers)


def object_of(name):
    end = ".o" if isinstance(name, str) else b".o"
    return os.path.splitext(name)[0] + end


def targets_of(path):
    """Returns the targets in a file, or None without a file."""
    if path is None:
        return None
    with opened(path) as file:
        return file.read().split(b"\n")[:-1]


def target_of(unit, targets):
    if targets is None:
        return object_of(unit.name)
    if unit.number >= len(targets):
        raise Refused("there is no target for unit %d" % unit.number)
    return targets[unit.number] or object_of(unit.name)


def main():
    asked = parser(TEXT, "a unit has a fault and no file; one line on standard error for each")
    asked.add_argument("output", metavar="OUTPUT", nargs="?", default="-",
                       help="read this output of cppunits (default: standard input)")
    asked.add_argument("--into", metavar="DIR", default=".", help="write the files to this directory (default: the current one)")
    asked.add_argument("--prefix", metavar="TEXT", default="", help="put this before each dependency, e.g. ../")
    asked.add_argument("--targets", metavar="FILE", help="read the target of each unit from a line of this file; an empty line is NAME.o")
    asked.add_argument("--phony", action="store_true", help="add a rule without prerequisites for each header, for make")
    asked.add_argument("--partial", action="store_true", help="write the file of a unit with a fault too")
    asked = asked.parse_args()
    targets, prefix, status = targets_of(asked.targets), os.fsencode(asked.prefix), DONE
    for unit, own in own_names(units(asked.output), ".d"):
        if unit.fault is not None:
            say("unit %d, %s: fault %s" % (unit.number, os.fsdecode(unit.name), unit.fault))
            status = PARTLY
        if unit.fault is None or asked.partial:
            names = [prefix + name for name in unit.dependencies()]
            if not names and unit.fault is None:
                raise Refused("unit %d has no dependencies: the output of `cppunits deps` is wanted" % unit.number)
            headers = [name for name in names if name != prefix + unit.name] if asked.phony else []
            text = rule(escaped(target_of(unit, targets)), names, headers)
            with written(os.path.join(asked.into, own)) as file:
                file.write(text)
    return status


if __name__ == "__main__":
    run(main)
