"""Puts the comments back into a text by which gcc knows that a case is meant to go on in the next.

Phase 3 drops comments, and gcc looks for these in preprocessed text, too (-Wimplicit-fallthrough).  A comment is white space, so the tokens
stay as they are."""
import functools
import os
import re

from files import content

# the comments that gcc takes under -Wimplicit-fallthrough=3
SAYS = rb"(?:-fallthrough|@fallthrough@|lint -fallthrough[ \t]*|[ \t.!]*(?:else,?[ ]|intentional(?:ly)?[ ])?fall(?:s[ ]|[ ]|-)?thr(?:ough|u)[ \t.!]*(?:-[^*\n]*)?)"
FALL = re.compile(rb"/\*%s\*/|//%s$" % (SAYS, SAYS), re.IGNORECASE | re.MULTILINE)
BEHIND = re.compile(rb"(?:[ \t\v\f\r\n]|/\*.*?\*/|//[^\n]*)*", re.DOTALL)
MARKER = re.compile(rb'# (\d+) "((?:[^"\\]|\\.)*)"((?: \d)*)')
COMMENT = b"/*FALLTHRU*/"


@functools.lru_cache(maxsize=None)
def lines_after_comments(path):
    """Returns the lines of a file whose first token comes after such a comment."""
    data = content(path)
    return {data.count(b"\n", 0, BEHIND.match(data, found.end()).end()) + 1 for found in FALL.finditer(data)}


def with_comments(text, directory):
    """Returns the text with such a comment in front of each line that has one in its source; headers of the system cause no warnings."""
    out, lines, number = [], (), 0
    for line in text.split(b"\n"):
        found = MARKER.fullmatch(line)
        if found:
            name = os.path.join(os.fsencode(directory), re.sub(rb"\\(.)", rb"\1", found[2]))
            lines = () if b"3" in found[3].split() else lines_after_comments(name)
            number = int(found[1]) - 1
        elif number in lines and line.strip() and line[:1] != b"#":
            body = line.lstrip(b" ")
            line = COMMENT + b" " * max(0, len(line) - len(body) - len(COMMENT)) + body
        number += 1
        out.append(line)
    return b"\n".join(out)
