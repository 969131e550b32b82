"""Reads the tokens of a source from a location on, each with its own location, for messages about a line.

Trigraphs count at the end of a line alone.  A token that isn't read as the program reads it makes a message less exact, and no more."""
import bisect
import re
from collections import namedtuple

# the most bytes and lines that are read
MAX_BYTES, MAX_LINES = 16384, 2000
WORD = rb"[A-Za-z_$\x80-\xff][\w$\x80-\xff]*"
TOKEN = re.compile(
    rb"(?P<skipped>[ \t\v\f\r]+|/\*.*?(?:\*/|\Z)|//[^\n]*)|(?P<end>\n)"
    rb"|(?P<string>(?:u8|[uUL])?\"(?:\\.|[^\"\\\n])*\")|(?P<character>[uUL]?'(?:\\.|[^'\\\n])*')"
    rb"|(?P<unmatched>['\"][^\n]*)"
    rb"|(?P<number>\.?[0-9](?:[eEpP][+-]|[\w.$\x80-\xff])*)|(?P<name>" + WORD + rb")"
    rb"|(?P<sign>%:%:|\.\.\.|<<=|>>=|->|\+\+|--|<<|>>|<=|>=|==|!=|&&|\|\||[*/%+\-&^|]=|##|%:|<:|:>|<%|%>|.)", re.DOTALL)

# its kind is the name of a group of TOKEN
Token = namedtuple("Token", "kind text line column")


class Unclear(Exception):
    """Is raised if a line is too long."""


class Text:
    """Is the text of a source from a location on, without splices."""

    def __init__(self, lines, line, column, trigraphs):
        """lines: the physical lines of the source, without their ends; line and column: where to begin, from 1."""
        splices = (b"\\", b"??/") if trigraphs else (b"\\",)
        self.starts, self.places, pieces, length = [], [], [], 0
        for number in range(line, min(len(lines) + 1, line + MAX_LINES)):
            if length >= MAX_BYTES:
                break
            piece = lines[number - 1].rstrip(b"\r")[column - 1:]
            end = next((end for end in splices if piece.endswith(end)), None)
            piece = piece[:-len(end)] if end else piece + b"\n"
            self.starts.append(length)
            self.places.append((number, column))
            pieces.append(piece)
            length, column = length + len(piece), 1
        self.text = b"".join(pieces)[:MAX_BYTES]
        self.is_cut = length > MAX_BYTES or number < len(lines)

    def place(self, offset):
        """Returns the line and the column of a byte."""
        at = bisect.bisect_right(self.starts, offset) - 1
        line, column = self.places[at]
        return line, column + offset - self.starts[at]

    def tokens(self):
        """Yields the tokens; the end of a line is one, too."""
        for found in TOKEN.finditer(self.text):
            if found.lastgroup != "skipped":
                yield Token(found.lastgroup, found[0], *self.place(found.start()))

    def line(self):
        """Returns the tokens of the first line."""
        found = []
        for token in self.tokens():
            if token.kind == "end":
                return found
            found.append(token)
        if self.is_cut:
            raise Unclear
        return found

    def begins(self, token, word):
        """Returns whether a word is where a token begins."""
        offset = next(start + token.column - column for start, (line, column) in zip(self.starts, self.places) if line == token.line)
        return self.text.startswith(word, offset)


def tokens_of(text):
    """Returns the tokens of a text that is one line."""
    return Text([text], 1, 1, False).line()
