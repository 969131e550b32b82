#!/usr/bin/env python3
"""Compares files with translation phases 1 and 2 done one after the other, by the tokens and locations that the program prints.

    tests/phase_tests.py [PROGRAM] [-k NAME]

Phase 1 removes a byte order mark and each return before a new-line, adds the last new-line and replaces trigraphs (5.2.1.1), except in the
profile gnu.  Phase 2 deletes each splice, and requires that the file doesn't end in one (5.1.1.2p1, phases 1 and 2).  Each character keeps the
line and column of its first byte.
"""
import itertools
import re
import unittest
from dataclasses import dataclass, replace

from counted import dumped, main, spelled

MARK = "\ufeff".encode()
TRIGRAPHS = dict(zip("=(/)'<!>-", "#[\\]^{|}~"))
PROFILES = "c11", "gnu"


@dataclass(frozen=True)
class Char:
    code: str
    line: int
    col: int

    @property
    def place(self):
        return "%d:%d" % (self.line, self.col)


def placed(data):
    """Returns each byte after a byte order mark, with its location."""
    chars, line, col = [], 1, 1
    for code in data.removeprefix(MARK).decode("latin-1"):
        chars.append(Char(code, line, col))
        line, col = (line + 1, 1) if code == "\n" else (line, col + 1)
    return chars


def stands(chars, at, text):
    """Returns whether these characters are at this place."""
    return "".join(char.code for char in chars[at:at + len(text)]) == text


def without_returns(chars):
    return [char for at, char in enumerate(chars) if not stands(chars, at, "\r\n")]


def terminated(chars):
    """Returns the characters with a new-line after the last one, if there is text without one."""
    if not chars or chars[-1].code == "\n":
        return chars
    return [*chars, Char("\n", chars[-1].line, chars[-1].col + 1)]


def without_trigraphs(chars):
    """Returns the characters with each trigraph replaced, at the location where it begins."""
    replaced, at = [], 0
    while at < len(chars):
        is_one = stands(chars, at, "??") and at + 2 < len(chars) and chars[at + 2].code in TRIGRAPHS
        replaced.append(replace(chars[at], code=TRIGRAPHS[chars[at + 2].code]) if is_one else chars[at])
        at += 3 if is_one else 1
    return replaced


def without_splices(chars):
    kept, at = [], 0
    while at < len(chars):
        if stands(chars, at, "\\\n"):
            at += 2
        else:
            kept.append(chars[at])
            at += 1
    return kept


def cleaned(data, profile):
    """Returns the characters after phase 2, or the location of the backslash that the file must not end in."""
    chars = terminated(without_returns(placed(data)))
    if profile != "gnu":
        chars = without_trigraphs(chars)
    if stands(chars, len(chars) - 2, "\\\n"):
        return chars[-2].place
    return without_splices(chars)


def blanks(chars):
    """Returns how many characters are white space and comments before the first token, up to the end of their line."""
    text = "".join(char.code for char in chars)
    return re.match(r"(?:[\r\n]|//.*)*", text).end()


def rest_after(token, chars):
    """Returns what follows a token, which must be the first of these characters, at its location."""
    place, text = token
    rest = chars[blanks(chars):]
    if not stands(rest, 0, text) or rest[0].place != place:
        raise AssertionError("%r at %s, where %r stands" % (text, place, rest[:len(text)]))
    return rest[len(text):]


def printed(texts, profile):
    """Returns the result of a unit of each of these texts."""
    names = ["%d.c" % number for number in range(len(texts))]
    files = [{"name": name, "text": text.decode()} for name, text in zip(names, texts)]
    return [result_of(lines) for lines in dumped(files, [{"file": name} for name in names], profile=profile)]


def result_of(lines):
    """Returns a unit's tokens with their locations, or the location of its fault 2."""
    fault = re.match(rb"fault 2 \d+:(\d+:\d+)", lines[-1])
    if fault:
        return fault[1].decode()
    if lines[-1] != b"ok":
        raise AssertionError(lines[-1])
    tokens = [line.split(b" ", 4) for line in lines if line.startswith(b"tok ")]
    return [(place.split(b":", 1)[1].decode(), spelled(text)) for _, place, _, _, text in tokens]


# Texts without directives; most of their characters are tokens of their own.
TEXTS = [
    MARK + b"@\n",
    b"@\r\n;\r\n",
    b"@\r;\n",
    b"@\r\r\n;\r\r\n",
    b"@",
    b"",
    b"@\\\n;\n",
    b"@??/\n;\n",
    b"@??/\r\n;\n",
    b"@\\\r\n;\n",
    b"????=\n???/\n",
    b"???/\n@\n",
    b"@??=\r\n",
    b"@??=\\\n;\n",
    b"@\\\n\\\n\\\n;\n",
    b"@\\\n",
    b"@\\",
    b"@??/",
    b"@\\\r\n",
    b"\\\\\n\n",
    b"@\r",
    MARK + b"??/\r\n\\\n;\r\n\r\n??(\\\n??)@",
    # many splices
    b"\r\n\r\n\r\n\r\n@\r\n\r\n",
    b"@;\r\n,~\r\n@;",
    b"@??=??(??)??'??'??<??!??>??-@??=\n??-",
    b"\\\n\\\r\n??/\n??/\r\n\\\n@;\\\n\\\n,~\n",
    b"@;??/\n??/\n,~??/\r\n??/??/\n@;",
    b"@??;?\\?,\r\r\n??/??(\\\\\n\\\r\r~\n",
]


def short_texts(codes):
    """Yields all texts of at most five of these characters."""
    return [bytes(text) for length in range(6) for text in itertools.product(codes, repeat=length)]


def readings(texts):
    """Returns each of these texts in each of the profiles, with the result of its unit."""
    return [(data, profile, read) for profile in PROFILES for data, read in zip(texts, printed(texts, profile), strict=True)]


class Phases(unittest.TestCase):
    def agree(self, texts):
        for data, profile, read in readings(texts):
            with self.subTest(data=data, profile=profile):
                rest = cleaned(data, profile)
                if isinstance(read, str) or isinstance(rest, str):
                    self.assertEqual(read, rest)
                    continue
                for token in read:
                    rest = rest_after(token, rest)
                self.assertEqual(blanks(rest), len(rest))

    def test_short_texts(self):
        self.agree(short_texts(b"@?/(\\\r\n"))

    def test_texts(self):
        self.agree(TEXTS)

    def test_places_behind_a_comment(self):
        """Asks for each location at once, after everything before it."""
        fronts = [data[:length] for data in TEXTS for length in range(len(data) + 1) if length not in (1, 2) or not data.startswith(MARK)]
        for data, profile, read in readings([b"/*" + front + b"*/@" for front in fronts]):
            with self.subTest(data=data, profile=profile):
                self.assertEqual(read, [(cleaned(data, profile)[-2].place, "@")])

    def test_numbers_of_lines(self):
        """Wants that the line after the one that ends a `#line` has the given number (6.10.4p3)."""
        for data, profile, read in readings([b"#line 100 //" + text + b"\n\n__LINE__" for text in short_texts(b"?/\\\r\n")]):
            with self.subTest(data=data, profile=profile):
                chars = cleaned(data, profile)
                end = next(char for char in chars if char.code == "\n")
                name = chars[-len("__LINE__\n")]
                self.assertEqual(read[-1], (name.place, str(100 + name.line - end.line - 1)))


if __name__ == "__main__":
    main()
