#!/usr/bin/env python3
"""Tests rows of single tokens by the program's output: their kinds, spellings, space marks and locations.

    tests/token_tests.py [PROGRAM] [-k NAME]

The grammars of the standard's 6.4 say where a text's first token ends; a byte above 127 counts as part of a name.  A `'` or `"` that begins
no literal is fault 7.  The other rows are this project's own.
"""
import unittest

from counted import dumped, main, spelled

# Texts, the letter for the kind of each text's first token, and that token's length.
CUT = [
    (b".5e+3.x,", "n", 7),
    (b"0x1p-3 ", "n", 6),
    (b"1..2-3", "n", 4),
    (b"1e+e+-", "n", 5),
    (b"1\\u00e9z'", "n", 8),
    (b"a$\x80\xff_9Z-", "i", 7),
    (b"\\u00e9\\U0001F600x1+", "i", 18),
    (b"a\\u00e", "i", 1),
    (b"\\u12", "o", 1),
    (b"u8\"a\\\"b\"c", "s", 8),
    (b"u8'a'", "i", 2),
    (b"u'a'", "c", 4),
    (b"U\"\"", "s", 3),
    (b"L'x'", "c", 4),
    (b"'\\''x", "c", 4),
    (b"'\"'", "c", 3),
    (b"\"'\"", "s", 3),
    (b"''", "o", 1),
    (b"'a", "o", 1),
    (b"'a\n'", "o", 1),
    (b"\"abc", "o", 1),
    (b"L'", "i", 1),
    (b"%:%:x", "p", 4),
    (b"%:%", "p", 2),
    (b"....", "p", 3),
    (b"..", "p", 1),
    (b"<<=", "p", 3),
    (b"->", "p", 2),
    (b"<a b>", "p", 1),
    (b"@", "o", 1),
    (b"`", "o", 1),
    (b"\\", "o", 1),
    (b"\x00", "o", 1),
]
# Lines of `#include` without another file, and their faults; fault 31 has the name in the header name.
HEADERS = [
    (b"%:include<a b>", "31 0:1:1 a b"),
    (b"%:include<a b>c>", "30 0:1:1"),
    (b"%:include\"a\\\"b\"", "7 0:1:15 \""),
    (b"%:include<a\"b>", "31 0:1:1 a\"b"),
    (b"%:include<>", "30 0:1:1"),
    (b"%:include<a\n>", "30 0:1:1"),
    (b"%:include\"a", "7 0:1:10 \""),
    # after another token it is no header name, and macros are replaced in it
    (b"#define x\n#define a b\n%:include x<a>", "31 0:3:1 b"),
    (b"#define include\n#define a b\n%:include include<a>", "31 0:3:1 b"),
]
# Texts, and their tokens as printed.
PLACED = [
    (b"a+b/**/c", ["0:1:1 0:1:1 i+ a", "0:1:2 0:1:2 p- +", "0:1:3 0:1:3 i- b", "0:1:8 0:1:8 i+ c"]),
    # the tokens of a macro's replacement list and of an argument
    (b"#define f(a) a*g\n#define g(a) f(a)\nf(2)(9)",
     ["0:3:3 0:3:1 n+ 2", "0:1:15 0:3:1 p- *", "0:3:6 0:3:1 n- 9", "0:1:15 0:3:1 p- *", "0:1:16 0:3:1 i- g"]),
    (b"#define L __LINE__\n\nL", ["0:1:11 0:3:1 n+ 3"]),
    (b"#define L __LINE__\n#line 1\nL", ["0:1:11 0:3:1 n+ 1"]),
    # the second of two equal definitions
    (b"#define X 1\n#define X 1\nX", ["0:2:11 0:3:1 n+ 1"]),
    # the mark of a removed token is kept
    (b"#define E\n\n[ E]-", ["0:3:1 0:3:1 p+ [", "0:3:4 0:3:4 p+ ]", "0:3:5 0:3:5 p- -"]),
    (b"#define E F\n#define F\n[ E]-", ["0:3:1 0:3:1 p+ [", "0:3:4 0:3:4 p+ ]", "0:3:5 0:3:5 p- -"]),
]
# A spelling of up to 14 bytes is stored in another way than a longer one.
LENGTHS = [1, 2, 13, 14, 15, 26]
LETTERS = "abcdefghijklmnopqrstuvwxyz"


def printed(text):
    """Returns the printed tokens of a unit of a text, each without the word `tok`, and its end."""
    lines = [line.decode() for line in dumped([{"name": "a.c", "hex": text.hex()}], [{"file": "a.c"}])[0]]
    return [line.removeprefix("tok ") for line in lines if line.startswith("tok ")], lines[-1].removeprefix("fault ")


class Tokens(unittest.TestCase):
    def test_the_first_is_the_longest(self):
        for text, kind, length in CUT:
            # a word comes before it, so that no `%:` begins a directive, and a blank after it, so that no `\` ends the file
            tokens, end = printed(b"x " + text + b" ")
            front = text[:length].decode("latin-1")
            if front in ("'", '"'):
                self.assertEqual((len(tokens), end), (1, "7 0:1:3 " + front), text)
            else:
                self.assertEqual(spelled(tokens[1].encode()), "0:1:3 0:1:3 %s+ %s" % (kind, front), text)

    def test_header_names(self):
        for text, wanted in HEADERS:
            self.assertEqual(printed(text), ([], wanted), text)

    def test_marks_and_places(self):
        for text, wanted in PLACED:
            self.assertEqual(printed(text), (wanted, "ok"), text)

    def test_spellings_that_are_read_and_pasted(self):
        for name in [LETTERS[:length] for length in LENGTHS]:
            parts = ["J(%s,%s)" % (name[:cut], name[cut:]) for cut in range(len(name) + 1)]
            text = "#define J(a,b) a##b\n#define X %s\n%s\nX\n%s" % ("##".join(name), name, "\n".join(parts))
            tokens, end = printed(text.encode())
            self.assertEqual([token.split(" ")[2:] for token in tokens], [["i+", name]] * (len(parts) + 2), name)
            self.assertEqual(end, "ok")
        self.assertEqual(printed(b"#define J(a,b) a##b\nJ(,)"), ([], "ok"))


if __name__ == "__main__":
    main()
