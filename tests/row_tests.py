#!/usr/bin/env python3
"""Tests rows of conditions, macro replacement, files, budgets, dates, times and definitions, by the program's output.

    tests/row_tests.py [PROGRAM] [-k NAME]

Values of conditions are those of `#if` in gcc 12, except for `'\xff'`, where gcc uses the sign of `char`.  The results of the examples of
6.10.3.5 are the standard's.  The other rows are this project's own.
"""
import json
import os
import re
import resource
import tempfile
import unittest

from counted import LIST, cppunits, dumped, main, spelled
from truncated import EXAMPLES


def result_of(lines):
    """Returns a unit's result as `a b | 0 2 | 31 0:4:1 y.h`: its tokens, with a pragma as `pragma@0:1:1[ once ]`, its dependencies and its end."""
    items, rows, end = [], [], ""
    for line in lines:
        word, _, rest = line.partition(b" ")
        if word != b"ptok" and items and items[-1].startswith("pragma@") and not items[-1].endswith("]"):
            items[-1] += " ]"
        if word == b"tok":
            items.append(spelled(rest.split(b" ", 3)[3]))
        elif word == b"prag":
            items.append("pragma@%s[" % rest.decode())
        elif word == b"ptok":
            items[-1] += " " + spelled(rest.split(b" ", 3)[3])
        elif word == b"dep":
            rows.append(rest.split(b" ")[0].decode())
        else:
            end = "ok" if word == b"ok" else spelled(rest)
    return " ".join([*items, "|", *rows, "|", end])


def results(files, units, root=None, **more):
    """Returns the result of each unit of a list.  With a root the files are written there; a file gone.h is on the list, but not there."""
    names = [{"name": name} if root else {"name": name, "text": text} for name, text in files]
    if root:
        for name, text in files:
            os.makedirs(os.path.dirname(os.path.join(root, name)), exist_ok=True)
            with open(os.path.join(root, name), "w", encoding="utf-8") as file:
                file.write(text)
        names.append({"name": "gone.h"})
    return [result_of(lines) for lines in dumped(names, units, *(["--root", root] if root else []), **more)]


def result_of_each(texts, **more):
    """Returns the result of a unit of each of these texts, as the only file a.c."""
    return [results([("a.c", text)], [{"file": "a.c"}], **more)[0] for text in texts]


# Expressions whose group is processed, each on a line.
TAKEN = r"""1
-1
!0
~0
1 + 1 == 2
2 - 3 == -1
2 * 3 == 6
7 / 2 == 3
-7 / 2 == -3
7 / -2 == -3
-7 % 3 == -1
7 % -3 == 1
1 << 3 == 8
-1 >> 1 == -1
-8 >> 1 == -4
-1 >> 63
0x8000000000000000 >> 63 == 1
-1 < 0
-1 > 0u
18446744073709551615u == -1
0u - 1 > 0
0u - 1 == 0xffffffffffffffff
(0u - 1) / 2 == 0x7fffffffffffffff
-1 / 2u == 0x7fffffffffffffff
-1 % 10u == 5
0 ? 1u : -1
(0 ? 1u : -1) > 0
(1 ? -1 : 0u) > 0
(0 ? 1/0 : 2) == 2
(1 ? 2 : 1/0) == 2
1 || 1/0
!(0 && 1 % 0)
1 | 1 << 63u - 60
0 ? 0 : 1 ? 1 : 0
2 + 3 * 4 == 14
(2 + 3) * 4 == 20
10 - 4 - 3 == 3
100 / 10 / 5 == 2
1 < 2 < 3
1 == 1 == 1
5 & 3 == 3
(5 & 3) == 1
(5 | 3) == 7
(5 ^ 3) == 6
(-1 & 0xff) == 255
(-8 | 3) == -5
(-8 ^ 3) == -5
~5 == -6
~0u == 0xffffffffffffffff
-0u == 0
-1u == 0xffffffffffffffffu
!!5 == 1
- - 5 == 5
+ - + 5 == -5
(1u == 1) - 2 < 0
(1u < 2u) - 2 < 0
(1u && 1u) - 2 < 0
010 == 8
0x1F == 31
0XfFuLL == 255
12lu == 12UL
0777 == 511
9223372036854775807 > 0
0x7fffffffffffffff + 0 > 0
0xffffffffffffffff > 0
01777777777777777777777 > 0
'a' == 97
'\n' == 10
'\x41' == 65
'\101' == 65
'\0' == 0
'\'' == 39
'\\' == 92
'\?' == 63
'"' == 34
'\a' + '\b' + '\t' + '\v' + '\f' + '\r' == 7 + 8 + 9 + 11 + 12 + 13
u'a' == 97
U'\xffffffff' == 4294967295
u'\xffff' == 65535
L'a' == 97
-1 > u'a'
-1 > U'a'
x == 0
!defined x && !defined ( x )
defined __STDC__
defined __LINE__ && defined __FILE__
__STDC__ == 1
__STDC_VERSION__ == 201112L
0x8000000000000000 > 0
(-1 >> 63) == -1
(1 ? -1 : 0u / 1) > 0
0 == (0 && 1/0)
(1 || 1u) - 2 < 0
'\xff' == 255
-9223372036854775807 - 1 < 0
(-9223372036854775807 - 1) >> 63 == -1
1u << 63 == 0x8000000000000000
2u << 63 == 0
4611686018427387904 << 0 > 0
"""
# Expressions whose group is skipped.
LEFT = r"""0
-1 < 0u
(1 ? -1 : 0) > 0
0 && 1/0
(1 ? 1 : 0) ? 0 : 1
1 ? 0 : 1 ? 1 : 1
3 > 2 > 1
!5
!0u - 1 < 0
-1 > L'a'
-1 > 'a'
x
defined x
defined(x)
"""
# Expressions and their values.
GROUPED = {
    "7": 7, "8-4-3": 1, "8/4/2": 1, "2+3*4": 14, "(2+3)*4": 20, "-2+3": 1, "-+~!0": 2, "1<<2+1": 8, "9>>1>>1": 2, "3>2>1": 0, "1<=1==1": 1,
    "4&6==6": 0, "1|2^3&6": 1, "0&&0||1": 1, "1||0&&0": 1, "1?2:0?3:4": 2, "0?2:0?3:4": 4, "1?0?5:6:7": 6, "1||0?2:3": 2, "(1?2:3)*4": 8,
    "1?2:3*4": 2, "1?(2):((3))": 2, "8%5-3": 0, "2-!1-1": 1, "1!=1<=0": 1,
}
# Token lists that are no expression; no token at all is another case.
UNGROUPED = r"""1 2
(
)
()
(1
1)
1?2:
1?2
1:2
?1:2
1?:2
(1?2)
(1?2):3
+
1+
*1
1!
1~2
1(2)
1@
@
1?2:3:4
"""
# Definitions, expressions after them, and the number, the byte and the text of their faults.
REFUSED = [
    # the form of an expression
    ("", "", "23 1"),
    ("", "1 2", "23 1"),
    ("", "(1", "23 1"),
    ("", "1 +", "23 1"),
    ("", "--1", "23 1"),
    ("", "\"a\"", "23 1"),
    ("", "1, 2", "23 1"),
    ("", "x = 1", "23 1"),
    ("", "@", "23 1"),
    ("", "u8'a'", "23 1"),
    ("", "f(1)", "23 1"),
    ("", "1 ? 2", "23 1"),
    ("", "9223372036854775808", "24 1 9223372036854775808"),
    ("", "-9223372036854775808", "24 1 9223372036854775808"),
    ("", "18446744073709551616u", "24 1 18446744073709551616u"),
    ("", "0x10000000000000000", "24 1 0x10000000000000000"),
    ("", "09", "24 1 09"),
    ("", "0x", "24 1 0x"),
    ("", "1.0", "24 1 1.0"),
    ("", ".1", "24 1 .1"),
    ("", "1ulu", "24 1 1ulu"),
    ("", "1lL", "24 1 1lL"),
    ("", "1 || 1x", "24 1 1x"),
    ("", "1x + 'ab'", "24 1 1x"),
    ("", "'ab' + 1x", "25 1 'ab'"),
    ("", "0 && 'ab'", "25 1 'ab'"),
    ("", "'\\u00e9'", "25 1 '\\u00e9'"),
    ("", "'\\x100'", "25 1 '\\x100'"),
    ("", "u'\\x10000'", "25 1 u'\\x10000'"),
    ("", "U'\\x100000000'", "25 1 U'\\x100000000'"),
    ("", "'\\400'", "25 1 '\\400'"),
    ("", "'\\1234'", "25 1 '\\1234'"),
    ("", "'\\8'", "25 1 '\\8'"),
    ("", "'\\q'", "25 1 '\\q'"),
    ("", "'\\x'", "25 1 '\\x'"),
    ("", "1/0", "26 1 /"),
    ("", "1 % 0u", "26 1 %"),
    ("", "(-9223372036854775807 - 1) / 0", "26 1 /"),
    ("", "0x7fffffffffffffff + 1", "27 1 +"),
    ("", "-9223372036854775807 - 2", "27 1 -"),
    ("", "4611686018427387904 * 2", "27 1 *"),
    ("", "-(-9223372036854775807 - 1)", "27 1 -"),
    ("", "(-9223372036854775807 - 1) / -1", "27 1 /"),
    ("", "(-9223372036854775807 - 1) % -1", "27 1 %"),
    ("", "1 << 64", "28 1 <<"),
    ("", "1 << -1", "28 1 <<"),
    ("", "1 >> 64u", "28 1 >>"),
    ("", "1 >> 0xffffffffffffffff", "28 1 >>"),
    ("", "-1 << 1", "28 1 <<"),
    ("", "1 << 63", "28 1 <<"),
    ("", "1/0 + (1 << 64)", "26 1 /"),
    ("", "(1 << 64) + 1/0", "28 1 <<"),
    ("", "1/0 1", "23 1"),
    ("", "1/0 ? 1 : 2", "26 1 /"),
    ("", "1/0 && 0", "26 1 /"),
    ("", "1 ? 1/0 : 2", "26 1 /"),
    # checks before and after replacement
    ("", "defined", "22 1"),
    ("", "defined 1", "22 1"),
    ("", "defined (X", "22 1"),
    ("", "defined (X 1)", "22 1"),
    ("", "defined ()", "22 1"),
    ("", "1x defined", "22 1"),
    ("#define EAT(x)\n", "EAT(defined) 1", "22 1"),
    ("#define D defined X\n", "D", "22 1"),
    ("#define D defined\n", "D 1x", "22 1"),
    ("#define D defined\n", "D (", "22 1"),
    ("#define D defined\n#define f(a) a\n", "D f(", "17 7 f"),
    ("#define f(a) a\n", "f( defined", "22 1"),
]
# Definitions, and expressions after them whose group is processed.
ASKED = [
    ("#define EAT(x)\n", "EAT(defined X) 1"),
    ("#define EAT(x)\n#define D defined\n", "EAT(D) 1"),
    ("#define S(x) #x\n#define EAT(x)\n#define D defined X\n", "1 EAT(S(D))"),
    ("#define defined_too 1\n", "defined defined_too"),
    ("", "!defined defined"),
    ("#define X 2\n", "X == 2 && defined X && defined ( X )"),
]
# The beginning and the end of a level of an expression.
NESTED = [("(", ")"), ("!", ""), ("0?0:", ""), ("- ", ""), ("1 ? (", ") : 0")]
# No expressions, and nested too deeply: the fault is about the depth, also if a sign has two operands.
TOO_DEEP = ["1 " + "?" * 257, "1 " + "(" * 257, "1 " + "- " * 257 + "1", "1 " + "~ " * 257]
# Macros, and conditions after them whose group is processed, with how many names are replaced; names in an argument count, too, but not
# those after `defined` and those that are no macro's.
COUNTED = "#define ONE 1\n#define SAME(x) x\n#define UNUSED(x) 1\n"
COUNTS = [
    ("1", 0), ("!x && defined ONE", 0), ("ONE", 1), ("SAME(1)", 1), ("UNUSED(ONE)", 1), ("ONE + ONE == 2", 2), ("SAME(ONE) && __STDC__", 3),
    ("SAME(SAME(ONE))", 3), ("0 || ONE", 1),
]
# Conditions after the same macros, how many replacements are left for them, and their faults.
SHORT = [
    # earlier replacements are counted; if a `defined` is ill-formed, nothing is
    ("ONE 1x", 1, "24 0:4:1 1x"),
    ("ONE 1x", 0, "35 0:4:5"),
    ("ONE + SAME(", 2, "17 0:4:11 SAME"),
    ("ONE + SAME(", 1, "35 0:4:11"),
    ("ONE defined", 0, "22 0:4:1"),
    # the budget's fault is at the first name that isn't replaced
    ("ONE", 0, "35 0:4:5"),
    ("SAME(1)", 0, "35 0:4:5"),
    ("SAME(", 0, "35 0:4:5"),
    ("1 + ONE", 0, "35 0:4:9"),
    ("ONE + ONE", 1, "35 0:4:11"),
    ("SAME(ONE)", 1, "35 0:4:10"),
    ("1x ONE", 0, "35 0:4:8"),
    ("defined ONE ? ONE : ONE", 1, "35 0:4:25"),
    ("0 && ONE", 0, "35 0:4:10"),
]
# Expressions that are accepted, however long they are.
LONG = ["(1) + " * 300 + "1", "1 + " * 100000 + "0 == 100000", "1+" * 99999 + "1 == 100000", "(" * 256 + "!" * 256 + "1" + ")" * 256 + " == 1"]


class Conditions(unittest.TestCase):
    def judged(self, rows):
        """Wants for each condition after definitions that its group is processed, that it is skipped, or the end of its fault's text."""
        texts = ["%s#if %s\nyes\n#endif\n" % (definitions, expression) for definitions, expression, _ in rows]
        files = [("%d.c" % n, text) for n, text in enumerate(texts)]
        found = results(files, [{"file": name} for name, _ in files])
        for n, (definitions, expression, wanted) in enumerate(rows):
            if not isinstance(wanted, bool):
                number, _, rest = wanted.partition(" ")
                wanted = "| %d | %s %d:%d:%s" % (n, number, n, definitions.count("\n") + 1, rest)
            else:
                wanted = ("yes | %d | ok" if wanted else "| %d | ok") % n
            self.assertEqual(found[n], wanted, (definitions, expression[:80]))

    def test_groups_are_taken_and_left(self):
        self.judged([("", expression, True) for expression in TAKEN.splitlines()])
        self.judged([("", expression, False) for expression in LEFT.splitlines()])
        self.judged([(definitions, expression, True) for definitions, expression in ASKED])

    def test_values(self):
        self.judged([("", text, value != 0) for text, value in GROUPED.items()])
        self.judged([("", "(%s) == %d && (%s) - %d - 1 < 0" % (text, value, text, value), True) for text, value in GROUPED.items()])

    def test_faults(self):
        self.judged(REFUSED)
        # two bytes, since a list's text is UTF-8
        self.judged([("", "'\xe9'", "25 1 '\xc3\xa9'")])
        self.judged([("", text, "23 1") for text in UNGROUPED.splitlines()])

    def test_a_byte_that_is_no_text(self):
        file = {"name": "a.c", "hex": b"#if '\xe9' == 233\nyes\n#endif\n".hex()}
        self.assertEqual([result_of(lines) for lines in dumped([file], [{"file": "a.c"}])], ["yes | 0 | ok"])

    def test_what_is_left_of_a_budget(self):
        for expression, count in COUNTS:
            for more in (0, 1, 1000):
                # the file takes one of the budget, and the next name after these is not replaced
                text = "%s#if %s\n%sONE\n#endif\n" % (COUNTED, expression, "ONE " * more)
                wanted = "1 " * more + "| 0 | 35 0:5:%d" % (4 * more + 1)
                self.assertEqual(result_of_each([text], budget=1 + count + more), [wanted], (expression, more))
        for expression, left, fault in SHORT:
            text = "%s#if %s\n#endif\n" % (COUNTED, expression)
            self.assertEqual(result_of_each([text], budget=1 + left), ["| 0 | " + fault], (expression, left))

    def test_depth_and_length(self):
        for count, wanted in ((256, True), (257, "29 1")):
            self.judged([("", start * count + "1" + end * count, wanted) for start, end in NESTED])
        self.judged([("", text, "29 1") for text in TOO_DEEP])
        # faults of tokens come first; the depth is that of the tokens after replacement
        self.judged([("", "1x " + "(" * 257, "24 1 1x"), ("#define P %s\n" % ("(" * 257), "P 1", "29 1")])
        self.judged([("", text, True) for text in LONG])


# The results of the standard's examples (6.10.3.5p5 to p7, p9, and 6.10.3.3p4).
STANDARD = {
    "example 3": """f(2 * (y+1)) + f(2 * (f(2 * (z[0])))) % f(2 * (0)) + t(1);
f(2 * (2+(3,4)-0,1)) | f(2 * (~ 5)) & f(2 * (0,1))^m(0,1);
int i[] = { 1, 23, 4, 5, };
char c[2][6] = { "hello", "" };
""",
    "example 4": r"""printf("x" "1" "= %d, x" "2" "= %s", x1, x2);
fputs("strncmp(\"abc\\0d\", \"abc\", '\\4') == 0" ": @\n", s);
"hello";
"hello" ", world"
""",
    "example 5": "int j[] = { 123, 45, 67, 89, 10, 11, 12, };",
    "example 7": r"""fprintf(stderr, "Flag");
fprintf(stderr, "X = %d\n", x);
puts("The first, second, and third items.");
((x>y)?puts("x>y"): printf("x is %d but y is %d", x, y));
""",
    "hash_hash": 'char p[] = "x ## y";',
}
# Texts, other texts with the same tokens, and how they end: ok, or with a fault.
REPLACED = [
    ("#define x x\nx", "x", "ok"),
    ("#define M(a,b) a b\n#define X g\n#define Y (1)\n#define g(z) z M(X,Y)\nM(X,Y)", "1 M(g,(1))", "ok"),
    # the number of arguments
    ("#define f(a) a\nf()", "", "ok"),
    ("#define z() 1\nz( )", "1", "ok"),
    ("#define E\n#define f(a) [a]\nf(E)", "[]", "ok"),
    ("#define f(a,...) [a] [__VA_ARGS__]\nf(1,(2,3),4)", "[1] [(2,3),4]", "ok"),
    ("#define f(a) a\nb f(1,2)", "b", "18 2:3 f"),
    ("#define f(a,...) a\nf(1)", "", "18 2:1 f"),
    ("#define E\n#define f(a) [a]\nf E (1) f", "f (1) f", "ok"),
    # a lone quote comes before a missing `)`, and this before the number of arguments
    ("#define f(a) a\nb ' c", "b", "7 2:3 '"),
    ("#define f(a) a\nb f(1,'", "b", "7 2:7 '"),
    ("#define f(a) a\nb f(1,2", "b", "17 2:3 f"),
    # an argument's fault is that of its invocation; it comes before `#`, and `#` before `##`
    ("#define f(a) a\nb f(c f(1,2)) d", "b", "18 2:7 f"),
    ("#define s(a) #a a\nb s(s(\\))", "b", "20 2:5 \"\\\""),
    ("#define s(a) #a - ## a\nb s(\\)", "b", "20 2:3 \"\\\""),
    ("#define c(a) x ## + a\nb c(1)", "b", "19 2:3 x+"),
    # names that hide a token of an argument, and names that are added to them
    ("#define a a f\n#define f(x) x (2)\nf(a)", "a f (2)", "ok"),
    ("#define a a c\n#define c(y) <y a>\n#define f(x) x (2)\nf(a)", "a <2 a c>", "ok"),
    ("#define a a f g\n#define f(x) x (2)\n#define g(x) f(x) (3)\ng(a)", "a f g (2) (3)", "ok"),
    # predefined names
    ("__DATE__ __TIME__ __STDC_VERSION__ __FILE__ __STDC__ __STDC_HOSTED__", "\"Feb  9 2024\" \"08:05:03\" 201112L \"a.c\" 1 1", "ok"),
    # the line of the argument, and the line of the invocation
    ("#define f(a) a\nf(\n__LINE__)", "3", "ok"),
    ("#define g(a,b) a##b\ng(\n__LINE__,)", "2", "ok"),
    ("#define s(...) #__VA_ARGS__\n#define f(...) [__VA_ARGS__]\ns(a ,b) f()", "\"a ,b\" []", "ok"),
]
# Texts, how many replacements are left for each, its result, and how it ends.
SPENDING = [
    ("#define f(a) a*g\n#define g(a) f(a)\nf(2)(9)", 3, "2*9*g", "ok"),
    ("#define f(a) a*g\n#define g(a) f(a)\nf(2)(9)", 2, "2*", "35 3:1"),
    ("#define f(a) a*g\n#define g(a) f(a)\nf(2)(9)", 1, "2*", "35 3:1"),
    ("#define f(a) a*g\n#define g(a) f(a)\nf(2)(9)", 0, "", "35 3:1"),
    # the fault is at the location where the name is used, not where it is written
    ("#define X a Y\n#define Y 1\nb  X c", 2, "b a 1 c", "ok"),
    ("#define X a Y\n#define Y 1\nb  X c", 1, "b a", "35 3:4"),
    ("#define X\na __LINE__", 0, "a", "35 2:3"),
    ("#define X\na __LINE__", 1, "a 2", "ok"),
    # a macro's name that isn't replaced costs nothing, nor does a hidden one
    ("#define f(a) a\nf a f", 0, "f a f", "ok"),
    ("#define X X\nX", 1, "X", "ok"),
    # an invocation is counted before its arguments are read, even if it then fails
    ("#define f(a) a\nf(1", 0, "", "35 2:1"),
    ("#define f(a) a\nf(1", 1, "", "17 2:1 f"),
    ("#define f(a) a\nf(1,2)", 1, "", "18 2:1 f"),
    ("#define f(a) a##.\nf(+)", 1, "", "19 2:1 +."),
    ("#define X\n'", 0, "", "7 2:1 '"),
    ("#define X 1\n#define f(a,b) a a+b+#b\nf(X,X X)", 4, "1 1+1 1+\"X X\"", "ok"),
    ("#define X 1\n#define f(a,b) a a+b+#b\nf(X,X X)", 3, "", "35 3:7"),
    ("#define X 1\n#define f(a,b) a a+b+#b\nf(X,X X)", 2, "", "35 3:5"),
    ("#define X 1\n#define f(a,b) a a+b+#b\nf(X,X X)", 1, "", "35 3:3"),
    # an argument that is only stringized or pasted is not expanded
    ("#define X 1\n#define f(a,b) #a b##0\nf(X,X) X", 2, "\"X\" X0 1", "ok"),
    ("#define X 1\n#define f(a,b) #a b##0\nf(X,X) X", 1, "\"X\" X0", "35 3:8"),
]
# Names, and whether each is predefined.
PREDEFINED = {"__FILE__": True, "__LINE__": True, "__DATE__": True, "__TIME__": True, "__STDC__": True, "__STDC_HOSTED__": True,
              "__STDC_VERSION__": True, "defined": False, "__VA_ARGS__": False, "__STDC": False}
# How many invocations are nested around a text, their result, and how they end.
LEVELS = [(256, "1", "1", "ok"), (256, "s(1)", '"1"', "ok"), (257, "1", "", "21 3:513 f"), (256, "f()", "", "21 3:513 f")]
# Each macro except the first is the one before it, twice.
DOUBLING = "#define a0 0\n" + "".join("#define a%d a%d a%d\n" % (n + 1, n, n) for n in range(64)) + "a64\n"


class Replacement(unittest.TestCase):
    def gives(self, text, like, end, **more):
        """Wants the tokens of another text, which uses no macro, and this end."""
        files = [("a.c", text), ("b.c", like), ("vers2.h", "")]
        found, same = results(files, [{"file": "a.c"}, {"file": "b.c"}], **more)
        tokens = same.removesuffix("| 1 | ok")
        end = re.sub(r"^(\d+) ", r"\1 0:", end)
        rows = "0 2" if "INCFILE(2)" in text else "0"
        self.assertEqual(found, "%s| %s | %s" % (tokens, rows, end), text)

    def test_examples_of_the_standard(self):
        self.assertEqual(STANDARD.keys(), EXAMPLES.keys())
        for name, text in EXAMPLES.items():
            self.gives(text, STANDARD[name], "ok")

    def test_arguments_faults_and_predefined_names(self):
        for row in REPLACED:
            self.gives(*row)

    def test_names_that_are_predefined(self):
        texts = ["#ifdef %s\n1\n#endif\n" % name for name in PREDEFINED]
        self.assertEqual(result_of_each(texts), ["1 | 0 | ok" if known else "| 0 | ok" for known in PREDEFINED.values()])

    def test_levels_of_arguments(self):
        for count, text, like, end in LEVELS:
            self.gives("#define s(a) #a\n#define f(a) a\n" + "f(" * count + text + ")" * count, like, end)

    def test_what_is_left_of_a_budget(self):
        for text, left, like, end in SPENDING:
            self.gives(text, like, end, budget=left + 1)
            if end == "ok":
                self.gives(text, like, end, budget=left + 1000)

    def test_two_to_the_64th_replacements(self):
        wanted = "0 " * 471 + "| 0 | 35 0:66:1"
        self.assertEqual(result_of_each([DOUBLING], budget=1000), [wanted])

    def test_these_take_little_time_and_memory(self):
        def bounded():
            resource.setrlimit(resource.RLIMIT_CPU, (1, 1))
            resource.setrlimit(resource.RLIMIT_AS, (32 << 20, 32 << 20))

        data = json.dumps(dict(LIST, files=[{"name": "a.c", "text": DOUBLING}], units=[{"file": "a.c"}], budget=1000))
        done = cppunits("--workers", "1", "dump", input=data.encode(), preexec_fn=bounded)
        self.assertEqual((done.returncode, done.stderr), (1, b""))
        self.assertTrue(done.stdout.endswith(b"\ndep 0 a.c\nfault 35 0:66:1\n"))


# Dates and times, and whether they have the right form.
DATES = {"Jan  1 0000": True, "May 10 2024": True, "Oct 31 9999": True, "Feb 31 2023": True, "Feb 09 2024": False, "Feb  0 2024": False,
         "Feb 32 2024": False, "feb  9 2024": False, "Feb  9 202x": False, "Feb  9 20240": False}
TIMES = {"00:00:00": True, "19:09:60": True, "23:59:59": True, "24:00:00": False, "08:60:03": False, "08:05:61": False, "8:05:03": False,
         "08.05.03": False}
# Definitions in a list, and the result of a unit, or the number by which the list is refused.
DEFINITIONS = [(["F(x) x \\ \v\f"], "1 \\ | 0 | ok"), ([""], "| | 9 65535:1:1 define"), (["F(x) 1\n"], 7), (["F(x)\r1"], 7),
               # with `#define ` before each and a new-line after it, together as long as the longest file
               (["F(x) x", "x" * 16777192], "1 | 0 | ok"), (["F(x) x", "x" * 16777193], 4)]


class Forms(unittest.TestCase):
    def result(self, text, **more):
        """Returns the result of a unit of a text, or the number by which its list is refused."""
        files, unit = [{"name": "a.c", "text": text}], {"file": "a.c", "define": more.pop("define", [])}
        done = cppunits("dump", input=json.dumps({**LIST, "files": files, "units": [unit], **more}).encode())
        if done.returncode == 3:
            self.assertEqual(done.stdout, b"")
            return int(done.stderr.removeprefix(b"cppunits: list refused L"))
        return result_of(done.stdout.splitlines()[1:])

    def test_dates_and_times(self):
        for name, rows in ("date", DATES), ("time", TIMES):
            for text, is_good in rows.items():
                wanted = '"%s" | 0 | ok' % text if is_good else 6
                self.assertEqual(self.result("__%s__\n" % name.upper(), **{name: text}), wanted)

    def test_definitions(self):
        for lines, wanted in DEFINITIONS:
            self.assertEqual(self.result("F(1)\n", define=lines), wanted, [line[:20] for line in lines])


# Files of one text each, and the result of a unit of it.
TEXTS = [
    ("", "| 0 | ok"),
    ("#\na+b/**/c\n", "a + b c | 0 | ok"),
    ("#define A 1\nA\n#undef A\nA\n", "1 A | 0 | ok"),
    # an invocation doesn't continue after a directive line
    ("#define f(a) a\nf(1\n#define Q\n)\n", "| 0 | 17 0:2:1 f"),
    ("#define f(a) a\nf\n#define Q\n(1)\n", "f ( 1 ) | 0 | ok"),
    ("x\n#error no  \"y\n", "x | 0 | 34 0:2:1 no \"y"),
    ("x\n #foo\ny\n", "x | 0 | 8 0:2:2 foo"),
    ("#foo 'z\n", "| 0 | 7 0:1:6 '"),
    ("#pragma a b\nx\n#pragma\n", "pragma@0:1:1[ a b ] x pragma@0:3:1[ ] | 0 | ok"),
    # items of every kind in a row
    ("#define X 1 + 2\n#define J(a,b) a##b\na b X c\n#pragma p q\nJ(d,e) X\n#pragma\nf\n",
     "a b 1 + 2 c pragma@0:4:1[ p q ] de 1 + 2 pragma@0:6:1[ ] f | 0 | ok"),
    # the mark of a removed token at an argument's end is removed with it; one at the beginning or within goes to the next token
    ("#define E\n#define S(x) #x\n#define T(x) S(x)\nT(y E) T(E y) T(y E z)\n", '"y" "y" "y z" | 0 | ok'),
    # one group of a section is processed
    ("#ifdef A\n1\n#else\n2\n#endif\n#ifndef A\n3\n#endif\n", "2 3 | 0 | ok"),
    # an `#elif` after a processed group isn't evaluated, nor is one in a skipped group
    ("#if 1\n1\n#elif 1/0\n2\n#else\n3\n#endif\n4\n", "1 4 | 0 | ok"),
    ("#if 0\n#if 1/0\n#elif 1/0\n#endif\n#elif 2\n2\n#endif\n", "2 | 0 | ok"),
    ("#if 0\n1\n#elif 1/0\n2\n#endif\n", "| 0 | 26 0:3:1 /"),
    ("#ifdef 1\n#endif\n", "| 0 | 9 0:1:1 ifdef"),
    ("#if -1 > 0u\n1\n#endif\n#if (0 ? 1u : -1) > 0\n2\n#endif\n", "1 2 | 0 | ok"),
    # skipped groups are read only for the names of their directives
    ("#if 0\ndon't\n#foo\n#error x\n#include <x\n#endif\nx\n", "x | 0 | ok"),
    ("#if 1\ndon't\n#endif\nx\n", "don | 0 | 7 0:2:4 '"),
    # lines are numbered, and named
    ("__LINE__ __FILE__\n", "1 \"a.c\" | 0 | ok"),
    ("#line 100 \"q.c\"\n__LINE__ __FILE__\n", "100 \"q.c\" | 0 | ok"),
    ("#define N 7\n#line N\n\n__LINE__ __FILE__\n", "8 \"a.c\" | 0 | ok"),
    ("#line 0\n", "| 0 | 33 0:1:1"),
    ("#line 1 L\"a\"\n", "| 0 | 33 0:1:1"),
]
# Files, and the result of a unit of each in C11 and in the later profile.
BRANCHED = [
    ("#if 0\n#elifdef __STDC__\n1\n#endif\n", "| 0 | ok", "1 | 0 | ok"),
    ("#if 0\n#elifndef __STDC__\n1\n#endif\n", "| 0 | ok", "| 0 | ok"),
    ("#if 0\n#elifndef Q\n1\n#else\n2\n#endif\n", "2 | 0 | ok", "1 | 0 | ok"),
    # a branch after a processed group isn't evaluated
    ("#if 1\n#elifdef\n#endif\n", "| 0 | 8 0:2:1 elifdef", "| 0 | ok"),
    ("#if 0\n#elifdef\n#endif\n", "| 0 | ok", "| 0 | 9 0:2:1 elifdef"),
    ("#if 0\n#elifdef 'a\n#endif\n", "| 0 | ok", "| 0 | 7 0:2:10 '"),
    ("#elifndef Q\n", "| 0 | 8 0:1:1 elifndef", "| 0 | 3 0:1:1 elifndef"),
    ("#if 0\n#else\n#elifdef Q\n#endif\n", "| 0 | 8 0:3:1 elifdef", "| 0 | 4 0:3:1 elifdef"),
]
GUARDED = [
    ("a.c", "#include \"h.h\"\n#include \"h.h\"\n"),
    ("h.h", "#ifndef H\n#define H\nint a;\n#endif\n"),
]
# Files that include one another, the profile, and units by row and definitions, each with its result.
INCLUDING = [
    # units don't affect each other
    ("c11", [
        ("a.c", "#include \"h.h\"\n#include \"h.h\"\n"),
        ("h.h", "#ifndef H\n#define H\nint a;\n#endif\n"),
        ("b.c", "H X\n"),
    ], [
        (0, [], "int a ; | 0 1 | ok"),
        (0, ["H"], "| 0 1 | ok"),
        (2, ["X a b"], "H a b | 2 | ok"),
        (2, ["X 1", "X 2"], "| | 16 65535:2:1 X"),
        (2, ["X 'a"], "| | 7 65535:1:11 '"),
        (1, [], "int a ; | 1 | ok"),
    ]),
    # in a name that a macro makes spaces count, except for one after `<`
    ("c11", [
        ("a.c", "#define H < h.h >\n#include H\n#define J < d / j.h>\n#include J\n"),
        ("inc/h.h ", "1\n"),
        ("inc/h.h", "2\n"),
        ("inc/d / j.h", "3\n"),
    ], [(0, [], "1 3 | 0 1 3 | ok")]),
    # where headers are looked for, and files that aren't there
    ("c11", [
        ("src/a.c", "#include \"x.h\"\n#include <x.h>\n#include \"../inc/x.h\"\n#include <y.h>\n"),
        ("src/x.h", "1\n"),
        ("inc/x.h", "2\n"),
        ("b.c", "#define N <inc/x.h>\n#include N\nx\n#include \"h.h\"\ny\n"),
        ("h.h", "int\n /* x"),
        ("c.c", "x\n#include \"gone.h\"\ny\n"),
        ("d.c", "#include N\n"),
        ("e.c", "#include \"src/x.h\"\n#include \"src/x.h\"\n"),
        ("s.c", "#include \"s.c\"\n"),
    ], [
        (0, [], "1 2 2 | 0 1 2 | 31 0:4:1 y.h"),
        (3, [], "| 3 | 31 3:2:1 inc/x.h"),
        (3, ["inc x"], "| 3 | 31 3:2:1 x/x.h"),
        (5, [], "x | 5 9 | 6 5:2:1 gone.h"),
        (6, [], "| 6 | 30 6:1:1"),
        (6, ["N \"h.h\""], "| 6 4 | 1 4:2:2"),
        (6, ["N < x.h>"], "2 | 6 2 | ok"),
        (6, ["N < x  .h>"], "| 6 | 31 6:1:1 x .h"),
        (6, ["N </x.h>"], "| 6 | 30 6:1:1"),
        (7, [], "1 1 | 7 1 | ok"),
        (8, [], "| 8 | 32 8:1:1 s.c"),
        (9, [], "| 9 | 6 9:1:1 gone.h"),
    ]),
    # an included file has its own name and lines, and then the includer has its own again
    ("c11", [
        ("a.c", "#line 9 \"q\"\n#include \"h.h\"\n__LINE__ __FILE__\n"),
        ("h.h", "__LINE__ __FILE__\n#line 50 \"r\"\n"),
    ], [
        (0, [], "1 \"h.h\" 10 \"q\" | 0 1 | ok"),
    ]),
    # the next unit reads again what one unit read, and a pragma in a skipped group does nothing
    ("later", [
        ("s.c", "#pragma once\nt\n#include \"s.c\"\n"),
        ("a.c", "#include \"h.h\"\n#include \"h.h\"\n"),
        ("h.h", "#if 0\n#pragma once\n#endif\nt\n"),
        ("b.c", "#include \"k.h\"\n#include \"./k.h\"\n#include <../inc/k.h>\n"),
        ("inc/k.h", "t\n#pragma once\n#pragma once x\n"),
    ], [
        (0, [], "pragma@0:1:1[ once ] t | 0 | ok"),
        (0, [], "pragma@0:1:1[ once ] t | 0 | ok"),
        (1, [], "t t | 1 2 | ok"),
        (3, [], "t pragma@4:2:1[ once ] pragma@4:3:1[ once x ] | 3 4 | ok"),
    ]),
    # at the last depth, the depth is checked first
    ("later", [
        ("a.c", "#include \"o.h\"\n#include \"d.h\"\n"),
        ("o.h", "#pragma once\n"),
        ("d.h", "#include \"o.h\"\n#include \"d.h\"\n"),
    ], [
        (0, [], "pragma@1:1:1[ once ] | 0 1 2 | 32 2:1:1 o.h"),
    ]),
]
# Files, and the result of a unit of the first in the later profile with each of these budgets.
WITHIN = [
    # each name that is replaced
    ([("a.c", "#define f(a) a*g\n#define g(a) f(a)\nf(2)(9)\n")], [
        (4294967295, "2 * 9 * g | 0 | ok"),
        (4, "2 * 9 * g | 0 | ok"),
        (3, "2 * | 0 | 35 0:3:1"),
        (0, "| | 35 0:1:1"),
    ]),
    # a condition uses the budget, also if its group is skipped
    ([("a.c", "#define A 0\n#if 0\n#elif A\n#endif\n#if A\n#endif\nA\n")], [
        (4, "0 | 0 | ok"),
        (3, "| 0 | 35 0:7:1"),
        (2, "| 0 | 35 0:5:5"),
        (1, "| 0 | 35 0:3:7"),
    ]),
    # the number of a line is replaced
    ([("a.c", "#define N 7\n#line N\n__LINE__\n")], [
        (3, "7 | 0 | ok"),
        (2, "| 0 | 35 0:3:1"),
        (1, "| 0 | 35 0:2:7"),
    ]),
    # the dependency comes after the check of the budget
    ([("a.c", "#define N \"h.h\"\n#include N\n"), ("h.h", "t\n")], [
        (3, "t | 0 1 | ok"),
        (2, "| 0 | 35 0:2:1"),
        (1, "| 0 | 35 0:2:10"),
    ]),
    # a file that is read only once
    ([("a.c", "#include \"o.h\"\n#include \"o.h\"\n"), ("o.h", "#pragma once\nt\n")], [
        (3, "pragma@1:1:1[ once ] t | 0 1 | ok"),
        (2, "pragma@1:1:1[ once ] t | 0 1 | 35 0:2:1"),
    ]),
    # the depth is checked before the budget
    ([("s.c", "#include \"s.c\"\n")], [
        (201, "| 0 | 32 0:1:1 s.c"),
        (200, "| 0 | 35 0:1:1"),
    ]),
]
# A file that includes itself down to depth 200, and one that the later profile reads only once.
DEEP = [("t\n#include \"s.c\"\n", "t " * 201 + "| 0 | 32 0:2:1 s.c"),
        ("#pragma once\nt\n#include \"s.c\"\n", "pragma@0:1:1[ once ] t " * 201 + "| 0 | 32 0:3:1 s.c")]


class Units(unittest.TestCase):
    def test_text_directives_and_groups(self):
        self.assertEqual(result_of_each([text for text, _ in TEXTS]), [wanted for _, wanted in TEXTS])

    def test_branches_of_both_profiles(self):
        texts = [text for text, _, _ in BRANCHED]
        self.assertEqual(result_of_each(texts, profile="c11"), [wanted for _, wanted, _ in BRANCHED])
        self.assertEqual(result_of_each(texts, profile="later"), [wanted for _, _, wanted in BRANCHED])

    def test_included_files(self):
        for profile, files, cases in INCLUDING:
            names = [name for name, _ in files] + ["gone.h"]
            units = [{"file": names[row], "define": defines} for row, defines, _ in cases]
            with tempfile.TemporaryDirectory() as root:
                found = results(files, units, root, profile=profile, search=["inc"])
            self.assertEqual(found, [wanted for _, _, wanted in cases])

    def test_depth_of_includes(self):
        for text, wanted in DEEP:
            self.assertEqual(results([("s.c", text)], [{"file": "s.c"}]), [wanted])

    def test_budgets(self):
        for files, cases in WITHIN:
            for budget, wanted in cases:
                found = results(files, [{"file": files[0][0]}], profile="later", budget=budget)
                self.assertEqual(found, [wanted], (files, budget))

    def test_each_unit_has_the_budget(self):
        units = [{"file": "a.c"}, {"file": "a.c", "define": ["H"]}]
        self.assertEqual(results(GUARDED, units, budget=3), ["int a ; | 0 1 | ok", "| 0 1 | ok"])
        self.assertEqual(results(GUARDED, units, budget=2), ["int a ; | 0 1 | 35 0:2:1", "| 0 1 | 35 0:2:1"])
        # a fault before anything is counted
        units = [{"file": "a.c", "define": ["X 1", "X 2"]}]
        self.assertEqual(results(GUARDED, units, budget=0), ["| | 16 65535:2:1 X"])


if __name__ == "__main__":
    main()
