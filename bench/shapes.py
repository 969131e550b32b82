"""Defines texts whose work grows with a size, for growth.py.

A shape makes a text of a size N: N macros, arguments, operands or bytes, or a list with the budget N.  Doubling the
size doubles the work.  `things` counts the units that memory is measured by: tokens, or lines if a text has no tokens.
"""
import json
from dataclasses import dataclass
from typing import Callable, Optional

from colliding import long_names, macro_names

DATE = {"date": "Feb  9 2024", "time": "08:05:03"}
CONTENT = 16_777_216  # the bytes of the longest content


@dataclass(frozen=True)
class Shape:
    name: str
    sizes: tuple
    text: Optional[Callable] = None  # the text of a size, which gcc reads too
    listed: Optional[Callable] = None  # or the list of a size, which has nothing for gcc
    things: Optional[Callable] = None  # how many tokens or lines a size has
    status: int = 0
    quick: int = 4  # by how much --quick divides the sizes
    goal: Optional[tuple] = None  # the seconds and megabytes that the last size may take

    def list_of(self, size):
        return json.dumps(self.listed(size) if self.listed else list_of_text(self.text(size))).encode()


def list_of_text(text):
    # a zero takes six bytes as JSON text and two in hexadecimal digits
    content = {"hex": text.encode().hex()} if "\0" in text else {"text": text}
    return dict(DATE, files=[{"name": "a.c", **content}], units=[{"file": "a.c"}])


def lines(*parts):
    return "\n".join(line for part in parts for line in ([part] if isinstance(part, str) else part)) + "\n"


# ---- chains of macros


def object_chain(count):
    return lines("#define a0 x", ("#define a%d a%d" % (i + 1, i) for i in range(count)), "a%d" % count)


def function_chain(count):
    return lines("#define a0(x) x", ("#define a%d(x) a%d(x)" % (i + 1, i) for i in range(count)), "a%d(1)" % count)


def doubled(tokens):
    """Returns a chain whose last macro expands to this number of tokens, a power of 2."""
    depth = tokens.bit_length() - 1
    return lines("#define d0 x", ("#define d%d d%d d%d" % (i + 1, i, i) for i in range(depth)), "d%d" % depth)


def within_budget(steps):
    return dict(list_of_text(doubled(2**64)), budget=steps)


def doubled_with_argument(tokens):
    depth = tokens.bit_length() - 1
    return lines("#define d0(x) x", ("#define d%d(x) d%d(x) d%d(x)" % (i + 1, i, i) for i in range(depth)), "d%d(1)" % depth)


def doubled_within(tokens):
    depth = tokens.bit_length() - 1
    return lines("#define d(x) x x", "d(" * depth + "1" + ")" * depth)


def chain_in_argument(uses):
    return lines("#define f(x) x", "#define a0 x", ("#define a%d a%d" % (i + 1, i) for i in range(399)), "f(" + "a399 " * uses + ")")


def argument_through(tokens, macros, times=1):
    """Returns an argument of this number of tokens, which macros pass on this number of times."""
    chain = ("#define f%d(x) f%d(x)" % (i + 1, i) for i in range(macros - 1))
    return lines("#define f0(x) x", chain, ["f%d(%s)" % (macros - 1, "x " * tokens)] * times)


def undefined_in_order(count):
    return lines(("#define a%d %d" % (i, i) for i in range(count)), ("#undef a%d" % i for i in range(count)))


# ---- long lists


def names(count):
    return ["p%d" % i for i in range(count)]


def invoked(made, body=""):
    """Returns a macro with these parameters, and its invocation with empty arguments."""
    return lines("#define f(%s) %s" % (", ".join(made), body), "f(%s)" % ("," * (len(made) - 1)))


def parameters(count, body=""):
    return invoked(names(count), body)


def parameters_used(count):
    return parameters(count, " ".join(names(count)))


def arguments(count):
    return lines("#define f(...) __VA_ARGS__", "f(1%s)" % (", 1" * (count - 1)))


def pasted(count, first="a", rest=("a",)):
    """Returns a macro with this number of operands of ##: the first one, and then the others in turn."""
    operands = [first] + [rest[i % len(rest)] for i in range(count - 1)]
    return lines("#define p %s" % "##".join(operands), "p")


def used_name(length, uses):
    """Returns a macro with a name of this number of bytes, and another that expands to it, so that each use is short in the text."""
    return lines("#define %s" % ("n" * length), "#define u %s" % ("n" * length), "u " * uses)


def empty_list(places, uses):
    """Returns a macro with this number of uses of its parameter, and invocations with an empty argument."""
    return lines("#define f(x) %s" % ("x " * places), "f() " * uses)


def searched(folders, includes):
    """Returns a list with an empty header in the last of this number of directories."""
    files = [{"name": "a.c", "text": "#include <h>\n" * includes}, {"name": "d%d/h" % (folders - 1), "text": ""}]
    return dict(DATE, search=["d%d" % i for i in range(folders)], files=files, units=[{"file": "a.c"}])


def directives_within(count):
    """Returns an invocation with this number of directives among its arguments, in a list of GNU C."""
    text = lines("#define f(...) __VA_ARGS__", "f(1", (line for i in range(count) for line in ("#define a%d 1" % i, ", a%d" % i)), ")")
    return dict(list_of_text(text), profile="gnu")


# ---- names that collide


def defined(made):
    return lines(("#define %s x" % name for name in made), made)


def hidden(made):
    """Returns a chain of these names, of which the last is used: the hide set of its expansion has all of them."""
    return lines("#define %s x" % made[0], ("#define %s %s" % pair for pair in zip(made[1:], made)), made[-1])


def listed_files(made):
    return dict(DATE, files=[{"name": name, "text": ""} for name in made], units=[{"file": made[-1]}])


def repeated(name, text, things, status=0):
    """Returns a shape of one repeated character, or of a repeated text that continues a line."""
    return Shape("bytes " + name, (CONTENT // 4, CONTENT // 2, CONTENT), lambda size: text * (size // len(text)), things=things, status=status)


SHORT = [
    Shape("parameters, unused", (5_000, 10_000, 20_000), parameters, quick=1),
    Shape("parameters, used", (5_000, 10_000, 20_000), parameters_used, quick=2),
    Shape("operands of ##", (10_000, 20_000, 40_000), pasted, quick=2),
    Shape("periods after ##", (10_000, 20_000, 40_000), lambda size: pasted(size, "0", (".",)), quick=2),
    Shape("universal names after ##", (10_000, 20_000, 40_000), lambda size: pasted(size, "a", ("\\u1234",)), quick=2),
    Shape("signs after ##", (10_000, 20_000, 40_000), lambda size: pasted(size, "0", ("e", "+")), quick=2),
]


def many(shape):
    """Returns the shape at larger sizes, to measure the growth of its time, and without gcc, which is quadratic for some."""
    sizes = tuple(16 * size for size in shape.sizes)
    return Shape("many " + shape.name, sizes, listed=lambda size: list_of_text(shape.text(size)), quick=1)


SHAPES = [
    Shape("chain, object-like", (15_000, 30_000, 60_000), object_chain, quick=1, goal=(1, 200)),
    Shape("chain, function-like", (15_000, 30_000, 60_000), function_chain, quick=1),
    Shape("d20", (2**18, 2**19, 2**20), doubled),
    Shape("d20 with an argument", (2**18, 2**19, 2**20), doubled_with_argument),
    Shape("d(d(..)) 20 deep", (2**18, 2**19, 2**20), doubled_within),
    Shape("budget of d64", (2**17, 2**18, 2**19), listed=within_budget, status=1, quick=1),
    Shape("chain of 400 in an argument", (400, 800, 1_600), chain_in_argument),
    Shape("argument through 80 macros", (5_000, 10_000, 20_000), lambda size: argument_through(size, 80, 16), quick=1),
    Shape("1,000 tokens through macros", (4_000, 8_000, 16_000), lambda size: argument_through(1_000, size), quick=1),
    Shape("#undef in order", (60_000, 120_000, 240_000), undefined_in_order),
    Shape("arguments", (100_000, 200_000, 400_000), arguments),
    Shape("directives among arguments", (50_000, 100_000, 200_000), listed=directives_within),
    *SHORT,
    *(many(shape) for shape in SHORT),
    Shape("uses of a long name", (10_000, 20_000, 40_000), lambda size: used_name(100_000, size), quick=1),
    Shape("length of a used name", (100_000, 200_000, 400_000), lambda size: used_name(size, 10_000), quick=1),
    Shape("uses of an empty list", (4_000, 8_000, 16_000), lambda size: empty_list(1_000, size), quick=1),
    Shape("length of an empty list", (4_000, 8_000, 16_000), lambda size: empty_list(size, 1_000), quick=1),
    Shape("include lines", (10_000, 20_000, 40_000), listed=lambda size: searched(100, size), quick=1),
    Shape("directories searched", (100, 200, 400), listed=lambda size: searched(size, 10_000), quick=1),
    repeated("(", "(", lambda size: size),
    repeated("?", "?", lambda size: size),
    repeated("'", "'", lambda size: size, status=1),
    repeated('"', '"', lambda size: size // 2),
    repeated("#", "#", lambda size: size // 2),
    repeated("x and a space", "x ", lambda size: size // 2),
    repeated("NUL", "\0", lambda size: size),
    repeated("new-line", "\n", lambda size: size),
    repeated("??/ and new-line", "??/\n", lambda size: size // 4, status=1),
    repeated("\\ and new-line", "\\\n", lambda size: size // 2, status=1),
    Shape("flood: macros", (8_000, 16_000, 32_000), lambda size: defined(macro_names(size))),
    Shape("flood: names in hide sets", (8_000, 16_000, 32_000), lambda size: hidden(macro_names(size))),
    Shape("flood: files", (8_000, 16_000, 32_000), listed=lambda size: listed_files(long_names(size))),
]
