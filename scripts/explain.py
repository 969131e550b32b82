"""Says more of a fault than its number: the place of the token, what a condition lacks, how many arguments were given.

All of this is read from the sources.  What isn't certain isn't said: a function returns None, or raises Unclear."""
import difflib
import itertools
import re
from collections import namedtuple

from tokens import Text, Unclear

CONSTANTS, NO_FILE, ARGUMENTS, DIRECTIVE, CONDITION = (24, 25), 31, 18, 8, 23
# the faults for which the source is read
BY_SOURCE = CONSTANTS + (NO_FILE, ARGUMENTS, CONDITION)
C11 = ("include", "define", "undef", "if", "ifdef", "ifndef", "elif", "else", "endif", "line", "error", "pragma")
LATER = C11 + ("elifdef", "elifndef")
DIRECTIVES = {"c11": C11, "later": LATER, "gnu": LATER + ("include_next", "warning", "ident", "sccs")}
# words of other languages
OTHERS = {"elseif": "elif", "elsif": "elif", "import": "include", "warn": "warning"}
HAS_INCLUDE = (b"__has_include", b"__has_include_next")
OPERATORS = HAS_INCLUDE + (b"defined",)
PREDEFINED = (b"__FILE__", b"__LINE__", b"__DATE__", b"__TIME__", b"__STDC__", b"__STDC_HOSTED__", b"__STDC_VERSION__", b"__COUNTER__")
UNARY = (b"+", b"-", b"!", b"~")
BINARY = (b"*", b"/", b"%", b"+", b"-", b"<<", b">>", b"<", b">", b"<=", b">=", b"==", b"!=", b"&", b"^", b"|", b"&&", b"||")
DEFINE = rb"define(?:[\s\\]|\?\?/|/\*(?:[^*]|\*(?!/)){0,40}\*/)+(%s)(?![\w$\x80-\xff])"
# the most names of a condition, ways to read them, and definitions of one name in a file
MAX_NAMES, MAX_READINGS, MAX_DEFINITIONS = 16, 256, 16

# a definition: where its name is; its parameters, or None, and whether the last one is variable; the tokens of its list
Definition = namedtuple("Definition", "row line column parameters variadic body")


def token_place(number, text, source):
    """Returns the line and column of the constant or header name that a fault is about.  `source` begins at the `#`."""
    line = source.line()[2:]
    if number in CONSTANTS:
        return next(((token.line, token.column) for token in line if token.text == text), None)
    if number == NO_FILE and line and any(source.begins(line[0], quoted % text) for quoted in (b'"%s"', b"<%s>")):
        return line[0].line, line[0].column
    return None


def directive(name, profile):
    """Returns what an unknown directive may have been meant as."""
    profiles = [other for other in DIRECTIVES if name in DIRECTIVES[other]]
    if profiles:
        return "; the profile %s has it" % profiles[0]
    names = DIRECTIVES.get(profile, C11)
    near = [OTHERS[name]] if OTHERS.get(name) in names else difflib.get_close_matches(name, names, 1, 0.7)
    return "; did you mean #%s?" % near[0] if near else None


def definitions(name, lines, row, trigraphs):
    """Returns the definitions of a macro in the lines of a source: all that may be one, also in comments and in groups that are skipped."""
    data, found = b"\n".join(lines), []
    for match in re.finditer(DEFINE % re.escape(name), data):
        if len(found) == MAX_DEFINITIONS:
            raise Unclear
        line, before = data.count(b"\n", 0, match.start(1)) + 1, data.rfind(b"\n", 0, match.start(1))
        found.append(definition(Text(lines, line, match.start(1) - before, trigraphs).line(), row))
    return found


def definition(tokens, row):
    """Returns a definition from the tokens after `#define`."""
    name, rest = tokens[0], tokens[1:]
    follows = rest and rest[0].text == b"(" and (rest[0].line, rest[0].column) == (name.line, name.column + len(name.text))
    if not follows:
        return Definition(row, name.line, name.column, None, False, rest)
    end = next((at for at, token in enumerate(rest) if token.text == b")"), len(rest))
    parameters = [token.text for token in rest[1:end] if token.text != b","]
    variadic = parameters[-1:] == [b"..."]
    if variadic and len(parameters) > 1 and rest[end - 2].kind == "name":
        # gcc's `args...`
        parameters.pop()
    return Definition(row, name.line, name.column, len(parameters), variadic, rest[end + 1:])


def given_arguments(name, source):
    """Returns the number of arguments of the invocation at which a source begins: 0 if nothing is between the parentheses."""
    tokens = source.tokens()
    begin = next(tokens, None), next((token for token in tokens if token.kind != "end"), None)
    if None in begin or (begin[0].text, begin[1].text) != (name, b"("):
        return None
    depth, count, before = 1, 0, begin[1]
    for token in tokens:
        if token.kind == "unmatched" or (before.kind == "end" and token.text in (b"#", b"%:")):
            # an unmatched quote, or a directive among the arguments
            return None
        before = token
        depth += (token.text == b"(") - (token.text == b")")
        if depth == 0:
            return count
        if token.kind != "end":
            count = max(count, 1) + (depth == 1 and token.text == b",")
    return None


def wanted_arguments(one, profile):
    """Returns the least and the most arguments that a macro takes; no most if the last one is variable."""
    if not one.variadic:
        return one.parameters, one.parameters
    return max(1, one.parameters - (profile == "gnu")), None


def takes(one, given, profile):
    """Returns whether a definition takes so many arguments; nothing between the parentheses is no argument, or one."""
    least, most = wanted_arguments(one, profile)
    return least <= 1 if given == 0 else least <= given <= (given if most is None else most)


def arguments(found, given, profile):
    """Returns a text of how many arguments were given and wanted, and the definition if one alone refuses them."""
    refusing = [one for one in found if one.parameters is not None and not takes(one, given, profile)]
    wanted = {wanted_arguments(one, profile) for one in refusing}
    if len(wanted) != 1:
        return "", None
    least, most = wanted.pop()
    text = ": %d given, %s%d wanted" % (max(given, 1), "at least " if most is None else "", least)
    return text, refusing[0] if len(refusing) == 1 else None


def condition(line, of_name, profile):
    """Returns what a condition lacks, from the tokens of its directive.  `of_name` returns the definitions of a name."""
    tokens = operands(line[2:], profile)
    names = sorted({token.text for token in tokens if token.kind == "name"})
    unclear = any(token.kind == "unmatched" or token.text in PREDEFINED for token in tokens)
    if unclear or len(names) > MAX_NAMES:
        return None
    readings = [readings_of(name, of_name) for name in names]
    if None in readings or len(list(itertools.islice(itertools.product(*readings), MAX_READINGS + 1))) > MAX_READINGS:
        return None
    reasons = {reason(tokens, dict(zip(names, reading))) for reading in itertools.product(*readings)} - {None}
    return reasons.pop() if len(reasons) == 1 else None


def operands(tokens, profile):
    """Returns the tokens of a condition, with a number for each use of `defined` and, under gnu, of `__has_include`."""
    found, at = [], 0
    while at < len(tokens):
        token, end = tokens[at], at + 1
        follows = [one.text for one in tokens[at + 1:at + 2]]
        if token.text == b"defined":
            end = at + (4 if follows == [b"("] else 2)
        elif profile == "gnu" and token.text in HAS_INCLUDE and follows == [b"("]:
            end = 1 + next((place for place in range(at, len(tokens)) if tokens[place].text == b")"), at)
        found.append(token if end == at + 1 else token._replace(kind="number", text=b"0"))
        at = end
    return found


def readings_of(name, of_name):
    """Returns the lists of tokens that a name may stand for, None for itself; or None if they have other macros."""
    found = of_name(name)
    names = {token.text for one in found for token in one.body if token.kind == "name"} - {name}
    if any(one.parameters is not None for one in found) or any(other in OPERATORS + PREDEFINED or of_name(other) for other in names):
        return None
    lists = {tuple(token.text for token in one.body): one.body for one in found}
    return [None, *lists.values()]


def reason(tokens, lists):
    """Returns what a condition lacks if its names stand for these lists, or None if it lacks nothing."""
    expanded = []
    for token in tokens:
        body = lists.get(token.text) if token.kind == "name" else None
        expanded += [token] if body is None else body
    found = lacking(expanded)
    empty = [name for name, body in lists.items() if body == []]
    if found and found.startswith("missing operand") and len(empty) == 1:
        found += "; %s is empty" % readable(empty[0])
    return found


def lacking(tokens):
    """Returns the first thing that tokens lack to be an expression."""
    if not tokens:
        return "missing operand"
    open_signs, before = [], None
    for token in tokens:
        wanted = before is None or before.text in UNARY + BINARY + (b"(", b"?", b":")
        found = (at_operand if wanted else at_operator)(token, before, open_signs)
        if found:
            return found
        before = token
    if before.kind == "sign" and before.text != b")":
        return "missing operand after '%s'" % readable(before.text)
    return {b"(": "missing ')'", b"?": "'?' without ':'"}[open_signs[-1]] if open_signs else None


def at_operand(token, before, open_signs):
    """Reads a token where an operand is wanted, and returns what is wrong."""
    if token.kind in ("number", "character", "name") or token.text in UNARY:
        return None
    if token.text == b"(":
        open_signs.append(b"(")
        return None
    if token.kind == "string":
        return "a string literal is no operand"
    if token.text in BINARY + (b")", b"?", b":"):
        return "missing operand before '%s'" % readable(token.text)
    return "'%s' is no operator" % readable(token.text)


def at_operator(token, before, open_signs):
    """Reads a token where an operator is wanted, and returns what is wrong."""
    if token.kind != "sign":
        return "missing operator before '%s'" % readable(token.text)
    if token.text == b"(":
        if before.kind == "name":
            more = "; the profile gnu has it" if before.text in HAS_INCLUDE else ""
            return "there is no function-like macro %s%s" % (readable(before.text), more)
        return "missing operator before '('"
    if token.text == b"?":
        open_signs.append(b"?")
    elif token.text in (b":", b")"):
        wanted = {b":": b"?", b")": b"("}[token.text]
        if open_signs[-1:] != [wanted]:
            is_open = token.text == b")" and b"(" in open_signs
            return "'?' without ':'" if is_open else "'%s' without '%s'" % (readable(token.text), readable(wanted))
        open_signs.pop()
    elif token.text not in BINARY:
        return "'%s' is no operator" % readable(token.text)
    return None


def readable(text):
    return text.decode("utf-8", "surrogateescape")
