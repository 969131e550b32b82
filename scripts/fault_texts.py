"""Has the message and the advice for each fault, one line each, as docs/FAULTS.md.  `%s` stands for the fault's text."""

# number: message, message without a text, and advice
FAULTS = {
    1: ("unterminated comment", None, "Close the comment."),
    2: ("backslash at the end of the file", None, "Remove the backslash, or add the line that it continues."),
    3: ("#%s without #if", "branch without #if", "Remove the line, or add the `#if`. An if-section begins and ends in one file."),
    4: ("#%s after #else", "branch after #else", "Remove one of the two lines, or add the missing `#endif` between them."),
    5: ("unterminated #%s", "unterminated if-section",
        "Add the `#endif`. The location is that of the innermost open line; the missing `#endif` may belong to another."),
    6: ("the file can't be read: %s", "the file can't be read",
        "Create the file, or make a new list: each name in a list must be that of a file."),
    7: ("unmatched %s", "unmatched quote",
        "Close the literal. Put text that isn't C into a comment, or between `#if 0` and `#endif`, where unmatched"
        " quotes have no effect."),
    8: ("unknown directive #%s", "unknown directive",
        "Put extensions into a group that only compilers with these extensions take: `#ifdef __GNUC__`."),
    9: ("malformed #%s: one name is expected", "malformed directive: one name is expected",
        "Write the name, and remove what follows it."),
    10: ("%s can't be defined or undefined", "this name can't be defined or undefined",
         "Choose another name. Set a fixed date by the list's `date` and `time`, not by `-D__DATE__=`."),
    11: ("malformed parameter list of macro %s", "malformed parameter list",
         "Give each parameter its own name; use `...` and `__VA_ARGS__`."),
    12: ("no white space after the macro name %s", "no white space after the macro name", "Put a space after the name."),
    13: ("## without an operand in macro %s", "## without an operand", "Write both operands."),
    14: ("# without a parameter after it in macro %s", "# without a parameter after it", "Write a parameter after `#`."),
    15: ("misplaced __VA_ARGS__ or __VA_OPT__ in macro %s", "misplaced __VA_ARGS__ or __VA_OPT__",
         "Write `...` in the parameter list, and `__VA_OPT__(` content `)`. In text lines both are names like any other."),
    16: ("conflicting redefinition of macro %s", "conflicting redefinition of a macro",
         "`#undef` the name first, or put the definition after `#ifndef`."),
    17: ("unterminated invocation of macro %s", "unterminated invocation of a macro",
         "Close it. If a directive is among the arguments, use the profile `gnu`, or choose the argument by a macro that"
         " `#if` defines before it."),
    18: ("wrong number of arguments of macro %s", "wrong number of arguments of a macro",
         "Put arguments with commas into parentheses. For a variadic macro without more arguments write `f(1,)`, or leave"
         " the named parameter out."),
    19: ("## makes %s, which is no token", "## makes no token", "Leave the `##` out: tokens next to each other need none."),
    20: ("# makes %s, which is no string literal", "# makes no string literal",
         "Write the backslash inside a literal, or as a string where it is used."),
    21: ("arguments nested over 256 levels at macro %s", "arguments nested over 256 levels",
         "Only generated code is so deep. Let the generator name the inner part by an object-like macro."),
    22: ("`defined` without a name after it, or made by a macro", None,
         "Test in the condition itself: `#if defined X` and then `#define D 1`."),
    23: ("the condition is no integer constant expression", None,
         "Names that aren't macros are 0, so `#if F(1)` without `F` is `0(1)`. Put `#ifdef F` around it, also around"
         " `__has_include` and other operators that only some compilers have."),
    24: ("%s is no integer constant, or fits no type", "a number is no integer constant, or fits no type",
         "Write an integer constant up to 18446744073709551615; above 9223372036854775807 with a `u`, or in octal or"
         " hexadecimal digits."),
    25: ("the character constant %s has no value", "a character constant has no value",
         "Compare numbers, or single characters."),
    26: ("division by zero: %s", "division by zero", "Test first: `#if N && 8 / N`. Names that aren't macros are 0."),
    27: ("integer overflow: %s", "integer overflow",
         "Compute with unsigned constants: `0x7fffffffffffffffu + 1`."),
    28: ("invalid shift: %s", "invalid shift", "Shift unsigned constants, by less than 64: `1u << 63`."),
    29: ("the condition is nested over 256 levels", None, "Split the condition into macros that are 0 or 1."),
    30: ("one name in quotes or angle brackets is expected", None,
         "Write one name. A list has no absolute names: give the directory by `search`, and the name relative to it."),
    31: ("no such file: %s", "no such file",
         "Give the directory that has it: by `-I` in a build's command, by `search` in a list, whose `files` name it."),
    32: ("includes nested over 200 levels: %s", "includes nested over 200 levels", "Guard headers by `#ifndef`."),
    33: ("#line needs a number from 1 to 2147483647, and optionally a name in quotes", None,
         "Write decimal digits without a suffix."),
    34: ("#error %s", "#error", "Give the definitions that the source requires; mostly the text says which."),
    35: ("over the list's budget", None, "If the source is trusted, give a larger budget, or none."),
}


def message(number, text):
    """Returns the message of a fault with this text."""
    message_of, without, _ = FAULTS.get(number, ("%s", "fault", ""))
    if "%s" not in message_of:
        return message_of
    return message_of % text if text else without


def advice(number):
    """Returns the advice in one line, empty for an unknown number."""
    return FAULTS[number][2] if number in FAULTS else ""
