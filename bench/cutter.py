"""Splits preprocessed text into the spellings of its preprocessing tokens (C11 6.4), for comparisons; it is no part of cppunits."""
import re

UNIVERSAL = r"\\(?:u[0-9A-Fa-f]{4}|U[0-9A-Fa-f]{8})"
NAME = r"(?:[A-Za-z_$\x80-\xff]|%s)(?:[\w$\x80-\xff]|%s)*" % (UNIVERSAL, UNIVERSAL)
NUMBER = r"\.?[0-9](?:[eEpP][+-]|[\w.$\x80-\xff]|%s)*" % UNIVERSAL
LITERAL = r"(?:u8|[uUL])?\"(?:\\.|[^\"\\\n])*\"|[uUL]?'(?:\\.|[^'\\\n])+'"
PUNCTUATOR = (r"%:%:|\.\.\.|<<=|>>=|->|\+\+|--|<<|>>|<=|>=|==|!=|&&|\|\||[*/%+&^|-]=|##|<:|:>|<%|%>|%:"
              r"|[\[\](){}.&*+~!/%<>^|?:;=,#-]")
TOKEN = re.compile(("(?:%s)|(?:%s)|(?:%s)|(?:%s)|[^ \\t\\v\\f\\r\\n]" % (LITERAL, NAME, NUMBER, PUNCTUATOR)).encode("latin-1"), re.ASCII)


def spellings(text):
    """Returns the spellings of a text's tokens, as bytes."""
    return TOKEN.findall(text)
