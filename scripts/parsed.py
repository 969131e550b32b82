"""Reads the command line of a compiler: its inputs, what is asked of the preprocessor, and the words for the compiler after it."""
import os
import re

from commands import DEPENDING, NOT_READ, WORD_BEHIND, option_of, with_responses

# options whose next word is their value, in addition to those that commands.py knows
VALUED = WORD_BEHIND | {"-B", "-F", "-Xpreprocessor", "-Ttext", "-Tdata", "-Tbss", "-imacros", "-iprefix", "-iwithprefix", "-iwithprefixbefore",
                        "-imultilib"}
# only the compiler itself answers these
QUESTIONS = ("--version", "-###", "-dumpversion", "-dumpfullversion", "-dumpmachine", "-dumpspecs", "-print-", "--print-", "--help", "--target-help",
             "-dM")
# they change what the preprocessor does or prints, in a way that cppunits doesn't know
UNKNOWN = (*NOT_READ, "-dD", "-dI", "-dN", "-dU", "-C", "-CC", "-H", "-MG", "-traditional", "-traditional-cpp", "-fdirectives-only", "-specs", "--specs",
           "-remap", "-fpreprocessed")
# options without a value that only the preprocessor has
ALONE = {"-P", "-M", "-MM", "-undef", "-trigraphs", "-nostdinc", *DEPENDING}
RULES = ("-M", "-MM")
# of the last steps that are asked for, the first in this order counts
STEPS = ("-E", "-fsyntax-only", "-S", "-c")
SUFFIXES = {".c": "c", ".h": "c-header", ".i": "cpp-output", ".s": "assembler", ".o": "object", ".lo": "object", ".a": "object", ".so": "object"}
# inputs in these languages aren't preprocessed
FINISHED = {"cpp-output", "c++-cpp-output", "assembler", "ir", "object"}
STRAY = re.compile(rb"^ +(#|%:)", re.MULTILINE)
WORD = re.compile(rb"[A-Za-z_]\w*")
# clang's preprocessor executes these; in a text clang refuses them, since their macros aren't defined there
OF_MACROS = re.compile(rb"^#pragma +clang +(?:deprecated|restrict_expansion|final)\b[^\n]*", re.MULTILINE)
# gcc and clang hold these warnings back where a macro's tokens cause them, which text doesn't say
IN_MACROS = ("address", "tautological-compare", "int-in-bool-context", "logical-not-parentheses", "misleading-indentation")
IN_MACROS_OF_CLANG = ("parentheses-equality", "tautological-compare", "constant-logical-operand", "self-assign", "unused-value")


class Input:
    """Is an input of the command: its name, and its language, given by -x or, if `given` is false, by its suffix."""

    def __init__(self, name, language):
        self.name, self.given = name, language is not None
        self.language = language or SUFFIXES.get(os.path.splitext(name)[1], "other")
        # the path of the text that the compiler takes in its place
        self.text = None


class Parsed:
    """Holds what a command line asks for.

    `words` has the words without @FILE and -Wp.  `rest` has those that the compiler gets after the preprocessor, with an Input in the place of
    each input, and `(OPTION, VALUE)` in the place of -x.  `own` has those that only the preprocessor has, with their values."""

    def __init__(self, words, directory):
        self.words = list(with_responses(directory, words, 0))
        self.rest, self.own, self.inputs, self.unknown = [], [], [], []
        self.steps, self.flags, self.output, self.question = set(), set(), None, False
        language, rest = None, iter(self.words)
        for word in rest:
            if word == "-" or not word.startswith("-"):
                self.inputs.append(Input(word, language))
                self.rest.append(self.inputs[-1])
            elif word == "-x" or word.startswith("-x") or word.startswith("--language"):
                language = self.language(word, rest)
            else:
                self.option(word, rest)
        self.step = next((step for step in STEPS if step in self.steps), "link")
        self.rules = next((word for word in RULES if word in self.flags), None)
        self.question = self.question or ("-dM" in self.flags and self.step == "-E")

    def language(self, word, rest):
        """Takes -x, and returns its language, or None for `none`."""
        _, _, tail = option_of(word)
        name = next(rest, "") if tail is None else tail
        # the compiler gets no C file, so it isn't told of this language
        self.rest.append(("-x", "none" if name in ("c", "c-header") else name))
        return None if name == "none" else name

    def option(self, word, rest):
        """Takes another option, and its value."""
        _, option, tail = option_of(word)
        if word in ("-dM", "-v"):
            self.flags.add(word)
            self.rest += [word] if word == "-v" else []
        elif word.startswith(QUESTIONS):
            self.question = True
            self.rest.append(word)
        elif is_unknown(word):
            self.unknown.append(word)
            self.own += [word, next(rest, "")] if word in VALUED else [word]
        elif option == "-o":
            self.output = next(rest, "") if tail is None else tail
        elif word in STEPS:
            self.steps.add(word)
            self.rest.append(word)
        elif word in ALONE:
            self.flags.add(word)
            self.own.append(word)
        elif word in VALUED:
            self.rest += [word, next(rest, "")]
        elif option_of(word)[0] == "read":
            self.own += [word, next(rest, "")] if tail is None else [word]
        else:
            self.rest.append(word)

    def sources(self):
        """Returns the inputs that are C files to preprocess; a header is one if the preprocessor's output or a rule is wanted."""
        headers = self.step in ("-E", "-fsyntax-only") or self.rules
        found = [one for one in self.inputs if one.language == "c" or (one.language == "c-header" and headers)]
        if self.step == "-E" or self.rules:
            # standard input is C unless -x says something else
            found += [one for one in self.inputs if one.name == "-" and not one.given]
        return [one for one in self.inputs if one in found]

    def others(self):
        """Returns whether there are inputs in other languages, which may have to be preprocessed."""
        sources = self.sources()
        return any(one.language not in FINISHED for one in self.inputs if one not in sources)

    def second(self, macros, texts):
        """Returns the words for the compiler after the preprocessor: each C file is its text, or left out if it has none.

        The macros of the compiler say which one it is; `texts` has the texts that it gets."""
        sources, found = self.sources(), list(self.own) if self.others() else []
        for word in self.rest:
            if isinstance(word, tuple):
                found += word
            elif word in sources:
                found += ["-x", "cpp-output", word.text, "-x", "none"] if word.text else []
            else:
                found.append(word if isinstance(word, str) else word.name)
        if self.output is not None:
            found += ["-o", self.output]
        clang = "__clang__" in macros
        if "-Werror" in found:
            found += ["-Wno-error=" + name for name in (IN_MACROS_OF_CLANG if clang else IN_MACROS)]
        # tcc replaces macros in a text, too
        words = set().union(*map(WORD.findall, texts)) if "__TINYC__" in macros else ()
        none = ["-U" + name for name in macros if name.encode() in words]
        return found + none + ["-fno-trigraphs", "-Wno-unused-command-line-argument"] * clang

    def wants_comments(self):
        """Returns whether gcc looks for comments in the text which say that a case goes on in the next."""
        return any(word in ("-W", "-Wextra") or word.startswith("-Wimplicit-fallthrough") for word in self.words)

    def prefix_maps(self):
        """Returns the options that change `__FILE__`, each with the beginnings of names that it replaces and puts there, the one that counts first."""
        found = []
        for option, sign, value in (word.partition("=") for word in self.words):
            if sign and option in ("-fmacro-prefix-map", "-ffile-prefix-map"):
                old, _, new = os.fsencode(value).rpartition(b"=")
                found.insert(0, (option, old, new))
        return found

    def renames(self, text):
        """Returns the option that would change a `__FILE__` in a text, or None."""
        maps = self.prefix_maps()
        wanted = any(re.search(b'^(?!# ).*"' + re.escape(in_literal(old)), text, re.MULTILINE) for _, old, _ in maps)
        return maps[0][0] if wanted else None


def stray(text):
    """Returns what is wrong with a text that a compiler would read in another way, or None; no C program has such a token."""
    found = STRAY.search(text)
    return found and "stray '%s' in program" % found[1].decode()


def in_literal(name):
    """Returns a name as a string literal has it."""
    return name.replace(b"\\", b"\\\\").replace(b'"', b'\\"')


def for_clang(text):
    """Returns a text without the pragmas that clang's own text doesn't have."""
    return OF_MACROS.sub(b"", text) if b" clang " in text else text


def is_unknown(word):
    """Returns whether an option changes the preprocessor in a way that cppunits doesn't know."""
    if word in UNKNOWN or word.startswith(NOT_READ):
        return True
    if word.startswith(("-specs=", "--specs=", "-finput-charset=")):
        return not word.lower().endswith(("charset=utf-8", "charset=utf8"))
    # such a directory may have headers
    return word.startswith("-B") and os.path.isdir(os.path.join(word[2:], "include"))
