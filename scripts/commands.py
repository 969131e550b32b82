"""Reads the words of a compile command: which file is compiled, with which definitions and directories, and by which compiler."""
import functools
import os
import re

from common import Refused, opened, read_json, say

MAX_NAME = 1024
PREDEFINED = {"__FILE__", "__LINE__", "__DATE__", "__TIME__", "__STDC__", "__STDC_HOSTED__", "__STDC_VERSION__"}
NEVER = PREDEFINED | {"defined", "__VA_ARGS__"}
DATES = {"__DATE__", "__TIME__"}

FOLDERS = {"-I": "bracket", "-iquote": "quote", "-isystem": "system", "-idirafter": "after"}
READ = (*FOLDERS, "-D", "-U", "-include", "-x", "-o", "-MF", "-MT", "-MQ")
# options without a value that say something of the dependency file
DEPENDING = ("-MD", "-MMD", "-MP")
LONG = {"--include-directory": "-I", "--define-macro": "-D", "--undefine-macro": "-U", "--include": "-include",
        "--output": "-o", "--language": "-x"}
# options whose next word is their value, and which mean nothing to a preprocessor
WORD_BEHIND = set("""-MJ -L -l -T -u -z -e -G -A -arch -target --target --param -Xlinker -Xassembler -Xclang
    -mllvm -framework -isysroot --sysroot -aux-info -dumpbase -dumpbase-ext -dumpdir -wrapper -specs
    --serialize-diagnostics -install_name -gcc-toolchain -include-pch""".split())
NOT_READ = ("-imacros", "-iprefix", "-iwithprefix", "-iwithprefixbefore", "-I-", "-Xpreprocessor", "-imultilib")
# options that change a compiler's own directories and macros, and neither run nor write anything
ASKING = re.compile(r"""-std=[\w:.+]+ | -ansi | -O(?:[0-3sgz]|fast)? | -m[\w.+,=-]+ | -f[\w-]+ | -f(?:sanitize|cf-protection|pack-struct
    |exec-charset|wide-exec-charset|abi-version|gnuc-version|fp-contract|excess-precision)=[\w,.+-]+
    | -nostdinc | -nostdlibinc | -undef | -pthreads? | --target=[\w.+-]+ | --sysroot=.+ | -isysroot.+""", re.VERBOSE)
NOT_ASKED = tuple("""-fplugin -fpass-plugin -fdump -fsave -fprofile -fcallgraph -fopt-info -fsyntax-only -fpreprocessed -fdirectives-only
    -fcompare-debug -fmodule -ftime -fmem -fstack-usage -mllvm""".split())
WORDS_ASKED = {"--sysroot", "-isysroot", "-target"}
# options that say whether gcc replaces trigraphs: it replaces none under GNU C and C23, for which the group matches
TRIGRAPHS = re.compile(r"--?(?:std=(gnu|c23|c2y|iso9899:2024)?.*|ansi|trigraphs)")
# programs that come before a compiler's name and run it
LAUNCHERS = {"ccache", "sccache", "distcc", "icecc", "buildcache", "gomacc", "env"}
SUFFIXES = {".c": "c", ".h": "c"}
LANGUAGES = set("c c-header cpp-output c++ c++-header c++-cpp-output objective-c objective-c++ assembler"
                " assembler-with-cpp cuda none".split())


class LeftOut(Exception):
    """Says why a command isn't run: something that it names is missing."""


class Wanted:
    """Holds what a command says of its dependency file: the file of -MF, whether -MD writes one beside the object, the targets of -MT and
    -MQ in order, each with its option, and whether -MP asks for a rule for each header."""

    def __init__(self):
        self.file, self.beside, self.targets, self.phony = None, False, [], False

    def take(self, option, word):
        if option == "-MF":
            self.file = word
        elif option in ("-MT", "-MQ"):
            self.targets.append((option, word))
        elif option == "-MP":
            self.phony = True
        else:
            self.beside = True


class Command:
    """Holds what a command asks of the preprocessor: directories, definitions in order, and files to include first.

    `compiler` is the word that names the compiler, after ccache and the like.  `before` has the words up to it, `words` those after it.
    `asking` has the options that change what the compiler answers.  `spelled` has the names of the command's file and directories as it
    spells them.  `wanted` has what it says of its dependency file.  `trigraphs` says whether gcc replaces trigraphs under the command's
    options.  `undefined` has the names of -U, and `again` those that -D defines more than once in different ways."""

    def __init__(self, entry, report):
        self.directory = os.path.abspath(entry["directory"])
        self.file = at(self.directory, entry["file"])
        self.report, self.output, self.target = report, self.written("-o", entry.get("output")), None
        self.folders = {kind: [] for kind in FOLDERS.values()}
        self.definitions, self.named, self.includes, self.asking, self.spelled = {}, set(), [], [], {}
        self.trigraphs, self.wanted, self.undefined, self.again = False, Wanted(), set(), []
        self.language = SUFFIXES.get(os.path.splitext(self.file)[1], "other")
        words = self.words_of(entry)
        self.spelled[self.file] = self.spelling(entry["file"], words)
        for option, word in self.options(words):
            self.take(option, word)

    def spelling(self, name, words):
        """Returns the name of the command's file as the command spells it; the entry may spell it in another way."""
        if name in words:
            return name
        last = os.path.basename(name)
        return next((word for word in words if word.endswith(last) and at(self.directory, word) == self.file), name)

    def words_of(self, entry):
        """Returns the words after the compiler's name."""
        words = list(entry["arguments"]) if entry.get("arguments") is not None else split_command(entry["command"])
        at_word = compiler_at(words)
        self.compiler = words[at_word] if at_word < len(words) else ""
        self.before, self.words = words[:at_word + 1], words[at_word + 1:]
        return list(with_responses(self.directory, self.words, 0))

    def options(self, words):
        """Yields the options that are read, each with its value, and reports those that can't be read."""
        words = iter(words)
        for word in words:
            kind, option, tail = option_of(word)
            if said := TRIGRAPHS.fullmatch(word):
                self.trigraphs = said[1] is None
            if kind == "read":
                yield option, next(words, "") if tail is None else tail
            elif kind == "asked":
                self.ask(word)
            elif kind == "skips a word":
                self.ask(word, next(words, ""))
            elif kind == "not read":
                self.report.add("%s: %s isn't read" % (self.file, word))

    def ask(self, option, word=None):
        """Adds an option that changes the compiler's answers; names of directories become absolute."""
        head, sign, tail = option.partition("=")
        if word is not None:
            if option in WORDS_ASKED:
                self.asking += [option, word if option == "-target" else at(self.directory, word)]
        elif head == "--sysroot":
            self.asking.append(head + sign + at(self.directory, tail))
        elif option.startswith("-isysroot"):
            self.asking += ["-isysroot", at(self.directory, option[len("-isysroot"):])]
        elif not option.startswith(NOT_ASKED):
            self.asking.append(option)

    def take(self, option, word):
        if option in FOLDERS:
            folder = at(self.directory, word)
            asked = os.path.join(self.directory, word)
            if is_folder(folder) or (".." in word and is_folder(asked)):
                self.report.same(asked, folder)
            if is_folder(folder):
                self.folders[FOLDERS[option]].append(folder)
                self.spelled.setdefault(folder, word)
        elif option == "-D":
            self.define(word)
        elif option == "-U":
            self.forget(word)
            self.undefined.add(word)
            if word in PREDEFINED:
                self.report.add("%s: -U%s: this name stays defined" % (self.file, word))
        elif option == "-include":
            self.includes.append(word)
        elif option == "-x" and word in LANGUAGES - {"none"}:
            self.language = "c" if word == "c-header" else word
        elif option == "-o":
            self.target = self.written(option, word)
            self.output = self.output or self.target
        elif option in DEPENDING or (option.startswith("-M") and self.written(option, word) is not None):
            self.wanted.take(option, word)

    def written(self, option, name):
        """Returns the name of an option for an output file, or None if it is no valid text."""
        try:
            return name and os.fsdecode(os.fsencode(name))
        except UnicodeEncodeError:
            self.report.add("%s: %s %s: no text" % (self.file, option, name))
            return None

    def define(self, word):
        """Adds a definition as gcc does: the first `=` becomes a space, ` 1` follows if there is none, and a line end ends it."""
        word = re.split("[\r\n]", word, maxsplit=1)[0]
        name = defined_name(word)
        if name in NEVER:
            if not (word.partition("=")[0] in DATES and self.report.takes_date(word)):
                self.report.add("%s: -D%s: this name may not be defined (fault 10)" % (self.file, word))
            return
        if not is_text(word):
            self.report.add("%s: -D%s: no UTF-8 text" % (self.file, word))
            return
        text = (word.replace("=", " ", 1) if "=" in word else word + " 1").rstrip(" ")
        if self.definitions.get(name, text) != text:
            self.again.append(name)
        self.forget(name)
        self.definitions[name] = text

    def redefined(self, predefined):
        """Returns the names that the command defines although they are defined otherwise; `predefined` has definitions by name."""
        return self.again + [name for name, text in self.definitions.items()
                             if name not in self.undefined and predefined.get(name, text).split() != text.split()]

    def forget(self, name):
        """Drops earlier definitions of a name, also those for all units."""
        self.definitions.pop(name, None)
        self.named.add(name)

    def search(self, system):
        """Returns the directories for names in quotes, in order, and how many of them are for names in quotes only."""
        return searched(self.folders, self.late(system))

    def late(self, system):
        """Returns the directories of the system: those of -isystem, those of the compiler, and those of -idirafter."""
        return self.folders["system"] + system + self.folders["after"]


def with_responses(directory, words, depth):
    """Yields the words, with @FILE and -Wp, replaced by the words that they stand for."""
    before = None
    for word in words:
        if word.startswith("@") and depth < 16 and before not in WORD_BEHIND:
            yield from with_responses(directory, response(directory, word[1:]), depth + 1)
        elif word.startswith("-Wp,"):
            yield from preprocessor_words(word[4:].split(","))
        else:
            yield word
        before = word


def preprocessor_words(words):
    """Returns the words of -Wp, where -MD and -MMD have a value, the dependency file."""
    if words[0] in ("-MD", "-MMD") and len(words) > 1:
        return [words[0], "-MF", *words[1:]]
    return words


@functools.lru_cache(maxsize=65536)
def option_of(word):
    """Returns what to do with a command's word, the option's name, and its value; the value is None if it is the next word."""
    head, sign, tail = word.partition("=")
    if head in LONG:
        return "read", LONG[head], tail if sign else None
    if word in READ:
        return "read", word, None
    if word in DEPENDING:
        return "read", word, ""
    if word.startswith(NOT_READ):
        return "not read", word, None
    if word in WORD_BEHIND:
        return "skips a word", word, None
    if ASKING.fullmatch(word):
        return "asked", word, None
    option = max((option for option in READ if word.startswith(option)), key=len, default=None)
    return (None, word, None) if option is None else ("read", option, word[len(option):])


def searched(folders, late):
    """Joins the directories of each kind, and drops duplicates as gcc does; directories are compared by what they are, not by name."""
    late = once(late)
    late_places = {place(folder) for folder in late}
    bracket = [folder for folder in once(folders["bracket"]) if place(folder) not in late_places] + late
    quote = once(folders["quote"])
    if quote and bracket and place(quote[-1]) == place(bracket[0]):
        quote.pop()
    return tuple(quote + bracket), len(quote)


def once(folders):
    """Returns the directories without duplicates, in the order of their first places."""
    found = {}
    for folder in folders:
        found.setdefault(place(folder), folder)
    return list(found.values())


@functools.lru_cache(maxsize=None)
def is_folder(path):
    return os.path.isdir(path)


@functools.lru_cache(maxsize=None)
def place(path):
    """Returns what identifies a file or directory, whatever its name is."""
    try:
        found = os.stat(path)
    except OSError:
        return path
    return found.st_dev, found.st_ino


def compiler_at(words):
    """Returns the index of the compiler's word, after programs like ccache, their options, and variables that `env` sets."""
    at_word = 0
    while at_word < len(words) - 1 and os.path.basename(words[at_word]) in LAUNCHERS:
        at_word += 1
        while at_word < len(words) - 1 and ("=" in words[at_word] or words[at_word].startswith("-")):
            at_word += 1
    return at_word


PIECE = re.compile(r"""[^ \t\r\n"'\\]+ | \\(.) | '([^']*)' | "((?:\\.|[^"\\])*)" """, re.VERBOSE | re.DOTALL)
WORD = re.compile("(?:%s)+" % PIECE.pattern, re.VERBOSE | re.DOTALL)
MARK = re.compile(r"[\"'\\]")


def split_command(text):
    """Splits a command into words as a shell does.  The result is that of shlex, in a tenth of the time."""
    if WORD.sub("", text).strip(" \t\r\n"):
        import shlex
        return shlex.split(text)
    words = (word[0] for word in WORD.finditer(text))
    return [PIECE.sub(unquoted, word) if MARK.search(word) else word for word in words]


def unquoted(found):
    escaped, single, double = found.groups()
    if double is not None:
        return re.sub(r'\\(["\\])', r"\1", double)
    return escaped or single or ("" if single is not None else found[0])


def response(directory, name):
    """Returns the words of a response file."""
    path = os.path.join(directory, name)
    try:
        with open(path, encoding="utf-8", errors="surrogateescape") as file:
            return split_response(file.read())
    except FileNotFoundError:
        raise LeftOut("there is no response file %s" % path) from None
    except (OSError, ValueError) as error:
        raise LeftOut("the response file %s can't be read: %s" % (path, getattr(error, "strerror", None) or error)) from None


def split_response(text):
    """Splits a response file into words: quotes keep white space in a word, and a backslash keeps the next character."""
    import shlex
    words = shlex.shlex(text, posix=True, punctuation_chars=False)
    words.whitespace_split, words.commenters, words.escapedquotes = True, "", "\"'"
    return list(words)


def defined_name(text):
    """Returns the name that a definition defines, in the form of a command or of `#define`."""
    return re.match(r"[^\s(=]*", text)[0]


@functools.lru_cache(maxsize=65536)
def at(directory, word):
    return os.path.normpath(os.path.join(directory, word))


def unique(words):
    return list(dict.fromkeys(words))


def commands(path, report):
    """Returns the commands of a build's C units; refuses a build without one."""
    with opened(path) as file:
        entries = read_json(path, file.read())
    if not isinstance(entries, list):
        raise Refused("%s is no compile_commands.json: it is to be an array" % path)
    found = [command for number, entry in enumerate(entries) if (command := taken(path, number, entry, report)) is not None]
    if not found:
        report.end()
        raise Refused("%s: there is no C unit among its %d commands" % (path, len(entries)))
    return found


def taken(path, number, entry, report):
    """Returns the command of an entry, or None if it is left out, which is reported."""
    wrong = wrong_member(entry)
    if wrong is not None:
        raise Refused("%s, entry %d: no `directory`, `file` and `command` or `arguments` ([%d]%s)" % (path, number, number, wrong))
    try:
        command = Command(entry, report)
    except LeftOut as reason:
        report.missing(at(os.path.abspath(entry["directory"]), entry["file"]), "a response file is missing", reason)
        return None
    except ValueError as error:
        raise Refused("%s, entry %d: no `directory`, `file` and `command` or `arguments` ([%d].%s: %s)"
                      % (path, number, number, "arguments" if "arguments" in entry else "command", error)) from None
    if command.language != "c":
        report.left_out(command.file, "no C file")
    elif not is_folder(command.directory):
        report.missing(command.file, "their directory is missing", "there is no directory %s" % command.directory)
    elif not os.path.isfile(command.file):
        report.missing(command.file, "there is no such file (is it made by the build?)")
    else:
        return command
    return None


def wrong_member(entry):
    """Returns the path of the first member of an entry that has another form, and what is wrong; None if there is none."""
    if not isinstance(entry, dict):
        return " is no object"
    for name in "directory", "file":
        if name not in entry:
            return ".%s is missing" % name
    words = entry.get("arguments")
    if words is None and "command" not in entry:
        return ".command is missing"
    if words is not None and not isinstance(words, list):
        return ".arguments is no array"
    texts = [(".directory", entry["directory"]), (".file", entry["file"])]
    texts += [(".command", entry["command"])] if words is None else [(".arguments[%d]" % at_word, word) for at_word, word in enumerate(words)]
    texts += [(".output", entry["output"])] if entry.get("output") is not None else []
    return next((name + " is no text" for name, value in texts if not isinstance(value, str)), None)


def is_text(word):
    """Returns whether a name can be written in UTF-8."""
    try:
        word.encode()
    except UnicodeEncodeError:
        return False
    return True


def is_name(name):
    """Returns whether a list may have this name, which is relative and normalized."""
    if not is_text(name) or re.search("[\x00-\x1f\x7f]", name):
        return False
    return name != "." and 1 <= len(name.encode()) <= MAX_NAME


class Report:
    """Reports what a list can't express: each message once, on standard error.  Counts the commands that are left out."""

    def __init__(self):
        self.lines, self.out = set(), {}

    def add(self, line):
        if line not in self.lines:
            self.lines.add(line)
            say(line)

    def takes_date(self, word):
        """Returns whether a command may define `__DATE__` or `__TIME__`, which are those of all units of a list."""
        return False

    def left_out(self, path, reason):
        """Reports and counts a command that isn't part of the list."""
        self.missing(path, reason)

    def missing(self, path, reason, what=None):
        """Reports and counts a command that is left out because something is missing; `what` may say more than the reason."""
        self.out[reason] = self.out.get(reason, 0) + 1
        self.add("%s: %s" % (path, what or reason))

    def end(self):
        """Says how many commands are left out, by reason."""
        for reason, count in self.out.items():
            say("%d commands are left out: %s" % (count, reason))

    def same(self, asked, taken):
        """Reports a path where removing `..` by name gives another directory than the disk does: after a symbolic link they differ."""
        if ".." in asked and place(asked) != place(taken) and os.path.realpath(asked) != os.path.realpath(taken):
            self.add("%s: reached by a symbolic link; %s is taken" % (asked, taken))
