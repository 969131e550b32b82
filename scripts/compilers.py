"""Asks compilers for the directories that they search, the macros that they define, and the values of their operators.

A list of commands may be untrusted, so only few programs are run: those with the name of a compiler that are on PATH or below /usr or /opt,
and those that the user allows.  No shell is used, each question has a time limit, and options that load or write anything aren't passed.
"""
import contextlib
import functools
import os
import re
import time

from commands import at, defined_name, is_text, unique
from files import hashed
from lists import Additions

NAME = re.compile(r"(?:\w[\w.]*-){0,5}(?:cc|gcc|clang)(?:-\d[\d.]*)?")
TCC = re.compile(r"(?:\w[\w.]*-){0,5}tcc")
PLACES = ("/usr/", "/opt/")
SECONDS, MAX_ANSWER, AT_ONCE = 10, 16777216, 4
OPERATORS = ("has_attribute", "has_builtin", "has_c_attribute", "has_cpp_attribute", "has_feature", "has_extension", "building_module")
# names that a list may not define; the profile gnu allows `__STDC_VERSION__`
KEPT = {"__FILE__", "__LINE__", "__DATE__", "__TIME__", "__STDC__", "defined", "__VA_ARGS__", "__VA_OPT__"}
MACRO = re.compile(r"#define ([A-Za-z_$][\w$]*(?:\([^()]*\))?(?: .*)?)")
# the operators are no macros for cppunits, but headers test them by `#ifdef`
HAS_INCLUDE = {name: "%s %s" % (name, name) for name in ("__has_include", "__has_include_next")}
# definitions that the profile gnu alone takes
GNU_ALONE = (*HAS_INCLUDE, "__STDC_VERSION__")


class Limit:
    """Holds how many seconds a question may take, and an event that stops all questions."""

    def __init__(self, seconds):
        import threading
        self.seconds, self.stopped = seconds, threading.Event()

    def wait(self, stream, end):
        """Waits until there is something to read.  It waits in short steps, so that it sees the event that stops all questions."""
        import select
        while not self.stopped.is_set() and time.monotonic() < end:
            if select.select([stream], [], [], min(0.1, self.seconds))[0]:
                return
        raise NoAnswer("it takes more than %g seconds" % self.seconds, True)


class NoAnswer(Exception):
    """Says why a compiler gives no answer; `hangs` if it was stopped."""

    def __init__(self, reason, hangs=False):
        super().__init__(reason)
        self.hangs = hangs


class Answer:
    """Holds a compiler's answers under some options: directories, definitions by name, and for each operator the values by name."""

    def __init__(self, folders, macros):
        self.folders, self.macros, self.operators, self.whole, self.asked = folders, macros, [], None, False
        # whether __STDC_HOSTED__ is 1, and directories that the compiler would search if they were there
        self.hosted, self.absent = True, []
        self.known = {operator: {} for operator in OPERATORS}

    @functools.cached_property
    def key(self):
        """Returns what tells answers apart, but for the values of the operators, which follow from the compiler and the options."""
        return hashed(repr([self.folders, sorted(self.macros.items())]).encode("utf-8", "surrogatepass"))

    def definitions(self):
        """Returns all definitions by name, with those of the operators."""
        if self.whole is None:
            self.whole = {**self.macros, **({} if "__TINYC__" in self.macros else HAS_INCLUDE), **{defined_name(text): text for text in self.of_operators()}}
        return self.whole

    def of_operators(self):
        """Yields the definitions that replace the operators: a macro for each operator pastes its name and that of the argument."""
        for operator in self.operators:
            yield "__%s(x) __%s_1(x)" % (operator, operator)
            yield "__%s_1(x) __%s_ ## x" % (operator, operator)
            yield from ("__%s_%s %s" % (operator, name, value) for name, value in sorted(self.known[operator].items()) if value != "0")

    def learn(self, pairs, printed):
        """Reads what was printed for pairs of an operator and a name."""
        for operator, name in pairs:
            self.known[operator][name] = "0"
        found, self.asked = set(self.operators), True
        for operator, name, value in re.findall(r"^@ (\w+) (\w*) ?: ?(.*)$", printed, re.MULTILINE):
            found.add(operator)
            if name in self.known.get(operator, ()):
                self.known[operator][name] = value if re.fullmatch(r"\d+[lL]?", value) else "1"
        self.operators, self.whole = [operator for operator in OPERATORS if operator in found], None


class Compilers:
    """Holds answers by compiler and options.  Each question is asked once, several at a time."""

    def __init__(self, report, globs=(), seconds=SECONDS):
        self.report, self.globs, self.seconds = report, globs, seconds
        self.answers, self.failed, self.programs = {}, set(), {}

    @functools.cached_property
    def limit(self):
        return Limit(self.seconds)

    def answer(self, command):
        """Returns the answer of the command's compiler, or None, which is reported."""
        key = self.key(command)
        if key not in self.answers:
            self.ask_for([command])
        return self.answers[key]

    def macros(self, command):
        """Returns the definitions of the command's compiler by name; of one that isn't asked no more than that it is clang, by its name."""
        answer = self.answer(command)
        if answer is None:
            return {"__clang__": "__clang__ 1"} if "clang" in os.path.basename(command.compiler) else {}
        return answer.macros

    def ask_for(self, all_commands):
        """Gets all answers that these commands need."""
        keys = [key for key in unique(map(self.key, all_commands)) if key not in self.answers]
        self.answers.update({key: None for key in keys})
        found = self.each(answer_of, [(*key, self.limit) for key in keys if key[0] is not None])
        for key, answer in found.items():
            answer.hosted = answer.macros.pop("__STDC_HOSTED__", None) != "__STDC_HOSTED__ 0"
            if not answer.hosted:
                self.report.add("%s: __STDC_HOSTED__ is 0 there, and stays 1 here" % " ".join([key[0], *key[1]]))
        self.answers.update(found)

    def key(self, command):
        return self.program(command), tuple(command.asking)

    def program(self, command):
        """Returns the path of the command's compiler, or None if it isn't run, which is reported."""
        key = (command.compiler, command.directory if os.path.dirname(command.compiler) else None)
        if key not in self.programs:
            path, reason = trust(command.compiler, command.directory, self.globs)
            if reason:
                self.report.add("%s: this compiler isn't asked: %s" % (command.compiler or "no word", reason))
            self.programs[key] = None if reason else path
        return self.programs[key]

    def learn(self, names):
        """Asks each compiler for the values of its operators for these names."""
        questions = []
        for key, answer in self.answers.items():
            if answer is not None:
                fresh = [(operator, name) for operator in OPERATORS for name in sorted(names) if name not in answer.known[operator]]
                if fresh or not answer.asked:
                    questions.append((*key, self.limit, fresh))
        for key, (fresh, printed) in self.each(operator_values, questions).items():
            self.answers[key].learn(fresh, printed)

    def each(self, task, questions):
        """Returns the answers to questions by compiler and options; a compiler that hangs isn't asked again."""
        found = {}
        if not questions:
            return found
        # loaded here, since a compiler's front mostly has no question, and starts for each file
        from concurrent.futures import ThreadPoolExecutor

        def one(question):
            if question[0] in self.failed:
                return None
            try:
                return task(*question)
            except NoAnswer as reason:
                if reason.hangs:
                    self.failed.add(question[0])
                return reason

        with ThreadPoolExecutor(AT_ONCE) as pool:
            try:
                answers = list(pool.map(one, questions))
            except BaseException:
                self.limit.stopped.set()
                raise
        for question, answer in zip(questions, answers):
            if isinstance(answer, NoAnswer):
                self.report.add("%s: no answer: %s" % (" ".join([question[0], *question[1]]), answer))
            elif answer is not None:
                found[question[:2]] = answer
        return found


class CompilerAdditions(Additions):
    """Holds the directories and definitions that a unit gets from its compiler's answers."""

    def __init__(self, compilers, asked):
        super().__init__(asked.system, asked.define)
        self.compilers, self.left_out = compilers, () if asked.profile == "gnu" else GNU_ALONE

    def folders(self, command):
        answer = self.compilers.answer(command)
        return (answer.folders if answer else []) + self.system

    def definitions(self, command):
        answer = self.compilers.answer(command)
        found = dict(answer.definitions() if answer else HAS_INCLUDE)
        for name in self.left_out:
            found.pop(name, None)
        base = base_file(command)
        return {**found, **({"__BASE_FILE__": base} if answer and base else {}), **self.texts}


def base_file(command):
    """Returns the definition of the unit's own file as compilers show it, or None if a list can't have it."""
    name = command.spelled[command.file]
    return '__BASE_FILE__ "%s"' % re.sub(r'(["\\])', r"\\\1", name) if is_text(name) and name.isprintable() else None


def answer_of(program, options, limit):
    """Asks a compiler for its directories and macros."""
    told = told_by_tcc(program, options, limit) if TCC.fullmatch(os.path.basename(program)) else ask(program, options, ["-v"], False, limit)
    answer = Answer(folders_of(told), macros_of(ask(program, options, ["-dM"], True, limit)))
    answer.absent = re.findall(r'^ignoring nonexistent directory "([^"\n]+)"$', told, re.MULTILINE)
    return answer


def told_by_tcc(program, options, limit):
    """Returns the directories of tcc in the words of gcc."""
    printed = output_of([program, "-print-search-dirs"], b"", True, limit)
    folders = [] if "-nostdinc" in options else re.findall(r"^  (/.*)$", printed.partition("\ninclude:\n")[2].partition("\nlibraries:\n")[0], re.MULTILINE)
    return "\n".join(["#include <...> search starts here:", *(" " + folder for folder in folders), "End of search list"])


def operator_values(program, options, limit, pairs):
    """Asks a compiler for the values of pairs of an operator and a name; returns the pairs and what it prints."""
    return pairs, ask(program, options, ["-P"], True, limit, question_of(pairs))


def ask(program, options, question, output, limit, text=b""):
    """Returns what a compiler prints on standard output (if `output`) or on standard error."""
    return output_of([program, "-E", *question, "-x", "c", *options, "-"], text, output, limit)


def trust(word, directory, globs):
    """Returns the path of a compiler and the reason why it isn't run; the reason is None if it may be run."""
    import fnmatch
    if not is_text(word) or "\0" in word:
        return None, "its name is no text"
    path = at(directory, word) if os.path.dirname(word) else found_on_path(word)
    if path is None:
        return None, "there is no such program on PATH"
    if not os.access(path, os.X_OK) or not os.path.isfile(path):
        return None, "there is no such program"
    if any(fnmatch.fnmatchcase(path, glob) for glob in globs):
        return path, None
    reason = None
    if not NAME.fullmatch(os.path.basename(word)):
        reason = "its name is none of cc, gcc and clang"
    elif os.path.dirname(word) and not os.path.isabs(word):
        reason = "its path is relative"
    elif os.path.dirname(word) and not is_installed(path) and path != found_on_path(os.path.basename(word)):
        reason = "it is neither on PATH nor below /usr or /opt"
    return path, reason and "%s (--query-driver '%s' lets it be run)" % (reason, path)


def is_installed(path):
    """Returns whether a path is below /usr or /opt, and leads to a program there."""
    return path.startswith(PLACES) and os.path.realpath(path).startswith(PLACES)


def found_on_path(word):
    """Returns the path of a program on PATH, or None; relative directories of PATH don't count."""
    import shutil
    folders = [folder for folder in os.environ.get("PATH", os.defpath).split(os.pathsep) if os.path.isabs(folder)]
    return shutil.which(word, path=os.pathsep.join(folders)) if word and folders else None


def output_of(words, text, output, limit):
    """Runs a program in a temporary directory with a text as its input, and returns its output; time and output are limited."""
    import signal
    import subprocess
    import tempfile
    with tempfile.TemporaryDirectory() as folder, tempfile.TemporaryFile() as given:
        given.write(text)
        given.seek(0)
        streams = {"stdout": subprocess.PIPE, "stderr": subprocess.DEVNULL}
        if not output:
            streams = {"stdout": subprocess.DEVNULL, "stderr": subprocess.PIPE}
        try:
            process = subprocess.Popen(words, stdin=given, cwd=folder, start_new_session=True, env=dict(os.environ, LC_ALL="C"), **streams)
        except (OSError, ValueError) as error:
            raise NoAnswer(getattr(error, "strerror", None) or str(error)) from None
        try:
            return gathered(process.stdout or process.stderr, time.monotonic() + limit.seconds, limit)
        finally:
            with contextlib.suppress(OSError):
                os.killpg(process.pid, signal.SIGKILL)
            process.wait()
            (process.stdout or process.stderr).close()


def gathered(stream, end, limit):
    """Returns what a program prints until it ends."""
    data = []
    while sum(map(len, data)) <= MAX_ANSWER:
        limit.wait(stream, end)
        data.append(os.read(stream.fileno(), 65536))
        if not data[-1]:
            return b"".join(data).decode("utf-8", "replace")
    raise NoAnswer("it prints more than %d bytes" % MAX_ANSWER, True)


def folders_of(printed):
    """Returns the directories after `#include <...> search starts here` that exist."""
    found = re.search(r"^#include <\.\.\.> search starts here:\n(.*?)^End of search list", printed, re.MULTILINE | re.DOTALL)
    if found is None:
        lines = printed.strip().split("\n")
        raise NoAnswer("it names no directories; it says: %s" % (next((line for line in lines if "error" in line), lines[-1])[:200] or "nothing"))
    folders = [line[1:] for line in found[1].split("\n") if line.startswith(" /") and not line.endswith("(framework directory)")]
    return unique(os.path.realpath(folder) if ".." in folder else os.path.normpath(folder) for folder in folders if os.path.isdir(folder))


def macros_of(printed):
    """Returns the definitions of `#define` lines by name, without the names that the standard reserves."""
    lines = [line for line in printed.split("\n") if line.startswith("#define ")]
    found = [MACRO.fullmatch(line) for line in lines]
    if not found or not all(found):
        raise NoAnswer("it names no macros")
    texts = {defined_name(line[1]): line[1].rstrip() for line in found if line[1].isprintable()}
    texts = {name: text for name, text in texts.items() if name not in KEPT}
    # without this definition, as with -std=c90, the list's default value would apply
    texts.setdefault("__STDC_VERSION__", "__STDC_VERSION__ 0L")
    return texts


def question_of(pairs):
    """Returns a text that asks a compiler which operators it has, and for the value of each pair of an operator and a name."""
    lines = []
    for operator in OPERATORS:
        lines += ["#ifdef __%s" % operator, "@ %s :" % operator, "#endif"]
    for operator, name in pairs:
        asked = "__%s(%s)" % (operator, name)
        lines += ["#ifdef __%s" % operator, "#if " + asked, "@ %s %s : %s" % (operator, name, asked), "#endif", "#endif"]
    return "\n".join([*lines, ""]).encode()
