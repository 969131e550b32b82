#!/usr/bin/env python3
"""Runs each example of README.md and docs/*.md, and compares its output with the document.

    tests/docs_examples.py [PROGRAM] [-k NAME]
    tests/docs_examples.py --record DOCUMENT..     runs the sessions of these, and writes their output into them

An example is a block of `json`, which is the list on standard input, or of `sh`, whose output is the list.  After it come any
of these, each followed by a block:

    `cppunits WORDS` prints, with status N,             (without `with status N`: 0; nothing on standard error)
    `cppunits WORDS` exits with status N; standard error has
    `cppunits WORDS < FILE` prints ..                   (FILE of the repository is the list)
    `FILE` holds                                        (FILE of the repository has exactly this text)
    - gcc: `WORDS`   or   - clang: `WORDS`              (the first error or warning on the list's file a.c, or: nothing)
    - gcc gives: `TEXT`   or   - clang gives: `TEXT`      (their output, all white space as single spaces)

Blocks of `console` are sessions.  A shell runs them in a copy of examples/demo, one after another for each document.  Lines
after `$ ` are commands (a line that ends in a backslash continues in the next), and the others are their output, of which
seconds aren't compared.  cppunits and the scripts are on PATH.

Messages of gcc and clang are compared if the installed version is the one that docs/FAULTS.md names.
"""
import contextlib
import glob
import json
import os
import re
import shutil
import subprocess
import sys
import tempfile
import unittest

from counted import PACKAGES, TOP, main, missed, program, run, well

SENTENCE = re.compile(r"`(?:\S*/)?cppunits (?P<words>[^`<]+?)(?: < (?P<file>[^`]+))?` (?:"
                      r"(?P<prints>prints)(?:,? with status (?P<status>\d))?|exits with status (?P<ends>\d); standard error has),?$")
HOLDS = re.compile(r"`(?P<file>[\w./]+)` holds$")
COMPILER = re.compile(r"- (?P<name>gcc|clang)(?P<gives> gives)?: (?:`(?P<words>.+)`|nothing)$")
SECONDS = re.compile(r"\d+\.\d seconds")
VERSIONS = {"gcc": r"messages\s+are\s+those\s+of\s+gcc\s+(\S+)", "clang": r"messages\s+are\s+those\s+of\s+gcc\s+\S+\s+and\s+clang\s+(\S+)"}
LINK = re.compile(r"\]\((?!\w+:)([^()#\s]*)(#[^()\s]*)?\)")
DIAGNOSTIC = re.compile(r"(error|warning): ")


def parts(text):
    """Yields the blocks (language and text) and the other lines of a document, in order."""
    language, block = None, []
    for line in text.split("\n"):
        if line.startswith("```") and language is None:
            language, block = line[3:], []
        elif line == "```":
            yield language, "".join(one + "\n" for one in block)
            language = None
        elif language is not None:
            block.append(line)
        else:
            yield None, line


def examples(text):
    """Yields the claims of a document: the match of a sentence, the list's block, and the block that follows."""
    listed, claim = None, None
    for language, part in parts(text):
        if language is None:
            if part.startswith(("- gcc", "- clang")):
                yield COMPILER.match(part), listed, None
            elif (found := SENTENCE.search(part) or HOLDS.search(part)):
                claim = found
            elif part:
                claim = None
        else:
            if claim is not None:
                yield claim, listed, part
            if language in ("json", "sh"):
                listed = language, part
            claim = None


def bytes_of(listed):
    """Returns the list of a block."""
    language, text = listed
    return text.encode() if language == "json" else well(["sh", "-c", text])


class Example:
    def __init__(self, test, document):
        self.test, self.document = test, document

    def check(self, claim, listed, block):
        if claim.re is HOLDS:
            with open(os.path.join(TOP, claim["file"])) as file:
                self.test.assertEqual(file.read().rstrip("\n"), block.rstrip("\n"), claim["file"])
        elif claim.re is COMPILER:
            self.compiler(claim, bytes_of(listed))
        else:
            self.program(claim, listed, block)

    def program(self, claim, listed, block):
        with tempfile.TemporaryDirectory() as folder:
            os.mkdir(os.path.join(folder, "empty"))
            if claim["file"]:
                folder = TOP
                with open(os.path.join(TOP, claim["file"]), "rb") as file:
                    data = file.read()
            else:
                data = bytes_of(listed)
            done = run([program(), *claim["words"].split()], input=data, cwd=folder)
        wanted = (block, "", int(claim["status"] or 0)) if claim["prints"] else ("", block, int(claim["ends"]))
        self.test.assertEqual((done.stdout.decode(), done.stderr.decode(), done.returncode), wanted, claim[0])

    def compiler(self, claim, data):
        listed = json.loads(data)
        with tempfile.TemporaryDirectory() as folder:
            for file in listed["files"]:
                if "text" in file:
                    path = os.path.join(folder, file["name"])
                    os.makedirs(os.path.dirname(path), exist_ok=True)
                    with open(path, "w") as target:
                        target.write(file["text"])
            command = [claim["name"], "-std=c11", "-pedantic", "-E", "-P", "a.c"]
            done = run(command, cwd=folder, env=dict(os.environ, LC_ALL="C"))
        messages = [line for line in done.stderr.decode().splitlines() if DIAGNOSTIC.search(line)]
        found = " ".join(done.stdout.decode().split()) if claim["gives"] else messages[0] if messages else ""
        self.test.assertEqual(found, claim["words"] or "", data)


def commands(block):
    """Yields the commands of a session, each with its output."""
    for part in re.split(r"^\$ ", block, flags=re.M)[1:]:
        command, printed = re.match(r"((?:[^\n]*\\\n)*[^\n]*\n)(.*)", part, re.S).groups()
        yield command, printed


def printed_by(command, where, environment):
    """Returns the output of a command of a session."""
    done = subprocess.run(["sh", "-c", command], cwd=where, env=environment, stdout=subprocess.PIPE, stderr=subprocess.STDOUT)
    return done.stdout.decode()


def same(found, printed):
    """Returns whether two outputs are the same; seconds aren't compared."""
    return SECONDS.sub("", found) == SECONDS.sub("", printed)


def record(names):
    """Writes the current output of the commands into the sessions of documents.  A change of seconds alone changes nothing."""
    for name in names:
        with demo() as (where, environment):
            def recorded(block):
                lines = []
                for command, printed in commands(block[2]):
                    found = printed_by(command, where, environment)
                    lines.append("$ %s%s" % (command, printed if same(found, printed) else found))
                return block[1] + "".join(lines) + block[3]

            text = re.sub(r"^(```console\n)(.*?)(^```$)", recorded, text_of(name), flags=re.M | re.S)
        with open(os.path.join(TOP, name), "w") as file:
            file.write(text)


@contextlib.contextmanager
def demo():
    """Yields a copy of examples/demo, and an environment with cppunits and the scripts on PATH."""
    with tempfile.TemporaryDirectory() as folder:
        tools = os.path.join(folder, "tools")
        os.mkdir(tools)
        os.symlink(program(), os.path.join(tools, "cppunits"))
        path = os.pathsep.join((tools, os.path.join(TOP, "scripts"), os.environ["PATH"]))
        where = shutil.copytree(os.path.join(TOP, "examples", "demo"), os.path.join(folder, "demo"))
        yield where, dict(os.environ, PATH=path, CPPUNITS=program(), SOURCE_DATE_EPOCH="1707465903", XDG_CACHE_HOME=os.path.join(folder, "cache"))


def documents():
    return ["README.md", *sorted(os.path.relpath(path, TOP) for path in glob.glob(os.path.join(TOP, "docs", "*.md")))]


def text_of(name):
    with open(os.path.join(TOP, name)) as file:
        return file.read()


def anchors(text):
    """Returns the anchors of a document's headings."""
    headings = [part for language, part in parts(text) if language is None and part.startswith("#")]
    return [re.sub(r"[^\w -]", "", heading.lstrip("# ").lower()).replace(" ", "-") for heading in headings]


def compiler_test(compiler):
    def test(self):
        missed(compiler)
        wanted = re.search(VERSIONS[compiler], text_of("docs/FAULTS.md"))[1]
        found = well([compiler, "--version"]).decode().split("\n")[0]
        if wanted not in found.split() and wanted not in re.split(r"[\s-]", found):
            raise unittest.SkipTest("%s of version %s is missing, here is %s" % (compiler, wanted, found))
        self.claims(lambda claim: claim.re is COMPILER and claim["name"] == compiler)
    return test


def document_test(name):
    return lambda self: self.claims(lambda claim: claim.re is not COMPILER, [name])


class Documents(unittest.TestCase):
    def claims(self, wanted, names=None):
        """Checks all claims that are wanted, and reports those that don't hold."""
        for name in names or documents():
            example = Example(self, name)
            for claim, listed, block in examples(text_of(name)):
                if wanted(claim):
                    with self.subTest(document=name, claim=claim[0]):
                        example.check(claim, listed, block)

    def test_sessions(self):
        for name in documents():
            with demo() as (where, environment):
                for block in [part for language, part in parts(text_of(name)) if language == "console"]:
                    with self.subTest(document=name, block=block):
                        self.session(block, where, environment)

    def session(self, block, where, environment):
        if "$ build.py " in block:
            missed("cc")
        missed(*[name for name in PACKAGES if re.search(r"^\$ (?:.*[|;&] )?%s " % name, block, re.M)])
        for command, printed in commands(block):
            found = printed_by(command, where, environment)
            self.assertEqual(SECONDS.sub("", found), SECONDS.sub("", printed), command)

    def test_each_output_is_claimed(self):
        for name in documents():
            plain = [part for language, part in parts(text_of(name)) if language == ""]
            outputs = [part for part in plain if part.startswith(("unit ", "cppunits: "))]
            self.assertEqual(outputs, [block for _, _, block in examples(text_of(name)) if block in outputs], name)

    def test_links_lead_somewhere(self):
        for name in documents():
            for path, heading in LINK.findall(text_of(name)):
                target = os.path.normpath(os.path.join(os.path.dirname(name), path)) if path else name
                with self.subTest(document=name, link=path + heading):
                    self.assertTrue(os.path.exists(os.path.join(TOP, target)))
                    if heading:
                        self.assertIn(heading[1:], anchors(text_of(target)))

    def test_lines_are_short(self):
        for name in documents():
            plain = [part for language, part in parts(text_of(name)) if language is None and not part.startswith(("|", "- gcc", "- clang"))]
            self.assertEqual([line for line in plain if len(line) > 100], [], name)
        self.assertLessEqual(text_of("README.md").count("\n"), 140)

    def test_no_mark_of_a_merge_is_left(self):
        for name in documents():
            self.assertNotRegex(text_of(name), r"(?m)^(<{7}|>{7}|={7})( |$)", name)

    def test_the_man_page_shows_without_a_warning(self):
        page = os.path.join(TOP, "docs", "cppunits.1")
        checks = {"mandoc": ["mandoc", "-Tlint"], "groff": ["groff", "-ww", "-mandoc", "-Tutf8"]}
        found = [command for name, command in checks.items() if shutil.which(name)] or missed("groff")
        for command in found:
            done = run([*command, page], env=dict(os.environ, LC_ALL="C"))
            self.assertEqual((done.stderr, done.returncode), (b"", 0), command)
            self.assertIn(done.stdout.strip() if command[0] == "mandoc" else b"", b"")

    def test_the_documents_tell_all_options_statuses_and_numbers(self):
        words = well([program(), "--help"]).decode()
        numbers = re.findall(r"^### (?:Fault )?(L?\d+): ", text_of("docs/FAULTS.md"), re.M)
        format, page = text_of("docs/FORMAT.md"), text_of("docs/cppunits.1")
        for option in re.findall(r"--(\w+)", words):
            self.assertIn("`--%s" % option, format)
            self.assertRegex(page, r"Fl Fl %s\b" % option)
        for status in re.findall(r"(\d) [a-z]", words.split("Status: ")[1]):
            self.assertIn("\n| %s |" % status, format)
            self.assertIn("\n.It %s\n" % status, page.split(".Sh EXIT STATUS")[1])
        for number in numbers:
            self.assertIn("\n.It %s\n" % number, page)
        self.assertEqual(len(re.findall(r"^\.It L?\d+$", page.split(".Sh EXIT STATUS")[0], re.M)), len(numbers))

    def test_each_number_has_its_example(self):
        text = text_of("docs/FAULTS.md")
        numbers = re.findall(r"^### (?:Fault |L)(\d+): ", text, re.M)
        shown = re.findall(r"^(?:fault (\d+) |cppunits: list refused L(\d+)$)", text, re.M)
        self.assertEqual(numbers, [one or two for one, two in shown])
        self.assertEqual(len(numbers), len(set(re.findall(r"^### (?:Fault |L)\d+", text, re.M))))


for compiler in VERSIONS:
    setattr(Documents, "test_words_of_" + compiler, compiler_test(compiler))
for document in documents():
    if any(claim.re is not COMPILER for claim, _, _ in examples(text_of(document))):
        setattr(Documents, "test_" + re.sub(r"\W", "_", document), document_test(document))


if __name__ == "__main__":
    if sys.argv[1:2] == ["--record"]:
        record(sys.argv[2:])
    else:
        main()
