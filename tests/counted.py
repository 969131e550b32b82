"""Runs the program and the scripts, and counts tests, for the tests that aren't in the crates.

The program is the first argument, or the environment variable CPPUNITS, or crates/cppunits/out/cppunits, which `rt ci` and
`rt run` build.  A test is missed if it needs a program that isn't there.  It counts as neither passed nor failed, and the
missing program is named with its Debian package.
"""
import json
import os
import re
import shutil
import subprocess
import sys
import tempfile
import unittest

HERE = os.path.dirname(os.path.abspath(__file__))
TOP = os.path.dirname(HERE)
BUILT = os.path.join(TOP, "crates", "cppunits", "out", "cppunits")
with open(os.path.join(HERE, "packages.txt")) as lines:
    # a program that tests use, and its Debian packages
    PACKAGES = dict(line.strip().split(" ", 1) for line in lines)
LIST = {"date": "Feb  9 2024", "time": "08:05:03"}
PRINTED = re.compile(rb"%([0-9A-F]{2})")


def program():
    return os.path.abspath(os.environ.get("CPPUNITS") or BUILT)


def missed(*names):
    """Ends a test as missed if one of these programs isn't there."""
    for name in names:
        if shutil.which(name) is None:
            raise unittest.SkipTest("%s is missing (Debian package %s)" % (name, PACKAGES[name]))


def run(command, **more):
    return subprocess.run(command, stdout=subprocess.PIPE, stderr=subprocess.PIPE, **more)


def well(command, **more):
    """Returns the output of a command that must end with status 0."""
    done = run(command, **more)
    if done.returncode:
        raise AssertionError("%s: status %d\n%s" % (command, done.returncode, (done.stdout + done.stderr).decode()))
    return done.stdout


def script(name, *words, **more):
    return run([sys.executable, os.path.join(TOP, "scripts", name), *words], **more)


def cppunits(*words, **more):
    return run([program(), *words], **more)


def write(folder, files):
    """Writes files below a directory, from their names and texts or bytes."""
    for name, text in files.items():
        path = os.path.join(folder, name)
        os.makedirs(os.path.dirname(path), exist_ok=True)
        with open(path, "wb") as file:
            file.write(text if isinstance(text, bytes) else text.encode())


def dumped(files, units, *words, **more):
    """Returns the lines that are printed for each unit of a list, which must be accepted."""
    done = cppunits(*words, "dump", input=json.dumps(dict(LIST, files=files, units=units, **more)).encode())
    if done.returncode not in (0, 1) or done.stderr:
        raise AssertionError("status %d: %s" % (done.returncode, done.stderr.decode()))
    return [unit.splitlines() for unit in re.split(rb"^unit .*\n", done.stdout, flags=re.MULTILINE)[1:]]


def spelled(text):
    """Returns a printed spelling as it is in its file."""
    return PRINTED.sub(lambda found: bytes([int(found[1], 16)]), text).decode("latin-1")


class Folder(unittest.TestCase):
    """Runs tests in a temporary directory."""

    def setUp(self):
        folder = tempfile.TemporaryDirectory()
        self.addCleanup(folder.cleanup)
        self.top = os.path.realpath(folder.name)

    def path(self, name):
        return os.path.join(self.top, name)


class Results(unittest.TextTestResult):
    """Counts results, and names each missed test in a line."""

    def __init__(self, *words):
        super().__init__(*words)
        self.passed, self.missing = 0, []

    def addSuccess(self, test):
        super().addSuccess(test)
        self.passed += 1

    def addSkip(self, test, reason):
        super().addSkip(test, reason)
        self.missing.append("%s: %s" % (test.id().split(" ")[0].split(".", 1)[1], reason))

    @property
    def failed(self):
        return len(self.failures) + len(self.errors) + len(self.unexpectedSuccesses)


STATUS = """status:
  0  each test passed, or was missed
  1  one failed, or the program isn't there
  2  the command line isn't right
"""


def main(runs_program=True):
    """Runs the tests of the calling file, and prints the missed tests and the counts."""
    words = sys.argv[1:]
    if words in (["--help"], ["-h"]):
        print(sys.modules["__main__"].__doc__.strip() + "\n\n" + STATUS, end="")
        sys.exit(0)
    if words and os.path.isfile(words[0]):
        os.environ["CPPUNITS"] = os.path.abspath(words.pop(0))
    if runs_program and not os.access(program(), os.X_OK):
        print("%s isn't there: build it by `rt run` in crates/cppunits, or name another by CPPUNITS" % program())
        print("0 passed, 1 failed")
        sys.exit(1)
    runner = unittest.TextTestRunner(stream=sys.stdout, resultclass=Results)
    done = unittest.main(argv=[sys.argv[0], *words], testRunner=runner, exit=False, verbosity=0).result
    for line in done.missing:
        print("missed: " + line)
    print("%d passed, %d failed" % (done.passed, done.failed))
    sys.exit(1 if done.failed or not done.passed + len(done.missing) else 0)
