#!/usr/bin/env python3
"""Runs the program on streams and files that fail.

    tests/hostile_devices.py [PROGRAM] [-k NAME]

Inputs are closed, a directory, slow, or have no data yet.  Outputs of a run and of `--help` are closed, full, slow, have no room yet, or lose
their reader.  Standard error is closed or full.  In a directory some names aren't regular files, and some reads fail because the system has
no memory or no file descriptor.  If a stream fails, the status is 5, and nothing or a beginning of the answer is printed.  If the system is
out of memory or descriptors, the status is 4, and nothing is printed.  No run may hang or end by a signal.
"""
import errno
import json
import os
import resource
import subprocess
import tempfile
import threading
import time
import unittest

from counted import LIST, Folder, cppunits, main, missed, program, write
from refusals import refusing_files, runs

MAX_SECONDS = 10
# enough seconds for a slow other end, on a machine that is busy
MAX_SECONDS_OF_SLOW_ENDS = 120
# a text whose tokens take more bytes than a pipe holds
TEXT = "word " * 20_000
LONG = json.dumps(dict(LIST, files=[{"name": "a.c", "text": TEXT}], units=[{"file": "a.c"}])).encode()
READ_FAILED, WRITE_FAILED = (5, b"", b"cppunits: read failed\n"), (5, b"cppunits: write failed\n")
OUT_OF_MEMORY = (4, b"", b"cppunits: out of memory\n")
EMPTY = b'{"date":"Feb  9 2024","time":"08:05:03","files":[],"units":[]}'
# errors that aren't about the file, and some that are
SHORTAGES = errno.ENOMEM, errno.ENFILE, errno.EMFILE
OTHERS = errno.EACCES, errno.EIO, errno.EISDIR, errno.ELOOP, errno.ENAMETOOLONG, errno.ENOENT, errno.ENOTDIR


def shell(redirected, data=LONG, words="dump"):
    """Returns the status and standard error of a run whose streams a shell redirects."""
    command = '"$0" %s %s' % (words, redirected)
    done = subprocess.run(["sh", "-c", command, program()], input=data, capture_output=True, timeout=MAX_SECONDS)
    return done.returncode, done.stderr


def give(descriptor, data, size, pause=0.0):
    """Writes the data in pieces and closes the stream, in a thread, so that the other end can be read meanwhile."""
    with os.fdopen(descriptor, "wb", buffering=0) as stream:
        for at in range(0, len(data), size):
            try:
                stream.write(data[at:at + size])
            except BrokenPipeError:
                return
            time.sleep(pause)


class Streams(unittest.TestCase):
    @classmethod
    def setUpClass(cls):
        cls.answer = cppunits("dump", input=LONG, timeout=MAX_SECONDS).stdout

    def started(self, **streams):
        streams = {"stdin": subprocess.PIPE, "stdout": subprocess.PIPE, "stderr": subprocess.PIPE, **streams}
        child = subprocess.Popen([program(), "dump"], **streams)
        for stream in child.stdin, child.stdout, child.stderr:
            if stream:
                self.addCleanup(stream.close)
        self.addCleanup(child.wait)
        self.addCleanup(child.kill)
        return child

    def outcome(self, child, seconds=MAX_SECONDS):
        output, words = child.communicate(timeout=seconds)
        return child.returncode, output, words

    def is_whole_or(self, failure, found):
        """Wants the answer, or the failure with a beginning of the answer."""
        status, output, words = found
        if status:
            self.assertEqual((status, words), failure)
            self.assertTrue(self.answer.startswith(output))
        else:
            self.assertTrue(output == self.answer and words == b"", words)


class Inputs(Streams):
    def test_closed(self):
        self.assertEqual(shell("<&-"), (5, b"cppunits: read failed\n"))

    def test_a_directory(self):
        self.assertEqual(shell("< /"), (5, b"cppunits: read failed\n"))

    def test_not_for_reading(self):
        with tempfile.NamedTemporaryFile() as file, open(file.name, "ab") as output:
            self.assertEqual(self.outcome(self.started(stdin=output)), READ_FAILED)

    def test_nothing(self):
        self.assertEqual(self.outcome(self.started(stdin=subprocess.DEVNULL)), (3, b"", b"cppunits: list refused L1\n"))

    def test_slow(self):
        for size, pause in (1, 0.0), (len(LONG) // 20, 0.02):
            takes, gives = os.pipe()
            child = self.started(stdin=takes)
            os.close(takes)
            giver = threading.Thread(target=give, args=(gives, LONG, size, pause))
            giver.start()
            self.is_whole_or(None, self.outcome(child, MAX_SECONDS_OF_SLOW_ENDS))
            giver.join()

    def test_no_data_yet(self):
        """Reads a pipe that returns at once if it has no data: the program waits, or the read fails."""
        takes, gives = os.pipe()
        os.set_blocking(takes, False)
        child = self.started(stdin=takes)
        os.close(takes)
        time.sleep(0.3)
        giver = threading.Thread(target=give, args=(gives, LONG, 4_096))
        giver.start()
        found = self.outcome(child)
        giver.join()
        self.is_whole_or((5, b"cppunits: read failed\n"), found)
        self.assertTrue(found[0] == 0 or found[1] == b"")


class Outputs(Streams):
    def test_closed(self):
        self.assertEqual(shell(">&-"), WRITE_FAILED)

    def test_full(self):
        if not os.path.exists("/dev/full"):
            raise unittest.SkipTest("this system has no /dev/full")
        self.assertEqual(shell("> /dev/full"), WRITE_FAILED)

    def test_nothing_to_print(self):
        """Prints nothing for a list without units, so nothing fails."""
        for redirected in "> /dev/full", ">&-":
            self.assertEqual(shell(redirected, EMPTY), (0, b""), redirected)

    def test_left_by_its_reader(self):
        child = self.started()
        child.stdin.write(LONG)
        child.stdin.close()
        first = os.read(child.stdout.fileno(), 1)
        child.stdout.close()
        words = child.stderr.read()
        self.assertEqual((child.wait(MAX_SECONDS), words, first), (*WRITE_FAILED, b"u"))

    def test_no_room_yet(self):
        """Writes to a pipe that returns at once if it has no room: the program waits, or the write fails."""
        takes, gives = os.pipe()
        os.set_blocking(gives, False)
        child = self.started(stdout=gives)
        os.close(gives)
        child.stdin.write(LONG)
        child.stdin.close()
        time.sleep(0.5)
        with os.fdopen(takes, "rb") as stream:
            output = stream.read()
        words = child.stderr.read()
        self.is_whole_or(WRITE_FAILED, (child.wait(MAX_SECONDS), output, words))

    def test_slow(self):
        child = self.started()
        giver = threading.Thread(target=give, args=(os.dup(child.stdin.fileno()), LONG, len(LONG)))
        giver.start()
        child.stdin.close()
        pieces = []
        while pieces[-1:] != [b""]:
            pieces.append(os.read(child.stdout.fileno(), 50_000))
            time.sleep(0.02)
        giver.join()
        words = child.stderr.read()
        self.is_whole_or(None, (child.wait(MAX_SECONDS), b"".join(pieces), words))


    def test_help_and_version(self):
        """Wants that a failed write is reported, since what these options print is the whole answer."""
        full = ["> /dev/full"] if os.path.exists("/dev/full") else []
        for words in "--help", "--version", "dump --help":
            self.assertEqual(shell("", b"", words), (0, b""), words)
            for redirected in [">&-", *full]:
                self.assertEqual(shell(redirected, b"", words), WRITE_FAILED, (words, redirected))

    def test_help_left_by_its_reader(self):
        takes, gives = os.pipe()
        os.close(takes)
        with os.fdopen(gives, "wb") as output:
            done = subprocess.run([program(), "--help"], stdout=output, stderr=subprocess.PIPE, timeout=MAX_SECONDS)
        self.assertEqual((done.returncode, done.stderr), WRITE_FAILED)


class Errors(Streams):
    def test_closed_and_full(self):
        for redirected in "2>&-", "2> /dev/full":
            self.assertEqual(shell(redirected, b"[]"), (3, b""), redirected)
            self.assertEqual(shell("> /dev/full " + redirected), (5, b""), redirected)
            self.assertEqual(shell(redirected), (0, b""), redirected)


class Files(unittest.TestCase):
    def setUp(self):
        folder = tempfile.TemporaryDirectory()
        self.addCleanup(folder.cleanup)
        self.top = folder.name
        os.mkdir(self.path("folder"))
        with open(self.path("plain"), "wb") as file:
            file.write(b"1\n")

    def path(self, name):
        return os.path.join(self.top, name)

    def link(self, name, to):
        os.symlink(to, self.path(name))

    def is_unreadable(self, name, root=None):
        data = json.dumps(dict(LIST, files=[{"name": name}], units=[{"file": name}])).encode()
        try:
            done = cppunits("--root", root or self.top, "dump", input=data, timeout=MAX_SECONDS)
        except subprocess.TimeoutExpired:
            self.fail("%s: no answer within %d seconds" % (name, MAX_SECONDS))
        wanted = "unit 0 %s\ndep 0 %s\nfault 6 0:1:1 %s\n" % (name, name, name)
        self.assertEqual((done.returncode, done.stdout, done.stderr), (1, wanted.encode(), b""), name)

    def test_names_of_no_file(self):
        self.link("loop", "loop")
        self.link("dangling", "none")
        for name in "folder", "none", "plain/below", "none/below", "loop", "dangling", "n" * 300:
            self.is_unreadable(name)
        self.is_unreadable("plain", root=self.path("none"))
        self.is_unreadable("plain", root=self.path("plain"))

    def test_devices(self):
        for name in "null", "zero", "full":
            if os.path.exists("/dev/" + name):
                self.link(name, "/dev/" + name)
                self.is_unreadable(name)

    def test_a_pipe_without_a_writer(self):
        os.mkfifo(self.path("pipe"))
        self.is_unreadable("pipe")

    def test_not_readable(self):
        os.chmod(self.path("plain"), 0)
        try:
            open(self.path("plain"), "rb").close()
        except OSError as error:
            self.assertEqual(error.errno, errno.EACCES)
            self.is_unreadable("plain")
        else:
            raise unittest.SkipTest("this user may read every file")


class Shortages(Folder):
    """Tests runs for which the system has no memory or no descriptor: status 4 and nothing printed, or the answer."""

    def setUp(self):
        super().setUp()
        self.units = ["u%d.c" % number for number in range(64)]
        self.files = {name: '#include "h.h"\n#include "i.h"\n%s\n' % name for name in self.units}
        self.files.update({"h.h": "#ifndef H\n#define H\nint h;\n#endif\n", "i.h": "int i;\n"})
        write(self.top, self.files)

    def list_of(self, units):
        files = [{"name": name} for name in [*units, "h.h", "i.h"]]
        return json.dumps(dict(LIST, files=files, units=[{"file": name} for name in units])).encode()

    def command(self, workers):
        return [program(), "--workers", str(workers), "--block", "1", "--root", self.top, "dump"]

    def outcome(self, units, workers=1, **more):
        done = subprocess.run(self.command(workers), input=self.list_of(units), capture_output=True, timeout=MAX_SECONDS, **more)
        return done.returncode, done.stdout, done.stderr

    def limited(self, descriptors, workers):
        """Returns the result of a run of all units with a limit on descriptors."""
        limits = descriptors, descriptors
        return self.outcome(self.units, workers, preexec_fn=lambda: resource.setrlimit(resource.RLIMIT_NOFILE, limits))

    def test_few_descriptors(self):
        """Runs more workers than files that may be open at once."""
        answer = self.outcome(self.units)
        self.assertEqual((answer[0], answer[2]), (0, b""))
        for limit in 4, 5, 6, 8, 16:
            for _ in range(8):
                self.assertIn(self.limited(limit, 64), (answer, OUT_OF_MEMORY), limit)

    def test_enough_descriptors(self):
        """Allows a file at a time for each worker, and the three streams."""
        answer = self.outcome(self.units)
        for _ in range(8):
            self.assertEqual(self.limited(8 + 3, 8), answer)

    def test_no_descriptor(self):
        """Sets a limit of 3 after the program begins to read its list: no file can be opened."""
        for workers in 1, 64:
            child = subprocess.Popen(self.command(workers), stdin=subprocess.PIPE, stdout=subprocess.PIPE, stderr=subprocess.PIPE)
            self.addCleanup(child.wait)
            self.addCleanup(child.kill)
            # more white space than a pipe holds, so that the program begins to read it before the limit
            child.stdin.write(b" " * 2_000_000)
            child.stdin.flush()
            resource.prlimit(child.pid, resource.RLIMIT_NOFILE, (3, 3))
            output, words = child.communicate(self.list_of(self.units), MAX_SECONDS)
            self.assertEqual((child.returncode, output, words), OUT_OF_MEMORY, workers)

    def refused_in_turn(self, error, workers, units):
        """Yields the result of each run in which one call on a file fails with this error."""
        with refusing_files() as files:
            for _, done, met in runs(self.command(workers), files, self.list_of(units), error=error):
                if met:
                    yield done.returncode, done.stdout, done.stderr

    def test_each_call_refused(self):
        missed("cc")
        for error in SHORTAGES:
            for workers in 1, 4:
                found = list(self.refused_in_turn(error, workers, self.units[:4]))
                # at least one stat, open and read for each of six files
                self.assertGreaterEqual(len(found), 18)
                self.assertEqual(set(found), {OUT_OF_MEMORY}, (errno.errorcode[error], workers))

    def test_each_call_fails(self):
        """Wants that any other error counts as a missing file."""
        missed("cc")
        units = self.units[:1]
        wanted = set()
        for name in [*units, "h.h", "i.h"]:
            os.rename(self.path(name), self.path("away"))
            wanted.add(self.outcome(units))
            os.rename(self.path("away"), self.path(name))
        self.assertEqual([status for status, *_ in wanted], [1, 1, 1])
        for error in OTHERS:
            self.assertEqual(set(self.refused_in_turn(error, 1, units)), wanted, errno.errorcode[error])


if __name__ == "__main__":
    main()
