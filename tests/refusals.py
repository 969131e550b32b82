"""Runs a program with one of its requests refused, or all from one on; refused_memory.py, refused_in_tests.py and hostile_devices.py use it."""
import contextlib
import os
import subprocess
import tempfile

HERE = os.path.dirname(os.path.abspath(__file__))
MAX_RUNS = 20_000
# whether all requests after a refused one are refused, too, and how that is printed
KINDS = {False: "each alone", True: "each with all after it"}


def refused(call, on):
    return "all from request %d on refused" % call if on else "request %d refused" % call


@contextlib.contextmanager
def built(source):
    """Yields the path of this C file, built as a library to preload; it exists only inside the `with`."""
    with tempfile.TemporaryDirectory() as folder:
        library = os.path.join(folder, "refusing.so")
        subprocess.run(["cc", "-O2", "-shared", "-fPIC", "-o", library, os.path.join(HERE, source)], check=True)
        yield library


def refusing_malloc():
    """Yields the path of the built refuse_malloc.c; it exists only inside the `with`."""
    return built("refuse_malloc.c")


def refusing_files():
    """Yields the path of the built refuse_files.c; it exists only inside the `with`."""
    return built("refuse_files.c")


def run(command, library, call, data=None, on=False, error=None):
    """Runs with this request refused with this error number, and with `on` all later ones; returns the run and whether it met the refusal."""
    told, tells = os.pipe()
    environment = dict(os.environ, LD_PRELOAD=library, REFUSED_CALL=str(call), REFUSAL_FD=str(tells))
    if on:
        environment["REFUSED_ON"] = "1"
    if error is not None:
        environment["REFUSED_ERROR"] = str(error)
    try:
        done = subprocess.run(command, input=data, capture_output=True, env=environment, pass_fds=(tells,), timeout=60)
    finally:
        os.close(tells)
    met = os.read(told, 1) != b""
    os.close(told)
    return done, met


def runs(command, library, data=None, on=False, error=None):
    """Yields the runs with the 1st, 2nd, 3rd .. request refused, each with its number, up to the first that meets no refusal."""
    for call in range(1, MAX_RUNS):
        done, met = run(command, library, call, data, on, error)
        yield call, done, met
        if not met:
            return
    raise SystemExit("no end of requests")


def tally(cases):
    """Prints each case's name, its first problems and the counts, and returns the exit status."""
    passed = failed = 0
    for name, problems in cases:
        print(name)
        found = list(problems)
        for problem in found[:5]:
            print("  " + problem)
        failed += bool(found)
        passed += not found
    print("%d passed, %d failed" % (passed, failed))
    return 1 if failed or not passed else 0
