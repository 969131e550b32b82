#!/usr/bin/env python3
"""Prints a table of the mutants: which clause of which function refuses each, by the log of the full check.

    rt ci | tee LOG; tests/edits_table.py LOG

A mutant that the log doesn't name, as one of some crates or of a check that was stopped, is left out. The heading of a crate has
the number of its mutants in the table and in the crate.
"""
import glob
import os
import re
import sys

TOP = os.path.dirname(os.path.dirname(os.path.abspath(__file__)))
HEAD = """# Mutants

- *Call* is the public call whose meaning it changes, from the line `# covers:`.
- *Refused by* is the function that can't be proved, its file, and the first goal that fails. The
  name of a goal says where it arises. `returns-then-is_exhausted`: where the function returns
  because `is_exhausted` holds. `loop-.._preserved`: the invariant after an iteration.
  `..-requires`: what a call requires. The last part is the clause of the contract.
"""
LINE = re.compile(r"must-fail (\w+)/([\w-]+)\.edit: refused, as it must be(.*)")
GOAL = re.compile(r"(?:note: |\./)?((?:src|specs|proofs)/[\w+/-]+\.(?:rt|antt)):(\d+):\d+: (.*)")


def function_at(crate, path, line):
    """Returns the function of the source around this line, or the one whose proof this file is."""
    if path.startswith("proofs/"):
        return os.path.basename(os.path.dirname(path))
    name = "?"
    with open(os.path.join(TOP, "crates", crate, path)) as source:
        for number, text in enumerate(source, 1):
            found = re.match(r"\s*(?:pub(?:\(\w+\))? )?fn (\w+)", text)
            if found:
                name = found.group(1)
            # a goal of a function that has attributes is reported at the first of these
            if number >= line and not text.lstrip().startswith("#["):
                break
    return name


def sentence(crate, told):
    goal = GOAL.search(told)
    if not goal:
        return "refused%s" % (": " + told.strip(" :") if told.strip(" :") else "")
    path, line, words = goal.group(1), int(goal.group(2)), goal.group(3)
    named = re.search(r"`([^`]+)`", words)
    where = "`%s` (`%s`)" % (function_at(crate, path, line), path)
    return "%s: %s" % (where, "`%s`" % named.group(1) if named else words.strip())


def covered(edit):
    """Returns the public calls that a mutant covers, by its own line."""
    with open(edit) as text:
        named = [line.split(":", 1)[1] for line in text if line.startswith("# covers:")]
    return ", ".join("`%s`" % call.strip() for call in ",".join(named).split(",") if call.strip())


def main():
    found = {}
    with open(sys.argv[1], errors="replace") as log:
        for line in log:
            told = LINE.search(line)
            if told:
                found[told.group(1), told.group(2)] = sentence(told.group(1), told.group(3))
    print(HEAD)
    for folder in sorted(glob.glob(os.path.join(TOP, "crates", "*", "must-fail"))):
        crate = os.path.basename(os.path.dirname(folder))
        edits = sorted((os.path.basename(edit)[:-len(".edit")], edit) for edit in glob.glob(os.path.join(folder, "*.edit")))
        told = [(name, covered(edit), found[crate, name]) for name, edit in edits if (crate, name) in found]
        print("## %s (%d of %d)\n" % (crate, len(told), len(edits)))
        if told:
            print("| Mutant | Call | Refused by |\n|---|---|---|")
            print("\n".join("| `%s` | %s | %s |" % row for row in told) + "\n")


if __name__ == "__main__":
    main()
