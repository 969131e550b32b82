"""Parses the command lines of the scripts."""
import argparse
import re
import sys

from common import USAGE, say

FORM = argparse.RawDescriptionHelpFormatter


class Parser(argparse.ArgumentParser):
    """Parses the command line, and reports an error in one line.  Options of a task may come before its name, too."""

    def __init__(self, *words, **more):
        self.own, self.tasks = [], None
        super().__init__(*words, **more)

    def add_argument(self, *words, **more):
        action = super().add_argument(*words, **more)
        self.own.append(action)
        return action

    def add_subparsers(self, **more):
        self.tasks = super().add_subparsers(**more)
        return self.tasks

    def parse_args(self, args=None, namespace=None):
        words = list(sys.argv[1:] if args is None else args)
        return super().parse_args(self.task_first(words) if self.tasks else words, namespace)

    def task_first(self, words):
        """Returns the words with the task, the first that is neither an option nor its value, before all others."""
        options = [action for task in self.tasks.choices.values() for action in task.own]
        place = 0
        while place < len(words) and re.match("-.", words[place]):
            if "=" in words[place] or not takes_value(words[place], options):
                place += 1
            else:
                place += 2
        return words[place:place + 1] + words[:place] + words[place + 1:]

    def error(self, message):
        say("%s (--help says more)" % message)
        sys.exit(USAGE)


def takes_value(word, options):
    """Returns whether an option, maybe shortened, takes the next word as its value."""
    found = [action for action in options if any(name.startswith(word) for name in action.option_strings)]
    return bool(found) and all(action.nargs != 0 for action in found)
