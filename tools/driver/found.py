#!/usr/bin/env python3
"""Tries the bugs of docs/FOUND.md, and the commands of other pages that need a kernel tree.

    found.py --bin PATH TREE [TREE61]

TREE is a tree of Linux 6.12, TREE61 one of 6.1 (README.md). Each command that a page shows must print what stands below it; and
where FOUND.md says where a bug comes from, the function must stand in that file. Without TREE61 what needs it is skipped. A line
is printed for each check that fails, and last `N passed, M failed`.
"""

import argparse
import os
import re
import sys
import tempfile

import harness  # first: it finds the package bt878
from bt878.pages import commands, needs_tree, what_is_printed
from bt878.places import TOP

PAGES = ["README.md", "docs/FOUND.md", "docs/DRIVERS.md"]


class Trials:
    """The trees, and how many checks passed."""

    def __init__(self, trees):
        self.trees, self.passed, self.failed, self.skipped = trees, 0, 0, 0

    def check(self, good, text):
        self.passed, self.failed = self.passed + good, self.failed + (not good)
        if not good:
            print(text)


def try_commands(trials, binary, page):
    was_skipped = False
    for command, wanted in commands(os.path.join(TOP, page)):
        if not needs_tree(command):
            continue
        asked = re.findall(r"\$(TREE\w*)", command)
        if asked:
            was_skipped = not trials.trees[asked[0]]
        if was_skipped:
            trials.skipped += 1
            continue
        got = what_is_printed(command, TOP, binary, **trials.trees)
        trials.check(got == wanted, f"{page}: {command}: got {got!r:.300}, wanted {wanted!r:.300}")


def try_sources(trials):
    """`FUNCTION` in `FILE`, with ` of 6.1` behind it where it is of that tree."""
    with open(os.path.join(TOP, "docs/FOUND.md")) as file:
        named = re.findall(r"`(\w+)` in\s`([\w.-]+\.[ch])`(\sof\s6\.1)?", file.read())
    for function, name, old in named:
        tree = trials.trees["TREE61" if old else "TREE"]
        if not tree:
            trials.skipped += 1
            continue
        found = re.search(rf"^(\w[\w *]*\W)?{function}\s*\(", harness.source(tree, name), re.MULTILINE)
        trials.check(found is not None, f"no {function} in {name} of {tree}")


def main():
    words = argparse.ArgumentParser(description=__doc__.splitlines()[0])
    words.add_argument("--bin", required=True, help="the program bt878")
    words.add_argument("tree", metavar="TREE")
    words.add_argument("tree61", metavar="TREE61", nargs="?", default="")
    given = words.parse_args()
    trials = Trials({"TREE": os.path.abspath(given.tree), "TREE61": given.tree61 and os.path.abspath(given.tree61)})
    with tempfile.TemporaryDirectory() as folder:
        binary = os.path.join(folder, "bt878")
        os.symlink(os.path.abspath(given.bin), binary)
        for page in PAGES:
            try_commands(trials, binary, page)
        try_sources(trials)
    print(f"{trials.passed} passed, {trials.failed} failed" + f", {trials.skipped} skipped" * (trials.skipped > 0))
    sys.exit(trials.failed > 0)


if __name__ == "__main__":
    main()
