"""The commands that a page shows, and what is printed below each."""

import os
import re
import subprocess


def commands(page):
    """(command, what is printed) of each command that a page shows, in order."""
    with open(page) as file:
        block = r"^(?:```|\.Bd.*)\n(\$ (?:.|\n)*?)^(?:```|\.Ed)"
        blocks = re.findall(block, file.read(), re.MULTILINE)
    for part in filter(None, "".join(blocks).removeprefix("$ ").split("\n$ ")):
        command, _, printed = part.replace("\\\n", "").partition("\n")
        yield command, printed and printed.rstrip("\n") + "\n"


def needs_tree(command):
    """Whether a command asks a kernel tree, or uses what came of one (tools/driver/found.py tries these)."""
    return "$TREE" in command or "/tmp/real/" in command


def what_is_printed(command, folder, binary, **variables):
    """The standard output of a command in a folder, where the program bt878 is first on the path."""
    env = os.environ | variables | {"PATH": os.path.dirname(binary) + ":" + os.environ["PATH"]}
    return subprocess.run(["bash", "-c", command], cwd=folder, env=env, capture_output=True).stdout.decode()
