#!/usr/bin/env python3
"""Compares the trace of another machine with that of bt878.

    emulator.py --bin PATH PROG STREAM TRACE

TRACE is a file with what the other machine did, in the form that `bt878 trace` prints (docs/MACHINE.md, "What each step
did"). The first step that differs is printed with the line before it, and the status is 1.
"""

import argparse
import subprocess
import sys

from bt878.trace import first_difference


def trace_of(binary, program, stream):
    """The lines that bt878 prints."""
    made = subprocess.run([binary, "trace", program, stream], capture_output=True, text=True)
    if made.returncode:
        sys.exit(f"bt878 trace: {made.stdout}".rstrip())
    return made.stdout.splitlines()


def main():
    parser = argparse.ArgumentParser(description=__doc__, formatter_class=argparse.RawDescriptionHelpFormatter)
    parser.add_argument("--bin", required=True)
    for name in ("program", "stream", "trace"):
        parser.add_argument(name)
    words = parser.parse_args()
    ours = trace_of(words.bin, words.program, words.stream)
    with open(words.trace) as file:
        difference = first_difference(ours, file.read().splitlines())
    if difference:
        print(difference, end="")
        sys.exit(1)
    print(f"{len(ours)} lines, no difference")


if __name__ == "__main__":
    main()
