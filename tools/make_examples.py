#!/usr/bin/env python3
"""Makes the files of examples/ that aren't made by hand, and those of the crate whose cases the merge gate tries.

    make_examples.py [FOLDER]

With FOLDER the former alone, into it. Nothing here calls bt878.
"""

import sys

from bt878 import broken, cases, emulator_streams, examples, rings_and_chains
from bt878.places import CRATE, EXAMPLES, write


def main(folder=EXAMPLES):
    for part in (examples, broken, rings_and_chains, emulator_streams):
        for name, data in part.files().items():
            write(folder, name, data)


def main_of_crate():
    for name, data in cases.all_files().items():
        write(CRATE, name, data)


if __name__ == "__main__":
    main(*sys.argv[1:2])
    if len(sys.argv) == 1:
        main_of_crate()
