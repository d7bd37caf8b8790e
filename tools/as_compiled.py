#!/usr/bin/env python3
"""A driver's field lists, laid out as `bt878 compile` lays out a description: to be compared byte for byte.

    as_compiled.py OUT.brp BASE FILL CHUNK[,CHUNK..] top|bottom DUMP[,DUMP] [bottom DUMP[,DUMP]]

The DUMPs of a field are its VBI list, if there is one, and its picture list, each as it lies in memory up to and with
its closing JUMP, which is left out. All stand in one span, from BASE on. CHUNK as in lay_out.py.
"""

import sys

from bt878.as_compiled import as_compiled
from bt878.formats import one_span, program, words_of


def main(out, base, fill, chunks, *fields):
    chunks = [tuple(int(n, 0) for n in chunk.split("+")) for chunk in chunks.split(",")]
    dumps = [[words_of(open(name, "rb").read()) for name in names.split(",")] for names in fields[1::2]]
    words = as_compiled(int(base, 0), list(zip(fields[0::2], dumps, strict=True)))
    with open(out, "wb") as file:
        file.write(program(int(base, 0), one_span(int(base, 0), words), chunks, int(fill, 0)))


if __name__ == "__main__":
    main(*sys.argv[1:]) if len(sys.argv) > 6 else sys.exit(__doc__)
