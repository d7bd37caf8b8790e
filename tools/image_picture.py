#!/usr/bin/env python3
"""The picture out of an image that `run` or `capture` wrote.

    image_picture.py DESC IMAGE OUT

OUT is raw, as picture_stream.py takes it: packed rows, or I420 and its like. Where OUT ends with .ppm or .pgm it is
that: of rgb24 and rgb32 (the bytes blue, green, red stand in memory in this order), and of the luma of the others.
"""

import sys

from bt878.description import Description
from bt878.formats import memory_of
from bt878.pictures import planes, portable


def main(desc, name, out):
    description = Description(desc)
    with open(name, "rb") as file:
        data = planes(description, memory_of(file.read()))
    with open(out, "wb") as file:
        file.write(portable(description, data[0]) if out.endswith((".ppm", ".pgm")) else b"".join(data))


if __name__ == "__main__":
    main(*sys.argv[1:]) if len(sys.argv) == 4 else sys.exit(__doc__)
