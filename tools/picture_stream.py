#!/usr/bin/env python3
"""A stream of a picture, as a recorder would have made it.

    picture_stream.py DESC PICTURE OUT.bfs [top|bottom]

PICTURE is raw: the rows of the picture from the first to the last; in a planar format then all rows of plane 2 and all
of plane 3, one for each row whose chroma is kept (so a 4:2:0 file is I420). DESC says the format, the size and the
fields; a fourth word sends one of them alone. VBI lines and skipped lines are sent as bytes 00. Before each field the
host acknowledges RISCI, as an interrupt handler does, so that RISCI in the report is the last field's.
"""

import sys

from bt878.description import Description
from bt878.formats import Stream
from bt878.pictures import read_picture, send_field


def main(desc, name, out, alone=None):
    description = Description(desc)
    stream = Stream()
    with open(name, "rb") as file:
        picture = read_picture(description, file.read())
    for field in [alone] if alone else description.fields:
        send_field(stream, description, field, picture)
    with open(out, "wb") as file:
        file.write(stream.end())


if __name__ == "__main__":
    main(*sys.argv[1:]) if len(sys.argv) in (4, 5) else sys.exit(__doc__)
