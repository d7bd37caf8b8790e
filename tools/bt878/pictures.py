"""A raw picture as a stream, as a recorder would have made it, and the picture out of memory again.

A raw picture is its rows from the first to the last; in a planar format then all rows of plane 2 and all of plane 3, one
for each row whose chroma is kept (so a 4:2:0 file is I420).
"""

from .formats import FM1, FM3, RISCI, VRE, VRO


def read_picture(description, data):
    """The rows of a raw picture. Chroma that isn't kept is grey."""
    picture, base = {}, 0
    for plane, count in enumerate(description.row_bytes):
        for row in range(description.height):
            at = row if plane == 0 else description.chroma_row(row)
            picture[plane, row] = b"\x80" * count if at is None else data[base + at * count : base + (at + 1) * count]
        base += description.rows[plane] * count
    for field in description.fields:
        for line in range(description.vbi_lines):
            picture["vbi", field, line] = bytes(description.vbi_bytes)
    return picture


def send_field(stream, description, field, picture):
    """The vertical code, VBI lines behind FM1, then the lines of the picture behind FM1 or FM3."""
    stream.acknowledge(RISCI).control(VRE if field == "top" else VRO)
    if description.vbi_lines:
        stream.control(FM1)
        for _ in range(description.vbi_skip[field]):
            stream.line(bytes(description.vbi_bytes))
    for line in range(description.vbi_lines):
        stream.line(picture["vbi", field, line])
    stream.control(FM3 if description.chroma else FM1)
    empty = [bytes(count) for count in description.row_bytes]
    lines = [empty] * description.skip_lines
    lines += [[picture[plane, row] for plane in range(len(empty))] for row in description.rows_of(field)]
    for luma, *chroma in lines:
        stream.line(luma, chroma)


def byte_at(memory, address):
    return next(data[address - first] for first, data in memory.items() if first <= address < first + len(data))


def planes(description, memory):
    """The bytes of each plane, row by row."""
    out = []
    for plane in range(len(description.rows)):
        rows = range(description.height)
        if plane:
            rows = sorted((r for r in rows if description.chroma_row(r) is not None), key=description.chroma_row)
        places = [place for row in rows for place in description.row_places(plane, row)]
        out.append(bytes(byte_at(memory, place) for place in places))
    return out


def portable(description, luma):
    """A PPM or PGM file of the first plane."""
    size = f"{description.width} {description.height} 255\n".encode()
    step = description.row_bytes[0] // description.width
    if description.format in ("rgb24", "rgb32"):
        pixels = (luma[at : at + 3][::-1] for at in range(0, len(luma), step))
        return b"P6 " + size + b"".join(pixels)
    return b"P5 " + size + luma[:: 2 if description.format == "yuy2" else 1]
