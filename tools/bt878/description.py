"""A description of a capture, and where each byte of its picture stands (docs/FORMATS.md, "Descriptions", "Geometry").

It trusts the description: `bt878 compile` tells what is wrong with one.
"""

import tomllib

# format: (bytes of a row of luma, or of all, for 8 pixels; chroma steps across and down, or None where it is packed)
FORMATS = {
    "rgb32": (32, None), "rgb24": (24, None), "rgb16": (16, None), "rgb15": (16, None), "yuy2": (16, None),
    "y8": (8, None), "rgb8": (8, None), "btyuv": (12, None),
    "yuv422p": (8, (2, 1)), "yuv411p": (8, (4, 1)), "yuv420p": (8, (2, 2)), "yuv410p": (8, (4, 4)),
}  # fmt: skip
UNITS = {"yuy2": 2, "btyuv": 8, "yuv422p": 2, "yuv411p": 4, "yuv420p": 2, "yuv410p": 4}


class NoPlace(Exception):
    """A byte has no place: its offset lies behind all memory, or its address in none that is granted."""


class Description:
    def __init__(self, name=None, text=None):
        """Of a file, or of a text."""
        if text is None:
            with open(name, encoding="utf-8") as file:
                text = file.read()
        keys = tomllib.loads(text)
        self.width, self.height, self.format = keys["width"], keys["height"], keys["format"]
        in_eight, self.chroma = FORMATS[self.format]
        self.unit = UNITS.get(self.format, 1)
        fields = keys.get("fields", "both")
        self.fields = ["top", "bottom"] if fields == "both" else [fields]
        across = self.chroma[0] if self.chroma else 1
        self.row_bytes = [self.width * in_eight // 8] + ([self.width // across] * 2 if self.chroma else [])
        self.chroma_first = dict(zip(self.fields, keys.get("chroma_first", [0, 0])))
        kept = [row for row in map(self.chroma_row, range(self.height)) if row is not None]
        self.rows = [self.height] + ([max(kept, default=-1) + 1] * 2 if self.chroma else [])
        self.stride = keys.get("stride", self.row_bytes)
        self.offset = keys.get("offset") or self.offsets()
        ends = map(self.end, range(len(self.rows)))
        self.vbi_lines, self.vbi_bytes = keys.get("vbi_lines", 0), keys.get("vbi_bytes", 2044)
        self.vbi_offset = keys.get("vbi_offset", max(ends))
        self.vbi_skip = dict(zip(self.fields, keys.get("vbi_skip", [0, 0])))
        self.vbi_stride = keys.get("vbi_stride", self.vbi_bytes)
        self.skip_lines, self.clip = keys.get("skip_lines", 0), keys.get("clip", [])
        self.chunks = keys.get("chunks") or [(page, 4096) for page in keys["pages"]]
        self.fill = keys.get("fill", 0)

    def offsets(self):
        self.offset = [0]
        for plane in range(1, len(self.rows)):
            self.offset.append(self.end(plane - 1))
        return self.offset

    def end(self, plane):
        if not self.rows[plane]:
            return self.offset[plane]
        return self.offset[plane] + (self.rows[plane] - 1) * self.stride[plane] + self.row_bytes[plane]

    def rows_of(self, field):
        """The picture rows of a field, in order."""
        both = len(self.fields) == 2
        return range(self.fields.index(field), self.height, 2) if both else range(self.height)

    def chroma_row(self, row):
        """The row of planes 2 and 3 that a picture row's chroma goes to, or None where it isn't kept."""
        both, down = len(self.fields) == 2, self.chroma[1] if self.chroma else 0
        number = row // 2 if both else row
        field = self.fields[row % 2 if both else 0]
        if not down or number % down != self.chroma_first[field]:
            return None
        return 2 * (number // down) + row % 2 if both else number // down

    def address(self, offset):
        """The address of an offset: the chunks stand one after another, in the order of the description."""
        for address, length in self.chunks:
            if offset < length:
                return address + offset
            offset -= length
        raise NoPlace("a byte lies behind all memory")

    def row_places(self, plane, row):
        """The addresses of the bytes of picture row `row` on a plane, or None where its chroma isn't kept."""
        at = row if plane == 0 else self.chroma_row(row)
        if at is None:
            return None
        first = self.offset[plane] + at * self.stride[plane]
        return [self.address(first + x) for x in range(self.row_bytes[plane])]

    def vbi_places(self, field, line):
        area = self.fields.index(field) * self.vbi_lines
        first = self.vbi_offset + (area + line) * self.vbi_stride
        return [self.address(first + x) for x in range(self.vbi_bytes)]

    def is_clipped(self, row, pixel):
        """Whether the unit of this pixel has a pixel in a clip rectangle."""
        unit = range(pixel - pixel % self.unit, pixel - pixel % self.unit + self.unit)
        return any(y <= row < y + h and any(x <= p < x + w for p in unit) for x, y, w, h in self.clip)
