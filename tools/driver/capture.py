#!/usr/bin/env python3
"""One capture in bttv's own code: its lists as dumps, as a program at their bus addresses, and what must come of it.

    capture.py TREE OUT FOURCC WIDTHxHEIGHT FIELD [options]

TREE is an unpacked kernel tree (README.md), FIELD one of top, bottom, interlaced, seq_tb, alternate, and none for VBI lines
alone. PIECES are ADDRESS+LENGTH,.. of a scatter list; where none are given, memory is whole pages. Into the folder OUT go

    NUMBER_NAME_ADDRESS.bin   the main loop and each list, as they lie in memory
    program.brp               all of them at their bus addresses; granted is what the capture may write, and no more
    capture.toml              the description; top.toml and bottom.toml where one can't describe both fields
    capture.bfs               a stream of drawn bytes, as the decoder sends them
    painted.bmi               the memory that must come, painted from the description alone

Printed is what the driver accepted and where its lists lie, or how it died (status 1).
"""

import argparse
import os
import random
import sys
import tempfile
from typing import NamedTuple

import harness  # first: it finds the package bt878
from bt878.description import Description, NoPlace
from bt878.formats import FM1, FM3, VRE, VRO, Stream, bytes_of, image
from bt878.lay_out import lay_out, outward
from bt878.paint import drawn, paint_field

FILL = 0x80
TOP, BOTTOM, INTERLACED, SEQ_TB, ALTERNATE = 2, 3, 4, 5, 7  # of V4L2
FIELDS = {"top": TOP, "bottom": BOTTOM, "interlaced": INTERLACED, "seq_tb": SEQ_TB, "alternate": ALTERNATE, "none": None}
NAMES = {number: name for name, number in FIELDS.items()}


class Format(NamedTuple):
    """A format of V4L2: its name in a description, and of a planar one the shifts and whether Cr comes before Cb."""

    name: str
    across: int = 0
    down: int = 0
    is_swapped: bool = False


FORMATS = {
    "GREY": Format("y8"), "HI24": Format("rgb8"), "RGBO": Format("rgb15"), "RGBQ": Format("rgb15"), "RGBP": Format("rgb16"),
    "RGBR": Format("rgb16"), "BGR3": Format("rgb24"), "BGR4": Format("rgb32"), "RGB4": Format("rgb32"),
    "YUYV": Format("yuy2"), "UYVY": Format("yuy2"), "422P": Format("yuv422p", 1, 0), "YU12": Format("yuv420p", 1, 1),
    "YV12": Format("yuv420p", 1, 1, True), "411P": Format("yuv411p", 2, 0), "YUV9": Format("yuv410p", 2, 2),
    "YVU9": Format("yuv410p", 2, 2, True),
}  # fmt: skip
VBI_BYTES, VBI_STRIDE, VCR_HACK_LINES = 2044, 2048, 4
ALIGNED = {8: 4, 16: 2, 24: 4, 32: 1}  # pixels that a window and its clips are aligned to, by the depth
VBI_BUFFER = 9  # the number of the buffer of VBI lines; those of pictures are 0 and 1


def numbers(text):
    return [int(part, 0) for part in text.split(",")]


def pieces(text):
    return [tuple(int(part, 0) for part in piece.split("+")) for piece in text.split(",")]


def parser():
    words = argparse.ArgumentParser(description=__doc__.splitlines()[0])
    words.add_argument("fourcc", metavar="FOURCC", choices=FORMATS)
    words.add_argument("size", metavar="WIDTHxHEIGHT", type=lambda text: [int(part) for part in text.split("x")])
    words.add_argument("field", metavar="FIELD", choices=FIELDS)
    words.add_argument("--norm", type=int, default=0, help="0 PAL, 1 NTSC, 2 SECAM")
    words.add_argument("--crop", type=numbers, help="LEFT,TOP,WIDTH,HEIGHT by VIDIOC_S_SELECTION, before VIDIOC_S_FMT")
    words.add_argument("--crop-after", type=numbers, help="the same behind VIDIOC_S_FMT")
    words.add_argument("--vbi", type=numbers, help="START,COUNT,START,COUNT: VBI lines of both fields")
    words.add_argument("--vcr-hack", action="store_true", help="the module option vcr_hack")
    words.add_argument("--memory", type=pieces, help="PIECES of the buffer")
    words.add_argument("--second", type=pieces, help="PIECES of the second buffer of alternate")
    words.add_argument("--vbi-memory", type=pieces, help="PIECES of the buffer of VBI lines")
    words.add_argument("--whole-pages", action="store_true", help="grant the pieces whole, not only sizeimage")
    words.add_argument("--fail", type=int, default=0, help="the N-th list finds no memory")
    words.add_argument("--window", type=numbers, help="6.1: BASE,PITCH,LEFT,TOP of an overlay window")
    words.add_argument("--clip", type=numbers, action="append", default=[], help="6.1: X,Y,WIDTH,HEIGHT in the window")
    words.add_argument("--seed", type=int, default=1, help="of the lists' addresses and of the bytes")
    return words


def whole_pages(first, size):
    """Pages that lie apart."""
    return [(first + 0x10000 * number, 4096) for number in range(-(-size // 4096))]


def first_bytes(scatter, size):
    """The first bytes of a scatter list."""
    out = []
    for at, length in scatter:
        if size > 0:
            out.append((at, min(length, size)))
        size -= length
    return out


def rounded(scatter):
    """A scatter list in multiples of 4, and how far its first byte is from the first of these."""
    return [outward([piece])[0] for piece in scatter], scatter[0][0] % 4


class Refused(Exception):
    """The driver refuses what is asked."""


class Capture:
    """What is asked of a driver, what it accepted, and what it made."""

    def __init__(self, driver, asked):
        self.driver, self.asked = driver, asked
        self.do(f"new {asked.norm} {asked.seed}", *[f"option vcr_hack {asked.vcr_hack:d}"])
        self.memories, self.vbi = [], None
        if asked.window:
            self.ask_window()
        else:
            self.ask_format()
            self.ask_buffers()
        if self.memories:
            self.do("stream video")
        self.do("interrupt 0x50000800")
        self.death = driver.death(self.dump)
        self.format = FORMATS[self.dump["format"]]

    def do(self, *commands):
        self.dump = self.driver.obey(*commands)
        for made in self.dump["lists"]:
            made["name"] = made["name"].replace(f"{VBI_BUFFER}.", "vbi.")
        if self.dump["result"] and not self.dump["death"]:
            raise Refused(f"{harness.WITHIN[self.dump['command']]} returns {self.dump['result']}")

    def ask_format(self):
        asked = self.asked
        if asked.crop:
            self.do("crop " + " ".join(map(str, asked.crop)))
        if asked.vbi:
            self.do("vbi " + " ".join(map(str, asked.vbi)))
        width, height = asked.size
        self.do(f"format {asked.fourcc} {width} {height} {FIELDS[asked.field] or INTERLACED}")
        if asked.crop_after:
            self.do("crop " + " ".join(map(str, asked.crop_after)))
        self.width, self.height, self.field = self.dump["width"], self.dump["height"], self.dump["field"]
        self.size = self.dump["depth"] * self.width * self.height >> 3

    def ask_buffers(self):
        asked, count = self.asked, 2 if self.field == ALTERNATE else 1
        for number, given in enumerate([asked.memory, asked.second][: count if FIELDS[asked.field] else 0]):
            self.memories.append(given or whole_pages(0x40000000 + 0x4000000 * number, self.size))
            self.queue(number, "video", self.memories[number], self.size if given else 0, asked.fail)
        if asked.vbi:
            skips_and_counts = self.dump["vbi"]
            self.vbi_skip = {"top": max(skips_and_counts[0], 0), "bottom": max(skips_and_counts[2], 0)}
            self.vbi_count = {"top": skips_and_counts[1], "bottom": skips_and_counts[3]}
            size = VBI_STRIDE * sum(self.vbi_count.values())
            self.vbi = asked.vbi_memory or whole_pages(0x48000000, size)
            self.queue(VBI_BUFFER, "vbi", self.vbi, 0)
            self.do("stream vbi")

    def queue(self, number, kind, memory, size, fail=0):
        scatter = " ".join(f"{at:#x}:{length}" for at, length in memory)
        self.do(f"memory {number} {scatter}", f"buffer {number} {kind} {number} {size or sum(n for _, n in memory)}")
        self.do(*([f"fail {fail}"] if fail else []), f"prepare {number}")
        self.do(f"queue {number}")

    def ask_window(self):
        """A window of 6.1's overlay: its rows are granted one by one."""
        asked, (base, pitch, left, top) = self.asked, self.asked.window
        (self.width, self.height), self.field = asked.size, FIELDS[asked.field]
        clips = " ".join(" ".join(map(str, clip)) for clip in asked.clip)
        numbers_ = [base, pitch, left, top, self.width, self.height, self.field, len(asked.clip)]
        self.do(f"overlay {asked.fourcc} {' '.join(map(str, numbers_))} {clips}")
        pixel = self.dump["depth"] >> 3
        first, self.size = base + pitch * top + pixel * left, pixel * self.width * self.height
        self.memories.append([(first + pitch * row, pixel * self.width) for row in range(self.height)])

    # what the driver made

    def buffers(self):
        return [(made["address"], made["words"]) for made in self.dump["lists"] if made["words"]]

    def grants(self, whole=False):
        """The memory that the capture may write: sizeimage of each buffer, or its pieces whole."""
        out = []
        for memory in self.memories:
            out += memory if whole else first_bytes(memory, self.size)
        return outward(out + (self.vbi or []))

    def program(self, grants):
        return lay_out(self.buffers()[0][0], self.buffers(), grants, FILL)

    # what must come of it

    def is_planar(self):
        return self.format.across > 0

    def fields(self):
        """The fields of which something is captured, top before bottom, with the buffer of the picture or None."""
        if not self.memories:
            return {"top": None, "bottom": None}
        places = {TOP: [0, None], BOTTOM: [None, 0], ALTERNATE: [0, 1]}.get(self.field, [0, 0])
        return {f: n for f, n in zip(("top", "bottom"), places) if n is not None or self.vbi}

    def left_out(self, lines):
        """How many of a list's lines vcr_hack leaves out."""
        return VCR_HACK_LINES if self.asked.vcr_hack and lines >= VCR_HACK_LINES else 0

    def lines(self):
        """The picture lines of a field."""
        return self.height // 2 if self.field in (INTERLACED, SEQ_TB) else self.height

    def line_bytes(self):
        return self.width if self.is_planar() else self.width * self.dump["depth"] >> 3

    def chroma_offsets(self):
        """The offsets of planes 2 and 3, as V4L2 has them, and the bytes of a row there."""
        luma = self.width * self.height
        places = [luma, luma + (luma >> self.format.across >> self.format.down)]
        return places[::-1] if self.format.is_swapped else places, self.width >> self.format.across

    def picture_keys(self, field):
        """The keys of a description of a field's picture, or of both fields of a frame."""
        apart, second = self.field == INTERLACED and field != "both", field == "bottom" and self.field == INTERLACED
        luma, rows = self.line_bytes(), self.lines() - self.left_out(self.lines())
        stride, offset = [luma * (2 if apart else 1)], [luma if second else 0]
        if field == "bottom" and self.field == SEQ_TB:
            offset = [luma * self.lines()]
        keys = {"format": self.format.name, "width": self.width, "height": rows * (2 if field == "both" else 1), "fields": field}
        if self.is_planar():
            planes, chroma = self.chroma_offsets()
            stride += [chroma * (2 if apart else 1)] * 2
            offset += [plane + (chroma if second else 0) for plane in planes]
            late = (1 << self.format.down) >> 1  # the bottom field of a frame keeps the chroma of its later rows
            keys["chroma_first"] = [0, late] if field == "both" else [late if second else 0]
        return keys | {"stride": stride, "offset": offset}

    def vbi_place(self, field):
        """The offset of a field's first VBI line, and its lines."""
        at = VBI_STRIDE * self.vbi_count["top"] if field == "bottom" else 0
        return at, self.vbi_count[field] - self.left_out(self.vbi_count[field])

    def vbi_alone(self, field):
        """VBI lines are rows of 2,044 bytes where there is no picture."""
        at, lines = self.vbi_place(field)
        keys = {"format": "rgb16", "width": VBI_BYTES // 2, "height": lines, "fields": field}
        return keys | {"stride": [VBI_STRIDE], "offset": [at], "skip_lines": self.vbi_skip[field]}

    def keys(self, field):
        """The description of a field, or of both fields of a frame."""
        if self.asked.window:
            return self.window_keys(field)
        number = self.fields().get(field, 0)
        if number is None:
            keys, (chunks, more) = self.vbi_alone(field), rounded(self.vbi)
        else:
            keys, (chunks, more) = self.picture_keys(field), rounded(self.memories[number])
        keys["offset"] = [place + more for place in keys["offset"]]
        if number is not None and self.vbi:
            vbi, more = rounded(self.vbi)
            at, lines = self.vbi_place(field)
            keys |= {"vbi_lines": lines, "vbi_stride": VBI_STRIDE, "vbi_skip": [self.vbi_skip[field]]}
            keys["vbi_offset"] = sum(n for _, n in chunks) + more + at
            chunks = chunks + vbi
        return keys | {"chunks": chunks, "fill": FILL}

    def window_keys(self, field):
        """The description of a window, or of a field of it: each row is a chunk."""
        alone = self.field == INTERLACED and field != "both"
        rows = slice(field == "bottom" if alone else 0, self.height - self.left_out(self.height), 2 if alone else 1)
        keys = {"format": self.format.name, "width": self.width, "height": len(range(self.height)[rows]), "fields": field}
        return keys | {"clip": self.clips(rows), "chunks": self.memories[0][rows], "fill": FILL}

    def clips(self, rows):
        """The clips, widened to what the driver aligns to and cut to these rows of the window."""
        step, out = ALIGNED[self.dump["depth"]], []
        for x, y, width, height in self.asked.clip:
            first, end = max(x // step * step, 0), min(-(-(x + width) // step) * step, self.width)
            hidden = [n for n, row in enumerate(range(self.height)[rows]) if y <= row < y + height]
            if first < end and hidden:
                out.append([first, hidden[0], end - first, len(hidden)])
        return out

    def descriptions(self):
        """{name: text}: one description where it can describe all that is captured, else one for each field."""
        is_even = self.height % 2 == 0 or not self.asked.window  # a window has its last row too
        is_frame = self.field == INTERLACED and self.memories and not self.vbi and is_even
        named = {"capture": "both"} if is_frame else {field: field for field in self.fields()}
        if len(named) == 1:
            named = {"capture": next(iter(named.values()))}
        return {name: text_of(self.keys(field)) for name, field in named.items()}

    def extra_lines(self, stream, draw, counts, number):
        """Lines that the decoder sends and the list doesn't ask for, or skips."""
        for _ in range(number):
            luma, *chroma = [draw.randbytes(count) for count in counts]
            stream.line(luma, chroma)

    def send_field(self, stream, draw, field, description, picture):
        """A field as the decoder sends it: all its lines, also those that vcr_hack leaves out."""
        alone = self.fields()[field] is None
        if self.vbi:
            stream.control(FM1)
            self.extra_lines(stream, draw, [VBI_BYTES], self.vbi_skip[field])
            for line in range(self.vbi_place(field)[1]):
                stream.line(picture[0, line] if alone else picture["vbi", field, line])
            self.extra_lines(stream, draw, [VBI_BYTES], self.left_out(self.vbi_count[field]))
        if not alone:
            stream.control(FM3 if self.is_planar() else FM1)
            for row in description.rows_of(field):
                luma, *chroma = [picture[plane, row] for plane in range(len(description.row_bytes))]
                stream.line(luma, chroma)
            self.extra_lines(stream, draw, description.row_bytes, self.left_out(self.lines()))

    def described(self):
        """{field: its description}."""
        descriptions = [Description(text=text) for text in self.descriptions().values()]
        return {field: description for description in descriptions for field in description.fields}

    def stream(self):
        """A stream of drawn bytes."""
        draw, stream, described = random.Random(self.asked.seed), Stream(), self.described()
        for field, code in (("top", VRE), ("bottom", VRO)):
            stream.control(code)
            if field in described:
                self.send_field(stream, draw, field, described[field], drawn(described[field], self.asked.seed))
        return stream.turns(64).end()

    def painted(self, grants):
        """The memory that must come."""
        memory = {at: bytearray([FILL]) * length for at, length in grants}
        for field, description in self.described().items():
            paint_field(description, drawn(description, self.asked.seed), memory, field)
        return image(memory)


def memory_key(chunks):
    """The key of a description for its memory."""
    if all(at % 4096 == 0 and length == 4096 for at, length in chunks):
        return f"pages = [{', '.join(f'{at:#010x}' for at, _ in chunks)}]"
    return f"chunks = [{', '.join(f'[{at:#010x}, {length}]' for at, length in chunks)}]"


def text_of(keys):
    """A description's text."""
    lines = []
    for key, given in keys.items():
        lines.append(memory_key(given) if key == "chunks" else f'{key} = "{given}"' if isinstance(given, str) else f"{key} = {given}")
    return "\n".join(lines) + "\n"


def write(folder, name, data):
    with open(os.path.join(folder, name), "wb") as file:
        file.write(data)


def save(capture, folder, grants):
    """The files of a capture, but for the dumps. NoPlace where a byte of the picture isn't granted."""
    write(folder, "program.brp", capture.program(grants))
    for name, text in capture.descriptions().items():
        write(folder, name + ".toml", text.encode())
    write(folder, "capture.bfs", capture.stream())
    write(folder, "painted.bmi", capture.painted(grants))


def say(capture, grants):
    """What the driver accepted and made."""
    asked = f"{capture.asked.fourcc} {capture.width}x{capture.height} {NAMES[capture.field]}, sizeimage {capture.size}"
    print(asked if capture.memories else "VBI lines alone")
    for made in capture.dump["lists"]:
        beyond = f", {made['beyond']} bytes are written behind its {made['size']}" if made["beyond"] else ""
        print(f"{made['name']}: {made['address']:08x}, {len(made['words'])} words{beyond}")
    if capture.dump["warnings"]:
        print("driver: a warning (WARN)")
    if capture.death:
        print("driver: " + capture.death)
    else:
        print("granted: " + " ".join(f"{at:08x}+{length}" for at, length in grants[:4]) + " .." * (len(grants) > 4))


def main(tree, folder, *words):
    asked = parser().parse_args(words)
    os.makedirs(folder, exist_ok=True)
    with tempfile.TemporaryDirectory() as built:
        driver = harness.Harness(harness.build(tree, built))
        try:
            capture = Capture(driver, asked)
        except Refused as refused:
            sys.exit(f"driver: {refused}")
        grants = capture.grants(asked.whole_pages)
        say(capture, grants)
        driver.close()
        if capture.death:
            sys.exit(1)
        for number, (made, (address, words_)) in enumerate(zip(capture.dump["lists"], capture.buffers(), strict=True)):
            write(folder, f"{number}_{made['name']}_{address:08x}.bin", bytes_of(words_))
        try:
            save(capture, folder, grants)
        except NoPlace as outside:
            print(f"nothing is painted: {outside}")


if __name__ == "__main__":
    if len(sys.argv) < 6:
        print(__doc__)
        parser().parse_args(["-h"])
    main(*sys.argv[1:])
