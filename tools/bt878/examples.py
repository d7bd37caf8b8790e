"""The driver's programs of examples/, a stream for each and the image that must come.

The programs are a main loop and lists as bttv makes them (bttv.py), in buffers of their own at bus addresses
(lay_out.py); the pictures are drawn, sent (picture_stream.py) and painted by the rules alone (paint.py). Nothing
here calls bt878.
"""

import os

from . import bttv
from .bttv import BOTTOM_FIELD, BOTTOM_VBI, CHROMA_FIRST, TOP_FIELD, TOP_VBI, VBI, VIDEO
from .description import Description
from .formats import Stream, bytes_of, image
from .lay_out import lay_out
from .paint import drawn, paint
from .pictures import send_field
from .places import EXAMPLES

LOOP, LISTS = 0x00A00000, [0x00A01000, 0x00A02000, 0x00A03000, 0x00A04000]  # where the driver's buffers lie


class Case:
    """A program of a driver: its lists, where they are hooked, and what they may write."""

    def __init__(self, name, hooks, grants):
        """`hooks` are (slot, list, status that its closing JUMP sets or 0), in the order of the buffers."""
        self.name, self.hooks, self.grants = name, hooks, grants
        self.description = Description(os.path.join(EXAMPLES, name + ".toml"))

    def buffers(self):
        """(address, words) of the main loop and of each list, hooked."""
        loop, out = bttv.main_loop(LOOP), []
        for at, (slot, words, status) in zip(LISTS, self.hooks):
            words = list(words)
            bttv.hook(loop, LOOP, slot, words, at, status)
            out.append((at, words))
        return [(LOOP, loop)] + out

    def program(self):
        return lay_out(LOOP, self.buffers(), self.grants, self.description.fill)

    def fields(self):
        """(name, lists) of each field, as as_compiled.py takes them."""
        slots = {"top": (TOP_VBI, TOP_FIELD), "bottom": (BOTTOM_VBI, BOTTOM_FIELD)}
        named = [(f, [w for slot, w, _ in self.hooks if slot in slots[f]]) for f in self.description.fields]
        return [(field, lists) for field, lists in named if lists]

    def stream(self):
        stream, picture = Stream(), drawn(self.description, self.name)
        for field in self.description.fields:
            send_field(stream, self.description, field, picture)
        return stream.end()

    def image(self):
        memory = {address: bytearray([self.description.fill]) * length for address, length in self.grants}
        return image(paint(self.description, drawn(self.description, self.name), memory))


def pages(*addresses):
    return [(address, 4096) for address in addresses]


def cases():
    frame, vbi = [(0x02000000, 4096)], [(0x02001000, 4096)]
    hooks = [
        (TOP_VBI, bttv.packed(vbi, 0, 32, 64, 2, skip_lines=1), 0),
        (TOP_FIELD, bttv.packed(frame, 0, 32, 64, 2), 0),
        (BOTTOM_VBI, bttv.packed(vbi, 128, 32, 64, 2, skip_lines=2), VBI),
        (BOTTOM_FIELD, bttv.packed(frame, 32, 32, 64, 2), VIDEO),
    ]
    yield Case("main_loop", hooks, frame + vbi)

    scatter = pages(0x03005000, 0x03001000, 0x03004000)
    hooks = [
        (TOP_FIELD, bttv.packed(scatter, 0, 600, 1200, 7), 0),
        (BOTTOM_FIELD, bttv.packed(scatter, 600, 600, 1200, 7), VIDEO),
    ]
    yield Case("scattered", hooks, scatter)

    scatter = pages(0x05001000, 0x05000000)
    hooks = [
        (TOP_FIELD, bttv.planar(scatter, (3700, 4212, 4340), 64, 128, 4, 2, 2), 0),
        (BOTTOM_FIELD, bttv.planar(scatter, (3764, 4244, 4372), 64, 128, 4, 2, 2, CHROMA_FIRST[2]), VIDEO),
    ]
    yield Case("chroma", hooks, scatter)

    window = bttv.overlay(0x040004A0, 128, 2, 24, 6, [(4, 1, 8, 3)])
    yield Case("overlay", [(TOP_FIELD, window, VIDEO)], [(0x040004A0 + 128 * row, 48) for row in range(6)])


def files():
    """{name: bytes} of the files of all of them."""
    out = {}
    for case in cases():
        for ending, data in ((".brp", case.program()), (".bfs", case.stream()), (".bmi", case.image())):
            out[case.name + ending] = data
        for number, (address, words) in enumerate(case.buffers()):
            out[f"dumps/{case.name}_{number}_{address:08x}.bin"] = bytes_of(words)
    return out
