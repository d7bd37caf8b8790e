"""Bugs that drivers have had, each planted in the program of scattered.brp, and what tells them.

Three of them are files of examples/. tools/check.py tries them all against bt878.
"""

import struct
from typing import NamedTuple

from . import bttv
from .examples import LOOP, cases
from .formats import FM3, IS_EOL, IS_IRQ, IS_SOL, RESYNC, SYNC, WRITE, bytes_of
from .lay_out import lay_out

RIGHT = next(case for case in cases() if case.name == "scattered")
FIRST, SECOND, THIRD = RIGHT.grants
FREED = (0x03007000, 4096)  # was the second page, and is granted no more


class Bug(NamedTuple):
    name: str
    plant: object  # what is done to the buffers (loop, top list, bottom list)
    verdict: str  # what `verify` says
    diff: int | None = None  # changed lines beside the compiled listing; None where the bug is in no field list
    status: str = ""  # of `run` on scattered.bfs, where it is accepted
    moved: int = 8400
    same_image: bool = True
    top: str = "shown from 00a00000 to 00a01048, 12 instructions, jump"  # what `check` says, where it is accepted
    bottom: str = "shown from 00a00020 to 00a02048, 11 instructions, jump irq set=1 reset=e"

    def checked(self):
        """What `check` says beside scattered.toml."""
        return self.verdict + "\n" if self.verdict != "accepted" else f"top: {self.top}\nbottom: {self.bottom}\n"


def top_list(*arguments):
    """The top list is made anew; its closing JUMP stays."""

    def plant(loop, top, bottom):
        top[:] = bttv.packed(*arguments)[:-2] + top[-2:]

    return plant


def word(buffer, place, change):
    """One word of a buffer (0 the loop, 1 the top list, 2 the bottom list) is changed."""

    def plant(*buffers):
        buffers[buffer][place] = change(buffers[buffer][place])

    return plant


def exchange(loop, top, bottom):
    """Each slot has the other field's list."""
    top[2:-2], bottom[2:-2] = bottom[2:-2], top[2:-2]


def without_resync(loop, top, bottom):
    loop[0] &= ~RESYNC
    loop[8] &= ~RESYNC


def never_hooked(loop, top, bottom):
    top[-2:] = bttv.NO_JUMP


def without_jump(loop, top, bottom):
    del top[-2:]


def swap(*buffers):
    for buffer in buffers:
        buffer[:] = [struct.unpack(">I", struct.pack("<I", w))[0] for w in buffer]


PAGES = [FIRST, SECOND, THIRD]
OK = "accepted"
BUGS = [
    Bug("a page that was freed", top_list([FIRST, FREED, THIRD], 0, 600, 1200, 7),
        "rejected at 00a01028, step 9: ungranted 03007000", 8),
    Bug("a page end not split", top_list([(FIRST[0], 3 * 4096)], 0, 600, 1200, 7),
        "rejected at 00a01020, step 8: ungranted 03006000", 33),
    Bug("a JUMP into a list that is gone", word(0, 7, lambda w: 0x00A05000),
        "rejected at 00a00018, step 3: jump out 00a05000"),
    Bug("a list whose end was never hooked", never_hooked, "rejected at 00a01048, step 13: reserved 0"),
    Bug("a list without its JUMP", without_jump, "rejected at 00a01048, step 13: cut"),
    Bug("a JUMP a word too far", word(0, 7, lambda w: w + 4), "rejected at 00a01004, step 4: reserved 0"),
    Bug("bytes not swapped", swap, "rejected at 00a00000, step 0: reserved 0", None),
    Bug("a length in pixels", top_list(PAGES, 0, 300, 1200, 7), OK, 39, "10004800", 6300, False,
        "differs at 00a01008: row 0, queue 1: eol at byte 299 of 600"),
    Bug("four bytes too few", top_list(PAGES, 0, 596, 1200, 7), OK, 14, "10004800", 8372, False,
        "differs at 00a01008: row 0, queue 1: eol at byte 595 of 600"),
    Bug("four bytes too many", top_list(PAGES, 0, 604, 1200, 7), OK, 14, "10004800",
        top="differs at 00a01008: row 2, queue 1: byte 0 at 030054b0 awaited"),
    Bug("a count of 4,096", word(1, 2, lambda w: WRITE << 28 | IS_SOL | IS_EOL | 4096), OK, 2, "10000800", 7800, False,
        "differs at 00a01008: lanes off"),
    Bug("pages exchanged", top_list([SECOND, FIRST, THIRD], 0, 600, 1200, 7), OK, 16, "10000800", 8400, False,
        "differs at 00a01008: row 0, queue 1: byte 0 at 03005000 awaited"),
    Bug("no EOL", word(1, 2, lambda w: w & ~IS_EOL), OK, 2, "10000800",
        top="differs at 00a01008: row 0, queue 1: eol awaited"),
    Bug("no SOL", word(1, 2, lambda w: w & ~IS_SOL), OK, 2, "10004800", 7800, False,
        "differs at 00a01008: row 0, queue 1: sol awaited"),
    Bug("SOL on the rest of a split line", word(1, 10, lambda w: w | IS_SOL), OK, 2, "10004800", 7800, False,
        "differs at 00a01028: row 6, queue 1: no sol awaited at byte 496"),
    Bug("FM3 for packed data", word(1, 0, lambda w: SYNC << 28 | FM3), OK, 2, "00004000", 0, False,
        "differs at 00a01000: sync fm1 awaited"),
    Bug("a line too many", top_list(PAGES, 0, 600, 1200, 8), OK, 25, "10004800",
        top="differs at 00a01048: nothing awaited"),
    Bug("a line too few", top_list(PAGES, 0, 600, 1200, 6), OK, 25, "10000800", 7800, False,
        "differs at 00a00020: row 12, queue 1: byte 0 awaited"),
    Bug("fields exchanged", exchange, OK, 32, "10000800", 8400, False,
        "differs at 00a01008: row 0, queue 1: byte 0 at 03005000 awaited",
        "differs at 00a02008: row 1, queue 1: byte 0 at 03005258 awaited"),
    Bug("no IRQ", word(2, -2, lambda w: w & ~IS_IRQ), OK, None, "10000000",
        bottom="shown from 00a00020 to 00a02048, 11 instructions, jump set=1 reset=e"),
    Bug("the top field's status", word(2, -2, lambda w: w ^ (0x33 << 16)), OK, None, "20000800",
        bottom="shown from 00a00020 to 00a02048, 11 instructions, jump irq set=2 reset=d"),
    Bug("a status that is never cleared", word(2, -2, lambda w: w & ~(0xF << 20)), OK, None, "10000800",
        bottom="shown from 00a00020 to 00a02048, 11 instructions, jump irq set=1"),
    Bug("no RESYNC", without_resync, OK, None, "10000800",
        top="differs at 00a00000: no resync", bottom="differs at 00a00020: no resync"),
]  # fmt: skip
FILES = {"stale_jump": 2, "page_end": 1, "no_eol": 12}  # those that are written, by their place in BUGS


def buffers_with(bug):
    buffers = RIGHT.buffers()
    bug.plant(*[words for _, words in buffers])
    return buffers


def laid_out(bug):
    """The program file: the buffers where they are, bug and all."""
    return lay_out(LOOP, buffers_with(bug), RIGHT.grants, RIGHT.description.fill)


def lists_with(bug):
    """The fields' lists, as as_compiled.py takes them."""
    _, (_, top), (_, bottom) = buffers_with(bug)
    return [("top", [top]), ("bottom", [bottom])]


def files():
    """{name: bytes} of the three that are files."""
    out = {}
    for name, number in FILES.items():
        out[name + ".brp"] = laid_out(BUGS[number])
        for buffer, (address, words) in enumerate(buffers_with(BUGS[number])):
            out[f"dumps/{name}_{buffer}_{address:08x}.bin"] = bytes_of(words)
    return out
