"""Programs beside descriptions, and what `check` must say of them: for each reason that it can give, small programs that
differ so, told as listings are (docs/FORMATS.md, "Listings"). tools/check.py tries them all.

The words were found by reading docs/FORMATS.md; nothing here calls bt878.
"""

from typing import NamedTuple

from .as_compiled import BASE
from .formats import one_span, program, words_of_line

LINE = """format = "y8"
width = 8
height = 1
fields = "top"
pages = [0x20000]
"""
TWO = LINE.replace("height = 1", "height = 2")
FRAME = TWO.replace('"top"', '"both"')
BLANKING = LINE + "vbi_lines = 1\nvbi_bytes = 5\nvbi_skip = [2]\nvbi_offset = 64\n"
SKIPPED = LINE + "skip_lines = 1\n"
CLIPPED = LINE + "clip = [[4, 0, 2, 1]]\n"
PLANAR = """format = "yuv420p"
width = 16
height = 2
fields = "top"
offset = [0, 64, 128]
chunks = [[0x20000, 256]]
"""

VRE, FM1, FM3, END = "sync vre resync", "sync fm1", "sync fm3", "jump 00001000"
ROW = "write sol eol 8 00020000"
KEPT = "write123 sol eol 16 8 8 00020000 00020040 00020080"
OTHER = "write1s23 sol eol 16 8 8 00020010"


class Difference(NamedTuple):
    name: str
    description: str
    lines: list  # of the program, from BASE on
    said: list  # a line for each described field
    entry: int = BASE


def shown(field, begin, end, count, closing="jump"):
    return f"{field}: shown from {begin:08x} to {end:08x}, {count} instructions, {closing}"


def differs(at, why, field="top"):
    return f"{field}: differs at {at:08x}: {why}"


def one(name, description, lines, at, why, entry=BASE):
    return Difference(name, description, lines, [differs(at, why)], entry)


SHOWN = [
    Difference("a line", LINE, [VRE, FM1, ROW, END], [shown("top", 0x1000, 0x1018, 2)]),
    Difference("a line, said with all control bits", LINE,
        ["sync vre resync irq set=f reset=f", "sync fm1 irq set=1", "write sol eol irq set=2 8 00020000",
         "jump irq set=a reset=5 00001000"],
        [shown("top", 0x1000, 0x1018, 2, "jump irq set=a reset=5")]),
    Difference("a status without an interrupt", LINE, [VRE, FM1, ROW, "jump reset=f 00001000"],
        [shown("top", 0x1000, 0x1018, 2, "jump reset=f")]),
    Difference("RESYNC inside", LINE, [VRE, "sync fm1 resync", ROW, END], [shown("top", 0x1000, 0x1018, 2)]),
    Difference("a SYNC ends it", LINE, [VRE, FM1, ROW, "sync vro", END], [shown("top", 0x1000, 0x1018, 2, "sync")]),
    Difference("its own SYNC ends it", LINE, [VRE, FM1, ROW, VRE, "jump 00001018"],
        [shown("top", 0x1000, 0x1018, 2, "sync")]),
    Difference("nothing but JUMPs behind it", LINE, [VRE, FM1, ROW, "jump 00001020", "jump 00001028", END],
        [shown("top", 0x1000, 0x1018, 2)]),
    Difference("a line in pieces, with JUMPs and counts of 0 between", LINE,
        [VRE, "jump 00001010", FM1, "write sol 0 00020000", "write sol 1 00020000", "jump irq 00001030",
         "write eol 0 00020001", "skip eol 0", "write 3 00020001", "write eol 4 00020004", END],
        [shown("top", 0x1000, 0x104C, 9)]),
    Difference("the second opening shows it", LINE, [VRE, FM1, "write sol eol 8 00020008", VRE, FM1, ROW, END],
        [shown("top", 0x1018, 0x1030, 2)]),
    Difference("the path comes to the opening behind its entry", LINE, [VRE, FM1, ROW, END],
        [shown("top", 0x1000, 0x1018, 2)], 0x1010),
    Difference("blanking", BLANKING,
        [VRE, FM1, "skip sol eol 5", "skip sol eol 5", "write sol eol 5 00020040", FM1, ROW, END],
        [shown("top", 0x1000, 0x1030, 6)]),
    Difference("a skipped line", SKIPPED, [VRE, FM1, "skip sol eol 8", ROW, END], [shown("top", 0x1000, 0x101C, 3)]),
    Difference("a clipped piece", CLIPPED,
        [VRE, FM1, "write sol 4 00020000", "skip 2", "write eol 2 00020006", END], [shown("top", 0x1000, 0x1024, 4)]),
    Difference("planes", PLANAR, [VRE, FM3, KEPT, OTHER, END], [shown("top", 0x1000, 0x1030, 3)]),
    Difference("planes, chroma behind the luma", PLANAR,
        [VRE, FM3, "write sol eol 16 00020000", "write123 sol eol 0 8 8 00020000 00020040 00020080",
         "skip123 sol eol 0 0 8", "write sol 15 00020010", "skip123 sol 0 7 0", "write eol 1 0002001f",
         "skip123 eol 0 1 0", END],
        [shown("top", 0x1000, 0x1054, 8)]),
    Difference("both fields", FRAME,
        [VRE, FM1, ROW, "jump 00001020", "sync vro resync", FM1, "write sol eol 8 00020008", END],
        [shown("top", 0x1000, 0x1018, 2), shown("bottom", 0x1020, 0x1038, 2)]),
]  # fmt: skip

OPENINGS = [
    one("no opening", LINE, ["sync vro resync", FM1, ROW, END], 0x1000, "no sync vre"),
    Difference("no opening of the bottom field", FRAME, [VRE, FM1, ROW, END],
        [shown("top", 0x1000, 0x1018, 2), differs(0x1000, "no sync vro", "bottom")]),
    Difference("none of both", FRAME, [FM1, ROW, END],
        [differs(0x1000, "no sync vre"), differs(0x1000, "no sync vro", "bottom")]),
    one("an opening behind the path", LINE, [FM1, "jump 00001000", VRE, FM1, ROW, END], 0x1000, "no sync vre"),
    one("no opening behind the entry", LINE, [VRE, FM1, "jump 00001008"], 0x1008, "no sync vre", 0x1008),
    one("no RESYNC", LINE, ["sync vre", FM1, ROW, END], 0x1000, "no resync"),
    one("no RESYNC, and nothing else right", LINE, ["sync vre", FM3, END], 0x1000, "no resync"),
    one("the first of two openings is told", LINE,
        [VRE, FM1, "write sol eol 8 00020008", VRE, FM3, ROW, END], 0x1010, "row 0, queue 1: byte 0 at 00020000 awaited"),
    one("no RESYNC at the first of two", LINE, ["sync vre", FM1, VRE, FM3, ROW, END], 0x1000, "no resync"),
    one("JUMPs in a ring, before anything", LINE, [VRE, "jump 00001008"], 0x1008, "no next field"),
    one("JUMPs in a ring, behind the line", LINE, [VRE, FM1, ROW, "jump 00001018"], 0x1018, "no next field"),
    one("two JUMPs in a ring", LINE, [VRE, FM1, ROW, "jump 00001020", "jump 00001018"], 0x1018, "no next field"),
    one("two JUMPs in a ring, behind one instruction", LINE, [VRE, FM1, "jump 00001018", "jump 00001010"], 0x1018,
        "no next field"),
    one("counts of 0 in a ring", LINE, [VRE, FM1, "skip sol 0", "jump 00001010"], 0x1010, "no next field"),
]  # fmt: skip

INSTRUCTIONS = [
    one("a WRITEC", LINE, [VRE, FM1, "write sol 4 00020000", "writec eol 4", END], 0x1018, "writec"),
    one("a WRITEC of no byte", LINE, [VRE, FM1, "write sol 4 00020000", "writec 0", "write eol 4 00020004", END],
        0x1018, "writec"),
    one("a lane that is off", LINE, [VRE, FM1, "write sol eol off=8 8 00020000", END], 0x1010, "lanes off"),
    one("lanes off, at another place", LINE, [VRE, FM1, "write sol eol off=1 8 00020001", END], 0x1010, "lanes off"),
    one("lanes off, of no byte", LINE, [VRE, "write off=f 0 00020000", FM1, ROW, END], 0x1008, "lanes off"),
    one("lanes off of planes", PLANAR, [VRE, FM3, KEPT, OTHER.replace("eol", "eol off=2"), END], 0x1024, "lanes off"),
]  # fmt: skip

CODES = [
    one("bytes before FM1", LINE, [VRE, ROW, END], 0x1008, "sync fm1 awaited"),
    one("FM3 for packed data", LINE, [VRE, FM3, ROW, END], 0x1008, "sync fm1 awaited"),
    one("the next field before FM1", LINE, [VRE, END], 0x1000, "sync fm1 awaited"),
    one("FM1 for planes", PLANAR, [VRE, FM1, KEPT, OTHER, END], 0x1008, "sync fm3 awaited"),
    one("no FM1 behind the blanking", BLANKING,
        [VRE, FM1, "skip sol eol 5", "skip sol eol 5", "write sol eol 5 00020040", ROW, END], 0x1020, "sync fm1 awaited"),
    one("bytes of queue 2 before FM1", LINE, [VRE, "skip123 sol eol 0 4 0", FM1, ROW, END], 0x1008, "sync fm1 awaited"),
    one("bytes of queue 2 behind FM1 in the blanking", BLANKING, [VRE, FM1, "skip123 sol eol 0 4 0", END], 0x1010,
        "sync fm1 awaited"),
    one("FM1 twice", LINE, [VRE, FM1, FM1, ROW, END], 0x1010, "row 0, queue 1: byte 0 awaited"),
    one("the next field for the line", LINE, [VRE, FM1, END], 0x1000, "row 0, queue 1: byte 0 awaited"),
    one("the next field in the line", LINE, [VRE, FM1, "write sol 5 00020000", "sync vro", END], 0x1018,
        "row 0, queue 1: byte 5 awaited"),
    one("the next field for the second line", TWO, [VRE, FM1, ROW, END], 0x1000, "row 1, queue 1: byte 0 awaited"),
    one("FM1 in the blanking", BLANKING, [VRE, FM1, "skip sol eol 5", FM1, END], 0x1014,
        "skipped vbi 1, queue 1: byte 0 awaited"),
    one("FM1 for the blanking", BLANKING, [VRE, FM1, "skip sol eol 5", "skip sol eol 5", FM1, ROW, END], 0x1018,
        "vbi 0, queue 1: byte 0 awaited"),
    one("the next field for chroma", PLANAR,
        [VRE, FM3, "write sol eol 16 00020000", "write sol eol 16 00020010", END], 0x1000,
        "row 0, queue 2: byte 0 awaited"),
    one("the next field for chroma of the last queue", PLANAR,
        [VRE, FM3, KEPT, "skip123 sol eol 0 8 0", "write sol eol 16 00020010", "skip123 sol 0 0 5", END], 0x1000,
        "row 1, queue 3: byte 5 awaited"),
]  # fmt: skip

PLACES = [
    one("another place", LINE, [VRE, FM1, "write sol eol 8 00020001", END], 0x1010,
        "row 0, queue 1: byte 0 at 00020000 awaited"),
    one("another place in the line", LINE, [VRE, FM1, "write sol 3 00020000", "write eol 5 00020004", END], 0x1018,
        "row 0, queue 1: byte 3 at 00020003 awaited"),
    one("no place", LINE, [VRE, FM1, "skip sol eol 8", END], 0x1010, "row 0, queue 1: byte 0 at 00020000 awaited"),
    one("no place, and no SOL", LINE, [VRE, FM1, "skip eol 8", END], 0x1010,
        "row 0, queue 1: byte 0 at 00020000 awaited"),
    one("no place behind the clip", CLIPPED, [VRE, FM1, "write sol 4 00020000", "skip eol 4", END], 0x1018,
        "row 0, queue 1: byte 6 at 00020006 awaited"),
    one("a place in the clip", CLIPPED, [VRE, FM1, ROW, END], 0x1010,
        "row 0, queue 1: byte 4 without a place awaited"),
    one("a place for a skipped line", SKIPPED, [VRE, FM1, ROW, ROW, END], 0x1010,
        "skipped 0, queue 1: byte 0 without a place awaited"),
    one("a place for a skipped line of blanking", BLANKING, [VRE, FM1, "skip sol eol 5", "write sol eol 5 00020040", END],
        0x1014, "skipped vbi 1, queue 1: byte 0 without a place awaited"),
    one("another place of the blanking", BLANKING,
        [VRE, FM1, "skip sol eol 5", "skip sol eol 5", "write sol eol 5 00020044", END], 0x1018,
        "vbi 0, queue 1: byte 0 at 00020040 awaited"),
    one("the planes of chroma exchanged", PLANAR,
        [VRE, FM3, "write123 sol eol 16 8 8 00020000 00020080 00020040", OTHER, END], 0x1010,
        "row 0, queue 2: byte 0 at 00020040 awaited"),
    one("another place of the last plane", PLANAR,
        [VRE, FM3, "write123 sol eol 16 8 8 00020000 00020040 00020084", OTHER, END], 0x1010,
        "row 0, queue 3: byte 0 at 00020080 awaited"),
    one("chroma that isn't kept has a place", PLANAR,
        [VRE, FM3, KEPT, "write123 sol eol 16 8 8 00020010 00020048 00020088", END], 0x1024,
        "row 1, queue 2: byte 0 without a place awaited"),
    one("chroma is kept without a place", PLANAR, [VRE, FM3, OTHER.replace("20010", "20000"), OTHER, END], 0x1010,
        "row 0, queue 2: byte 0 at 00020040 awaited"),
    one("what follows a line is compared with the next", TWO, [VRE, FM1, "write sol eol 16 00020000", END], 0x1010,
        "row 1, queue 1: sol awaited"),
    one("what follows a line has a place of its own", TWO + "stride = [12]\n", [VRE, FM1, "write sol eol 16 00020000", END],
        0x1010, "row 1, queue 1: byte 0 at 0002000c awaited"),
]  # fmt: skip

ENDS = [
    one("no SOL", LINE, [VRE, FM1, "write eol 8 00020000", END], 0x1010, "row 0, queue 1: sol awaited"),
    one("no SOL, with counts of 0 before that have it", LINE,
        [VRE, FM1, "write sol 0 00020000", "write eol 8 00020000", END], 0x1018, "row 0, queue 1: sol awaited"),
    one("SOL in a line", LINE, [VRE, FM1, "write sol 3 00020000", "write sol eol 5 00020003", END], 0x1018,
        "row 0, queue 1: no sol awaited at byte 3"),
    one("no SOL of a skipped line of blanking", BLANKING, [VRE, FM1, "skip eol 5", END], 0x1010,
        "skipped vbi 0, queue 1: sol awaited"),
    one("SOL of luma alone", PLANAR,
        [VRE, FM3, "write sol eol 16 00020000", "write123 eol 0 8 8 00020000 00020040 00020080", END], 0x1018,
        "row 0, queue 2: sol awaited"),
    one("SOL again where all queues go on", PLANAR,
        [VRE, FM3, "write123 sol 8 4 4 00020000 00020040 00020080", "write123 sol eol 8 4 4 00020008 00020044 00020084",
         END], 0x1024, "row 0, queue 1: no sol awaited at byte 8"),
    one("SOL again where chroma goes on", PLANAR,
        [VRE, FM3, "write123 sol 0 4 4 00020000 00020040 00020080", "write123 sol eol 16 4 4 00020000 00020044 00020084",
         END], 0x1024, "row 0, queue 2: no sol awaited at byte 4"),
    one("no EOL where one queue ends", PLANAR, [VRE, FM3, "write123 sol 8 4 8 00020000 00020040 00020080", END], 0x1010,
        "row 0, queue 3: eol awaited"),
    one("no EOL", LINE, [VRE, FM1, "write sol 8 00020000", END], 0x1010, "row 0, queue 1: eol awaited"),
    one("no EOL of the last piece", LINE, [VRE, FM1, "write sol 4 00020000", "write 4 00020004", "skip eol 0", END],
        0x1018, "row 0, queue 1: eol awaited"),
    one("no EOL of a skipped line", SKIPPED, [VRE, FM1, "skip sol 8", ROW, END], 0x1010,
        "skipped 0, queue 1: eol awaited"),
    one("EOL in a line", LINE, [VRE, FM1, "write sol eol 3 00020000", "write eol 5 00020003", END], 0x1010,
        "row 0, queue 1: eol at byte 2 of 8"),
    one("a line in pixels", LINE.replace("y8", "yuy2"), [VRE, FM1, ROW, END], 0x1010,
        "row 0, queue 1: eol at byte 7 of 16"),
    one("EOL in the blanking", BLANKING,
        [VRE, FM1, "skip sol eol 5", "skip sol eol 5", "write sol eol 4 00020040", "write eol 1 00020044", FM1, ROW, END],
        0x1018, "vbi 0, queue 1: eol at byte 3 of 5"),
    one("EOL of chroma too early", PLANAR,
        [VRE, FM3, "write123 sol eol 16 4 8 00020000 00020040 00020080", END], 0x1010,
        "row 0, queue 2: eol at byte 3 of 8"),
    one("EOL of chroma of the last queue too early", PLANAR,
        [VRE, FM3, "write123 sol eol 16 8 7 00020000 00020040 00020080", END], 0x1010,
        "row 0, queue 3: eol at byte 6 of 8"),
    one("a place before an EOL of another queue", PLANAR,
        [VRE, FM3, "write123 sol eol 15 8 8 00020000 00020041 00020080", END], 0x1010,
        "row 0, queue 2: byte 0 at 00020040 awaited"),
]  # fmt: skip

BEHIND = [
    one("bytes of queue 2", LINE, [VRE, FM1, "skip123 sol eol 0 4 0", ROW, END], 0x1010, "queue 2: nothing awaited"),
    one("bytes of queue 3 beside the line", LINE, [VRE, FM1, "write123 sol eol 8 0 4 00020000 00020020 00020040", END],
        0x1010, "queue 3: nothing awaited"),
    one("bytes beyond the last line", LINE, [VRE, FM1, "write sol eol 9 00020000", END], 0x1010,
        "queue 1: nothing awaited"),
    one("FM1 while nothing but the line is awaited", LINE, [VRE, FM1, "write sol 7 00020000", FM1, END], 0x1018,
        "row 0, queue 1: byte 7 awaited"),
    one("bytes of luma while chroma is awaited", PLANAR,
        [VRE, FM3, "write sol eol 16 00020000", "write sol eol 16 00020010", "write sol eol 16 00020020", END], 0x1020,
        "queue 1: nothing awaited"),
    one("a line more", LINE, [VRE, FM1, ROW, "write sol eol 8 00020008", END], 0x1018, "nothing awaited"),
    one("FM1 behind the line", LINE, [VRE, FM1, ROW, FM1, END], 0x1018, "nothing awaited"),
    one("FM3 behind a JUMP", LINE, [VRE, FM1, ROW, "jump 00001020", FM3, END], 0x1020, "nothing awaited"),
    one("no byte behind the line", LINE, [VRE, FM1, ROW, "skip 0", END], 0x1018, "nothing awaited"),
    one("lanes off behind the line", LINE, [VRE, FM1, ROW, "write off=f 0 00020000", END], 0x1018, "nothing awaited"),
    one("a place without a byte behind the line", LINE, [VRE, FM1, "write sol 7 00020000", "write eol 1 00020007",
         "write 0 00020007", END], 0x1020, "nothing awaited"),
]  # fmt: skip

CASES = [*SHOWN, *OPENINGS, *INSTRUCTIONS, *CODES, *PLACES, *ENDS, *BEHIND]


def program_of(case):
    words = [word for line in case.lines for word in words_of_line(line.split(" "))]
    return program(case.entry, one_span(BASE, words), [(0x20000, 4096)], 0)
