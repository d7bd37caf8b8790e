"""Streams to try an emulator on: docs/MACHINE.md derives their reports turn by turn."""

from . import bttv
from .as_compiled import BASE, as_compiled
from .formats import EOL4, FM1, PXV, SOL, VRE, Stream, image, one_span, program

STRAY = bytes.fromhex("ee ee ee ee")
CHUNKS = [(0x20000, 12), (0x20010, 20)]  # those of two_lines.toml


def two_lines():
    """The program of two_lines.toml."""
    lists = [("top", [bttv.packed(CHUNKS, 0, 16, 16, 2)])]
    return program(BASE, one_span(BASE, as_compiled(BASE, lists)), CHUNKS, 0)


def short_line(stream):
    return stream.push(1, SOL, bytes(range(0x10, 0x14))).push(1, EOL4, bytes(range(0x14, 0x18)))


def overrun():
    """A hundred DWORDs behind VRE and FM1, of which the queue holds 68, and only then turns. Then a whole field."""
    stream = Stream(turns=0).control(VRE).control(FM1)
    for _ in range(100):
        stream.push(1, PXV, STRAY)
    stream.turns(73).control(VRE).control(FM1)
    return short_line(stream).turns(11).end()


def early_eol():
    """A line that ends after 7 of 16 bytes, then a whole one."""
    stream = Stream(turns=0).control(VRE).control(FM1)
    stream.line(bytes.fromhex("a0 a1 a2 a3 a4 a5 a6")).line(bytes(range(0xB0, 0xC0)))
    return stream.turns(15).end()


def resync():
    """Entries of queues 1 and 2 and a control code, before the field for which the program waits with RESYNC."""
    stream = Stream(turns=0).push(1, PXV, STRAY).push(2, PXV, STRAY).control(FM1)
    return short_line(stream.control(VRE).control(FM1)).turns(12).end()


def stray():
    """The entry of queue 1 comes behind VRE, where the program waits for FM1 without RESYNC."""
    stream = Stream(turns=0).control(VRE).push(1, PXV, STRAY).control(FM1)
    return short_line(stream).turns(10).end()


def restart():
    """A line of which the host stops the machine after the first DWORD; RISC alone starts again, and then a whole field."""
    stream = Stream(turns=0).control(VRE).control(FM1).push(1, SOL, bytes(range(0x10, 0x14))).turns(6)
    stream.enable(1, 0).push(1, EOL4, STRAY).turns(2).enable(0, 0).push(1, EOL4, STRAY).control(VRE).turns(1)
    stream.acknowledge(0x5800).enable(1, 1).control(VRE).control(FM1)
    return short_line(stream).turns(9).end()


def bursts():
    """The line of one_line.bfs at trigger point 4, and then an entry that waits for others at trigger point 16."""
    stream = Stream(turns=0, form=b"BFS2").control(VRE).control(FM1)
    short_line(stream).turns(8).trigger(2).control(VRE).control(FM1).push(1, SOL, bytes(range(0x10, 0x14)))
    return stream.turns(9).push(1, EOL4, bytes(range(0x14, 0x18))).turns(4).end()


def early_eol_image():
    """Seven bytes of the first line, and the second line in both chunks."""
    first = bytes.fromhex("a0 a1 a2 a3 a4 a5 a6").ljust(12, b"\x00")
    return image({0x20000: first, 0x20010: bytes(4) + bytes(range(0xB0, 0xC0))})


def files():
    """The files of examples/, by name."""
    streams = {make.__name__ + ".bfs": make() for make in (overrun, early_eol, resync, stray, restart, bursts)}
    return {"two_lines.brp": two_lines(), "early_eol.bmi": early_eol_image()} | streams
