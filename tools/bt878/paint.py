"""The memory that a capture must leave, painted byte by byte from the description and the picture.

A picture is {(plane, row): bytes of the row} with planes from 0, and {("vbi", field, line): bytes of the VBI line}.
No program, queue or turn is looked at.
"""

import random

from .description import NoPlace


def drawn(description, seed):
    """A picture of bytes that are drawn."""
    draw = random.Random(seed).randbytes
    picture = {}
    for row in range(description.height):
        for plane, count in enumerate(description.row_bytes):
            picture[plane, row] = draw(count)
    for field in description.fields:
        for line in range(description.vbi_lines):
            picture["vbi", field, line] = draw(description.vbi_bytes)
    return picture


def filled(description):
    return {address: bytearray([description.fill]) * length for address, length in description.chunks}


def store(memory, address, byte):
    chunk = next((first for first in memory if first <= address < first + len(memory[first])), None)
    if chunk is None:
        raise NoPlace(f"{address:08x} isn't granted")
    memory[chunk][address - chunk] = byte


def paint_field(description, picture, memory, field):
    for line in range(description.vbi_lines):
        for address, byte in zip(description.vbi_places(field, line), picture["vbi", field, line], strict=True):
            store(memory, address, byte)
    for row in description.rows_of(field):
        for plane, count in enumerate(description.row_bytes):
            for x, address in enumerate(description.row_places(plane, row) or []):
                if not description.is_clipped(row, x * description.width // count):
                    store(memory, address, picture[plane, row][x])
    return memory


def paint(description, picture, memory):
    """Each byte that isn't clipped at its place; all else is left as it is."""
    for field in description.fields:
        paint_field(description, picture, memory, field)
    return memory
