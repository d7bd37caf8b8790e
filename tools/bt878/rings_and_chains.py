"""A ring of blocks and a chain that is patched while it runs: their streams, and what must come of them."""

import random

from .as_compiled import BASE
from .formats import (
    EOL4, FM1, IS_EOL, IS_IRQ, IS_SOL, JUMP, RESYNC, SOL, SYNC, VRE, WRITE, Stream, image, one_span, program,
)  # fmt: skip

BLOCKS, LINES, BYTES, PAGES = 2, 2, 1500, [0x06000000, 0x06008000]  # those of ring.toml
SENT = [random.Random(number).randbytes(BYTES) for number in range(6)]


def ring_runs(number):
    """The (address, count) of a line: cut where a page ends."""
    at, runs = number * BYTES, []
    while at < (number + 1) * BYTES:
        count = min((number + 1) * BYTES - at, 4096 - at % 4096)
        runs.append((PAGES[at // 4096] + at % 4096, count))
        at += count
    return runs


def ring_program():
    words = [SYNC << 28 | RESYNC | FM1, 0]
    for number in range(BLOCKS * LINES):
        runs = ring_runs(number)
        for place, (address, count) in enumerate(runs):
            last = place == len(runs) - 1
            first_word = WRITE << 28 | (IS_SOL if place == 0 else 0) | (IS_EOL if last else 0) | count
            if last and number % LINES == LINES - 1:
                block = number // LINES
                first_word |= IS_IRQ | (15 - block) << 20 | block << 16
            words += [first_word, address]
    words += [JUMP << 28, BASE + 8]
    return program(BASE, one_span(BASE, words), [(page, 4096) for page in PAGES], 0x80)


def ring_stream():
    """FM1 and six lines: the first block is filled, the second, and the first again."""
    stream = Stream().control(FM1)
    for line in SENT:
        stream.line(line)
    return stream.end()


def ring_image():
    memory = bytearray(b"\x80" * 8192)
    for number, line in enumerate(SENT):
        at = number % (BLOCKS * LINES) * BYTES
        memory[at : at + BYTES] = line
    return image({PAGES[0]: memory[:4096], PAGES[1]: memory[4096:]})


def patch(stream, slot, buffer):
    stream.data += bytes([9, slot, buffer])
    return stream


def chain_stream():
    """A buffer is hooked, and while its field comes the other one."""
    stream = patch(Stream(form=b"BFS3"), 0, 0).control(VRE).control(FM1).push(1, SOL, bytes(range(0x10, 0x14)))
    patch(stream, 0, 1).push(1, EOL4, bytes(range(0x14, 0x18)))
    stream.control(VRE).control(FM1).push(1, SOL, bytes(range(0x20, 0x24)))
    patch(stream, 0, 0xFF).push(1, EOL4, bytes(range(0x24, 0x28)))
    return stream.end()


def chain_image():
    return image({0x20000: bytes(range(0x10, 0x18)), 0x30000: bytes(range(0x20, 0x28))})


def files():
    """{name: bytes} of their files."""
    files = {"ring.brp": ring_program(), "ring.bfs": ring_stream(), "ring.bmi": ring_image()}
    return files | {"chain.bfs": chain_stream(), "chain.bmi": chain_image()}
