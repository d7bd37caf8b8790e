"""RISC lists as Linux bttv makes them (drivers/media/pci/bt8xx/bttv-risc.c), written anew for the examples.

They are those of Linux 6.12; `overlay` is that of 6.1, since 6.12 has none.

A list is a list of words. A scatter list is a list of (address, length), the pieces of memory one after another. The
status that a list's closing JUMP sets: VIDEO on the last picture list of a frame; TOP on the top list where the top
field is a buffer of its own and a bottom field follows; VBI on the last VBI list; none, and no interrupt, on the top
list of an interlaced frame or before a bottom VBI list.
"""

from .formats import (
    FM1, FM3, IS_EOL, IS_IRQ, IS_SOL, JUMP, RESYNC, SKIP, SYNC, VRE, VRO, WRITE, WRITE1S23, WRITE123,
)  # fmt: skip

TOP_VBI, TOP_FIELD, BOTTOM_VBI, BOTTOM_FIELD = 4, 6, 10, 12  # places of the slots in the main loop, in words
LOOP_JUMP = 14  # the closing JUMP of the main loop
VIDEO, TOP, VBI = 1, 2, 4  # RISC status
NO_JUMP = [0, 0]  # the end of a list that isn't hooked yet: memory as it was allocated
CHROMA_FIRST = {1: 0, 2: 1, 4: 2}  # by the step down: the first row with chroma of an interlaced frame's bottom field


def jump(status):
    """The first word of a JUMP, with an interrupt and the status where there is one."""
    return JUMP << 28 | (IS_IRQ | (~status & 15) << 20 | status << 16 if status else 0)


def main_loop(at):
    """The standing loop of 16 words: a SYNC for each field, and slots that jump on to the next word.

    It is as it stands once the first picture is queued: until its lists are hooked the closing JUMP has the interrupt, so
    that there is one to hook lists at.
    """
    words = [SYNC << 28 | RESYNC | VRE, 0] + [0] * 6 + [SYNC << 28 | RESYNC | VRO, 0] + [0] * 6
    for slot in (2, 4, 6, 10, 12):
        words[slot : slot + 2] = [JUMP << 28, at + 4 * (slot + 2)]
    words[LOOP_JUMP : LOOP_JUMP + 2] = [jump(VIDEO), at]
    return words


def hook(loop, at, slot, words, list_at, status):
    """The slot leads to the list, and the list's closing JUMP back behind the slot, with an interrupt if `status`."""
    words[-2:] = [jump(status), at + 4 * (slot + 2)]
    loop[slot + 1], loop[LOOP_JUMP] = list_at, jump(0)


def skip_to(scatter, offset):
    """What is left of the scatter list from an offset on."""
    for number, (address, length) in enumerate(scatter):
        if offset < length:
            return [(address + offset, length - offset)] + scatter[number + 1 :]
        offset -= length


def packed(scatter, offset, line_bytes, pitch, lines, skip_lines=0):
    """A packed field: SYNC on FM1, skipped lines, then a WRITE for each line or part of it up to a piece's end."""
    words = [SYNC << 28 | FM1, 0]
    words += [SKIP << 28 | IS_SOL | IS_EOL | line_bytes] * skip_lines
    for line in range(lines):
        rest, todo = skip_to(scatter, offset + line * pitch), line_bytes
        while todo:
            (address, length), rest = rest[0], rest[1:]
            count = min(todo, length)
            ends = (IS_SOL if todo == line_bytes else 0) | (IS_EOL if count == todo else 0)
            words += [WRITE << 28 | ends | count, address]
            todo -= count
    return words + NO_JUMP


def planar(scatter, offsets, line_bytes, pitch, lines, across, down, first=0):
    """A planar field: SYNC on FM3, then WRITE123 where chroma is kept and WRITE1S23 where it isn't.

    Of `down` lines one keeps chroma, of the first ones line `first`: 0, but CHROMA_FIRST for the bottom field of an
    interlaced frame.
    """
    words, (luma, blue, red) = [SYNC << 28 | FM3, 0], offsets
    for line in range(lines):
        done, keeps = 0, line % down == first
        chroma = line // down * (pitch // across)
        while done < line_bytes:
            spots = [skip_to(scatter, luma + line * pitch + done)[0]]
            if keeps:
                spots += [skip_to(scatter, plane + chroma + done // across)[0] for plane in (blue, red)]
            rooms = [length * (1 if plane == 0 else across) for plane, (_, length) in enumerate(spots)]
            count = min([line_bytes - done] + rooms)
            ends = (IS_SOL if done == 0 else 0) | (IS_EOL if done + count == line_bytes else 0)
            opcode = WRITE123 if keeps else WRITE1S23
            words += [opcode << 28 | ends | count, (count // across) << 16 | count // across]
            words += [address for address, _ in spots]
            done += count
    return words + NO_JUMP


def overlay(address, pitch, pixel, width, height, clips):
    """A field straight into a frame buffer: a line is cut where a clip (x, y, w, h) begins and ends."""
    words = [SYNC << 28 | FM1, 0]
    for line in range(height):
        hidden = [any(x <= p < x + w and y <= line < y + h for x, y, w, h in clips) for p in range(width)]
        start = 0
        while start < width:
            end = next((p for p in range(start, width) if hidden[p] != hidden[start]), width)
            ends = (IS_SOL if start == 0 else 0) | (IS_EOL if end == width else 0)
            if hidden[start]:
                words += [SKIP << 28 | ends | pixel * (end - start)]
            else:
                words += [WRITE << 28 | ends | pixel * (end - start), address + line * pitch + pixel * start]
            start = end
    return words + NO_JUMP
