"""Programs beside a description, drawn from its compiled program: the same instructions cut, joined, moved and changed.

tools/fuzz.py asks `bt878 check` what it says of each, and the plain model of check_model.py.
"""

from .formats import (
    IS_EOL, IS_IRQ, IS_SOL, JUMP, LENGTHS, RESYNC, SKIP, SKIP123, SYNC, WRITE, WRITE1S23, WRITE123, WRITEC, program,
    walk,
)  # fmt: skip

SPACE = [(0x20000, 0x20000)]  # what the programs are granted: all that a drawn description has, and more
FIRST_SPAN = 0x1000
ENDS = IS_SOL | IS_EOL


def sections(words):
    """The instructions of each field of a compiled program, each with its closing JUMP."""
    out = [[]]
    for at in walk(words):
        instruction = words[at : at + LENGTHS[words[at] >> 28]]
        out[-1].append(instruction)
        if instruction[0] >> 28 == JUMP:
            out.append([])
    return out[:-1]


# the same bytes in other instructions


def with_ends(first, begins, ends):
    """A first word with SOL and EOL only where they stand already and the piece has the line's beginning or end."""
    return first & ~ENDS | (first & IS_SOL if begins else 0) | (first & IS_EOL if ends else 0)


def cut(draw, instruction):
    """A WRITE or SKIP as two, cut at a byte; a planar one as its luma and its chroma."""
    first, opcode = instruction[0], instruction[0] >> 28
    count = first & 0xFFF
    if opcode in (WRITE, SKIP) and count > 1:
        here, moved = draw.randrange(1, count), instruction[1:]
        head = [with_ends(first, True, False) & ~0xFFF | here, *moved]
        return [head, [with_ends(first, False, True) & ~0xFFF | count - here, *(word + here for word in moved)]]
    if opcode in (WRITE123, SKIP123) and draw.random() < 0.7:
        luma = [WRITE << 28 | first & 0xFFFFFFF, instruction[2]] if opcode == WRITE123 else [SKIP << 28 | first & 0xFFFFFFF]
        chroma = [first & ~0xFFF, *instruction[1:]]
        return [luma, chroma] if draw.random() < 0.5 else [chroma, luma]
    if opcode == WRITE1S23:
        luma = [WRITE << 28 | first & 0xFFFFFFF, instruction[2]]
        return [luma, [SKIP123 << 28 | first & 0xFFFF000, instruction[1]]]
    return [instruction]


def idle(draw):
    """An instruction that takes no byte."""
    return draw.choice([[SKIP << 28], [SKIP << 28 | ENDS], [WRITE << 28 | IS_SOL, 0x20000], [SKIP123 << 28 | IS_EOL, 0]])


def recut(draw, instructions):
    out = []
    for instruction in instructions:
        out += cut(draw, instruction) if draw.random() < 0.4 else [instruction]
        if len(out) > 1 and draw.random() < 0.1 and instruction[0] >> 28 != JUMP:
            out.append(idle(draw))
    return out


# other bytes


def changed_word(draw, instruction):
    """An instruction with a word changed."""
    words, opcode = list(instruction), instruction[0] >> 28
    place = draw.randrange(len(words)) if opcode not in (JUMP, SYNC) else 0
    if place:
        words[place] = (words[place] + draw.choice([1, -1, 4, -4, 64, 1 << 16, -(1 << 16)])) % (1 << 32)
    elif opcode == SYNC:
        words[0] = draw.choice([words[0] ^ RESYNC, words[0] ^ 8, words[0] ^ 2, words[0] ^ IS_IRQ | 5 << 16])
    elif opcode == JUMP:
        words[0] ^= draw.choice([IS_IRQ, draw.randrange(256) << 16])
    else:
        count = (words[0] + draw.choice([1, -1, 4, -4, 8])) & 0xFFF
        words[0] = draw.choice([words[0] ^ IS_SOL, words[0] ^ IS_EOL, words[0] ^ ENDS, words[0] & ~0xFFF | count] * 2 + [
            words[0] ^ 1 << 12 + draw.randrange(4), words[0] ^ IS_IRQ])  # fmt: skip
    return words


def changed(draw, instructions):
    """The instructions with one changed, away, twice, exchanged with the next, or another one before it."""
    out, at = list(instructions), draw.randrange(len(instructions) - 1)
    out[at : at + 1] = draw.choice(
        [[changed_word(draw, out[at])]] * 6
        + [[], [out[at]] * 2, [draw.choice(out[:-1]), out[at]], [[WRITEC << 28 | draw.randrange(9)], out[at]], [idle(draw), out[at]]]
    )
    if draw.random() < 0.15 and at + 2 < len(out):
        out[at], out[at + 1] = out[at + 1], out[at]
    return out


# where they stand


def pieces_of(draw, fields):
    """The instructions in pieces that follow one another by JUMPs, the last by one to the first piece."""
    pieces = []
    for instructions in fields:
        cuts = sorted(draw.sample(range(1, len(instructions)), min(draw.choice([0, 0, 0, 1, 2]), len(instructions) - 1)))
        for begin, end in zip([0, *cuts], [*cuts, len(instructions)], strict=True):
            piece = instructions[begin:end]
            is_last = end == len(instructions)
            pieces.append(piece if is_last else [*piece, [JUMP << 28 | draw.choice([0, 0, IS_IRQ | 3 << 16]), 0]])
    return pieces


def placed(draw, pieces):
    """The address of each piece: one after the other, or in any order with words between."""
    order, at, places = list(range(len(pieces))), FIRST_SPAN, [0] * len(pieces)
    if draw.random() < 0.5:
        draw.shuffle(order)
    for number in order:
        places[number] = at
        at += 4 * sum(map(len, pieces[number])) + draw.choice([0, 0, 4, 0x1000])
    return places


def joined(spans):
    """Spans that touch are one."""
    out = []
    for at, words in sorted(spans):
        if out and out[-1][0] + 4 * len(out[-1][1]) == at:
            out[-1][1].extend(words)
        else:
            out.append((at, list(words)))
    return out


def laid_out(draw, pieces, fill):
    places = placed(draw, pieces)
    targets = places[1:] + places[:1]
    if draw.random() < 0.15:
        targets[draw.randrange(len(targets))] = draw.choice(places)
    spans = []
    for place, target, piece in zip(places, targets, pieces, strict=True):
        *others, last = piece
        spans.append((place, [word for instruction in others for word in instruction] + [last[0], target]))
    entry = places[0] if draw.random() < 0.85 else draw.choice(places)
    return entry, joined(spans), SPACE, fill


def drawn_beside(draw, words):
    """A program drawn from a compiled one."""
    fields = sections(words)
    if draw.random() < 0.2:
        fields += [draw.choice(fields)]  # a field twice
    if draw.random() < 0.15:
        draw.shuffle(fields)
    if draw.random() < 0.6:
        fields = [recut(draw, instructions) for instructions in fields]
    if draw.random() < 0.6:
        at = draw.randrange(len(fields))
        fields[at] = changed(draw, fields[at])
    return program(*laid_out(draw, pieces_of(draw, fields), draw.randrange(256)))


def changed_keys(draw, keys):
    """The keys of a description of which one is changed."""
    down = 4 if "410" in keys["format"] else 2 if "420" in keys["format"] else 1
    count = 2 if keys["fields"] == '"both"' else 1
    (at, length), *others = keys["chunks"]
    return keys | draw.choice([
        {"height": keys["height"] + count}, {"height": max(count, keys["height"] - count)},
        {"width": keys["width"] + 16}, {"skip_lines": draw.randrange(3)}, {"vbi_lines": draw.randrange(4)},
        {"vbi_skip": [draw.randrange(4) for _ in range(count)]}, {"fill": draw.randrange(256)},
        {"chroma_first": [draw.randrange(down) for _ in range(count)]}, {"clip": []}, {"vbi_bytes": keys["vbi_bytes"] + 1},
        {"clip": [[draw.randrange(30), draw.randrange(6), draw.randrange(9), draw.randrange(4)]]},
        {"chunks": [[at - 4, length], *others]}, {"fields": draw.choice(['"top"', '"bottom"'])},
        {"format": draw.choice(['"y8"', '"rgb8"', '"yuy2"', '"yuv420p"'])}, {"base": 0x21000},
    ])  # fmt: skip
