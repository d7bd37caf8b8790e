"""Bugs planted in the lists of a capture: each must be rejected, or reported by `check`."""

import harness  # noqa: F401  (first: it finds the package bt878)
from bt878.formats import IS_EOL, IS_SOL, JUMP, LENGTHS, WRITE, WRITE1S23, WRITE123, walk

SLOTS = [(6, 12), (4, 10)]  # of the main loop, of the top and of the bottom field: for the picture, for VBI lines


def writes(words):
    return [at for at in walk(words) if words[at] >> 28 in (WRITE, WRITE123, WRITE1S23)]


def address_of(words, at):
    """The place of the word that has the address of a WRITE's luma."""
    return at + (1 if words[at] >> 28 == WRITE else 2)


def flag(bit):
    """SOL or EOL of one instruction is left out."""

    def plant(draw, words):
        words[draw.choice([at for at in writes(words) if words[at] & bit])] &= ~bit

    return plant


def shift(draw, words):
    """One address is a page too high."""
    words[address_of(words, draw.choice(writes(words)))] += 4096


def count(draw, words):
    """One count is 4 too low or too high."""
    words[draw.choice(writes(words))] += draw.choice([4, -4])


def lose_word(draw, words):
    del words[draw.choice(writes(words))]


def line_ends(words):
    """The places behind each line."""
    return [at + LENGTHS[words[at] >> 28] for at in writes(words) if words[at] & IS_EOL]


def lose_line(draw, words):
    ends = line_ends(words)
    number = draw.randrange(len(ends))
    first = ends[number - 1] if number else writes(words)[0]
    del words[first : ends[number]]


def double_line(draw, words):
    ends = line_ends(words)
    number = draw.randrange(len(ends))
    first = ends[number - 1] if number else writes(words)[0]
    words[first:first] = words[first : ends[number]]


def exchange_pages(draw, words):
    """Two pages stand for one another in all addresses of luma."""
    places = [address_of(words, at) for at in writes(words)]
    pages = sorted({words[at] & ~4095 for at in places})
    if len(pages) < 2:
        return
    first, second = draw.sample(pages, 2)
    other = {first: second, second: first}
    for at in places:
        words[at] = other.get(words[at] & ~4095, words[at] & ~4095) | words[at] & 4095


BUGS = {
    "no EOL": flag(IS_EOL), "no SOL": flag(IS_SOL), "page shifted": shift, "pages exchanged": exchange_pages,
    "count 4 off": count, "lost word": lose_word, "a line too few": lose_line, "a line too many": double_line,
}  # fmt: skip


def exchange_fields(at, loop):
    """Two slots of the main loop have the other field's list."""

    def is_hooked(slot):
        return loop[slot + 1] != at + 4 * (slot + 2)

    top, bottom = next(pair for pair in SLOTS if any(map(is_hooked, pair)))
    loop[top + 1], loop[bottom + 1] = loop[bottom + 1], loop[top + 1]


def planted(draw, buffers):
    """The name of a drawn bug, and the buffers with it, or None where it changes nothing."""
    buffers = [(at, list(words)) for at, words in buffers]
    name = draw.choice([*BUGS, "fields exchanged"])
    if name == "fields exchanged":
        exchange_fields(*buffers[0])
    else:
        _, words = draw.choice(buffers[1:])
        whole = list(words)
        BUGS[name](draw, words)
        if words == whole:
            return name, None
    assert all(words[-2] >> 28 == JUMP for _, words in buffers)
    return name, buffers
