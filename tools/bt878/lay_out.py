"""A program that lies in several buffers, as a driver keeps it, as one program file. Nothing is moved."""

from .formats import JUMP, program, walk


def spans_of(buffers):
    """The spans of buffers (address, words), which rise: buffers that touch are one."""
    spans = []
    for at, words in sorted(buffers):
        if spans and spans[-1][0] + 4 * len(spans[-1][1]) == at:
            spans[-1][1].extend(words)
        elif words:
            spans.append((at, list(words)))
    return spans


def lay_out(entry, buffers, chunks, fill):
    """The program file of buffers (address, words) at their own addresses."""
    return program(entry, spans_of(buffers), chunks, fill)


def outward(chunks):
    """Chunks from a multiple of 4 to one. Those that share a byte then are one."""
    rounded = []
    for at, length in sorted(chunks):
        first, end = at & ~3, (at + length + 3) & ~3
        if rounded and first < sum(rounded[-1]):
            first, end = rounded[-1][0], max(end, sum(rounded.pop()))
        rounded.append((first, end - first))
    return rounded


def jumps(buffers):
    """(address, target) of each JUMP, as each buffer reads from its first word on."""
    for at, words in buffers:
        for place in walk(words):
            if words[place] >> 28 == JUMP and place + 1 < len(words):
                yield at + 4 * place, words[place + 1]


def buffer_at(buffers, address):
    """The number of the buffer that has a byte at an address, or None."""
    return next((n for n, (at, words) in enumerate(buffers) if at <= address < at + 4 * len(words)), None)


def faults(buffers, chunks):
    """What can't be in a program file."""
    ranges = [(at, at + 4 * len(words), f"buffer {number}") for number, (at, words) in enumerate(buffers)]
    ranges += [(at, at + length, f"chunk {at:08x}") for at, length in chunks]
    for at, length in chunks:
        if at % 4 or length % 4:
            yield f"chunk {at:08x} of {length} bytes is off 4 bytes (--outward rounds it)"
    for number, (first, end, name) in enumerate(ranges):
        for other, other_end, other_name in ranges[:number]:
            if max(first, other) < min(end, other_end):
                yield f"{other_name} and {name} share byte {max(first, other):08x}"


def warnings(buffers, old):
    """JUMPs to an address in no buffer, and old addresses that lie in a buffer."""
    for at, target in jumps(buffers):
        if buffer_at(buffers, target) is None:
            yield f"jump at {at:08x} leads to {target:08x}, which is in no buffer"
    for address in old:
        number = buffer_at(buffers, address)
        if number is not None:
            led = " ".join(f"{at:08x}" for at, target in jumps(buffers) if target == address) or "none"
            yield f"old address {address:08x} lies in buffer {number}; jumps that lead there: {led}"
