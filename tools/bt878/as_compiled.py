"""A driver's field lists, laid out in one span as `bt878 compile` lays out a description.

Around the lists of a field come the opening SYNC on its vertical code and the closing JUMP, with the interrupt and the
status of a compiled program.
"""

from .formats import IS_IRQ, JUMP, RESYNC, SYNC, VRE, VRO

BASE = 0x1000  # of compiled programs
FIELDS = {"top": (VRE, 0x1, 0xE), "bottom": (VRO, 0x2, 0xD)}  # vertical code, status bits to set and to clear


def as_compiled(base, fields):
    """The words of fields (name, lists), where each list ends with its JUMP of two words."""
    out = []
    for number, (name, lists) in enumerate(fields):
        code, set_, reset = FIELDS[name]
        out += [SYNC << 28 | RESYNC | code, 0]
        for words in lists:
            out += words[:-2]
        follows = base + 4 * (len(out) + 2) if number + 1 < len(fields) else base
        out += [JUMP << 28 | IS_IRQ | reset << 20 | set_ << 16, follows]
    return out
