"""What `bt878 check` is to say of a program and a description, by plain lists of what each queue awaits, byte by byte.

    python3 -m bt878.check_model PROG DESC      # in tools/

prints it; the status is 1 where the program doesn't show each described field. It trusts both files: `bt878 verify` and
`bt878 compile` tell what is wrong with them.
"""

import sys
from pathlib import Path
from typing import NamedTuple

from .description import Description
from .formats import (
    CODES, FM1, FM3, IS_EOL, IS_IRQ, IS_SOL, JUMP, LENGTHS, RESYNC, SKIP, SKIP123, SYNC, VRE, VRO, WRITE, WRITE1S23,
    WRITE123, WRITEC, read_program,
)  # fmt: skip

VERTICAL = {"top": VRE, "bottom": VRO}
OFF = 15 << 12  # the lanes that are off


class Code(NamedTuple):
    """A queue awaits a control code, or is asked for one."""

    code: int


class Byte(NamedTuple):
    """A queue awaits a byte, or is asked for one: the first of a line or another, and where it goes, if anywhere."""

    begins: bool
    place: int | None


class Due(NamedTuple):
    """What a queue awaits: a code, or a byte with its line, its number there and the bytes of the line."""

    asked: Code | Byte
    line: str = ""
    number: int = 0
    bytes: int = 0


class Differs(Exception):
    def __init__(self, at, why):
        super().__init__(f"differs at {at:08x}: {why}")


def awaited(desc, field):
    """What each of the three queues awaits in a field, in order."""
    queues = [[], [], []]

    def sync(code):
        for queue in queues:
            queue.append(Due(Code(code)))

    def line(queue, name, places):
        for number, place in enumerate(places):
            queues[queue].append(Due(Byte(number == 0, place), name, number, len(places)))

    if desc.vbi_lines:
        sync(FM1)
        for number in range(desc.vbi_skip[field]):
            line(0, f"skipped vbi {number}", [None] * desc.vbi_bytes)
        for number in range(desc.vbi_lines):
            line(0, f"vbi {number}", desc.vbi_places(field, number))
    sync(FM3 if desc.chroma else FM1)
    for number in range(desc.skip_lines):
        for plane, count in enumerate(desc.row_bytes):
            line(plane, f"skipped {number}", [None] * count)
    for row in desc.rows_of(field):
        for plane, count in enumerate(desc.row_bytes):
            places = desc.row_places(plane, row) or [None] * count
            clipped = [desc.is_clipped(row, x * desc.width // count) for x in range(count)]
            line(plane, f"row {row}", [None if off else at for at, off in zip(places, clipped, strict=True)])
    return queues


class Instr(NamedTuple):
    opcode: int
    words: list

    def has(self, bit):
        return bool(self.words[0] & bit)

    def next_at(self, at):
        return self.words[1] if self.opcode == JUMP else at + 4 * len(self.words)

    def code(self):
        return self.words[0] & 15 if self.opcode == SYNC else None

    def asks(self):
        """What it asks of each queue."""
        first, *further = self.words
        if self.opcode == SYNC:
            return [[Code(first & 15)]] * 3
        if self.opcode == JUMP:
            return [[], [], []]
        counts, places = [first & 0xFFF, 0, 0], [None] * 3
        if self.opcode in (WRITE123, SKIP123, WRITE1S23):
            counts[1:] = further[0] & 0xFFF, further[0] >> 16 & 0xFFF
            places[: len(further) - 1] = further[1:]
        elif self.opcode == WRITE:
            places[0] = further[0]
        return [
            [Byte(self.has(IS_SOL) and n == 0, None if place is None else place + n) for n in range(count)]
            for count, place in zip(counts, places, strict=True)
        ]


class Program:
    def __init__(self, entry, spans):
        self.entry, self.size = entry, sum(len(words) for _, words in spans)
        self.at = {at + 4 * n: word for at, words in spans for n, word in enumerate(words)}

    def fetch(self, at):
        if at not in self.at or self.at[at] >> 28 not in LENGTHS:
            raise Differs(at, "no instruction")
        opcode = self.at[at] >> 28
        words = [self.at.get(at + 4 * n) for n in range(LENGTHS[opcode])]
        if None in words or (opcode == SYNC and words[0] & 15 not in CODES):
            raise Differs(at, "no instruction")
        return Instr(opcode, words)

    def openings(self, field):
        """The addresses of the SYNCs for a field's code among the first places of the path."""
        at, found = self.entry, []
        for _ in range(self.size):
            instr = self.fetch(at)
            if instr.code() == VERTICAL[field] and at not in found:
                found.append(at)
            at = instr.next_at(at)
        return found


def on(due, queue):
    return f"{due.line}, queue {queue + 1}: "


def why_unlike(queue, asked, due):
    """What is said where a queue is asked for something else than it awaits."""
    if due is None:
        return f"queue {queue + 1}: nothing awaited"
    if isinstance(due.asked, Code):
        return f"sync {CODES[due.asked.code]} awaited"
    if isinstance(asked, Code):
        return on(due, queue) + f"byte {due.number} awaited"
    if asked.place != due.asked.place:
        place = "without a place" if due.asked.place is None else f"at {due.asked.place:08x}"
        return on(due, queue) + f"byte {due.number} {place} awaited"
    return on(due, queue) + ("sol awaited" if due.asked.begins else f"no sol awaited at byte {due.number}")


class Queues:
    """What each queue awaits, and how much of it is taken."""

    def __init__(self, queues):
        self.queues, self.taken = queues, [0, 0, 0]

    def due(self, queue, beyond=0):
        place = self.taken[queue] + beyond
        return self.queues[queue][place] if place < len(self.queues[queue]) else None

    def none_left(self):
        return all(self.due(queue) is None for queue in range(3))

    def unlike(self, instr):
        """Why an instruction asks something else than is awaited. A SYNC is judged by the queues that await something."""
        for queue, asks in enumerate(instr.asks()):
            if instr.opcode == SYNC and self.due(queue) is None:
                continue
            for beyond, asked in enumerate(asks):
                due = self.due(queue, beyond)
                if due is None or asked != due.asked:
                    return why_unlike(queue, asked, due)
        return None

    def wrong_eol(self, instr):
        for queue, asks in enumerate(instr.asks()):
            if asks and instr.opcode != SYNC:
                last, after = self.due(queue, len(asks) - 1), self.due(queue, len(asks))
                goes_on = after is not None and isinstance(after.asked, Byte) and not after.asked.begins
                if instr.has(IS_EOL) and goes_on:
                    return on(last, queue) + f"eol at byte {last.number} of {last.bytes}"
                if not instr.has(IS_EOL) and not goes_on:
                    return on(last, queue) + "eol awaited"
        return None

    def why(self, instr):
        if instr.opcode == WRITEC:
            return "writec"
        if instr.opcode in (WRITE, WRITE123, WRITE1S23) and instr.has(OFF):
            return "lanes off"
        return self.unlike(instr) or self.wrong_eol(instr)

    def take(self, instr):
        for queue, asks in enumerate(instr.asks()):
            self.taken[queue] += len(asks)


def shown_from(program, desc, field, begin):
    """(the address of what ends the field, how many instructions stand before it)."""
    if not program.fetch(begin).has(RESYNC):
        raise Differs(begin, "no resync")
    queues, at, end = Queues(awaited(desc, field)), begin + 8, None
    for count in range(program.size):
        instr = program.fetch(at)
        if end is None and queues.none_left():
            end = at, count
        if instr.code() in (VRE, VRO) and end:
            return end
        if end and instr.opcode != JUMP:
            raise Differs(at, "nothing awaited")
        if not end:
            why = queues.why(instr)
            if why:
                raise Differs(at, why)
            queues.take(instr)
        at = instr.next_at(at)
    raise Differs(at, "no next field")


def closing(instr):
    if instr.opcode == SYNC:
        return "sync"
    told = ["jump", "irq" if instr.has(IS_IRQ) else ""]
    told += [f"{name}={instr.words[0] >> at & 15:x}" if instr.words[0] >> at & 15 else "" for name, at in (("set", 16), ("reset", 20))]
    return " ".join(filter(None, told))


def said(program, desc, field):
    """(whether the program shows a field, what is said of it)."""
    faults = []
    for begin in program.openings(field):
        try:
            end, count = shown_from(program, desc, field, begin)
            told = f"shown from {begin:08x} to {end:08x}, {count} instructions, {closing(program.fetch(end))}"
            return True, told
        except Differs as fault:
            faults.append(str(fault))
    none = f"differs at {program.entry:08x}: no sync {CODES[VERTICAL[field]]}"
    return False, faults[0] if faults else none


def check(program_file, desc_file):
    """(the text, the status) of `bt878 check`."""
    entry, spans, _, _ = read_program(Path(program_file).read_bytes())
    program, desc = Program(entry, spans), Description(desc_file)
    lines = [(field, *said(program, desc, field)) for field in desc.fields]
    text = "".join(f"{field}: {words}\n" for field, _, words in lines)
    return text, 0 if all(shown for _, shown, _ in lines) else 1


if __name__ == "__main__":
    if len(sys.argv) != 3:
        sys.exit(__doc__)
    text, status = check(*sys.argv[1:])
    sys.stdout.write(text)
    sys.exit(status)
