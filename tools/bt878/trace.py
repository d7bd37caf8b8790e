"""The trace of a stream by the plain machine, and the first step at which two traces differ.

The form of a trace is that of docs/MACHINE.md, "What each step did".
"""

import struct

from .formats import ENDS, FM1, FM3, JUMP, PXV, SOL, SYNC, VRE, VRO
from .machine import Machine

STATUSES = {PXV: "pxv", SOL: "sol"} | {status: f"eol{count}" for count, status in ENDS.items()}
CODES = {VRE: "vre", VRO: "vro", FM1: "fm1", FM3: "fm3"}
NUMBERS = ("pc", "INT_STAT", "entries in queue 1", "entries in queue 2", "entries in queue 3", "bytes stored")


class Trace(Machine):
    """A machine that notes what each turn did, and writes a line for each step."""

    def __init__(self, program):
        super().__init__(program)
        self.lines, self.still, self.did = [], 0, None

    # what a turn did

    def fetch(self, found):
        at, passed = self.pc, self.skip and found.is_data
        super().fetch(found)
        names = {JUMP: "jump", SYNC: "sync"}
        self.did = (at, names.get(found.opcode, "pass" if passed else "begin"))

    def wait(self, sync):
        at, before = self.pc - 8, [len(queue) for queue in self.queues]
        super().wait(sync)
        shorter = [q + 1 for q in range(3) if len(self.queues[q]) < before[q]]
        if not self.waiting:
            self.did = (at, "match")
        elif len(shorter) == 3:
            self.did = (at, "miss")
        elif shorter:
            self.did = (at, f"drop {shorter[0]}")

    def run(self, found):
        at, before = self.pc - 4 * found.length, list(self.rest)
        served = next((q for q in range(3) if before[q] and self.is_ready(q)), None)
        super().run(found)
        if not any(before):
            self.did = (at, "retire")
        elif served is not None:
            count = before[served] - self.rest[served]
            given_up = "" if self.running else "give up"
            moved = "" if given_up and not count else f"move {served + 1} {count}"
            self.did = (at, f"{moved} {given_up}".strip() if moved else f"give up {served + 1}")

    # lines

    def numbers(self):
        levels = " ".join(str(len(queue)) for queue in self.queues)
        return f" | {self.pc:08x} {self.int_stat:08x} {levels} {self.moved}"

    def end_still(self):
        if self.still:
            self.lines.append(f"still {self.still}")
        self.still = 0

    def line(self, words):
        self.end_still()
        self.lines.append(words + self.numbers())

    def fate(self, lost, was_on):
        return "" if was_on and not lost else " lost" if was_on else " ignored"

    def turn(self):
        number, self.did = self.turns, None
        super().turn()
        if self.did is None:
            self.still += 1
        else:
            self.line("turn {} {:08x} {}".format(number, *self.did))

    def push(self, queue, status, dword):
        lost = sum(self.overruns)
        super().push(queue, status, dword)
        name = STATUSES.get(status, f"reserved {status:x}")
        fate = self.fate(sum(self.overruns) > lost, self.fifo_on)
        self.line(f"push {queue + 1} {name} {int.from_bytes(dword, 'little'):08x}{fate}")

    def control(self, code):
        lost = sum(self.overruns)
        super().control(code)
        self.line(f"control {CODES[code]}{self.fate(sum(self.overruns) > lost, self.fifo_on)}")

    def acknowledge(self, mask):
        super().acknowledge(mask)
        self.line(f"ack {mask:08x}")

    def enable(self, fifo, risc):
        super().enable(fifo, risc)
        self.line(f"enable {fifo} {risc}")

    def play(self, data):
        """Writes the lines of a stream file that has no fault."""
        if data[:4] == b"BFS2":
            self.set_trigger(4)
        at = 4
        while data[at]:
            at += self.step(data[at], data[at + 1], data, at)
        self.end_still()

    def set_trigger(self, entries):
        self.trigger = entries
        self.line(f"trigger {entries}")

    def step(self, tag, field, data, at):
        """Takes the record at a place, and answers its length."""
        if tag <= 3:
            self.push(tag - 1, field, data[at + 2 : at + 6])
            return 6
        if tag in (5, 6):
            (number,) = struct.unpack_from("<I", data, at + 1)
            if tag == 6:
                self.acknowledge(number)
            else:
                for _ in range(number):
                    self.turn()
            return 5
        if tag == 4:
            self.control(field)
        elif tag == 7:
            self.enable(field & 1, field >> 1)
        else:
            self.set_trigger(4 << field)
        return 2

    def text(self):
        return "".join(line + "\n" for line in self.lines) + self.report()


def trace(program, data):
    """What `trace` prints of a program and a stream without a fault."""
    machine = Trace(program)
    machine.play(data)
    return machine.text()


def numbers(line):
    return line.partition(" | ")[2].split()


def first_difference(ours, theirs):
    """The first line at which two traces differ, with what differs, or None. Each is a list of lines."""
    for number, (one, two) in enumerate(zip(ours, theirs)):
        if one != two:
            return told(ours, number, one, two)
    if len(ours) != len(theirs):
        number = min(len(ours), len(theirs))
        end = "(the trace ends)"
        return told(ours, number, *(lines[number] if number < len(lines) else end for lines in (ours, theirs)))
    return None


def told(ours, number, one, two):
    lines = [f"line {number + 1} differs", f"  behind: {ours[number - 1] if number else '(the first state)'}"]
    lines += [f"  bt878:  {one}", f"  theirs: {two}"]
    same_step = one.partition(" | ")[0] == two.partition(" | ")[0]
    if same_step:
        pairs = zip(NUMBERS, numbers(one), numbers(two))
        lines += [f"  {name}: {a}, theirs {b}" for name, a, b in pairs if a != b]
    return "\n".join(lines) + "\n"
