"""The machine of docs/MACHINE.md, written from that page alone: slow, short, and independent of the program.

fuzz.py compares the two.
"""

import struct

from .formats import (
    ENDS, FM1, FM3, JUMP, LENGTHS, PXV, SKIP, SOL, SYNC, VRE, VRO, WRITE, WRITE1S23, WRITE123, WRITEC, SKIP123,
)  # fmt: skip

CODES = {VRE, VRO, FM1, FM3}
VALID = {PXV: 4, SOL: 4} | {status: count for count, status in ENDS.items()}  # the valid bytes of an entry
ROOM = (70, 35, 35)
RISCI, FBUS, FDSR = 1 << 11, 1 << 12, 1 << 14
TO_EOL, TO_SYNC = "to EOL", "to SYNC"


class Fault(Exception):
    """Why a place of the path isn't fine, in the words of a verdict."""


class Instruction:
    def __init__(self, words):
        first = words[0]
        self.opcode, self.length = first >> 28, len(words)
        self.is_data = self.opcode not in (JUMP, SYNC)
        self.sol, self.eol = self.is_data and bool(first >> 27 & 1), self.is_data and bool(first >> 26 & 1)
        self.irq, self.reset, self.set = first >> 24 & 1, first >> 20 & 15, first >> 16 & 15
        self.resync, self.code = first >> 15 & 1, first & 15
        writes = self.opcode in (WRITE, WRITEC, WRITE123, WRITE1S23)
        self.off = first >> 12 & 15 if writes else 0
        planar = self.opcode in (WRITE123, SKIP123, WRITE1S23)
        self.counts = [first & 0xFFF, words[1] & 0xFFF, words[1] >> 16 & 0xFFF] if planar else [first & 0xFFF, 0, 0]
        self.addresses = {
            WRITE: lambda: [words[1], None, None],
            WRITE123: lambda: list(words[2:5]),
            WRITE1S23: lambda: [words[2], None, None],
        }.get(self.opcode, lambda: [None] * 3)()
        self.leads_to = words[1] if self.opcode == JUMP else None

    def target_before(self, target):
        return None if self.sol else target

    def target_after(self, target):
        if self.eol:
            return None
        if self.opcode == WRITE:
            return self.addresses[0] + self.counts[0]
        if self.opcode == WRITEC:
            return target + self.counts[0]
        return target if self.opcode == SKIP else None

    def write_addresses(self, target):
        return [target, None, None] if self.opcode == WRITEC else list(self.addresses)


class Program:
    """An entry, spans (address, words), chunks (address, length) and a fill. Words are known by their addresses."""

    def __init__(self, entry, spans, chunks, fill):
        self.entry, self.spans, self.chunks, self.fill = entry, spans, chunks, fill
        self.words = {at + 4 * k: word for at, words in spans for k, word in enumerate(words)}
        self.granted = {address + k for address, length in chunks for k in range(length)}

    def is_word(self, address):
        return address in self.words

    def word(self, address):
        if not self.is_word(address):
            raise Fault("cut")
        return self.words[address]

    def instruction(self, pc):
        opcode = self.word(pc) >> 28
        if opcode not in LENGTHS:
            raise Fault(f"reserved {opcode:x}")
        found = Instruction([self.word(pc + 4 * k) for k in range(LENGTHS[opcode])])
        if opcode == SYNC and found.code not in CODES:
            raise Fault(f"sync code {found.code:x}")
        return found

    def judge(self, pc, target):
        """The instruction at a place of the path, where the place is fine."""
        found = self.instruction(pc)
        if found.opcode == JUMP and not self.is_word(found.leads_to):
            raise Fault(f"jump out {found.leads_to:08x}")
        target = found.target_before(target)
        if found.opcode == WRITEC and target is None:
            raise Fault("no target")
        for address, count in zip(found.write_addresses(target), found.counts, strict=True):
            if address is not None and address + count > 1 << 32:
                raise Fault("wrap")
            for byte in range(address, address + count) if address is not None else ():
                if byte not in self.granted:
                    raise Fault(f"ungranted {byte:08x}")
        return found

    def verdict(self):
        """What `verify` says."""
        place, number, seen = (self.entry, None), 0, set()
        while place not in seen:
            seen.add(place)
            pc, target = place
            try:
                found = self.judge(pc, target)
            except Fault as fault:
                return f"rejected at {pc:08x}, step {number}: {fault}\n"
            place = (pc + 4 * found.length, found.target_after(found.target_before(target)))
            if found.opcode == JUMP:
                place = (found.leads_to, None)
            number += 1
        return "accepted\n"


class Machine:
    """The state, and what each step makes of it. The program is sound."""

    def __init__(self, program):
        self.program, self.fifo_on, self.risc_on, self.trigger = program, True, True, 1
        self.memory = {address: bytearray([program.fill]) * length for address, length in program.chunks}
        self.queues, self.taken, self.overruns = ([], [], []), [0, 0, 0], [0, 0, 0, 0]
        self.int_stat = self.turns = self.moved = 0
        self.restart()

    def restart(self):
        self.pc, self.skip, self.target, self.waiting, self.running = self.program.entry, None, None, None, None

    # the decoder

    def push(self, queue, status, dword):
        if self.fifo_on:
            self.enter([queue], (status, dword), queue)

    def control(self, code):
        if self.fifo_on:
            self.enter([0, 1, 2], (code, bytes(4)), 3)

    def enter(self, queues, entry, count):
        if any(len(self.queues[q]) == ROOM[q] for q in queues):
            self.int_stat |= FBUS
            self.overruns[count] += 1
        else:
            for q in queues:
                self.queues[q].append(entry)

    # the host

    def acknowledge(self, mask):
        self.int_stat &= ~(mask & (RISCI | FBUS | FDSR | 1 << 18))

    def enable(self, fifo, risc):
        if not fifo:
            self.queues, self.taken = ([], [], []), [0, 0, 0]
        if risc and not self.risc_on:
            self.restart()
        self.fifo_on, self.risc_on = bool(fifo), bool(risc)

    # the controller

    def turn(self):
        self.turns += 1
        if not self.risc_on:
            return
        if self.waiting:
            self.wait(self.waiting)
        elif self.running:
            self.run(self.running)
        else:
            self.fetch(self.program.instruction(self.pc))

    def fetch(self, found):
        self.pc += 4 * found.length
        if found.opcode == JUMP:
            self.apply(found)
            self.pc, self.target = found.leads_to, None
        elif found.opcode == SYNC:
            self.skip, self.target, self.waiting = None, None, found
        elif self.skip:
            if found.eol and self.skip == TO_EOL:
                self.skip = None
        else:
            self.target, self.running = found.target_before(self.target), found
            self.rest, self.address = list(found.counts), found.write_addresses(self.target)
            self.needs_sol = [found.sol and count > 0 for count in found.counts]

    def wait(self, sync):
        fronts = [queue[0][0] if queue else None for queue in self.queues]
        stray = next((q for q in range(3) if fronts[q] is not None and fronts[q] not in CODES), None)
        if stray is not None:
            self.remove(stray)
        elif None not in fronts:
            for q in range(3):
                self.remove(q)
            if fronts[0] == sync.code:
                self.apply(sync)
                self.waiting = None
                return
        else:
            return
        if not sync.resync:
            self.int_stat |= FDSR

    def run(self, found):
        if not any(self.rest):
            self.apply(found)
            self.target, self.running = found.target_after(self.target), None
            return
        queue = next((q for q in range(3) if self.rest[q] and self.is_ready(q)), None)
        for _ in range(self.trigger if queue is not None else 0):
            if self.running and self.rest[queue] and self.queues[queue]:
                self.serve(queue, found)

    def is_ready(self, q):
        ends = CODES | set(ENDS.values())
        return len(self.queues[q]) >= self.trigger or any(status in ends for status, _ in self.queues[q])

    def serve(self, q, found):
        """One application to the front of a queue."""
        status, dword = self.queues[q][0]
        untouched_sol = status == SOL and self.taken[q] == 0
        if status in CODES:
            self.give_up(TO_SYNC)
        elif self.needs_sol[q] and not untouched_sol:
            self.discard(q)
        elif untouched_sol and not self.needs_sol[q]:
            self.give_up(None if found.eol else TO_EOL)
        elif status not in VALID:
            self.discard(q)
        else:
            self.take(q, found, status, dword)

    def take(self, q, found, status, dword):
        count = min(self.rest[q], VALID[status] - self.taken[q])
        for k in range(count):
            lane = self.taken[q] + k
            if self.address[q] is not None and not found.off >> lane & 1:
                self.store(self.address[q] + k, dword[lane])
        if self.address[q] is not None:
            self.address[q] += count
        self.rest[q], self.needs_sol[q], self.taken[q] = self.rest[q] - count, False, self.taken[q] + count
        if self.taken[q] == VALID[status]:
            self.remove(q)
            if status in ENDS.values() and self.rest[q]:
                self.give_up(None if found.eol else TO_EOL)

    def store(self, address, byte):
        chunk = next(first for first in self.memory if first <= address < first + len(self.memory[first]))
        self.memory[chunk][address - chunk] = byte
        self.moved += 1

    def remove(self, q):
        self.queues[q].pop(0)
        self.taken[q] = 0

    def discard(self, q):
        self.remove(q)
        self.int_stat |= FDSR

    def give_up(self, skip):
        self.running, self.target, self.skip = None, None, skip
        self.int_stat |= FDSR

    def apply(self, found):
        status = self.int_stat >> 28 & ~found.reset | found.set
        self.int_stat = self.int_stat & 0x0FFFFFFF | status << 28 | (RISCI if found.irq else 0)

    # a stream file without a fault

    def play(self, data):
        if data[:4] == b"BFS2":
            self.trigger = 4
        at = 4
        while data[at]:
            tag, field = data[at], data[at + 1]
            if tag <= 3:
                self.push(tag - 1, field, data[at + 2 : at + 6])
            elif tag == 4:
                self.control(field)
            elif tag == 5:
                for _ in range(*struct.unpack_from("<I", data, at + 1)):
                    self.turn()
            elif tag == 6:
                self.acknowledge(*struct.unpack_from("<I", data, at + 1))
            elif tag == 7:
                self.enable(field & 1, field >> 1)
            else:
                self.trigger = 4 << field
            at += 6 if tag <= 3 else 5 if tag in (5, 6) else 2

    def report(self):
        lost = " ".join(map(str, self.overruns))
        return f"turns {self.turns}\nmoved {self.moved}\noverruns {lost}\nstatus {self.int_stat:08x}\n"
