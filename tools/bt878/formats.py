"""The files of bt878, for the scripts of tools/: programs, streams, images (docs/FORMATS.md)."""

import struct

from .program_faults import program_fault

VRE, FM1, VRO, FM3 = 4, 6, 12, 14  # control codes
PXV, EOL4, SOL, EOL1, EOL2, EOL3 = 0, 1, 2, 5, 9, 13  # status codes
ENDS = {1: EOL1, 2: EOL2, 3: EOL3, 4: EOL4}  # by the valid bytes of a line's last DWORD

WRITE, SKIP, WRITEC, JUMP, SYNC, WRITE123, SKIP123, WRITE1S23 = 1, 2, 5, 7, 8, 9, 10, 11
LENGTHS = {WRITE: 2, SKIP: 1, WRITEC: 1, JUMP: 2, SYNC: 2, WRITE123: 5, SKIP123: 2, WRITE1S23: 3}
IS_SOL, IS_EOL, IS_IRQ, RESYNC = 1 << 27, 1 << 26, 1 << 24, 1 << 15
RISCI = 1 << 11  # of INT_STAT


def words_of(dump):
    """The words of a buffer, as it lies in the memory of a little-endian machine."""
    return [word for (word,) in struct.iter_unpack("<I", dump)]


def bytes_of(words):
    return struct.pack(f"<{len(words)}I", *words)


def walk(words):
    """The place of each instruction, from the first word on."""
    at = 0
    while at < len(words):
        yield at
        at += LENGTHS.get(words[at] >> 28, 1)


def one_span(base, words):
    """The spans of words that begin at a base: none where there are no words."""
    return [(base, list(words))] if words else []


def begins_alone(entry, spans):
    """Whether a program is one of BRP1 or BRP2: it has no span, or one whose first word is the entry."""
    return not spans or (len(spans) == 1 and spans[0][0] == entry)


def program(entry, spans, chunks, fill):
    """A program file. Spans are (address, words), chunks (address, length), both in any order."""
    spans, chunks = sorted(spans), sorted(chunks)
    pages = begins_alone(entry, spans) and all(at % 4096 == 0 and length == 4096 for at, length in chunks)
    if begins_alone(entry, spans):
        words = spans[0][1] if spans else []
        head = (b"BRP1" if pages else b"BRP2") + bytes_of([entry, len(words), *words])
    else:
        head = b"BRP3" + bytes_of([len(spans)])
        for at, words in spans:
            head += bytes_of([at, len(words), *words])
        head += bytes_of([entry])
    memory = [address for address, _ in chunks] if pages else [n for chunk in chunks for n in chunk]
    return head + bytes_of([len(chunks), *memory]) + bytes([fill])


def read_program(data):
    """(entry, spans, chunks, fill) of a program file without a fault (program_faults.py finds those of others)."""
    numbers, spans = iter(words_of(data[4:-1])), []
    if data[:4] == b"BRP3":
        for _ in range(next(numbers)):
            at, count = next(numbers), next(numbers)
            spans.append((at, [next(numbers) for _ in range(count)]))
        entry = next(numbers)
    else:
        entry, count = next(numbers), next(numbers)
        spans = one_span(entry, [next(numbers) for _ in range(count)])
    _, *memory = numbers
    pages = data[:4] == b"BRP1"
    chunks = [(page, 4096) for page in memory] if pages else list(zip(memory[::2], memory[1::2], strict=True))
    return entry, spans, chunks, data[-1]


NAMES = {
    WRITE: "write", SKIP: "skip", WRITEC: "writec", JUMP: "jump", SYNC: "sync", WRITE123: "write123",
    SKIP123: "skip123", WRITE1S23: "write1s23",
}  # fmt: skip
CODES = {VRE: "vre", VRO: "vro", FM1: "fm1", FM3: "fm3"}


def parts(words):
    """The parts of an instruction's line, and the words that these parts are spelled with."""
    first, opcode = words[0], words[0] >> 28
    fields, kept = [], 0xF << 28 | IS_IRQ | 0xFF << 16  # of the first word
    if opcode == SYNC:
        fields, kept = [CODES.get(first & 15, ""), "resync" if first & RESYNC else ""], kept | RESYNC | 15
    elif opcode != JUMP:
        fields = ["sol" if first & IS_SOL else "", "eol" if first & IS_EOL else ""]
        kept |= IS_SOL | IS_EOL | 0xFFF
    fields += ["irq" if first & IS_IRQ else ""]
    for name, at in (("set", 16), ("reset", 20), ("off", 12)):
        if name != "off" or opcode in (WRITE, WRITEC, WRITE123, WRITE1S23):
            kept |= 15 << at
            fields += [f"{name}={first >> at & 15:x}" if first >> at & 15 else ""]
    spelled, further = [first & kept], list(words[1:])
    if opcode == SYNC:
        return [NAMES[opcode], *filter(None, fields)], spelled + [0] if first & 15 in CODES else []
    counts = [first & 0xFFF] if opcode != JUMP else []
    if opcode in (WRITE123, SKIP123, WRITE1S23):
        counts += [further[0] & 0xFFF, further[0] >> 16 & 0xFFF]
        spelled, further = spelled + [further[0] & 0x0FFF0FFF], further[1:]
    rest = [*map(str, counts), *(f"{word:08x}" for word in further)]
    return [NAMES[opcode], *filter(None, fields), *rest], spelled + further


def word_lines(at, words):
    """The lines of the words of a span, which are read by themselves."""
    place = 0
    while place < len(words):
        length = LENGTHS.get(words[place] >> 28, 0)
        here = words[place : place + length]
        told, spelled = parts(here) if length and len(here) == length else ([], [])
        if not spelled or spelled != here:
            told, length = ["word", f"{words[place]:08x}"], 1
        yield " ".join([f"{at + 4 * place:08x}", *told])
        place += length


def listing(entry, spans, chunks, fill):
    """What `list` says of a program (docs/FORMATS.md, "Listings")."""
    alone = begins_alone(entry, spans)
    lines = [f"base {entry:08x}"] if alone else []
    for at, words in sorted(spans):
        lines += [*([] if alone else [f"span {at:08x}"]), *word_lines(at, words)]
    lines += [] if alone else [f"entry {entry:08x}"]
    for address, count in sorted(chunks):
        is_page = address % 4096 == 0 and count == 4096
        lines.append(f"page {address:08x}" if is_page else f"chunk {address:08x} {count}")
    return "\n".join([*lines, f"fill {fill:02x}"]) + "\n"


OPCODES = {name: opcode for opcode, name in NAMES.items()}


def words_of_line(told):
    """The words that the parts of a line, behind its address, spell."""
    name, *rest = told
    if name == "word":
        return [int(rest[0], 16)]
    first, opcode, numbers = OPCODES[name] << 28, OPCODES[name], []
    flags = {"sol": IS_SOL, "eol": IS_EOL, "irq": IS_IRQ, "resync": RESYNC}
    flags |= {word: code for code, word in CODES.items()}
    for part in rest:
        if part in flags:
            first |= flags[part]
        elif "=" in part:
            field, _, value = part.partition("=")
            first |= int(value, 16) << {"set": 16, "reset": 20, "off": 12}[field]
        else:
            numbers.append(part)
    counts = 0 if opcode in (JUMP, SYNC) else 3 if opcode in (WRITE123, SKIP123, WRITE1S23) else 1
    further = [int(number, 16) for number in numbers[counts:]]
    own = [int(number) for number in numbers[:counts]]
    if counts == 3:
        further = [own[1] | own[2] << 16, *further]
    return [first | (own[0] if own else 0), *further, *([0] if opcode == SYNC else [])]


def assembled(text):
    """(entry, spans, chunks, fill) of which a text is the listing, or None. It is listed again to see."""
    entry, spans, chunks, fill = None, [], [], None
    try:
        for line in text.splitlines():
            name, *told = line.split(" ")
            if name in ("base", "entry"):
                entry = int(told[0], 16)
            elif name in ("page", "chunk"):
                chunks.append((int(told[0], 16), int(told[1]) if name == "chunk" else 4096))
            elif name == "fill":
                fill = int(told[0], 16)
            elif name == "span":
                spans.append((int(told[0], 16), []))
            else:
                spans = spans or [(int(name, 16), [])]
                spans[-1][1].extend(words_of_line(told))
        found = entry, spans, chunks, fill
        return found if program_fault(program(*found)) is None and listing(*found) == text else None
    except (ValueError, KeyError, IndexError, TypeError, struct.error):
        return None


def image(memory):
    """An image file of {address of a chunk: its bytes}."""
    chunks = sorted(memory.items())
    pages = all(address % 4096 == 0 and len(data) == 4096 for address, data in chunks)
    out = (b"BMI1" if pages else b"BMI2") + struct.pack("<I", len(chunks))
    for address, data in chunks:
        out += struct.pack("<I", address) + (b"" if pages else struct.pack("<I", len(data))) + data
    return out


def memory_of(data):
    """{address of a chunk: its bytes} of an image file."""
    (count,) = struct.unpack_from("<I", data, 4)
    at, memory = 8, {}
    for _ in range(count):
        (address,) = struct.unpack_from("<I", data, at)
        length = 4096 if data[:4] == b"BMI1" else struct.unpack_from("<I", data, at + 4)[0]
        at += 4 if data[:4] == b"BMI1" else 8
        memory[address] = bytearray(data[at : at + length])
        at += length
    return memory


def line_entries(data):
    """The entries (status, DWORD) of a line: one SOL, any number of PXV, one EOL. It has at least 5 bytes."""
    parts = [data[at : at + 4] for at in range(0, len(data), 4)]
    statuses = [SOL] + [PXV] * (len(parts) - 2) + [ENDS[len(parts[-1])]]
    return [(status, bytes(part).ljust(4, b"\xff")) for status, part in zip(statuses, parts, strict=True)]


class Stream:
    """A stream file. After each push come `turns` turns: with 16 of them no queue fills up."""

    def __init__(self, turns=16, form=b"BFS1"):
        self.data, self.after = bytearray(form), turns

    def turns(self, count):
        if count:
            self.data += b"\x05" + struct.pack("<I", count)
        return self

    def push(self, queue, status, dword):
        self.data += bytes([queue, status]) + dword
        return self.turns(self.after)

    def control(self, code):
        self.data += bytes([4, code])
        return self.turns(self.after)

    def line(self, luma, chroma=None):
        """A packed line, or a planar one: `chroma` is the two lines of queues 2 and 3, spread among the luma."""
        entries = line_entries(luma)
        blue, red = [line_entries(line) for line in chroma] if chroma else ([], [])
        step = len(luma) // len(chroma[0]) if chroma else 1
        for number, entry in enumerate(entries):
            self.push(1, *entry)
            if number % step == 0 and number // step < len(blue):
                self.push(2, *blue[number // step])
                self.push(3, *red[number // step])
        return self

    def acknowledge(self, mask):
        self.data += b"\x06" + struct.pack("<I", mask)
        return self

    def enable(self, fifo, risc):
        self.data += bytes([7, fifo + 2 * risc])
        return self

    def trigger(self, code):
        self.data += bytes([8, code])
        return self

    def end(self):
        return bytes(self.data + b"\x00")
