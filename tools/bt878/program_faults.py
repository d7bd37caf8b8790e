"""The first fault of a program file, by the tables of docs/FORMATS.md alone ("Program files")."""

MAX_WORDS, MAX_CHUNKS, MAX_SPANS, MAX_BYTES = 1 << 20, 4096, 4096, 1 << 24


class FileFault(Exception):
    """The kind of a fault, and the place of its field."""


class Fields:
    """The fields of a file, in order."""

    def __init__(self, data):
        self.data, self.at = data, 0

    def take(self, count):
        if self.at + count > len(self.data):
            raise FileFault("short", len(self.data))
        self.at += count
        return self.data[self.at - count : self.at]

    def number(self, *faults):
        """A number of 32 bits. A fault is (kind, whether a number has it)."""
        number = int.from_bytes(self.take(4), "little")
        for kind, has_it in faults:
            if has_it(number):
                raise FileFault(kind, self.at - 4)
        return number

    def byte(self, kind, has_it):
        """A byte; the kind of its fault is told with it."""
        (byte,) = self.take(1)
        if has_it(byte):
            raise FileFault(f"{kind} {byte:02x}", self.at - 1)
        return byte

    def words(self, at, before, least):
        """How many words a span at an address has, and the words."""
        fault = "count", lambda n: n < least or before + n > MAX_WORDS or at + 4 * n > 1 << 32
        count = self.number(fault)
        self.take(4 * count)
        return count


def spans_of(fields, form):
    """The (first byte, end) of each span, up to and with the base or the entry."""
    off_4 = "base", lambda n: n % 4
    if form != b"BRP3":
        base = fields.number(off_4)
        count = fields.words(base, 0, 0)
        return [(base, base + 4 * count)] if count else []
    spans, words = [], 0
    for _ in range(fields.number(("count", lambda n: not 0 < n <= MAX_SPANS))):
        end = spans[-1][1] if spans else -1
        at = fields.number(off_4, ("order", lambda n: n <= end))
        count = fields.words(at, words, 1)
        spans, words = [*spans, (at, at + 4 * count)], words + count

    def is_no_entry(n):
        return n % 4 or not any(at <= n < end for at, end in spans) or (len(spans) == 1 and n == spans[0][0])

    fields.number(("entry", is_no_entry))
    return spans


def chunks_of(fields, form, spans):
    """The chunks, which share no byte with a span."""

    def overlaps(at, length):
        return any(at < end and first < at + length for first, end in spans)

    chunks, end, total = [], 0, 0
    for _ in range(fields.number(("count", lambda n: n > MAX_CHUNKS))):
        order = "order", lambda n: n < end
        if form == b"BRP1":
            at = fields.number(("page", lambda n: n % 4096), order, ("overlap", lambda n: overlaps(n, 4096)))
            length = 4096
        else:
            at = fields.number(("page", lambda n: n % 4), order)
            bad = "length", lambda n: n == 0 or n % 4 or at + n > 1 << 32 or total + n > MAX_BYTES
            length = fields.number(bad, ("overlap", lambda n: overlaps(at, n)))
        chunks, end, total = [*chunks, (at, length)], at + length, total + length
    return chunks


def program_fault(data):
    """(kind, place) of the first fault, or None."""
    fields = Fields(data)
    try:
        form = fields.take(4)
        if form not in (b"BRP1", b"BRP2", b"BRP3"):
            raise FileFault("magic", 0)
        chunks = chunks_of(fields, form, spans_of(fields, form))
        fields.take(1)
        if form == b"BRP2" and all(at % 4096 == 0 and length == 4096 for at, length in chunks):
            raise FileFault("pages", fields.at - 1)
        if fields.at < len(data):
            raise FileFault("after end", fields.at)
    except FileFault as fault:
        return fault.args
    return None
