"""The first fault of a stream file, by the tables of docs/FORMATS.md alone ("Stream files")."""

from .program_faults import Fields, FileFault

CONTROL = (4, 6, 12, 14)
MAX_TURNS = 1 << 30


def record_fault(fields, tag, turns):
    """A record behind its tag; how many turns there are with it."""
    if tag in (5, 6):
        more = "too many turns", lambda n: tag == 5 and turns + n > MAX_TURNS
        number = fields.number(more)
        return turns + (number if tag == 5 else 0)
    if tag < 4:
        fields.byte("status", lambda n: n > 15 or n in CONTROL)
        fields.take(4)
    elif tag == 9:
        fields.byte("slot", lambda n: n > 1)
        fields.byte("buffer", lambda n: n not in (0, 1, 255))
    else:
        bad = {4: lambda n: n not in CONTROL, 7: lambda n: n > 3, 8: lambda n: n > 3}[tag]
        fields.byte({4: "code", 7: "enable", 8: "trigger"}[tag], bad)
    return turns


def stream_fault(data, chained):
    """(kind, place) of the first fault of a stream, of a chain's or of another, or None."""
    fields, turns = Fields(data), 0
    try:
        form = fields.take(4)
        if form not in ((b"BFS3",) if chained else (b"BFS1", b"BFS2")):
            raise FileFault("magic", 0)
        while tag := fields.byte("tag", lambda n: n > (9 if chained else 7 if form == b"BFS1" else 8)):
            turns = record_fault(fields, tag, turns)
        if fields.at < len(data):
            raise FileFault("after end", fields.at)
    except FileFault as fault:
        return fault.args
    return None
