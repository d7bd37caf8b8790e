"""The cases that the merge gate tries, and what must come of each: the files of examples/, every command.

crates/bt878_examples has of them its input (`stdin`), what it must print (`stdout`), and in `data` the files that are
expected of `compile` and `make`. What is expected comes from the pages and from the modules here.
"""

import os
from typing import NamedTuple

from . import broken, examples
from .as_compiled import BASE, as_compiled
from .bttv import packed
from .description import Description
from .formats import (
    ENDS, FM1, FM3, IS_EOL, IS_IRQ, IS_SOL, JUMP, PXV, RESYNC, SKIP123, SOL, SYNC, VRE, VRO, WRITE123, Stream, image,
    listing, one_span, program, read_program,
)  # fmt: skip
from .machine import Program
from .paint import filled, paint
from .places import EXAMPLES, read
from .trace import trace


def report(turns, moved, overruns, status):
    return f"turns {turns}\nmoved {moved}\noverruns {overruns} 0 0 0\nstatus {status}\n"


REPORTS = {  # turns, moved, overruns, status
    ("main_loop", "main_loop"): (1504, 256, 0, "10000800"),
    ("scattered", "scattered"): (33664, 8400, 0, "10000800"),
    ("chroma", "chroma"): (4160, 768, 0, "10000800"),
    ("overlay", "overlay"): (1184, 240, 0, "10000800"),
    ("one_line", "one_line"): (9, 8, 0, "10000800"),
    ("one_line", "overrun"): (84, 8, 32, "10005800"),
    ("two_lines", "early_eol"): (15, 23, 0, "10004800"),
    ("one_line", "resync"): (12, 8, 0, "10000800"),
    ("one_line", "stray"): (10, 8, 0, "10004800"),
    ("no_eol", "scattered"): (33664, 8400, 0, "10000800"),
    ("one_line", "restart"): (18, 12, 0, "10000800"),
    ("one_line", "bursts"): (21, 16, 0, "10000800"),
}
IMAGES = {"overrun": "one_line", "resync": "one_line", "stray": "one_line", "restart": "one_line", "bursts": "one_line"}  # where it isn't the stream's own name
VERDICTS = {"into_operand": "rejected at 00001004, step 2: ungranted 70000000"}
VERDICTS |= {name: broken.BUGS[number].verdict for name, number in broken.FILES.items()}
PROGRAMS = ["main_loop", "scattered", "chroma", "overlay", "one_line", "two_lines", "ring", *VERDICTS]
RINGED = "blocks 3\n" + report(36016, 9000, 0, "00000800")
CHAINED = report(128, 16, 0, "10000800")
COMPILED_LINE = "shown from 00001000 to 00001018, 2 instructions, jump irq set=1 reset=e"
CHECKED = {  # program, description: what is said of each described field
    ("main_loop", "main_loop"): [
        "shown from 00a00000 to 00a02018, 11 instructions, jump",
        "shown from 00a00020 to 00a04018, 11 instructions, jump irq set=1 reset=e",
    ],
    ("scattered", "scattered"): [
        "shown from 00a00000 to 00a01048, 12 instructions, jump",
        "shown from 00a00020 to 00a02048, 11 instructions, jump irq set=1 reset=e",
    ],
    ("chroma", "chroma"): [
        "shown from 00a00000 to 00a01054, 9 instructions, jump",
        "shown from 00a00020 to 00a02048, 7 instructions, jump irq set=1 reset=e",
    ],
    ("overlay", "overlay"): ["shown from 00a00000 to 00a0105c, 16 instructions, jump irq set=1 reset=e"],
    ("one_line", "one_line"): [COMPILED_LINE],
    ("two_lines", "two_lines"): ["shown from 00001000 to 00001028, 4 instructions, jump irq set=1 reset=e"],
    ("no_eol", "scattered"): [
        "differs at 00a01008: row 0, queue 1: eol awaited",
        "shown from 00a00020 to 00a02048, 11 instructions, jump irq set=1 reset=e",
    ],
    ("one_line", "two_lines"): ["differs at 00001010: row 0, queue 1: eol at byte 7 of 16"],
    ("two_lines", "one_line"): ["differs at 00001010: queue 1: nothing awaited"],  # of 12 bytes four are too many
    ("one_line", "chain_first"): [COMPILED_LINE],
    ("one_line", "chain_second"): ["differs at 00001010: row 0, queue 1: byte 0 at 00030000 awaited"],
    ("overlay", "scattered"): [
        "differs at 00a01008: row 0, queue 1: byte 0 at 03005000 awaited",
        "differs at 00a00000: sync fm1 awaited",
    ],
    ("ring", "one_line"): ["differs at 00001000: no sync vre"],
}
CHECKED_COMPILED = {  # program beside the description that it is compiled of
    "main_loop_compiled": [
        "shown from 00001000 to 0000103c, 7 instructions, jump irq set=1 reset=e",
        "shown from 00001044 to 00001084, 8 instructions, jump irq set=2 reset=d",
    ],
    "scattered_compiled": [
        "shown from 00001000 to 00001050, 9 instructions, jump irq set=1 reset=e",
        "shown from 00001058 to 000010a8, 9 instructions, jump irq set=2 reset=d",
    ],
    "chroma_compiled": [
        "shown from 00001000 to 0000105c, 6 instructions, jump irq set=1 reset=e",
        "shown from 00001064 to 000010b4, 5 instructions, jump irq set=2 reset=d",
    ],
    "overlay_compiled": ["shown from 00001000 to 00001064, 13 instructions, jump irq set=1 reset=e"],
    "planar": [
        "shown from 00001000 to 00001040, 4 instructions, jump irq set=1 reset=e",
        "shown from 00001048 to 0000106c, 2 instructions, jump irq set=2 reset=d",
    ],
    "ordinary": [
        "shown from 00001000 to 00001790, 241 instructions, jump irq set=1 reset=e",
        "shown from 00001798 to 00001f28, 241 instructions, jump irq set=2 reset=d",
    ],
    "chain_second_compiled": [COMPILED_LINE],
}
TRACED = [
    ("one_line", "one_line"), ("two_lines", "early_eol"), ("one_line", "overrun"), ("one_line", "resync"),
    ("one_line", "stray"), ("one_line", "restart"), ("one_line", "bursts"),
]  # fmt: skip
HELP = """\
bt878 compiles, checks and runs RISC capture programs of the Bt878.

  bt878 list PROG                         print a program's listing
  bt878 assemble TEXT PROG                make the program of a listing
  bt878 verify PROG                       check that a program is safe
  bt878 check PROG DESC                   check a program against a description
  bt878 compile DESC PROG                 make the program of a description
  bt878 make DESC SEED FRAMES STREAM      make a stream for a description
  bt878 run PROG STREAM IMAGE             run a program on a stream
  bt878 trace PROG STREAM                 print what each step of a run did
  bt878 capture DESC STREAM PROG IMAGE    compile a description and run it
  bt878 damage DESC STREAM                print which rows came whole
  bt878 ring RING STREAM PROG IMAGE       make and run a ring of blocks
  bt878 chain DESC1 DESC2 STREAM IMAGE    run a loop with two buffers
  bt878 --help                            print this
  bt878 --version                         print the version

Status: 0 done, 1 a program or a description has a fault or differs,
2 wrong words, 3 a malformed file, 4 an input can't be read,
5 an output can't be written, 6 out of memory, 8 a word that is no text.

The manual is bt878(1).
"""
DAMAGED = {  # description, stream: what is said
    ("two_lines", "early_eol"): "top 1 of 2\nbad 0\n",
    ("scattered", "scattered"): "top 7 of 7\nbottom 7 of 7\n",
    ("main_loop", "main_loop"): "top 2 of 2\nbottom 2 of 2\n",
    ("chroma", "chroma"): "top 4 of 4\nbottom 4 of 4\n",
    ("one_line", "overrun"): "top 1 of 1\n",  # the second field
    ("one_line", "chroma"): "top none\n",  # FM1 never comes
}


# what `compile` must write


def planar_program():
    """planar.toml: a clipped piece, one up to the first page's end and one in the second; then the bottom row."""
    words = [SYNC << 28 | RESYNC | VRE, 0, SYNC << 28 | FM3, 0]
    words += [SKIP123 << 28 | IS_SOL | 8, 4 << 16 | 4]
    words += [WRITE123 << 28 | 8, 4 << 16 | 4, 0x31FF8, 0x30044, 0x30064]
    words += [WRITE123 << 28 | IS_EOL | 16, 8 << 16 | 8, 0x30000, 0x30048, 0x30068]
    words += [JUMP << 28 | IS_IRQ | 0xE << 20 | 1 << 16, BASE + 4 * 18]
    words += [SYNC << 28 | RESYNC | VRO, 0, SYNC << 28 | FM3, 0]
    words += [WRITE123 << 28 | IS_SOL | IS_EOL | 32, 16 << 16 | 16, 0x30010, 0x30050, 0x30070]
    return words + [JUMP << 28 | IS_IRQ | 0xD << 20 | 2 << 16, BASE]


def ordinary_program():
    frame = [(0x100000, 614400)]
    fields = [(name, [packed(frame, offset, 1280, 2560, 240)]) for name, offset in (("top", 0), ("bottom", 1280))]
    return as_compiled(BASE, fields)


def compiled():
    """{name of a description: its program}, where that isn't the program of the same name."""
    words = {case.name: as_compiled(BASE, case.fields()) for case in examples.cases()}
    words |= {"planar": planar_program(), "ordinary": ordinary_program()}
    for name in ("chain_first", "chain_second"):
        lines = [packed(Description(f"{EXAMPLES}/{name}.toml").chunks, 0, 8, 8, 1)]
        words[name] = as_compiled(BASE, [("top", lines)])
    described = {name: Description(f"{EXAMPLES}/{name}.toml") for name in words}
    return {name: program(BASE, one_span(BASE, words[name]), d.chunks, d.fill) for name, d in described.items()}


# what `make` must write (docs/FORMATS.md, "Generated streams")


class Drawn:
    """A line of bytes that are drawn as they are pushed."""

    def __init__(self, seed):
        self.number = seed % 65537

    def byte(self):
        self.number = (75 * self.number + 74) % 65537
        return self.number % 256

    def push(self, stream, queue, number, count):
        """Entry `number` of a line of `count` bytes; the bytes are answered."""
        left = count - 4 * number
        status = SOL if number == 0 else PXV if left > 4 else ENDS[left]
        data = bytes(self.byte() for _ in range(min(left, 4)))
        stream.push(queue, status, data.ljust(4, b"\xff"))
        return data

    def line(self, stream, counts):
        """A line of so many bytes on each queue; the bytes of each are answered."""
        lines = [b""] * len(counts)
        for number in range(-(-counts[0] // 4)):
            lines[0] += self.push(stream, 1, number, counts[0])
            step = counts[0] // counts[-1]
            for plane in range(1, len(counts) if number % step == 0 else 1):
                if number // step < -(-counts[plane] // 4):
                    lines[plane] += self.push(stream, plane + 1, number // step, counts[plane])
        return lines


def push_field(description, field, stream, draw):
    """A field is pushed; its picture is answered."""
    picture = {}
    stream.control(VRE if field == "top" else VRO)
    if description.vbi_lines:
        stream.control(FM1)
        for _ in range(description.vbi_skip[field]):
            draw.line(stream, [description.vbi_bytes])
    for line in range(description.vbi_lines):
        (picture["vbi", field, line],) = draw.line(stream, [description.vbi_bytes])
    stream.control(FM3 if description.chroma else FM1)
    for _ in range(description.skip_lines):
        draw.line(stream, description.row_bytes)
    for row in description.rows_of(field):
        for plane, data in enumerate(draw.line(stream, description.row_bytes)):
            picture[plane, row] = data
    return picture


def made(description, seed):
    """The stream of one frame, and its picture."""
    stream, draw, picture = Stream(), Drawn(seed), {}
    for field in description.fields:
        picture |= push_field(description, field, stream, draw)
    return stream.end(), picture


MADE = {"planar": "fields 2 entries 32\n", "one_line": "fields 1 entries 2\n", "main_loop": "fields 2 entries 88\n"}


# the cases


class Case(NamedTuple):
    name: str
    words: str
    said: str
    status: int = 0
    outputs: tuple = ()  # (output, the file that it is), or an output that isn't there


def size(data):
    _, spans, chunks, _ = read_program(data)
    return f"words {sum(len(words) for _, words in spans)} pages {len(chunks)}\n"


def compiled_as(name):
    """The file that is expected of `compile NAME.toml`."""
    return name + ".brp" if name in ("one_line", "two_lines", "planar", "ordinary") else name + "_compiled.brp"


def judged():
    for name in PROGRAMS:
        verdict = VERDICTS.get(name, "accepted")
        yield Case(f"{name} is judged", f"verify {name}.brp", verdict + "\n", verdict.startswith("rejected"))


def listed():
    for name in PROGRAMS:
        data = read(name + ".brp")
        yield Case(f"{name} is listed", f"list {name}.brp", listing(*read_program(data)))
        yield Case(f"the listing of {name} is kept", f"keep {name}.brp out.lst", "")
        output = ("out.brp", name + ".brp")
        yield Case(f"the listing of {name} is read back", "assemble out.lst out.brp", size(data), 0, (output,))


def ran():
    for (name, stream), numbers in REPORTS.items():
        output = ("out.bmi", IMAGES.get(stream, stream) + ".bmi")
        yield Case(f"{name} runs on {stream}", f"run {name}.brp {stream}.bfs out.bmi", report(*numbers), 0, (output,))
    words = "run into_operand.brp one_line.bfs none"
    yield Case("what isn't sound doesn't run", words, VERDICTS["into_operand"] + "\n", 1, ("none",))


def traced():
    for name, stream in TRACED:
        said = trace(Program(*read_program(read(name + ".brp"))), read(stream + ".bfs"))
        yield Case(f"{name} is traced on {stream}", f"trace {name}.brp {stream}.bfs", said)
    words = "trace into_operand.brp none.bfs"
    yield Case("what isn't sound isn't traced", words, VERDICTS["into_operand"] + "\n", 1)
    yield Case("a program is no stream to trace", "trace one_line.brp one_line.brp", "stream file: magic at 0\n", 3)


def helped():
    yield Case("the help", "--help", HELP)
    yield Case("the version", "--version", "bt878 0.1.0\n")
    yield Case("help of a command", "--help run", "usage: wrong number of words\n", 2)
    yield Case("another word for help", "-h", "usage: unknown command\n", 2)


def described(programs):
    for name in ("one_line", "two_lines", *compiled()):
        output = ("out.brp", compiled_as(name))
        said = size(programs.get(output[1]) or read(output[1]))
        yield Case(f"{name} is compiled", f"compile {name}.toml out.brp", said, 0, (output,))


def generated():
    for name, said in MADE.items():
        output = ("out.bfs", name + "_made.bfs")
        yield Case(f"a frame of {name} is made", f"make {name}.toml 1 1 out.bfs", said, 0, (output,))


def said_of(description, verdicts):
    """What `check` says of each field of a description, and its status."""
    fields = Description(f"{EXAMPLES}/{description}.toml").fields
    lines = [f"{field}: {verdict}\n" for field, verdict in zip(fields, verdicts, strict=True)]
    return "".join(lines), any(verdict.startswith("differs") for verdict in verdicts)


def checked():
    for (name, description), verdicts in CHECKED.items():
        words = f"check {name}.brp {description}.toml"
        yield Case(f"{name} is checked against {description}", words, *said_of(description, verdicts))
    for name, verdicts in CHECKED_COMPILED.items():
        description = name.removesuffix("_compiled")
        words = f"check {name}.brp {description}.toml"
        yield Case(f"{name} is checked against {description}", words, *said_of(description, verdicts))
    words = "check into_operand.brp none.toml"
    yield Case("what isn't sound isn't checked", words, VERDICTS["into_operand"] + "\n", 1)


def captured():
    for name, stream, numbers in (
        ("one_line", "one_line", REPORTS["one_line", "one_line"]),
        ("two_lines", "early_eol", REPORTS["two_lines", "early_eol"]),
        ("main_loop", "main_loop", (1504, 256, 0, "20000800")),
        ("scattered", "scattered", (33664, 8400, 0, "20000800")),
        ("chroma", "chroma", (4160, 768, 0, "20000800")),
        ("planar", "planar_made", (576, 112, 0, "20000800")),
    ):
        outputs = (("out.brp", compiled_as(name)), ("out.bmi", stream + ".bmi"))
        words = f"capture {name}.toml {stream}.bfs out.brp out.bmi"
        yield Case(f"{name} captures {stream}", words, report(*numbers), 0, outputs)


def told():
    for (name, stream), said in DAMAGED.items():
        yield Case(f"the rows of {name} are told on {stream}", f"damage {name}.toml {stream}.bfs", said)
    outputs = (("out.brp", "ring.brp"), ("out.bmi", "ring.bmi"))
    yield Case("a ring runs", "ring ring.toml ring.bfs out.brp out.bmi", RINGED, 0, outputs)
    words = "chain chain_first.toml chain_second.toml chain.bfs out.bmi"
    yield Case("a chain runs", words, CHAINED, 0, (("out.bmi", "chain.bmi"),))


def refused():
    words = "run one_line.brp two_lines.brp none"
    yield Case("a program is no stream", words, "stream file: magic at 0\n", 3, ("none",))
    yield Case("a stream is no program", "verify one_line.bfs", "program file: magic at 0\n", 3)
    yield Case("a description is no listing", "assemble one_line.toml none", "listing: line 1\n", 3, ("none",))
    yield Case("a ring is no description", "compile ring.toml none", "description: unknown key blocks\n", 3, ("none",))
    yield Case("a ring is nothing to check", "check one_line.brp ring.toml", "description: unknown key blocks\n", 3)
    yield Case("a description isn't there", "check one_line.brp none.toml", "read fault\n", 4)
    yield Case("a description is missing", "check one_line.brp", "usage: wrong number of words\n", 2)
    yield Case("an input isn't there", "verify none.brp", "read fault\n", 4)
    yield Case("a command isn't known", "play one_line.brp", "usage: unknown command\n", 2)


def files():
    """{name: bytes} of what is expected of `compile` and `make`, and of the capture of a stream that was made."""
    out = {compiled_as(name): data for name, data in compiled().items()}
    for name in MADE:
        out[name + "_made.bfs"], picture = made(Description(f"{EXAMPLES}/{name}.toml"), 1)
        if name == "planar":
            description = Description(f"{EXAMPLES}/{name}.toml")
            out["planar_made.bmi"] = image(paint(description, picture, filled(description)))
    return out


def cases():
    for part in (helped(), judged(), listed(), ran(), traced(), described(files()), checked(), generated(), captured(), told(), refused()):
        yield from part


def given(case):
    outputs = [" ".join(output) if isinstance(output, tuple) else output for output in case.outputs]
    return ": ".join([case.name, case.words, *outputs]) + "\n"


def printed(case):
    outputs = [" is ".join(output) if isinstance(output, tuple) else "no " + output for output in case.outputs]
    return f"{case.name}: {case.words}\n{case.said}" + ", ".join([f"= {case.status:d}", *outputs]) + "\n"


def streams():
    """The input of crates/bt878_examples, and what it must print."""
    return {"stdin": "".join(map(given, cases())).encode(), "stdout": "".join(map(printed, cases())).encode()}


def copied():
    """The files of examples/, of which the crate has copies: the gate runs on what lies in crates/."""
    names = [name for name in sorted(os.listdir(EXAMPLES)) if name.endswith((".brp", ".bfs", ".bmi", ".toml"))]
    return {name: read(name) for name in names}


def all_files():
    return {"data/" + name: data for name, data in (copied() | files()).items()} | streams()
