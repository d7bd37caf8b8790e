#!/usr/bin/env python3
"""Compares the program with the models in bt878/ on what is drawn.

    fuzz.py --bin PATH [--count N] [--seed N]

Programs of one span and of several: each is listed, assembled again, verified, and run on two streams where it is
accepted (machine.py). Files and listings of it that were changed in a place: the first fault of a file
(program_faults.py), and whether a text is a listing. Descriptions: the stream that `make` draws (cases.py), and the
memory after its capture (paint.py) and the report (machine.py); and both (machine.py) after a stream of the same entries
in which the host sets trigger points and few turns come after each push. Programs drawn from a compiled one beside its own and
another description (draw_checks.py): what `check` says of them (check_model.py), and what memory holds once a field that
it found to be shown has arrived at that opening (paint.py). A line is printed for each difference, and last how many
programs were accepted, of how many pairs a program was judged by a description and how many showed it, and how many
answers differ.
"""

import argparse
import os
import random
import re
import sys
import tempfile

from bt878 import cases, check_model, draw_checks
from bt878.as_compiled import BASE
from bt878.built import Built
from bt878.description import FORMATS, Description
from bt878.formats import (
    IS_EOL, IS_SOL, JUMP, LENGTHS, PXV, SKIP, SKIP123, SYNC, WRITE, WRITE1S23, WRITE123, WRITEC, Stream, assembled, image,
    listing, memory_of, program, read_program,
)  # fmt: skip
from bt878.machine import CODES, Machine, Program
from bt878.trace import Trace
from bt878.paint import filled, paint, paint_field
from bt878.program_faults import program_fault

FDSR = 1 << 14
MEMORIES = [[(0x20000, 4096)], [(0x20000, 64), (0x20040, 32)], [(0x20004, 8), (0x20010, 4)], [(0xFFFFF000, 4096)]]


def drawn_instruction(draw, address, target):
    opcode = draw.choice([SYNC] * 3 + [WRITE] * 3 + [SKIP, WRITEC, WRITE123, SKIP123, WRITE1S23, JUMP])
    control = draw.choice([0, 0, 0, draw.randrange(2) << 24 | draw.randrange(256) << 16])
    ends = draw.choice([0, IS_SOL, IS_EOL, IS_SOL | IS_EOL]) if opcode != WRITEC else draw.choice([0, IS_EOL])
    off = draw.choice([0, 0, 0, draw.randrange(16)]) << 12 if opcode not in (SKIP, SKIP123) else 0
    first = opcode << 28 | control | ends | off | draw.choice([0, 1, 2, 3, 4, 5, 7, 8])
    counts = draw.choice([0, 1, 4, 5]) << 16 | draw.choice([0, 1, 4, 5])
    return {
        SYNC: lambda: [SYNC << 28 | control | draw.randrange(2) << 15 | draw.choice(sorted(CODES)), 0],
        WRITE: lambda: [first, address()],
        WRITE123: lambda: [first, counts, address(), address(), address()],
        SKIP123: lambda: [first, counts],
        WRITE1S23: lambda: [first, counts, address()],
        JUMP: lambda: [JUMP << 28 | control, target()],
    }.get(opcode, lambda: [first])()


def drawn_program(draw):
    """Up to four spans, each ended by a JUMP; few words stand between one and the next."""
    chunks, bases, spans = draw.choice(MEMORIES), [BASE], []
    for _ in range(draw.choice([0, 0, 1, 2, 3])):
        bases.append(bases[-1] + 4 * draw.choice([24, 40, 1024]))

    def address():
        first, length = draw.choice(chunks)
        return first + draw.randrange(length) if draw.random() < 0.97 else draw.randrange(1 << 32)

    def target():
        return draw.choice(bases) + (4 * draw.randrange(12) if draw.random() < 0.2 else 0)

    for base in bases:
        words = []
        for _ in range(draw.randrange(1 if len(bases) > 1 else 2, 9)):
            instruction = drawn_instruction(draw, address, target)
            words += instruction if len(words) + len(instruction) < 21 else []
        spans.append((base, words + [JUMP << 28, target()]))
    at, words = draw.choice(spans)
    entry = at if draw.random() < 0.9 else at + 4 * draw.randrange(len(words))
    if len(spans) == 1 and draw.random() < 0.8:
        entry = at
    return Program(entry, spans, chunks, draw.randrange(256))


def drawn_stream(draw, form):
    stream = Stream(turns=0, form=form)
    for _ in range(draw.randrange(5, 120)):
        kind = draw.randrange(30)
        if kind < 12:
            status = draw.choice([0, 0, 2, 2, 1, 5, 9, 13, 3, 7, 8, 10, 11, 15])
            stream.push(draw.choice([1, 1, 2, 3]), status, draw.randbytes(4))
        elif kind < 18:
            stream.control(draw.choice(sorted(CODES)))
        elif kind < 27:
            stream.turns(draw.choice([1, 1, 2, 3, 5, 9]))
        elif kind == 27:
            stream.acknowledge(draw.getrandbits(32))
        elif kind == 28 and draw.random() < 0.3:
            stream.enable(draw.randrange(2), draw.randrange(2))
        elif kind == 29 and form == b"BFS2":
            stream.trigger(draw.randrange(4))
        elif kind == 29 and draw.random() < 0.2:  # more than a queue holds
            queue = draw.choice([1, 2, 3])
            for _ in range(80):
                stream.push(queue, PXV, b"over")
    return stream.end()


def hurried(stream, draw):
    """The stream's pushes: the host sets trigger points between them, and few turns come after each."""
    sizes, hurry, place = {1: 6, 2: 6, 3: 6, 4: 2, 5: 5}, Stream(turns=0, form=b"BFS2"), 4
    few, often = draw.choice([[1], [1, 1, 2], [0, 1, 3], [2, 16]]), draw.choice([0, 0.01, 0.1])
    while stream[place]:
        tag, record = stream[place], stream[place : place + sizes[stream[place]]]
        place += len(record)
        if tag != 5:
            hurry.data += record
            hurry.turns(draw.choice([6, 40]) if tag == 4 else draw.choice(few))
        if draw.random() < often:
            hurry.trigger(draw.randrange(4))
    return hurry.turns(200).end()


def drawn_keys(draw):
    """The keys of a description that has no fault, but for the odd one."""
    form = draw.choice(sorted(FORMATS))
    chroma = FORMATS[form][1]
    across, down = chroma or (1, 1)
    fields = draw.choice(["top", "bottom", "both"])
    both = fields == "both"
    width, height = 8 * draw.randrange(across, across + 4), draw.randrange(1, 6) * (2 if both else 1)
    width *= draw.choice([1, 1, 1, 6])
    keys = {"format": f'"{form}"', "width": max(width, 24), "height": height, "fields": f'"{fields}"'}
    count = 2 if both else 1
    keys["chroma_first"] = [draw.randrange(down) for _ in range(count)]
    keys["skip_lines"] = draw.randrange(3)
    vbi_bytes = draw.randrange(5, 40)
    keys |= {"vbi_lines": draw.randrange(4), "vbi_bytes": vbi_bytes}
    keys["vbi_stride"] = vbi_bytes + draw.choice([0, 1, 4, 30])
    keys["vbi_skip"] = [draw.randrange(4) for _ in range(count)]
    keys["clip"] = [[draw.randrange(30), draw.randrange(6), draw.randrange(9), draw.randrange(4)] for _ in range(2)]
    keys["chunks"], at = [], 0x20000
    for length in (64, 4 * draw.randrange(1, 40), 16384):
        keys["chunks"].append([at, length])
        at += length + draw.choice([0, 4, 4096])
    needed = ("format", "width", "height", "fields", "chunks", "vbi_bytes")
    keys = {key: value for key, value in keys.items() if key in needed or draw.random() < 0.8}
    return keys | {"fill": draw.randrange(256)}


def text_of(keys):
    return "".join(f"{key} = {value}\n" for key, value in keys.items())


def compare(tool, drawn, draw):
    """Whether the program is accepted, and what was wanted where the answers differ."""
    parts = drawn.entry, drawn.spans, drawn.chunks, drawn.fill
    data, text, wanted = program(*parts), listing(*parts), drawn.verdict()
    tool.write("program", data)
    tool.write("text", text.encode())
    differences = [] if tool.says("verify", "program") == wanted else [wanted]
    differences += [] if tool.says("list", "program") == text else [text]
    tool.run("assemble", "text", "again")
    differences += [] if tool.read("again") == data else ["assembled " + text]
    for form in (b"BFS1", b"BFS2") if wanted == "accepted\n" else ():
        machine, stream = Trace(drawn), drawn_stream(draw, form)
        machine.play(stream)
        tool.write("stream", stream)
        tool.write("image", b"")
        said = tool.says("run", "program", "stream", "image")
        if said != machine.report() or tool.read("image") != image(machine.memory):
            differences.append(machine.report())
        if tool.says("trace", "program", "stream") != machine.text():
            differences.append(machine.text())
    return wanted == "accepted\n", differences + compare_changed(tool, data, text, draw)


def compare_changed(tool, data, text, draw):
    """A file with a number changed or cut, and a text with lines changed."""
    changed = bytearray(data)
    at = draw.randrange(len(data)) // 4 * 4
    changed[at : at + 4] = draw.choice([bytes(4), changed[at : at + 4][::-1], draw.randbytes(4), changed[4:8], b""])
    if draw.random() < 0.2:
        changed = changed[: draw.randrange(len(changed))] if draw.random() < 0.5 else changed + b"\0"
    tool.write("changed", changed)
    fault = program_fault(bytes(changed))
    wanted = f"program file: {fault[0]} at {fault[1]}\n" if fault else listing(*read_program(bytes(changed)))
    differences = [] if tool.says("list", "changed") == wanted else [wanted]
    lines = text.splitlines(keepends=True)
    first, second = draw.randrange(len(lines)), draw.randrange(len(lines))
    lines[first : first + 1] = draw.choice([[], [lines[first]] * 2, [lines[second]]])
    tool.write("text", "".join(lines).encode())
    found = assembled("".join(lines))
    status, said = tool.run("assemble", "text", "again")
    if (status == 0) != (found is not None) or (found and tool.read("again") != program(*found)):
        differences.append(f"assembled {found is not None}, said {said!r} of {''.join(lines)!r}")
    return differences


def compare_hurried(tool, compiled, stream):
    """What a description's program makes of a stream that isn't its own."""
    machine = Machine(compiled)
    machine.play(stream)
    tool.write("stream", stream)
    report = tool.says("capture", "description", "stream", "program", "image")
    return report == machine.report(), tool.read("image") == image(machine.memory)


def compare_description(tool, text, draw):
    """A frame is made and captured."""
    tool.write("description", text.encode())
    status, said = tool.run("compile", "description", "compiled")
    if said.startswith("geometry: too few bytes"):
        return []
    if status:
        return [f"{said!r} of {text!r}"]
    description = Description(os.path.join(tool.folder, "description"))
    stream, picture = cases.made(description, 1)
    machine = Machine(Program(*read_program(tool.read("compiled"))))
    machine.play(stream)
    tool.run("make", "description", "1", "1", "stream")
    report = tool.says("capture", "description", "stream", "program", "image")
    answers = tool.read("stream") == stream, report == machine.report(), tool.read("program") == tool.read("compiled")
    shown = image(paint(description, picture, filled(description)))
    answers += tool.read("image") == shown, image(machine.memory) == shown
    answers += compare_hurried(tool, Program(*read_program(tool.read("compiled"))), hurried(stream, draw))
    return [] if all(answers) else [f"stream, report, program, image, machine.py, hurried {answers} of {text!r}"]


def takes_chroma_alone(spans):
    """Whether an instruction asks for chroma and for no luma."""
    for _, words in spans:
        at = 0
        while at < len(words):
            opcode = words[at] >> 28
            if opcode in (WRITE123, SKIP123, WRITE1S23) and words[at] & 0xFFF == 0 and any(words[at + 1 : at + 2]):
                return True
            at += LENGTHS.get(opcode, 1)
    return False


def compare_shown(tool, program_file, description, field, begin):
    """A field comes to the opening that shows it."""
    _, spans, chunks, fill = read_program(program_file)
    tool.write("opening", program(begin, spans, chunks, fill))
    stream = Stream()
    picture = cases.push_field(description, field, stream, cases.Drawn(1))
    tool.write("stream", stream.turns(5 * sum(len(words) for _, words in spans)).end())
    report = tool.says("run", "opening", "stream", "image")
    if "overruns 0 0 0 0" not in report and takes_chroma_alone(spans):
        # The luma of a line comes before the last of its chroma, so that it is lost where the program takes that chroma first: nothing is
        # promised of a field with an overrun.
        return []
    wanted = paint_field(description, picture, {at: bytearray([fill]) * length for at, length in chunks}, field)
    status = int(report.split()[-1], 16)
    right = memory_of(tool.read("image")) == wanted and "overruns 0 0 0 0" in report and not status & FDSR
    return [] if right else [f"{field} isn't in memory, {report!r} of {program_file.hex()}"]


def compare_check(tool, program_file, text):
    """Whether a program was judged by a description, whether it shows it, and what was wanted where the answers differ."""
    tool.write("program", program_file)
    tool.write("description", text.encode())
    said, verdict = tool.run("check", "program", "description"), Program(*read_program(program_file)).verdict()
    status, fault = tool.run("compile", "description", "out")
    if verdict != "accepted\n":
        wanted = 1, verdict
    elif status and "program" not in fault:
        wanted = status, fault
    else:
        at = [os.path.join(tool.folder, name) for name in ("program", "description")]
        wanted = check_model.check(*at)[::-1]
    differences = [] if said == wanted else [f"{wanted!r}, said {said!r} of {program_file.hex()} and {text!r}"]
    for field, begin in re.findall(r"(top|bottom): shown from ([0-9a-f]{8})", said[1]):
        description = Description(os.path.join(tool.folder, "description"))
        differences += compare_shown(tool, program_file, description, field, int(begin, 16))
    return "top:" in wanted[1] or "bottom:" in wanted[1], wanted[0] == 0, differences


def compare_checks(tool, draw):
    """Programs drawn from the compiled one of a description, beside it and beside another: (judged, shown, differences)."""
    keys = drawn_keys(draw)
    tool.write("description", text_of(keys).encode())
    if tool.run("compile", "description", "compiled")[0]:
        return 0, 0, []
    _, spans, _, _ = read_program(tool.read("compiled"))
    judged, showed, differences = 0, 0, []
    for number in range(4):
        other = keys if number % 2 else draw_checks.changed_keys(draw, keys)
        found = compare_check(tool, draw_checks.drawn_beside(draw, spans[0][1]), text_of(other))
        judged, showed, differences = judged + found[0], showed + found[1], differences + found[2]
    return judged, showed, differences


def main():
    words = argparse.ArgumentParser(description=__doc__.splitlines()[0])
    words.add_argument("--bin", required=True, help="the program bt878")
    words.add_argument("--count", type=int, default=200)
    words.add_argument("--seed", type=int, default=1)
    given, accepted, differ, judged, showed = words.parse_args(), 0, 0, 0, 0
    with tempfile.TemporaryDirectory() as folder:
        tool = Built(given.bin, folder)
        for number in range(given.count):
            draw = random.Random(given.seed + number)
            good, differences = compare(tool, drawn_program(draw), draw)
            differences += compare_description(tool, text_of(drawn_keys(draw)), draw) if number % 4 == 0 else []
            checked = compare_checks(tool, draw)
            differences += checked[2]
            judged, showed = judged + checked[0], showed + checked[1]
            accepted, differ = accepted + good, differ + len(differences)
            for difference in differences:
                print(f"seed {given.seed + number}: wanted {difference!r}")
    print(f"{given.count} programs, {accepted} accepted; {judged} judged, {showed} shown; {differ} answers differ")
    sys.exit(differ > 0)


if __name__ == "__main__":
    main()
