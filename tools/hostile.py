#!/usr/bin/env python3
"""Hostile use of bt878, tried from outside over real files.

    python3 tools/hostile.py --bin PATH [--peer PATH] [--quick] [--groups allocations,storms]

Groups: allocations (each refused in turn), cuts (files cut at every length), bytes (every byte changed to
several values), systems (files and outputs of odd kinds), storms (large and unfriendly inputs, with the
processor time and the largest resident memory of each).  A command that the program doesn't know is left out.
With --peer each answer to a cut or changed file is compared with that program's.  One line is printed a group,
and a line for each check that fails, with what was met and what was owed; the status is 1 where one fails.

Python 3.11, standard library only; the allocations need a C compiler `cc`, or are refused by steps of the
address space where there is none.
"""

import argparse
import mmap
import os
import re
import resource
import shutil
import struct
import subprocess
import sys
import tempfile
import threading
import time

from bt878.as_compiled import BASE
from bt878.built import Built
from bt878.formats import one_span, program, read_program
from bt878.machine import Program
from bt878.program_faults import program_fault
from bt878.stream_faults import stream_fault
from bt878.trace import trace

DONE, REFUSED, USAGE, MALFORMED, READ_FAULT, WRITE_FAULT, NO_MEMORY, NO_TEXT = 0, 1, 2, 3, 4, 5, 6, 8
STREAM_LIMIT = 4_294_967_295
LISTING_LIMIT = 67_108_864
TEXT_LIMIT = 1_048_576

# ---------------------------------------------------------------------------
# Files


def numbers(text):
    return [int(word, 16) for word in text.split()]


def one(words, chunks):
    """A program file of one span, and of chunks (address, length)."""
    return program(BASE, one_span(BASE, words), chunks, 0)


def pages(first, count):
    return [(first + 4096 * i, 4096) for i in range(count)]


ONE_LINE = numbers("80008004 0 80000006 0 1c000008 00020000 71e10000 00001000")
PROGRAM = one(ONE_LINE, pages(0x20000, 1))
CHUNKED = one(numbers("80008004 0 80000006 0 1c000008 00020004 71e10000 00001000"), [(0x20004, 8)])
# a loop of one slot, and the list that hangs in it
SPANNED = program(
    BASE, [(0x1000, numbers("80008004 0 70000000 00002000")),
           (0x2000, numbers("80000006 0 1c000008 00020000 71e10000 00001000"))],
    [(0x20000, 8)], 0)  # fmt: skip
FIELD = bytes.fromhex("0404 0406 010210111213 010114151617 0509000000")
STREAM = b"BFS1" + FIELD + b"\0"
# every tag of each form
ALL_TAGS = bytes.fromhex("0404 010210111213 020010111213 030110111213 0501000000 06ffffffff 0703")
STREAM_TAGS = b"BFS1" + ALL_TAGS + b"\0"
STREAM_TRIGGERS = b"BFS2" + ALL_TAGS + b"\x08\x01" + b"\0"
CHAINED = b"BFS3" + bytes.fromhex("090000 0801 0901ff") + FIELD + b"\0"
CHAINED_FIELD = b"BFS3" + bytes.fromhex("090000") + FIELD + b"\0"


def description(pages, **keys):
    """A description of one line of eight grey pixels, with other keys."""
    table = {"format": '"y8"', "width": 8, "height": 1, "fields": '"top"', "pages": pages, **keys}
    return "".join("%s = %s\n" % pair for pair in table.items() if pair[1] is not None).encode()


DESC = description([0x20000])
DESC_OTHER = description([0x30000])
DESC_LARGE = description(
    [0x1000000 + 0x2000 * (199 - i) for i in range(200)], format='"yuy2"', width=640, height=480, fields='"both"',
    vbi_lines=16, clip=[[0, 0, 64, 32], [576, 0, 64, 32], [0, 448, 64, 32], [576, 448, 64, 32]])  # fmt: skip
DESC_LARGE_OTHER = DESC_LARGE.replace(b"pages", b"base = 4096\npages", 1)
LISTING_OTHER = b"base 00001000\n00001000 word 80008004\nchunk 00020004 8\nfill 00\n"
LISTING_SPANS = b"""span 00001000
00001000 sync vre resync
00001008 jump 00002000
span 00002000
00002000 sync fm1
00002008 write sol eol 8 00020000
00002010 jump irq set=1 reset=e 00001000
entry 00001000
chunk 00020000 8
fill 00
"""
RING = b"blocks = 2\nlines = 1\nline_bytes = 8\npages = [0x20000]\n"
RING_PAGES = [0x1000000 + 0x1000 * i for i in range(1024)]
RING_LARGE = ("blocks = 16\nlines = 64\nline_bytes = 4092\npages = %s\n" % RING_PAGES).encode()
RING_LINES = bytes.fromhex("0406 010210111213 010114151617 010220212223 010124252627 050a000000")
RING_STREAM = b"BFS1" + RING_LINES + b"\0"
LISTING = b"""base 00001000
00001000 sync vre resync
00001008 sync fm1
00001010 write sol eol 8 00020000
00001018 jump irq set=1 reset=e 00001000
page 00020000
fill 00
"""
SHOWN = b"top: shown from 00001000 to 00001018, 2 instructions, jump irq set=1 reset=e\n"
REPORT = b"turns 9\nmoved 8\noverruns 0 0 0 0\nstatus 10000800\n"


def long_stream(magic):
    """1,000,005 bytes that do nothing, as a stream."""
    return magic + b"\x05\0\0\0\0" * 200_000 + b"\0"


def skipping(count):
    """Words of a WRITE, SKIPs and a JUMP behind the WRITE: a path that goes through the SKIPs twice."""
    return numbers("10000004 00020000") + numbers("20000004") * (count - 4) + numbers("70000000 00001008")


def long_listing(words, chunks):
    lines = [b"base 00001000\n"]
    lines += [b"%08x word 00000000\n" % (0x1000 + 4 * i) for i in range(words)]
    lines += [b"chunk %08x 4\n" % (0x40000000 + 8 * i) for i in range(chunks)]
    return b"".join(lines) + b"fill 00\n"


# ---------------------------------------------------------------------------
# Commands: a new one needs one entry


class Command:
    """The words after a command's name, its inputs with their bytes, its outputs, and its text at Done."""

    def __init__(self, words, inputs, outputs, text, large):
        self.words, self.outputs = words.split(), outputs.split()
        self.inputs, self.text, self.large = inputs, text, large


COMMANDS = {
    "verify": Command("P", {"P": PROGRAM}, "", b"accepted\n", {"P": one(skipping(20_000), pages(0x20000, 1))}),
    "list": Command("P", {"P": PROGRAM}, "", LISTING, {"P": one(skipping(20_000), pages(0x20000, 1))}),
    "run": Command("P S I", {"P": PROGRAM, "S": STREAM}, "I", REPORT, {
        "P": one(ONE_LINE, pages(0x20000, 4096)), "S": long_stream(b"BFS1")}),
    "compile": Command("D P", {"D": DESC}, "P", b"words 8 pages 1\n", {"D": DESC_LARGE}),
    "make": Command("D 1 1 S", {"D": DESC}, "S", b"fields 1 entries 2\n", {"D": DESC_LARGE}),
    "capture": Command("D S P I", {"D": DESC, "S": STREAM}, "P I", REPORT, {
        "D": DESC_LARGE, "S": long_stream(b"BFS1")}),
    "assemble": Command("T P", {"T": LISTING}, "P", b"words 8 pages 1\n", {"T": long_listing(20_000, 4096)}),
    "damage": Command("D S", {"D": DESC, "S": STREAM}, "", b"top 1 of 1\n", {
        "D": DESC_LARGE, "S": long_stream(b"BFS1")}),
    "chain": Command("D E S I", {"D": DESC, "E": DESC_OTHER, "S": CHAINED_FIELD}, "I", REPORT, {
        "D": DESC, "E": description([0x40000 + 0x1000 * i for i in range(1024)]), "S": long_stream(b"BFS3")}),
    "ring": Command("R S P I", {"R": RING, "S": RING_STREAM}, "P I",
                    b"blocks 2\nturns 10\nmoved 16\noverruns 0 0 0 0\nstatus 10000800\n",
                    {"R": RING_LARGE, "S": long_stream(b"BFS1")}),
    "check": Command("P D", {"P": PROGRAM, "D": DESC}, "", SHOWN, {
        "P": one(ONE_LINE + skipping(20_000), pages(0x20000, 1)),
        "D": description([0x20000 + 0x1000 * i for i in range(1024)])}),
    "trace": Command("P S", {"P": PROGRAM, "S": STREAM}, "", trace(Program(*read_program(PROGRAM)), STREAM).encode(), {
        "P": one(ONE_LINE, pages(0x20000, 4096)), "S": long_stream(b"BFS1")}),
}  # fmt: skip

KEPT_LIMIT = 67_108_864  # the most bytes of a stream of `trace`

# the stream that each command with one reads, and the input that holds it
STREAMS = {"run": b"BFS1", "capture": b"BFS1", "damage": b"BFS1", "ring": b"BFS1", "chain": b"BFS3"}

# ---------------------------------------------------------------------------
# Answers

KIND = (
    r"(magic|short|count|base|page|order|entry|overlap|length|pages|after end|too long|too many turns"
    r"|(tag|status|code|enable|trigger|slot|buffer) [0-9a-f]{2})"
)
KEY = r"(not toml|(unknown key .*|(missing|wrong kind of|out of range) key [a-z_]+))"
GEOMETRY = (
    r"(width range|height range|width off unit|odd height|too narrow|stride short|off unit|overlap|vbi range"
    r"|page (unaligned|twice) \d+|too few (pages|bytes), need \d+, have \d+|program base|program on page)"
)
CAUSE = r"(cut|reserved [0-9a-f]|sync code [0-9a-f]|jump out [0-9a-f]{8}|no target|wrap|ungranted [0-9a-f]{8})"
CHECK = r"(top|bottom): (shown from|differs at) [^\n]*"
CHAIN = r"(base|shared \d+|too many|too long|on page)"
TEXTS = {
    REFUSED: r"geometry: %s|rejected at [0-9a-f]{8,9}, step \d+: %s|chain: %s|%s(\n%s)?" % (
        GEOMETRY, CAUSE, CHAIN, CHECK, CHECK),
    USAGE: r"usage: (no command|unknown command|wrong number of words|bad number|same name)",
    MALFORMED: r"(program file|stream file): %s at \d+|(description|ring file): too long at 1048576|description: %s"
    r"|ring: (%s|%s)|listing: (line \d+|short at \d+|too long)" % (KIND, KEY, KEY, GEOMETRY),
    READ_FAULT: r"read fault",
    WRITE_FAULT: r"",
    NO_MEMORY: r"no memory",
}


class Answer:
    def __init__(self, status, text, outputs, seconds, kilobytes):
        self.status, self.text, self.outputs, self.seconds, self.kilobytes = status, text, outputs, seconds, kilobytes

    def same_as(self, other):
        return (self.status, self.text, self.outputs) == (other.status, other.text, other.outputs)

    def __str__(self):
        made = ", ".join("%s of %d bytes" % (name, len(data)) for name, data in sorted(self.outputs.items()))
        return "status %s, %r, %s" % (self.status, self.text[:90], "outputs " + made if made else "no output")


def out_of_table(answer, outputs):
    """None where the status, the text and the outputs are those of one answer, else what is owed."""
    if answer.status == DONE:
        return None if sorted(answer.outputs) == sorted(outputs) else "Done with each output"
    if answer.status not in TEXTS:
        return "a status of the table"
    if answer.status != WRITE_FAULT and answer.outputs:
        return "no output"
    line = "(%s)\n" % TEXTS[answer.status] if TEXTS[answer.status] else ""
    if not re.fullmatch(line.encode(), answer.text, re.DOTALL):
        return "a text of status %d" % answer.status
    return None


class Tool(Built):
    """A program under trial, and the folder that it works in."""

    def __init__(self, binary, folder):
        super().__init__(binary, folder)
        self.launcher = None
        os.makedirs(folder, exist_ok=True)

    def put(self, inputs):
        for name, data in inputs.items():
            self.write(name, data)

    def clean(self):
        for name in os.listdir(self.folder):
            path = os.path.join(self.folder, name)
            shutil.rmtree(path) if os.path.isdir(path) and not os.path.islink(path) else os.remove(path)

    def run(self, words, outputs=(), environment=None, **options):
        """Runs the program, and takes what it left under the names of its outputs."""
        with tempfile.TemporaryFile() as said:
            options.setdefault("stdout", said)
            launched = self.launcher.words if self.launcher else []
            child = subprocess.Popen(
                [*launched, self.binary, *words], cwd=self.folder, stdin=subprocess.DEVNULL, stderr=subprocess.DEVNULL,
                env={**os.environ, **(environment or {})}, **options)  # fmt: skip
            _, code, used = os.wait4(child.pid, 0)
            child.returncode = os.waitstatus_to_exitcode(code)
            said.seek(0)
            text = said.read()
        kilobytes = self.launcher.kilobytes() if self.launcher else used.ru_maxrss
        return Answer(child.returncode, text, self.taken(outputs), used.ru_utime + used.ru_stime, kilobytes)

    def taken(self, outputs):
        """The bytes of the outputs that are there, which are removed."""
        found = {}
        for name in outputs:
            path = os.path.join(self.folder, name)
            if os.path.isfile(path):
                found[name] = self.read(name)
                os.remove(path)
        return found

    def command(self, name, inputs=None, environment=None, **options):
        command = COMMANDS[name]
        self.taken(command.outputs)
        self.put({**command.inputs, **(inputs or {})})
        return self.run([name, *command.words], command.outputs, environment, **options)

    def knows(self, name):
        return self.run([name]).text == b"usage: wrong number of words\n"


class Report:
    """Counts the checks of a group, and prints those that fail."""

    def __init__(self):
        self.passed = self.failed = self.all_failed = 0
        self.notes = []

    def check(self, name, good, met, owed):
        if good:
            self.passed += 1
            return
        self.failed += 1
        if self.failed <= 20:
            print("FAIL %s: met %s; owed %s" % (name, met, owed), flush=True)

    def end(self, group, seconds):
        notes = "; " + "; ".join(self.notes) if self.notes else ""
        print("%s: %d passed, %d failed, %.0f s%s" % (group, self.passed, self.failed, seconds, notes), flush=True)
        self.all_failed += self.failed
        self.passed = self.failed = 0
        self.notes = []


class Trial:
    """What the groups work on."""

    def __init__(self, tool, peer, commands, quick, report):
        self.tool, self.peer, self.commands, self.quick, self.report = tool, peer, commands, quick, report

    def check(self, name, good, met, owed):
        self.report.check(name, good, met, owed)


# ---------------------------------------------------------------------------
# Allocations

SHIM = r"""
#define _GNU_SOURCE
#include <dlfcn.h>
#include <errno.h>
#include <fcntl.h>
#include <stddef.h>
#include <stdlib.h>
#include <sys/mman.h>
#include <unistd.h>
extern void *__libc_malloc(size_t), *__libc_calloc(size_t, size_t), *__libc_realloc(void *, size_t);
extern void *__libc_memalign(size_t, size_t);
static volatile long *count;
static long first, last;
__attribute__((constructor)) static void begin(void) {
    const char *path = getenv("HOSTILE_COUNT");
    int file = path ? open(path, O_RDWR) : -1;
    void *page = file < 0 ? MAP_FAILED : mmap(0, 4096, PROT_READ | PROT_WRITE, MAP_SHARED, file, 0);
    if (file >= 0) close(file);
    first = getenv("HOSTILE_FIRST") ? atol(getenv("HOSTILE_FIRST")) : 0;
    last = getenv("HOSTILE_LAST") ? atol(getenv("HOSTILE_LAST")) : 0;
    if (page != MAP_FAILED) count = page;
}
static int refused(void) {
    if (!count) return 0;
    long n = __sync_add_and_fetch(count, 1);
    if (n < first || n > last) return 0;
    errno = ENOMEM;
    return 1;
}
void *malloc(size_t n) { return refused() ? 0 : __libc_malloc(n); }
void *calloc(size_t m, size_t n) { return refused() ? 0 : __libc_calloc(m, n); }
void *realloc(void *p, size_t n) { return refused() ? 0 : __libc_realloc(p, n); }
void *memalign(size_t a, size_t n) { return refused() ? 0 : __libc_memalign(a, n); }
void *aligned_alloc(size_t a, size_t n) { return memalign(a, n); }
int posix_memalign(void **p, size_t a, size_t n) { return (*p = memalign(a, n)) ? 0 : ENOMEM; }
"""


class Shim:
    """Counts a program's allocations, and refuses those from the first to the last that it is told."""

    def __init__(self, folder):
        source, self.library = os.path.join(folder, "shim.c"), os.path.join(folder, "shim.so")
        with open(source, "w") as file:
            file.write(SHIM)
        subprocess.run(["cc", "-shared", "-fPIC", "-O1", "-o", self.library, source], check=True)
        self.path = os.path.join(folder, "count")
        with open(self.path, "wb") as file:
            file.write(bytes(4096))
        with open(self.path, "r+b") as file:
            self.page = mmap.mmap(file.fileno(), 4096)

    def run(self, tool, name, inputs, first, last):
        self.page[:8] = bytes(8)
        environment = {"LD_PRELOAD": self.library, "HOSTILE_COUNT": self.path,
                       "HOSTILE_FIRST": str(first), "HOSTILE_LAST": str(last)}  # fmt: skip
        answer = tool.command(name, inputs, environment)
        return answer, struct.unpack("<q", self.page[:8])[0]


NEVER = 1 << 60


def chosen(count, quick):
    """Every number up to the count, or of many the first and last, and some between."""
    most = 60 if quick else 600
    if count <= most:
        return list(range(1, count + 1))
    third = most // 3
    return sorted({*range(1, third), *range(1, count + 1, count // third), *range(count - third, count + 1)})


def refused_well(answer, whole, alone):
    """What a refused allocation may give: no memory with no output; of the names that the desk hands to the system, a
    fault of reading or writing; and where the allocation is asked for again, and this is granted, the whole answer."""
    if alone and answer.same_as(whole):
        return True
    if answer.status == NO_MEMORY:
        return b"no memory\n".startswith(answer.text) and not answer.outputs
    if answer.status == READ_FAULT:
        return answer.text == b"read fault\n" and not answer.outputs
    prefixes = all(whole.outputs[name].startswith(data) for name, data in answer.outputs.items())
    return answer.status == WRITE_FAULT and answer.text == b"" and prefixes


def refuse_allocations(trial, shim, name, size, inputs):
    command = COMMANDS[name]
    whole, count = shim.run(trial.tool, name, inputs, NEVER, NEVER)
    label = "allocations of %s, %s" % (name, size)
    trial.check(label + ", none refused", whole.status == DONE and count > 0,
                "%s, %d allocations" % (whole, count), "Done, and a count")  # fmt: skip
    names, again = {READ_FAULT: set(), WRITE_FAULT: set()}, 0
    for number in chosen(count, trial.quick):
        for last in (number, NEVER):
            answer, _ = shim.run(trial.tool, name, inputs, number, last)
            which = "alone" if last == number else "and all later"
            good = refused_well(answer, whole, last == number)
            trial.check("%s, number %d of %d %s" % (label, number, count, which), good, str(answer),
                        "status 6, `no memory`, no output")  # fmt: skip
            again += answer.same_as(whole)
            if answer.status in names:
                names[answer.status].add(number)
    trial.check(label + ", answered as faults", len(names[READ_FAULT]) <= len(command.inputs)
                and len(names[WRITE_FAULT]) <= len(command.outputs), str(names),
                "one number at most for each name that is handed to the system")  # fmt: skip
    return "%d (%d asked for again)" % (count, again)


def grow_with_stream(trial, shim, name):
    """The number of allocations with an empty stream and with one of 1,000,005 bytes."""
    counts = []
    for stream in (STREAMS[name] + b"\0", long_stream(STREAMS[name])):
        _, count = shim.run(trial.tool, name, {"S": stream}, NEVER, NEVER)
        counts.append(count)
    trial.check("allocations of %s don't grow with the stream" % name, counts[0] == counts[1], str(counts),
                "equal numbers")  # fmt: skip


def allocations(trial):
    if not shutil.which("cc"):
        for name in trial.commands:
            by_address_space(trial, name)
        return
    shim = Shim(tempfile.mkdtemp(dir=os.path.dirname(trial.tool.folder)))
    counted = []
    for name in trial.commands:
        small = refuse_allocations(trial, shim, name, "smallest input", {})
        large = refuse_allocations(trial, shim, name, "large input", COMMANDS[name].large)
        counted.append("%s %s and %s" % (name, small, large))
    for name in trial.commands:
        if name in STREAMS:
            grow_with_stream(trial, shim, name)
    trial.report.notes.append("allocations on the smallest and on a large input: " + ", ".join(counted))


def by_address_space(trial, name):
    """Without a C compiler: less and less address space, down to what the loader needs."""
    for pages in range(16_384, 512, -128):
        limit = lambda: resource.setrlimit(resource.RLIMIT_AS, (pages * 4096, pages * 4096))  # noqa: E731
        answer = trial.tool.command(name, COMMANDS[name].large, preexec_fn=limit)
        if answer.status == 127 or answer.status < 0:
            return
        trial.check("%s in %d pages" % (name, pages), answer.status in (DONE, NO_MEMORY), str(answer), "status 6")


# ---------------------------------------------------------------------------
# Files cut at every length, and with every byte changed

FORMS = [
    # a name, the command that reads it, the input, its bytes, and the text of its first fault
    ("BRP1", "list", "P", PROGRAM, lambda data: named("program file", program_fault(data))),
    ("BRP2", "list", "P", CHUNKED, lambda data: named("program file", program_fault(data))),
    ("BRP3", "list", "P", SPANNED, lambda data: named("program file", program_fault(data))),
    ("BRP3 verified", "verify", "P", SPANNED, lambda data: named("program file", program_fault(data))),
    ("BRP2 verified", "verify", "P", CHUNKED, lambda data: named("program file", program_fault(data))),
    ("BFS1", "run", "S", STREAM_TAGS, lambda data: named("stream file", stream_fault(data, False))),
    ("BFS2", "run", "S", STREAM_TRIGGERS, lambda data: named("stream file", stream_fault(data, False))),
    ("BFS2 captured", "capture", "S", STREAM_TRIGGERS, lambda data: named("stream file", stream_fault(data, False))),
    ("BFS1 for a map", "damage", "S", STREAM_TAGS, lambda data: named("stream file", stream_fault(data, False))),
    ("BFS1 for a ring", "ring", "S", STREAM_TAGS, lambda data: named("stream file", stream_fault(data, False))),
    ("BFS3", "chain", "S", CHAINED, lambda data: named("stream file", stream_fault(data, True))),
    ("BRP3 checked", "check", "P", SPANNED, lambda data: named("program file", program_fault(data))),
    ("description checked", "check", "D", DESC, None),
    ("description", "compile", "D", DESC + b"clip = [[0, 0, 1, 1]]\nfill = 7\n", None),
    ("description with chunks", "make", "D", description(None, chunks=[[0x20004, 4], [0x30000, 4]]), None),
    ("ring", "ring", "R", RING, None),
    ("listing", "assemble", "T", LISTING, None),
    ("listing of other words", "assemble", "T", LISTING_OTHER, None),
    ("listing of spans", "assemble", "T", LISTING_SPANS, None),
]


def named(file, fault):
    return None if fault is None else ("%s: %s at %d\n" % (file, *fault)).encode()


def judge(trial, label, name, given, owed):
    """Runs a command on a changed file: one answer of the table, that of the first fault, again and by the peer."""
    outputs = COMMANDS[name].outputs
    answer = trial.tool.command(name, given)
    fault = out_of_table(answer, outputs)
    trial.check(label, fault is None, str(answer), fault)
    if owed is not None:
        trial.check(label, answer.text == owed and answer.status == MALFORMED, str(answer), "status 3, %r" % owed)
    elif owed is None and name in STREAMS and "S" in given:
        trial.check(label, answer.status == DONE, str(answer), "Done, since no field is at fault")
    if not trial.quick:
        again = trial.tool.command(name, given)
        trial.check(label + ", again", again.same_as(answer), str(again), str(answer))
    if trial.peer:
        other = trial.peer.command(name, given)
        trial.check(label + ", by the peer", other.same_as(answer), str(answer), "as the peer: " + str(other))


def cuts(trial):
    for form, name, which, data, first_fault in FORMS:
        if name in trial.commands:
            for length in range(len(data) + 1):
                given = data[:length]
                owed = first_fault(given) if first_fault else None
                judge(trial, "%s cut at %d" % (form, length), name, {which: given}, owed)


def bytes_changed(trial):
    for form, name, which, data, first_fault in FORMS:
        if name not in trial.commands:
            continue
        for place in range(len(data)):
            old = data[place]
            values = {0, 255, old ^ 1}
            if not trial.quick:
                values |= {1, 4, 48, 127, 128, old ^ 128, (old + 1) % 256}
            for value in sorted(values - {old}):
                given = data[:place] + bytes([value]) + data[place + 1 :]
                owed = first_fault(given) if first_fault else None
                judge(trial, "%s, byte %d is %02x" % (form, place, value), name, {which: given}, owed)


# ---------------------------------------------------------------------------
# Files of odd kinds


def met(trial, label, answer, status, text=None):
    good = answer.status == status and (text is None or answer.text == text)
    trial.check(label, good, str(answer), "status %d%s" % (status, "" if text is None else ", %r" % text))


# what is said of an input of zeros without an end
ENDLESS = {"P": b"program file: magic at 0\n", "S": b"stream file: magic at 0\n", "T": b"listing: too long\n",
           "R": b"ring file: too long at 1048576\n"}  # fmt: skip


def odd_inputs(trial, name):
    """Each input in turn isn't there, is a directory, or never ends."""
    tool, command = trial.tool, COMMANDS[name]
    words = [name, *command.words]
    for which in command.inputs:
        tool.clean()
        tool.put({other: data for other, data in command.inputs.items() if other != which})
        met(trial, "%s, %s is missing" % (name, which), tool.run(words, command.outputs), READ_FAULT, b"read fault\n")
        os.mkdir(os.path.join(tool.folder, which))
        answer = tool.run(words, command.outputs)
        met(trial, "%s, %s is a directory" % (name, which), answer, READ_FAULT, b"read fault\n")
        os.rmdir(os.path.join(tool.folder, which))
        os.symlink("/dev/zero", os.path.join(tool.folder, which))
        owed = ENDLESS.get(which, b"description: too long at 1048576\n")
        met(trial, "%s, %s is /dev/zero" % (name, which), tool.run(words, command.outputs), MALFORMED, owed)
    tool.clean()


def feed(path, data, piece):
    try:
        with open(path, "wb", buffering=0) as pipe:
            for at in range(0, len(data), piece):
                pipe.write(data[at : at + piece])
    except BrokenPipeError:
        pass


def piped(trial, name):
    """Each input in turn is a pipe that gives its bytes one at a time."""
    tool, command = trial.tool, COMMANDS[name]
    for which, data in command.inputs.items():
        tool.clean()
        tool.put({other: bytes_ for other, bytes_ in command.inputs.items() if other != which})
        path = os.path.join(tool.folder, which)
        os.mkfifo(path)
        feeder = threading.Thread(target=feed, args=(path, data, 1), daemon=True)
        feeder.start()
        answer = tool.run([name, *command.words], command.outputs)
        met(trial, "%s, %s is a pipe" % (name, which), answer, DONE, command.text)
    tool.clean()


ODD_OUTPUTS = (("in a missing folder", "none/out"), ("on /dev/full", "/dev/full"), ("a directory", "."))


def odd_outputs(trial, name):
    """Each output in turn stands in no folder, is full, or is a directory."""
    tool, command = trial.tool, COMMANDS[name]
    for which in command.outputs:
        earlier = command.outputs[: command.outputs.index(which)]
        for label, target in ODD_OUTPUTS:
            tool.clean()
            tool.put(command.inputs)
            words = [target if word == which else word for word in command.words]
            answer = tool.run([name, *words], command.outputs)
            met(trial, "%s, %s is %s" % (name, which, label), answer, WRITE_FAULT, b"")
            trial.check("%s, %s is %s: finished outputs stay" % (name, which, label),
                        sorted(answer.outputs) == earlier, str(answer), "outputs %s" % earlier)  # fmt: skip
    tool.clean()


def odd_stdout(trial, name):
    """Nothing can be said."""
    tool, command = trial.tool, COMMANDS[name]
    whole = tool.command(name)
    answers = []
    with open("/dev/full", "wb") as full:
        answers.append(("on /dev/full", tool.command(name, stdout=full)))
    answers.append(("closed", tool.command(name, preexec_fn=lambda: os.close(1))))
    answers.append(("closed, with standard input", tool.command(name, preexec_fn=lambda: (os.close(0), os.close(1)))))
    read_end, write_end = os.pipe()
    os.close(read_end)
    answers.append(("a pipe that nobody reads", tool.command(name, stdout=write_end)))
    os.close(write_end)
    for label, answer in answers:
        met(trial, "%s, standard output is %s" % (name, label), answer, WRITE_FAULT)
        trial.check("%s, standard output is %s: outputs are whole" % (name, label), answer.outputs == whole.outputs,
                    str(answer), str(whole))  # fmt: skip


def as_nobody(trial, name):
    """A file that may not be read, and outputs that may not be written."""
    tool, command = trial.tool, COMMANDS[name]
    options = {"user": 65534, "group": 65534, "extra_groups": []} if os.geteuid() == 0 else {}
    for which in [*command.inputs, *command.outputs]:
        tool.clean()
        tool.put({**command.inputs, **({which: b"old"} if which in command.outputs else {})})
        os.chmod(tool.folder, 0o777)
        path = os.path.join(tool.folder, which)
        os.chmod(path, 0o444 if which in command.outputs else 0)
        answer = tool.run([name, *command.words], [], **options)
        if which in command.inputs:
            met(trial, "%s, %s may not be read" % (name, which), answer, READ_FAULT, b"read fault\n")
            continue
        met(trial, "%s, %s may not be written" % (name, which), answer, WRITE_FAULT, b"")
        with open(path, "rb") as file:
            left = file.read()
        trial.check("%s, %s stays as it was" % (name, which), left == b"old", repr(left), "b'old'")
    tool.clean()


def systems(trial):
    for name in trial.commands:
        odd_inputs(trial, name)
        piped(trial, name)
        odd_outputs(trial, name)
        odd_stdout(trial, name)
        as_nobody(trial, name)
    words = [os.fsencode(word) for word in ("list", "P")]
    trial.tool.put({"P": PROGRAM})
    met(trial, "a word that is no text", trial.tool.run([words[0], b"\xff\xfe"]), NO_TEXT, b"")
    met(trial, "an empty name", trial.tool.run(["list", ""]), READ_FAULT, b"read fault\n")
    met(trial, "a long name", trial.tool.run(["list", "n" * 100_000]), READ_FAULT, b"read fault\n")
    met(trial, "100,000 words", trial.tool.run(["list"] + ["P"] * 100_000), USAGE, b"usage: wrong number of words\n")


# ---------------------------------------------------------------------------
# Storms

LAUNCHER = r"""
#include <stdio.h>
#include <sys/resource.h>
#include <sys/wait.h>
#include <unistd.h>
int main(int count, char **words) {
    struct rusage used;
    int code, child = fork();
    if (!child) return execv(words[2], words + 2), 127;
    wait4(child, &code, 0, &used);
    FILE *file = fopen(words[1], "w");
    fprintf(file, "%ld", used.ru_maxrss);
    fclose(file);
    return WIFEXITED(code) ? WEXITSTATUS(code) : 200;
}
"""


class Launcher:
    """A small program that starts another, so that the memory of this script isn't taken for that of the other."""

    def __init__(self, folder):
        source, program = os.path.join(folder, "launch.c"), os.path.join(folder, "launch")
        with open(source, "w") as file:
            file.write(LAUNCHER)
        subprocess.run(["cc", "-O1", "-w", "-o", program, source], check=True)
        self.path = os.path.join(folder, "used")
        self.words = [program, self.path]

    def kilobytes(self):
        with open(self.path) as file:
            return int(file.read())


class Storm:
    """A command on a large input: the answer that is owed, and the input at half its size where there is one."""

    def __init__(self, label, name, inputs, status, text, half=None):
        self.label, self.name, self.inputs, self.status, self.text, self.half = label, name, inputs, status, text, half


def pushes(count):
    """VRE, FM1 and so many PXV to each queue: 68, 33 and 33 find room."""
    stream = b"BFS1\x04\x04\x04\x06" + b"".join(bytes([queue]) + b"\0abcd" for queue in (1, 2, 3)) * count + b"\0"
    lost = (count - 68, count - 33, count - 33)
    return stream, b"turns 0\nmoved 0\noverruns %d %d %d 0\nstatus 00001000\n" % lost


def cut_pieces(offset):
    """Pushes of six bytes, of which every piece of 65,536 bytes ends inside one, at each offset in turn."""
    enable, ack = b"\x07\x03", b"\x06\0\0\0\0"
    front = [b"", ack + enable, enable, ack + enable * 2, enable * 2, ack]
    count = 65_536
    stream = b"BFS1" + front[offset] + b"\x01\0abcd" * count + b"\0"
    return stream, b"turns 0\nmoved 0\noverruns %d 0 0 0\nstatus 00001000\n" % (count - 70)


def hostile_texts(size):
    """Descriptions of so many bytes in unfriendly shapes, each with the text that is owed, or None for any."""
    fill = lambda text, end=b"": (text * (size // len(text)) + end)[: size - len(end)] + end  # noqa: E731
    keys = b"".join(b"k%06d = 1\n" % i for i in range(size // 13))
    not_toml = b"description: not toml\n"
    head = DESC.replace(b"pages = [131072]\n", b"")
    return {
        "arrays in arrays": (fill(b"["), not_toml),
        "arrays in arrays as a value": (b"clip = " + fill(b"[")[:-7], not_toml),
        "tables in tables": (b"a = " + fill(b"{a=")[:-4], not_toml),
        "many keys": (keys, b"description: unknown key k000000\n"),
        "one long key": (fill(b"k", b" = 1\n"), b"description: unknown key " + b"k" * (size - 5) + b"\n"),
        "one long string": (b'format = "' + fill(b"y")[:-12] + b'"\n', b"description: out of range key format\n"),
        "a dotted key": (fill(b"a.", b"a = 1\n"), None),
        "one long comment": (head + b"pages = [0x20000]\n#" + fill(b"c")[: -len(head) - 19], DONE),
        "many pages": (head + b"pages = [" + fill(b"4096, ")[: (size - len(head) - 12) // 6 * 6] + b"]\n",
                       b"description: out of range key pages\n"),
        "many rectangles": (head + b"clip = [" + fill(b"[0,0,1,1],")[: (size - len(head) - 12) // 10 * 10] + b"]\n",
                            b"description: out of range key clip\n"),
        "no text": (fill(b"\xff"), not_toml),
        "blank lines": (fill(b"\n"), b"description: missing key format\n"),
        "one key many times": (fill(b"a = 1\n"), not_toml),
        "many headers": (fill(b"[a]\n"), not_toml),
        "many tables": (b"".join(b"[[a]]\n" for _ in range(size // 6)), b"description: unknown key a\n"),
        "quotes without an end": (fill(b'"""'), not_toml),
    }  # fmt: skip


def description_storms():
    storms, halves = [], hostile_texts(TEXT_LIMIT // 2)
    for shape, (text, owed) in hostile_texts(TEXT_LIMIT).items():
        status, said = (DONE, b"words 8 pages 1\n") if owed == DONE else (MALFORMED, owed)
        storms.append(Storm("description: " + shape, "compile", {"D": text}, status, said, {"D": halves[shape][0]}))
    storms.append(Storm("description: one byte too long", "compile", {"D": b"#" * (TEXT_LIMIT + 1)}, MALFORMED,
                        b"description: too long at 1048576\n"))  # fmt: skip
    return storms


def listing_storms():
    words = long_listing(1_048_576, 0)[: -len(b"fill 00\n")]
    lines = words + b"00401000 word 00000000\n"
    full = lines + b"\n" * (LISTING_LIMIT - len(lines))
    whole = long_listing(1_048_576, 4096)
    return [
        Storm("listing: the longest program", "assemble", {"T": whole}, DONE, b"words 1048576 pages 4096\n",
              {"T": long_listing(524_288, 2048)}),
        Storm("listing: 67,108,864 bytes, a word too many", "assemble", {"T": full}, MALFORMED,
              b"listing: line 1048578\n"),
        Storm("listing: one byte more", "assemble", {"T": full + b"\n"}, MALFORMED, b"listing: too long\n"),
        Storm("listing: one line of 67,108,864 bytes", "assemble", {"T": b"b" * LISTING_LIMIT}, MALFORMED, None),
    ]  # fmt: skip


def longest_program(count, page_count):
    """A program of so many words whose path goes through nearly all of them twice, and of so many pages."""
    first, _, *rest = skipping(count)
    return one([first, 0x800000, *rest], pages(0x800000, page_count))


def jumps(count):
    """A JUMP to itself and so many turns: each turn has a line."""
    return {"P": one(numbers("70000000 00001000"), []), "S": b"BFS1\x05" + count.to_bytes(4, "little") + b"\0"}


def openings(count):
    """A program of so many openings of the top field, behind each of which comes a byte of queue 2."""
    return one(numbers("80008004 0 80000006 0 a3000000 1") * count + numbers("70000000 00001000"), [])


def checked_storms():
    """Descriptions of a million instructions and more, and programs that differ from them at each of their openings."""
    grey = {"format": '"y8"', "width": 1024, "height": 1024, "clip": [[16 * i + 2, 0, 2, 1024] for i in range(64)]}
    packed = description([0x1000000 + 0x2000 * i for i in range(256)], **grey)
    other = b"top: differs at 00001010: queue 2: nothing awaited\n"
    return [
        Storm("openings that all differ", "check", {"P": openings(174_000), "D": packed}, REFUSED, other,
              {"P": openings(87_000)}),
    ]  # fmt: skip


def storm_list():
    storms = []
    for name in ("run", "capture"):
        stream, text = pushes(1_000_000)
        half = {"S": pushes(500_000)[0]}
        storms.append(Storm("a million pushes to full queues", name, {"S": stream}, DONE, text, half))
        for offset in range(6):
            stream, text = cut_pieces(offset)
            storms.append(Storm("pieces that cut each record, %d" % offset, name, {"S": stream}, DONE, text))
    longest, half = longest_program(1_048_576, 4096), longest_program(524_288, 2048)
    storms.append(Storm("the largest program, the longest path", "verify", {"P": longest}, DONE, b"accepted\n",
                        {"P": half}))  # fmt: skip
    storms.append(Storm("the largest program", "list", {"P": longest}, DONE, None, {"P": half}))
    empty = {"S": b"BFS1\0"}
    storms.append(Storm("the largest program", "run", {"P": longest, **empty}, DONE, None, {"P": half, **empty}))
    storms.append(Storm("program: one byte too long", "list", {"P": longest + b"\0"}, MALFORMED,
                        b"program file: after end at %d\n" % len(longest)))  # fmt: skip
    storms.append(Storm("a text of many pieces", "trace", jumps(1_000_000), DONE, None, jumps(500_000)))
    stream, half = pushes(100_000)[0], pushes(50_000)[0]
    storms.append(Storm("many pushes to full queues", "trace", {"S": stream}, DONE, None, {"S": half}))
    return storms + description_storms() + listing_storms() + checked_storms()


def table_line(trial, label, name, size, answer, half):
    note = "" if half is None else "   half: %6.2f s %8d KiB" % (half.seconds, half.kilobytes)
    used = "%7.2f s %8d KiB" % (answer.seconds, answer.kilobytes)
    print("  %-48s %-9s %11d bytes %s%s" % (label, name, size, used, note), flush=True)


def storms(trial):
    """Each large input: the answer, and processor time and memory that grow no faster than the input."""
    if shutil.which("cc"):
        trial.tool.launcher = Launcher(tempfile.mkdtemp(dir=os.path.dirname(trial.tool.folder)))
    print("  %-48s %-9s %17s %9s %12s" % ("storm", "command", "input", "time", "memory"))
    for storm in storm_list():
        if storm.name not in trial.commands:
            continue
        label = "%s, %s" % (storm.label, storm.name)
        half = trial.tool.command(storm.name, storm.half) if storm.half else None
        answer = trial.tool.command(storm.name, storm.inputs)
        table_line(trial, storm.label, storm.name, max(map(len, storm.inputs.values())), answer, half)
        good = answer.status == storm.status and (storm.text is None or answer.text == storm.text)
        trial.check(label, good, str(answer), "status %d, %r" % (storm.status, (storm.text or b"any text")[:90]))
        fault = out_of_table(answer, COMMANDS[storm.name].outputs)
        trial.check(label, fault is None, str(answer), fault)
        if half:
            trial.check(label + ": time", answer.seconds <= 4 * half.seconds + 0.5, "%.2f s" % answer.seconds,
                        "at most 4 times the %.2f s of half the input, and 0.5 s" % half.seconds)  # fmt: skip
            trial.check(label + ": memory", answer.kilobytes <= 3 * half.kilobytes + 4096, "%d KiB" % answer.kilobytes,
                        "at most 3 times the %d KiB of half the input, and 4 MiB" % half.kilobytes)  # fmt: skip
    if "trace" in trial.commands:
        kept_streams(trial)
    for name in trial.commands:
        if name in STREAMS:
            sparse_stream(trial, name)
            if not trial.quick and name in ("run", "chain"):
                longest_stream(trial, name, 0)
                longest_stream(trial, name, 1)
    trial.tool.launcher = None


def kept_streams(trial):
    """Streams of exactly the limit of `trace`, and of a byte more: the memory is that of the stream. And a text of 45 megabytes
    of a stream of ten bytes takes no more memory than a text of none."""
    records = (KEPT_LIMIT - 5) // 5
    longest = b"BFS1" + b"\x05\0\0\0\0" * records + b"\x07\x03" * ((KEPT_LIMIT - 5) % 5 // 2)
    longest += b"\0" * (KEPT_LIMIT - len(longest))
    for name, inputs, most in (
        ("the longest stream", {"S": longest}, KEPT_LIMIT // 1024 + 4096),
        ("a byte more", {"S": longest + b"\0"}, KEPT_LIMIT // 1024 + 4096),
        ("a text of 45 megabytes", jumps(1_000_000), 4096),
    ):
        answer = trial.tool.command("trace", inputs)
        table_line(trial, name, "trace", max(map(len, inputs.values())), answer, None)
        if name == "a byte more":
            met(trial, "trace, " + name, answer, MALFORMED, b"stream file: too long at %d\n" % KEPT_LIMIT)
        trial.check("trace, %s: memory" % name, answer.kilobytes <= most, "%d KiB" % answer.kilobytes, "%d KiB" % most)


def sparse_stream(trial, name):
    """Files of the stream's limit, and one byte more, that are holes behind the first word."""
    for size in (STREAM_LIMIT, STREAM_LIMIT + 1):
        trial.tool.put({**COMMANDS[name].inputs, "S": STREAMS[name]})
        os.truncate(os.path.join(trial.tool.folder, "S"), size)
        answer = trial.tool.run([name, *COMMANDS[name].words], COMMANDS[name].outputs)
        table_line(trial, "sparse stream", name, size, answer, None)
        met(trial, "sparse stream of %d bytes, %s" % (size, name), answer, MALFORMED, b"stream file: after end at 5\n")
        trial.check("sparse stream of %d bytes, %s: time" % (size, name), answer.seconds < 1,
                    "%.2f s" % answer.seconds, "less than a second: the fault stands in the first piece")  # fmt: skip


def longest_stream(trial, name, more):
    """A stream of exactly the limit, through a pipe: records of no turns and the end; and with so many bytes more."""
    tool, command = trial.tool, COMMANDS[name]
    tool.clean()
    tool.put({which: data for which, data in command.inputs.items() if which != "S"})
    path = os.path.join(tool.folder, "S")
    os.mkfifo(path)
    feeder = threading.Thread(target=feed_longest, args=(path, STREAMS[name], more), daemon=True)
    feeder.start()
    answer = tool.run([name, *command.words], command.outputs)
    size = STREAM_LIMIT + more
    table_line(trial, "the longest stream" if not more else "one byte more", name, size, answer, None)
    status, text = (DONE, None) if not more else (MALFORMED, b"stream file: too long at %d\n" % STREAM_LIMIT)
    met(trial, "a stream of %d bytes, %s" % (size, name), answer, status, text)
    trial.check("a stream of %d bytes, %s: memory" % (size, name), answer.kilobytes < 65_536,
                "%d KiB" % answer.kilobytes, "less than 64 MiB, since the stream isn't kept")  # fmt: skip
    tool.clean()


def feed_longest(path, magic, more):
    records = (STREAM_LIMIT - 5) // 5
    block = b"\x05\0\0\0\0" * 200_000
    try:
        with open(path, "wb", buffering=0) as pipe:
            pipe.write(magic)
            for _ in range(records // 200_000):
                pipe.write(block)
            pipe.write(b"\x05\0\0\0\0" * (records % 200_000) + b"\0" * (1 + more))
    except BrokenPipeError:
        pass


# ---------------------------------------------------------------------------

GROUPS = {"allocations": allocations, "cuts": cuts, "bytes": bytes_changed, "systems": systems, "storms": storms}


def smallest_inputs(trial):
    for name in trial.commands:
        answer = trial.tool.command(name)
        met(trial, "%s on its smallest input" % name, answer, DONE, COMMANDS[name].text)


def main():
    parser = argparse.ArgumentParser(description="Hostile use of bt878, tried from outside.")
    parser.add_argument("--bin", required=True, help="the program")
    parser.add_argument("--peer", help="another program whose answers must be the same")
    parser.add_argument("--quick", action="store_true", help="fewer values, and each file once")
    parser.add_argument("--groups", default=",".join(GROUPS), help="the groups to try, parted by commas")
    args = parser.parse_args()
    report = Report()
    with tempfile.TemporaryDirectory() as folder:
        os.chmod(folder, 0o755)
        tool = Tool(args.bin, os.path.join(folder, "tool"))
        peer = Tool(args.peer, os.path.join(folder, "peer")) if args.peer else None
        known = [name for name in COMMANDS if tool.knows(name)]
        print("commands: " + " ".join(known), flush=True)
        trial = Trial(tool, peer, known, args.quick, report)
        smallest_inputs(trial)
        report.end("smallest inputs", 0)
        for group in args.groups.split(","):
            start = time.monotonic()
            GROUPS[group](trial)
            tool.clean()
            report.end(group, time.monotonic() - start)
    return 1 if report.all_failed or not known else 0


if __name__ == "__main__":
    sys.exit(main())
