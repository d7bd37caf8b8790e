#!/usr/bin/env python3
"""A program that lies in several buffers, as a driver keeps it, as one program file for bt878. Nothing is moved.

    lay_out.py [--outward] [--old ADDRESS[,ADDRESS..]] OUT.brp ENTRY FILL CHUNK[,CHUNK..] ADDRESS:DUMP [ADDRESS:DUMP ..]

A DUMP is a buffer as it lies in memory, ADDRESS the bus address that the chip sees it at, ENTRY the bus address at
which the controller begins. A CHUNK, ADDRESS+LENGTH, is memory that the program may write. `--outward` rounds chunks
that begin or end off 4 bytes outward; `--old` names addresses at which lists lay that are gone. Numbers may be
hexadecimal (0x..).

The buffers are said in order. Buffers that touch become one span. Said too are JUMPs to an address that is in no
buffer, and old addresses that lie in a buffer again, with the JUMPs that lead there: `verify` tells the former where
the path comes to them, and can't tell the latter. Where buffers overlap, a chunk shares a byte with a buffer or
another chunk, or something else can't be in a program file, no file is written and the status is 1.
"""

import argparse
import sys

from bt878.formats import words_of
from bt878.lay_out import faults, lay_out, outward, warnings
from bt878.program_faults import program_fault


def number(text):
    return int(text, 0)


def numbers(text):
    return [number(part) for part in text.split(",")]


def chunks_of(text):
    return [tuple(number(n) for n in chunk.split("+")) for chunk in text.split(",")]


def buffer(text):
    address, _, name = text.partition(":")
    with open(name, "rb") as file:
        dump = file.read()
    if len(dump) % 4:
        raise argparse.ArgumentTypeError(f"{name} has {len(dump)} bytes, which are no whole words")
    return number(address), words_of(dump), name


def main():
    words = argparse.ArgumentParser(description=__doc__.splitlines()[0])
    words.add_argument("--outward", action="store_true", help="round chunks outward to multiples of 4")
    words.add_argument("--old", type=numbers, default=[], help="addresses of lists that are gone")
    words.add_argument("out", metavar="OUT.brp")
    words.add_argument("entry", type=number, metavar="ENTRY")
    words.add_argument("fill", type=number, metavar="FILL")
    words.add_argument("chunks", type=chunks_of, metavar="CHUNK[,CHUNK..]")
    words.add_argument("buffers", type=buffer, nargs="+", metavar="ADDRESS:DUMP")
    given = words.parse_args()
    buffers = [(at, dump) for at, dump, _ in given.buffers]
    chunks = outward(given.chunks) if given.outward else given.chunks
    for place, (at, dump, name) in enumerate(given.buffers):
        print(f"buffer {place}: {at:08x}, {len(dump)} words, {name}")
    for at, length in sorted(set(chunks) - set(given.chunks)):
        print(f"chunk {at:08x} of {length} bytes is rounded")
    for warning in warnings(buffers, given.old):
        print(warning)
    found = list(faults(buffers, chunks))
    if not found:
        data = lay_out(given.entry, buffers, chunks, given.fill)
        fault = program_fault(data)
        found = [f"no program file: {fault[0]} at {fault[1]}"] if fault else []
    for fault in found:
        print(fault)
    if found:
        sys.exit(1)
    with open(given.out, "wb") as file:
        file.write(data)


if __name__ == "__main__":
    main()
