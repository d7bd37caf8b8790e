#!/usr/bin/env python3
"""Tries the files of examples/ on the program; the gate tries fewer (bt878/cases.py).

    check.py --bin PATH

Each file is made anew and must be as it stands; each program must be accepted and leave the image that was painted by
the rules; the lists of the driver's programs must be the compiled ones of their descriptions; each planted bug must
be told as bt878/broken.py says. And each command that README.md and docs/* show behind `$ ` must print what stands below it.
A command that the program doesn't know is skipped, and one that needs a kernel tree (driver/found.py tries these). A line is
printed for each check that fails, and last `N passed, M failed`.
"""

import argparse
import difflib
import glob
import os
import subprocess
import sys
import tempfile

import crates
import make_examples
from bt878 import broken, cases, check_model, descriptions, differences, examples, lay_out
from bt878.as_compiled import BASE, as_compiled
from bt878.built import Built
from bt878.cases import CHAINED, COMPILED_LINE, DAMAGED, IMAGES, REPORTS, RINGED, VERDICTS, report
from bt878.description import Description
from bt878.formats import JUMP, image, one_span, program, read_program
from bt878.machine import Machine, Program
from bt878.pages import commands, needs_tree, what_is_printed
from bt878.places import CRATE, EXAMPLES, TOP
from bt878.trace import first_difference, trace


LATER = {  # commands that an older program doesn't know: words, what is said, and the outputs
    "ring": ("@ring.toml @ring.bfs program image", RINGED, "ring"),
    "chain": ("@chain_first.toml @chain_second.toml @chain.bfs image", CHAINED, "chain"),
    "damage": ("@two_lines.toml @early_eol.bfs", DAMAGED["two_lines", "early_eol"], None),
    "check": ("@one_line.brp @one_line.toml", f"top: {COMPILED_LINE}\n", None),
}


class Check(Built):
    """The program, and how many checks passed."""

    def __init__(self, binary, folder):
        super().__init__(binary, folder)
        self.passed, self.failed, self.skipped = 0, 0, 0

    def run(self, *words):
        """The status, and what is printed; `@name` is a file of the examples."""
        return super().run(*[os.path.join(EXAMPLES, word[1:]) if word.startswith("@") else word for word in words])

    def answer(self, *words):
        return self.run(*words)[::-1]

    def script(self, name, *words):
        words = [sys.executable, os.path.join(TOP, "tools", name), *words]
        subprocess.run(words, cwd=self.folder, check=True, stdout=subprocess.DEVNULL)

    def same(self, name, got, wanted, later=False):
        if got == wanted:
            self.passed += 1
        elif later and got == "usage: unknown command\n":
            self.skipped += 1
        else:
            self.failed += 1
            print(f"{name}: got {got!r:.200}, wanted {wanted!r:.200}")


def check_files(check):
    """The files of examples/ and of the crate are those that the scripts make."""
    fresh = os.path.join(check.folder, "fresh")
    make_examples.main(fresh)
    for folder, _, names in os.walk(fresh):
        for name in names:
            at = os.path.relpath(os.path.join(folder, name), fresh)
            check.same(at, check.read(os.path.join("fresh", at)), check.read(os.path.join(EXAMPLES, at)))
    for name, data in cases.all_files().items():
        check.same(name, data, check.read(os.path.join(CRATE, name)))


def check_runs(check):
    for (prog, stream), wanted in REPORTS.items():
        name = f"{prog} on {stream}"
        check.same(name + ", verdict", check.says("verify", f"@{prog}.brp"), "accepted\n")
        check.same(name, check.says("run", f"@{prog}.brp", f"@{stream}.bfs", "image"), report(*wanted))
        check.same(name + ", image", check.read("image"), check.read(f"{EXAMPLES}/{IMAGES.get(stream, stream)}.bmi"))
    for name, verdict in VERDICTS.items():
        check.same(name, check.says("verify", f"@{name}.brp"), verdict + "\n")


def check_machine(check):
    """What is expected of the programs here is also what machine.py makes of them."""
    for (prog, stream), wanted in REPORTS.items():
        machine = Machine(Program(*read_program(check.read(f"{EXAMPLES}/{prog}.brp"))))
        machine.play(check.read(f"{EXAMPLES}/{stream}.bfs"))
        check.same(f"machine.py, {prog} on {stream}", machine.report(), report(*wanted))
    for bug in broken.BUGS:
        machine = Machine(Program(*read_program(broken.laid_out(bug))))
        check.same("machine.py, " + bug.name, machine.program.verdict(), bug.verdict + "\n")
        if bug.verdict == "accepted":
            machine.play(broken.RIGHT.stream())
            check.same("machine.py, report, " + bug.name, machine.report(), report(33664, bug.moved, 0, bug.status))
            check.same("machine.py, image, " + bug.name, image(machine.memory) == broken.RIGHT.image(), bug.same_image)


def check_traces(check):
    """What `trace` prints is what the plain machine did: bursts, a host that stops, a ring, a loop of several spans."""
    for name, stream in [*REPORTS, ("ring", "ring")]:
        plain = Program(*read_program(check.read(f"{EXAMPLES}/{name}.brp")))
        wanted = trace(plain, check.read(f"{EXAMPLES}/{stream}.bfs"))
        check.same(f"trace of {name} on {stream}", check.says("trace", f"@{name}.brp", f"@{stream}.bfs"), wanted)
    ours = wanted.splitlines()
    theirs = [line.replace(" 00000000 ", " 00004000 ") if number == 9 else line for number, line in enumerate(ours)]
    check.write("theirs", "\n".join(theirs).encode())
    words = ["emulator.py", "--bin", check.binary, f"{EXAMPLES}/ring.brp", f"{EXAMPLES}/ring.bfs", "theirs"]
    found = subprocess.run([sys.executable, os.path.join(TOP, "tools", words[0]), *words[1:]], cwd=check.folder, capture_output=True)
    check.same("emulator.py, a bit too many", found.stdout.decode(), first_difference(ours, theirs))
    check.same("emulator.py, its line", "line 10 differs\n" in found.stdout.decode(), True)
    check.same("emulator.py, status", found.returncode, 1)


def check_install(check):
    """install.sh puts three files under a prefix, and takes them away."""
    prefix, script = os.path.join(check.folder, "a prefix"), os.path.join(TOP, "tools", "install.sh")
    subprocess.run([script, prefix, check.binary], check=True, capture_output=True)
    installed = subprocess.run([os.path.join(prefix, "bin/bt878"), "--version"], capture_output=True)
    check.same("installed program", installed.stdout.decode(), "bt878 0.1.0\n")
    for name, source in (("share/man/man1/bt878.1", "docs/bt878.1"), ("share/bash-completion/completions/bt878", "tools/bt878.bash")):
        check.same(name, check.read(os.path.join(prefix, name)), check.read(os.path.join(TOP, source)))
    subprocess.run([script, "--uninstall", prefix], check=True, capture_output=True)
    check.same("uninstalled", [names for _, _, names in os.walk(prefix) if names], [])


def check_lay_out(check):
    """The dumps of each driver's program give it, and what can't be in a program file is told."""
    for name in ("main_loop", "scattered", "chroma", "overlay", "stale_jump", "page_end", "no_eol"):
        entry, _, chunks, fill = read_program(check.read(f"{EXAMPLES}/{name}.brp"))
        dumps = sorted(glob.glob(f"{EXAMPLES}/dumps/{name}_[0-9]_*.bin"))
        buffers = [f"0x{dump[-12:-4]}:{dump}" for dump in dumps]
        granted = ",".join(f"{address}+{length}" for address, length in chunks)
        check.script("lay_out.py", "laid_out", str(entry), str(fill), granted, *buffers)
        check.same(name + ", laid out", check.read("laid_out"), check.read(f"{EXAMPLES}/{name}.brp"))
    check.same("buffers that touch", lay_out.spans_of([(8, [3]), (0, [1, 2])]), [(0, [1, 2, 3])])
    check.same("chunks outward", lay_out.outward([(6, 4), (1, 4), (20, 4)]), [(0, 12), (20, 4)])
    told = [
        "chunk 00000002 of 4 bytes is off 4 bytes (--outward rounds it)", "buffer 0 and buffer 1 share byte 00000004",
        "buffer 0 and chunk 00000002 share byte 00000002", "buffer 1 and chunk 00000002 share byte 00000004",
    ]  # fmt: skip
    check.same("faults of buffers", list(lay_out.faults([(0, [1, 2]), (4, [3])], [(2, 4)])), told)
    told = [
        "jump at 00000000 leads to 00000008, which is in no buffer",
        "old address 00000004 lies in buffer 0; jumps that lead there: none",
    ]
    check.same("warnings of buffers", list(lay_out.warnings([(0, [JUMP << 28, 8])], [4, 12])), told)


def check_later(check):
    """Commands that are unknown to the program are skipped."""
    check.same("ring, verdict", check.says("verify", "@ring.brp"), "accepted\n")
    for command, (words, text, name) in LATER.items():
        said = check.says(command, *words.split())
        check.same(command, said, text, later=True)
        if name and said == text:
            check.same(command + ", image", check.read("image"), check.read(f"{EXAMPLES}/{name}.bmi"))
    if os.path.exists(os.path.join(check.folder, "program")):
        check.same("ring, program", check.read("program"), check.read(f"{EXAMPLES}/ring.brp"))


def check_compiled(check):
    """The lists of each example are the compiled program of its description, and its listing is read back."""
    for case in examples.cases():
        d = case.description
        check.says("compile", f"@{case.name}.toml", "compiled")
        lists = program(BASE, one_span(BASE, as_compiled(BASE, case.fields())), d.chunks, d.fill)
        check.same(case.name + ", compiled", check.read("compiled"), lists)
        check.write("listing", check.says("list", f"@{case.name}.brp").encode())
        check.says("assemble", "listing", "again")
        check.same(case.name + ", assembled", check.read("again"), case.program())
    check.says("compile", "@two_lines.toml", "compiled")
    check.same("two_lines, compiled", check.read("compiled"), check.read(f"{EXAMPLES}/two_lines.brp"))


def check_descriptions(check):
    for text, wanted in descriptions.CASES:
        check.write("description", text)
        check.same(f"description {text[-60:]!r}", check.says("compile", "description", "program"), wanted)


def check_differences(check):
    """What `check` says of each program and description, and that the plain model beside says the same."""
    for case in differences.CASES:
        wanted = "".join(line + "\n" for line in case.said), any("differs" in line for line in case.said)
        check.write("program", differences.program_of(case))
        check.write("description", case.description.encode())
        check.same(f"checked: {case.name}", check.answer("check", "program", "description"), wanted)
        said = check_model.check(*(os.path.join(check.folder, name) for name in ("program", "description")))
        check.same(f"check_model.py: {case.name}", said, wanted)


def check_shown(check):
    """The examples beside descriptions, and each compiled program beside its own; each bug beside what it was planted in."""
    for (name, description), verdicts in cases.CHECKED.items():
        wanted = cases.said_of(description, verdicts)
        said = check.answer("check", f"@{name}.brp", f"@{description}.toml")
        check.same(f"{name} checked against {description}", said, wanted)
        said = check_model.check(f"{EXAMPLES}/{name}.brp", f"{EXAMPLES}/{description}.toml")
        check.same(f"check_model.py, {name} against {description}", said, wanted)
    for name, verdicts in cases.CHECKED_COMPILED.items():
        description = name.removesuffix("_compiled")
        check.says("compile", f"@{description}.toml", "compiled")
        wanted = cases.said_of(description, verdicts)
        check.same(f"{name}, checked", check.answer("check", "compiled", f"@{description}.toml"), wanted)
    for bug in broken.BUGS:
        check.write("bug", broken.laid_out(bug))
        wanted = bug.checked(), bug.verdict != "accepted" or "differs" in bug.top + bug.bottom
        check.same(f"{bug.name}, checked", check.answer("check", "bug", "@scattered.toml"), wanted)


def check_bugs(check):
    check.says("compile", "@scattered.toml", "compiled")
    right = check.says("list", "compiled").splitlines()
    for bug in broken.BUGS:
        check.write("bug", broken.laid_out(bug))
        check.same(bug.name, check.says("verify", "bug"), bug.verdict + "\n")
        if bug.verdict == "accepted":
            said = check.says("run", "bug", "@scattered.bfs", "image")
            check.same(bug.name + ", report", said, report(33664, bug.moved, 0, bug.status))
            check.same(bug.name + ", image", check.read("image") == broken.RIGHT.image(), bug.same_image)
        if bug.diff is not None:
            d = broken.RIGHT.description
            words = as_compiled(BASE, broken.lists_with(bug))
            check.write("lists", program(BASE, one_span(BASE, words), d.chunks, d.fill))
            lines = difflib.unified_diff(right, check.says("list", "lists").splitlines(), n=0, lineterm="")
            changed = sum(line[:1] in "+-" and line[:3] not in ("+++", "---") for line in lines)
            check.same(bug.name + ", diff", changed, bug.diff)


def check_pictures(check):
    """A raw picture goes by picture_stream.py and `capture` into an image, and comes out again."""
    for name in ("scattered", "chroma"):
        d = Description(f"{EXAMPLES}/{name}.toml")
        raw = bytes(n * 7 % 251 for n in range(sum(r * b for r, b in zip(d.rows, d.row_bytes, strict=True))))
        check.write("raw", raw)
        check.script("picture_stream.py", f"{EXAMPLES}/{name}.toml", "raw", "stream")
        check.says("capture", f"@{name}.toml", "stream", "program", "image")
        check.script("image_picture.py", f"{EXAMPLES}/{name}.toml", "image", "out")
        check.same(name + ", there and back", check.read("out"), raw)


def check_crates(check):
    """The table of crates is what crates.py makes; each crate stands behind those that it stands on."""
    check.same("docs/ARCHITECTURE.md, table of crates (tools/crates.py --write)", crates.parts_of_page()[1], crates.table())
    check.same("crates.txt, out of order", crates.out_of_order(check.read(os.path.join(TOP, "crates.txt")).decode()), [])


def check_pages(check):
    """The pages' commands, at the top of the repository, with the program first on the path; the manual's elsewhere."""
    binary = os.path.join(check.folder, "bt878")
    os.symlink(check.binary, binary)
    for page in [os.path.join(TOP, "README.md"), *sorted(glob.glob(os.path.join(TOP, "docs/*.md")))]:
        for command, printed in commands(page):
            if needs_tree(command):
                check.skipped += 1
                continue
            later = any(f"bt878 {word} " in command for word in LATER)
            check.same(f"{os.path.relpath(page, TOP)}: {command}", what_is_printed(command, TOP, binary), printed, later)
    check.write("line.toml", check.read(f"{EXAMPLES}/one_line.toml"))
    for command, printed in commands(os.path.join(TOP, "docs/bt878.1")):
        check.same(f"bt878.1: {command}", what_is_printed(command, check.folder, binary), printed)


PARTS = [
    check_files, check_runs, check_machine, check_traces, check_install, check_lay_out, check_later, check_compiled, check_descriptions,
    check_differences, check_shown, check_bugs, check_pictures, check_crates, check_pages,
]  # fmt: skip


def main():
    words = argparse.ArgumentParser(description=__doc__.splitlines()[0])
    words.add_argument("--bin", required=True, help="the program bt878")
    with tempfile.TemporaryDirectory() as folder:
        check = Check(words.parse_args().bin, folder)
        for part in PARTS:
            part(check)
    print(f"{check.passed} passed, {check.failed} failed" + f", {check.skipped} skipped" * (check.skipped > 0))
    sys.exit(check.failed > 0)


if __name__ == "__main__":
    main()
