#!/usr/bin/env python3
"""The table of crates in docs/ARCHITECTURE.md, from crates.txt and the first sentence of each crate.

    crates.py [--write]

It prints the table; with --write it puts it into the page. The groups are the comments of crates.txt. What a crate is is
the first sentence behind `//!` in its src/lib.rt or src/main.rt. "Stands on" leaves out what is below a crate that it names.
"Above" counts the crates that stand on it, and the thousands of their lines (code, definitions, proofs).
The seconds are those of the stored run tools/crates.seconds, if it is there: a line `NAME PROOFS EDITS` for each crate,
behind comments that say what run it was.
"""

import glob
import os
import re
import sys

from bt878.places import TOP

PAGE = os.path.join(TOP, "docs/ARCHITECTURE.md")
BEGIN, END = "<!-- tools/crates.py: begin -->\n", "<!-- tools/crates.py: end -->\n"


def groups(text):
    """(group, {crate: what it stands on}) of the lines of crates.txt; a comment heads the group below it."""
    found = []
    for line in text.splitlines():
        if line.startswith("#"):
            found.append((line.lstrip("# "), {}))
        elif line.strip():
            name, _, below = line.partition(":")
            found[-1][1][name.split()[0]] = below.split()
    return [(group, crates) for group, crates in found if crates]


def out_of_order(text):
    """The crates that stand before one that they stand on."""
    crates = {name: below for _, group in groups(text) for name, below in group.items()}
    names = list(crates)
    return [name for name, below in crates.items() if any(b in crates and names.index(b) > names.index(name) for b in below)]


def sentence(name):
    """The first sentence that a crate's root file says of it."""
    (root,) = [path for path in (f"{TOP}/crates/{name}/src/{file}" for file in ("lib.rt", "main.rt")) if os.path.exists(path)]
    with open(root) as file:
        words = re.match(r"((?://!.*\n)+)", file.read()).group(1).replace("//!", "")
    first = re.split(r"(?<=\.)\s", " ".join(words.split()) + " ")[0].rstrip(".")
    return re.sub(r" \((this project's own|Bt878 data sheet)[^()]*\)", "", first)


def lines(name):
    """The lines of a crate."""
    paths = [path for part in ("src", "specs", "proofs") for path in glob.glob(f"{TOP}/crates/{name}/{part}/**", recursive=True)]
    count = 0
    for path in paths:
        if path.endswith((".rt", ".antt")):
            with open(path) as file:
                count += sum(1 for _ in file)
    return count


def closure(crates):
    """What is below each crate, near or far."""
    below = {}
    for name, needs in crates.items():
        below[name] = set(needs).union(*(below.get(need, ()) for need in needs))
    return below


def stored_run():
    """The seconds of each crate, of its proofs and of its edits."""
    path = os.path.join(TOP, "tools/crates.seconds")
    if not os.path.exists(path):
        return {}
    with open(path) as file:
        rows = [line.split() for line in file if line.strip() and not line.startswith("#")]
    return {name: (proofs, edits) for name, proofs, edits in rows}


def table():
    with open(os.path.join(TOP, "crates.txt")) as file:
        parts = groups(file.read())
    crates = {name: below for _, group in parts for name, below in group.items()}
    below = closure(crates)
    size = {name: lines(name) for name in crates}
    seconds = stored_run()
    head = "| Crate | What it is | Stands on | Above |" + " Seconds: proofs, edits |" * bool(seconds)
    rows = [head, re.sub(r"[^|]+", "---", head)]
    for group, names in parts:
        rows.append(f"| **{group[:1].upper()}{group[1:]}** | |" + " |" * (head.count("|") - 3))
        for name, needs in names.items():
            needs = [need for need in needs if not any(need in below.get(other, ()) for other in needs)]
            above = [other for other in crates if name in below[other]]
            count = f"{len(above)}, {round(sum(size[other] for other in above) / 1000)}" if above else ""
            row = f"| {name} | {sentence(name)} | {', '.join(needs)} | {count} |"
            rows.append(row + f" {', '.join(filter('-'.__ne__, seconds.get(name, ())))} |" * bool(seconds))
    return "\n".join(rows) + "\n"


def parts_of_page():
    """The page before the table, the table there, and the page behind it."""
    with open(PAGE) as file:
        before, _, rest = file.read().partition(BEGIN)
    there, _, behind = rest.partition(END)
    return before, there, behind


def main(words):
    if words == ["--write"]:
        before, _, behind = parts_of_page()
        with open(PAGE, "w") as file:
            file.write(before + BEGIN + table() + END + behind)
    elif words:
        sys.exit(__doc__)
    else:
        print(table(), end="")


if __name__ == "__main__":
    main(sys.argv[1:])
