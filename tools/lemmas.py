#!/usr/bin/env python3
"""Lemmas of the proofs that nothing cites, statements that stand more than once, and lines that are too long.

    python3 tools/lemmas.py [--beside FOLDER ..]

Run at the root of the repository.  It reads the files of `specs/` and `proofs/` and prints a line for each definition
or lemma that no other text names, and for each statement that two lemmas have, its places; the names of bound variables
make no difference.  With --beside the lemmas of other folders, such as those of std in the toolchain, are compared too:
what stands there need not stand here.  It goes by the texts alone: a lemma may be a law that is its own end, and one
that the prover's search takes is always named (`using`).  Only a check tells whether a lemma can go.

It also prints a line for each line of a `.rt` or `.antt` file of the crates that has more than 140 characters: its place and
its length.  Not for a line of an `.antt` file that is a text in quotes alone, which can't be broken, or a tuple of eight
tuples or more, each in the one before, which `rt fmt` would lay out as stairs.

Python 3.11, standard library only.
"""

import argparse
import collections
import pathlib
import re

WORDS = r"(?:(?:pub|abbrev|unfoldable|opaque|data|record)(?:\([a-z]+\))?\s+)*"
HEAD = re.compile(WORDS + r"([^\s:(){},=]+)")
STATEMENT = re.compile(r"(" + WORDS + r")([^\s:(){},=]+)\s*((?:\{[^}]*\}\s*)*):\s(.*)")
NAME = re.compile(r"[^\s(){},.;:\[\]]+")
TOKEN = re.compile(r"[A-Za-z_][\w'-]*|\d+|[^\sA-Za-z_\d]")
BINDER = re.compile(r"[({]([A-Za-z_][\w'\- ]*?)\s*:")
IN_BRACES = re.compile(r"Rattle\.(\w+)\.(?:specs|proofs)\.([\w.+]+?)\.\{([^}]*)\}")
BY_PATH = re.compile(r"Rattle\.(\w+)\.(?:specs|proofs)\.([\w.+]+)\.([^\s(){},.;]+)")
OF_CODE = re.compile(r"(\w+)::(?:specs|proofs)::([\w:]+)::([^\s(){},:;]+)")
MOST = 140
UNBROKEN = re.compile(r'\s*(?:"(?:\\.|[^"\\])*"|(?:\(\w+, ){8}.*)[),;]*')
# What the toolchain names: the proof of a function, its parts and its answers.
GIVEN = ("Answers", "Proof", "Invariants")


def is_declared(line):
    return line[:1] not in (" ", "") and not line.startswith(("use ", "pub use", "mod ", "pub mod", "--"))


def without_comments(text):
    return re.sub(r"--[^\n]*", "", text)


def crate_of(file):
    return file.parts[file.parts.index("crates") + 1]


def module_of(file):
    parts = file.with_suffix("").parts
    at = next(i for i, part in enumerate(parts) if part in ("specs", "proofs"))
    return ".".join(parts[at + 1 :])


def named_elsewhere(texts):
    """Returns the names that files take of modules, each with the crate and the module."""
    taken = set()
    for file, text in texts.items():
        for crate, module, names in IN_BRACES.findall(text):
            taken |= {(crate, module, name.split(" as ")[0].strip()) for name in names.split(",")}
        taken |= set(BY_PATH.findall(text))
        for crate, module, name in OF_CODE.findall(text):
            own = crate_of(file) if crate == "crate" else crate
            taken.add((own, module.replace("::", "."), name))
    return taken


def unused(texts):
    """Yields the place and the name of each definition that only its own lines name."""
    taken = named_elsewhere(texts)
    for file, text in sorted(texts.items()):
        if file.suffix != ".antt" or file.stem in GIVEN:
            continue
        lines = text.split("\n")
        own = collections.Counter(HEAD.match(line)[1] for line in lines if is_declared(line) and HEAD.match(line))
        here = collections.Counter(NAME.findall(text))
        for at, line in enumerate(lines, 1):
            said = STATEMENT.match(line) if is_declared(line) else None
            if said and "◌" not in said[2] and here[said[2]] <= own[said[2]]:
                if (crate_of(file), module_of(file), said[2]) not in taken:
                    yield f"{file}:{at}", said[2]


def statements(text):
    """Yields the line, the name and the statement of each lemma, its bound variables by number."""
    lines = text.split("\n")
    for at, line in enumerate(lines):
        said = STATEMENT.match(line) if is_declared(line) else None
        if not said or re.search("abbrev|data|record", said[1]) or "statement" in said[4] or said[4].endswith("Type 0"):
            continue
        whole = [said[3], said[4]]
        for more in lines[at + 1 :]:
            if not more.startswith(" "):
                break
            whole.append(more.strip())
        bound = {}
        for names in BINDER.findall(" ".join(whole)):
            for name in names.split():
                bound.setdefault(name, f"v{len(bound)}")
        yield at + 1, said[2], " ".join(bound.get(it, it) for it in TOKEN.findall(" ".join(whole)))


def twice(texts, others):
    """Yields the places of each statement that stands more than once, one of them among `texts`."""
    places = collections.defaultdict(list)
    for file, text in [*texts.items(), *others.items()]:
        if file.suffix == ".antt" and file.stem not in GIVEN and "specs" not in file.parts:
            for at, name, statement in statements(text):
                places[statement].append((file in texts, f"{file}:{at} {name}"))
    for found in places.values():
        if len(found) > 1 and any(own for own, _ in found):
            yield [place for _, place in found]


def too_long(folder):
    """Yields the place and the length of each line with more characters than a line may have."""
    for file in sorted(pathlib.Path(folder).glob("*/*/**/*")):
        if file.suffix not in (".rt", ".antt") or file.relative_to(folder).parts[1] not in ("src", "specs", "proofs"):
            continue
        for at, line in enumerate(file.read_text(encoding="utf-8").split("\n"), 1):
            if len(line) > MOST and not (file.suffix == ".antt" and UNBROKEN.fullmatch(line)):
                yield f"{file}:{at}", len(line)


def read(folder, *patterns):
    files = [file for pattern in patterns for file in pathlib.Path(folder).glob(pattern) if "out" not in file.parts]
    return {file: without_comments(file.read_text()) if file.suffix == ".antt" else file.read_text() for file in files}


def main():
    parser = argparse.ArgumentParser(description=__doc__.split("\n")[0])
    parser.add_argument("--beside", nargs="*", default=[], metavar="FOLDER", help="folders of other lemmas")
    asked = parser.parse_args()
    texts = read("crates", "*/specs/**/*.antt", "*/proofs/**/*.antt", "*/src/**/*.rt")
    others = {file: text for folder in asked.beside for file, text in read(folder, "**/*.antt").items()}
    for place, name in unused(texts):
        print(f"{place}: nothing names {name}")
    for places in sorted(twice(texts, others)):
        print("; ".join(places[:6]) + (" .." if len(places) > 6 else "") + ": one statement")
    for place, length in too_long("crates"):
        print(f"{place}: {length} characters")


if __name__ == "__main__":
    main()
