#!/usr/bin/env python3
"""Checks that what the documents cite is there.

usage: tools/check_docs.py

Of README.md and docs/*.md: that files and links exist, that the rows of a table have as many columns as its head, and that names of
code exist (in the sources and specs of the crates, the header for C, or bench/). Of the tables of docs/PROOF.md: that each definition
stands in the file of specs/ that its row names, in the crate of the section or the one that is named with it. The documents that
speak of earlier names (below) are checked for files alone. The example in Rust of README.md has to stand in crates/cases/src/readme.rt, which is
proved and run.
Prints a line for each thing that is not there, and ends with status 1 if there is one; else says that all is there.
"""
import pathlib
import re
import sys

TOP = pathlib.Path(__file__).resolve().parent.parent
CRATES = TOP / "crates"
EARLIER = {"CHANGES.md", "LOOK-BACK.md"}

# A file by its folder at the top; a star stands for any name.
FILE = re.compile(r"(?:docs|tools|samples|crates|bench|include)/[\w./*-]*[\w*]")
LINK = re.compile(r"\]\(([^)#]+)\)")
TICKED = re.compile(r"`([^`]+)`")
# Names that can be no words of English: with a capital or an underscore.
NAME = re.compile(r"\b(?:[A-Z]\w*|[a-z]\w*_\w+)(?<!_)\b")
WORD = re.compile(r"\w+")
# Definitions that a row of PROOF.md names behind their file: CRATE/specs/FILE.antt: `NAME`, `NAME` and so on.
CITED = re.compile(r"(?:(\w+)/)?specs/(\w+)\.antt: ((?:`[^`]+`(?:, | to | and )?)+)")
BUILT = re.compile(r"crates/\w+/out/")  # made by a build, and not in the repository


def code():
    """The words of all code, and those of C without their prefix."""
    places = [*CRATES.glob("*/src/**/*.rt"), *CRATES.glob("*/specs/*.antt"), *TOP.glob("include/*"), *TOP.glob("bench/*")]
    words = {word for place in places for word in WORD.findall(place.read_text())}
    return words | {word.partition("_")[2] for word in words if word.lower().startswith("yolanthuk_")}


def prose(text):
    """The text, with blocks of code left empty, so that lines keep their numbers."""
    return re.sub(r"^```.*?^```", lambda block: "\n" * block[0].count("\n"), text, flags=re.M | re.S)


def lost_files(place, line):
    for name in FILE.findall(line):
        if not BUILT.match(name) and not any(TOP.glob(name)):
            yield f"no file {name}"
    for name in LINK.findall(line):
        if not (place.parent / name).exists():
            yield f"no file {name}"


def lost_names(line, words):
    for ticked in TICKED.findall(line):
        if re.search(r"^rt |/|&&", ticked):
            continue
        for name in NAME.findall(ticked):
            if name not in words:
                yield f"no {name} in the code"


def lost_definitions(line, crates):
    for crate, file, names in CITED.findall(line):
        places = [CRATES / name / "specs" / f"{file}.antt" for name in ([crate] if crate else crates)]
        text = "\n".join(place.read_text() for place in places if place.exists())
        for name in TICKED.findall(names):
            if not re.search(rf"^(?:\w+ )*{re.escape(name)} ", text, re.M):
                yield f"no {name} in specs/{file}.antt of {' or '.join([crate] if crate else crates)}"


def columns(line):
    return len(re.findall(r"(?<!\\)\|", line))


def check(place, words):
    head, crates = 0, []
    for number, line in enumerate(prose(place.read_text()).split("\n"), 1):
        lost = list(lost_files(place, line))
        if place.name not in EARLIER:
            lost += lost_names(line, words)
        if place.name == "PROOF.md":
            if line.startswith("#"):
                crates = TICKED.findall(line)
            if line.startswith("|") and crates:
                lost += lost_definitions(line, crates)
        if not line.startswith("|"):
            head = 0
        elif head == 0:
            head = columns(line)
        elif columns(line) != head:
            lost.append("another number of columns than the head of the table")
        for what in lost:
            print(f"{place.relative_to(TOP)}:{number}: {what}")
            yield what


def lost_examples():
    run = (CRATES / "cases/src/readme.rt").read_text()
    for block in re.findall(r"^```rust\n(.*?)^```", (TOP / "README.md").read_text(), re.M | re.S):
        if block not in run:
            what = "the example in Rust is not the one in crates/cases/src/readme.rt"
            print(f"README.md: {what}")
            yield what


def main():
    words = code()
    lost = [what for place in [TOP / "README.md", *sorted(TOP.glob("docs/*.md"))] for what in check(place, words)]
    lost += lost_examples()
    if not lost:
        print("all that the documents cite is there")
    return 1 if lost else 0


if __name__ == "__main__":
    sys.exit(main())
