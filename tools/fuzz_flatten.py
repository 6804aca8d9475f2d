#!/usr/bin/env python3
"""Compares a program that prints what `flatten` prints with reference_flatten.py, on pseudo-random tile files.

    tools/fuzz_flatten.py PROGRAM [--files N] [--seed S]

makes N files (5000 if not given), good ones and ones with a fault or two, and runs PROGRAM on each, by its two cut makers in
turn. Before that the reference is compared with a trial of every grid on a few tiny tiles. Prints a line of counts for each
kind of file (a refusal is counted under its number, 14 with its inner number behind a dash), and the first difference in full.
The exit status is 1 where a text differs, or a run ends with another status than 0.
"""
import argparse
import random
import shutil
import subprocess
import sys
from collections import Counter

import reference_flatten
from reference_flatten import LETTERS, MOST_CLASS, MOST_ROWS, MOST_TIE, MOST_TOP, Tile

RECORDS = 1024
LIMIT = 120  # seconds for a run
SMALL_TOPS = (1, 2, 3, 4, 7, 8, 10, 15, 16, 31)


# Tiles

def some_shape(rng):
    kind = rng.randrange(40)
    if kind == 0:
        return rng.choice([(64, 1), (1, 64), (64, 16), (32, 32), (16, 64), (33, 32), (64, 64), (2, 64)])
    if kind < 4:
        return rng.randint(1, 12), rng.randint(1, 12)
    return rng.randint(1, 4), rng.randint(1, 4)


def some_top(rng, cells):
    kind = rng.randrange(20)
    if cells > 200:
        return rng.choice((1, 2, 3))
    if kind == 0 and cells < 10:
        return rng.choice((MOST_TOP, MOST_TOP - 1, 512, 511))
    return rng.randint(1, 100) if kind < 4 and cells < 20 else rng.choice(SMALL_TOPS)


def some_tile(rng, most_cells=4096, tops=None):
    rows, columns = some_shape(rng)
    while rows * columns > most_cells:
        rows, columns = some_shape(rng)
    top = rng.choice(tops) if tops else some_top(rng, rows * columns)
    most_reading = rng.choice((top, top, top, 0, max(1, top // 3)))
    most_class = rng.choice((0, 1, 2, 3, 5, MOST_CLASS))
    most_tie = rng.choice((0, 1, 2, 5, 10, 40, 200, 1000, MOST_TIE))
    extreme = rng.randrange(6) == 0

    def upto(most):
        return rng.choice((0, most)) if extreme else rng.randint(0, most)

    cells = [(upto(most_reading), upto(most_class)) for _ in range(rows * columns)]
    ties = []
    for i in range(rows * columns):
        row, column = divmod(i, columns)
        ties.append((upto(most_tie) if column + 1 < columns else 0, upto(most_tie) if row + 1 < rows else 0))
    return Tile(rng.choice(LETTERS), rows, columns, top, cells, ties)


# Damage: each makes a file of a tile's four sections

def joined(parts):
    return b"".join(parts)


def whole(rng, tile, parts):
    return joined(parts)


def cut_off(rng, tile, parts):
    """Ends in or beside a count, between two entries, or within one."""
    section = rng.randrange(4)
    before, part = joined(parts[:section]), parts[section]
    size = (1, 6, 3, 4)[section]
    between = 2 + size * rng.randrange((len(part) - 2) // size)
    within = between + rng.randrange(size)
    return before + part[:rng.choice((0, 1, 2, between, within, within, len(part) - 1))]


def byte_changed(rng, tile, parts):
    file = bytearray(joined(parts))
    file[rng.randrange(len(file))] = rng.choice((0, 1, 255, rng.randrange(256)))
    return bytes(file)


def bit_changed(rng, tile, parts):
    file = bytearray(joined(parts))
    file[rng.randrange(len(file))] ^= 1 << rng.randrange(8)
    return bytes(file)


def count_wrong(rng, tile, parts):
    section = rng.randrange(4)
    count = parts[section][:2]
    right = int.from_bytes(count, "big")
    wrong = rng.choice((0, 1, right - 1, right + 1, 2 * right, right + 256, 65535, 256 * right)) % 65536
    parts[section] = wrong.to_bytes(2, "big") + parts[section][2:]
    return shortened(rng, parts)


def shortened(rng, parts):
    """Mostly whole; else it ends somewhere as well."""
    file = joined(parts)
    return file if rng.randrange(4) else file[:rng.randrange(len(file) + 1)]


def letter_wrong(rng, tile, parts):
    letter = rng.choice((0, 32, 255, 0x60, *b"aqlBPRKMZ", rng.randrange(256)))
    parts[0] = parts[0][:2] + bytes((letter,))
    return shortened(rng, parts)


def put_number(part, at, number):
    return part[:at] + number.to_bytes(2, "big") + part[at + 2:]


def shape_past(rng, tile, parts):
    """A number of the shape outside its range, or right at its end with the rest as it was."""
    most = (MOST_ROWS, MOST_ROWS, MOST_TOP)
    for _ in range(rng.choice((1, 1, 2))):
        i = rng.randrange(3)
        parts[1] = put_number(parts[1], 2 + 2 * i, rng.choice((0, most[i], most[i] + 1, most[i] + 2, 256, 65535)))
    return shortened(rng, parts)


def reading_past(rng, tile, parts):
    at = 2 + 3 * rng.randrange(len(tile.cells))
    if rng.randrange(3):
        parts[2] = put_number(parts[2], at, rng.choice((tile.top, tile.top + 1, tile.top + 1, tile.top + 256, 65535)))
    if rng.randrange(2):
        trust = rng.choice((MOST_CLASS, MOST_CLASS + 1, MOST_CLASS + 1, 255))
        parts[2] = parts[2][:at + 2] + bytes((trust,)) + parts[2][at + 3:]
    return shortened(rng, parts)


def tie_past(rng, tile, parts):
    at = 2 + 4 * rng.randrange(len(tile.ties)) + rng.choice((0, 2))
    parts[3] = put_number(parts[3], at, rng.choice((MOST_TIE, MOST_TIE + 1, MOST_TIE + 1, 65535)))
    return shortened(rng, parts)


def tie_off_edge(rng, tile, parts):
    if rng.randrange(2):
        at = 4 * (tile.columns * rng.randint(1, tile.rows) - 1)
    else:
        at = 4 * (len(tile.ties) - rng.randint(1, tile.columns)) + 2
    parts[3] = put_number(parts[3], 2 + at, rng.choice((1, 2, 256, MOST_TIE, MOST_TIE + 1)))
    return shortened(rng, parts)


def bytes_appended(rng, tile, parts):
    more = rng.choice((1, 1, 2, 3, 4, 7))
    return joined(parts) + rng.choice((bytes(more), rng.randbytes(more), joined(parts)))


def sections_swapped(rng, tile, parts):
    a, b = rng.sample(range(4), 2)
    parts[a], parts[b] = parts[b], parts[a]
    return joined(parts)


def section_gone(rng, tile, parts):
    del parts[rng.randrange(4)]
    return joined(parts)


def entry_gone(rng, tile, parts):
    """One entry too few or too many; the counts stay."""
    section = rng.choice((2, 3))
    size = section + 1
    at = 2 + size * rng.randrange(len(tile.cells))
    entry = parts[section][at:at + size]
    parts[section] = parts[section][:at] + rng.choice((b"", 2 * entry)) + parts[section][at + size:]
    return joined(parts)


def two_faults(rng, tile, parts):
    """Two values past their limits; then it may end early."""
    for _ in range(2):
        section = rng.randrange(1, 4)
        at = 2 + rng.randrange(len(parts[section]) - 3)
        parts[section] = put_number(parts[section], at, rng.choice((65535, MOST_TIE + 1, tile.top + 1, MOST_CLASS + 1)))
    return shortened(rng, parts)


def empty(rng, tile, parts):
    return b""


def noise(rng, tile, parts):
    return rng.randbytes(rng.randrange(40))


KINDS = {
    "whole": (whole, 30), "cut off": (cut_off, 12), "byte changed": (byte_changed, 8), "bit changed": (bit_changed, 4),
    "count wrong": (count_wrong, 8), "letter wrong": (letter_wrong, 5), "shape past limits": (shape_past, 8),
    "reading past limits": (reading_past, 7), "tie past limits": (tie_past, 6), "tie off the edge": (tie_off_edge, 6),
    "bytes appended": (bytes_appended, 5), "sections swapped": (sections_swapped, 4), "section gone": (section_gone, 2),
    "entry gone or twice": (entry_gone, 4), "two faults": (two_faults, 5), "noise": (noise, 2), "empty": (empty, 1),
}


def some_file(rng):
    """A kind, a file of that kind, and how many records there are."""
    kind = rng.choices(list(KINDS), [weight for _, weight in KINDS.values()])[0]
    tile = some_tile(rng)
    file = KINDS[kind][0](rng, tile, reference_flatten.sections(tile))
    n = len(tile.cells)
    records = rng.choice((RECORDS, RECORDS, RECORDS, RECORDS, RECORDS, 4096, 4096, n, n + 1, n - 1))
    return kind, file, records


# Comparing

def outcome(text):
    """`accepted`, or the number of the refusal."""
    words = text.split()
    if words[:1] != ["refused"]:
        return "accepted"
    return f"{words[1]}-{words[4]}" if words[1] == "14" else words[1]


def outcome_order(name):
    return [int(it) for it in name.split("-")]


def check_reference(rng):
    """Compares the reference with all grids, and the sets of its levels with one another, on tiny tiles."""
    tried = 0
    while tried < 150:
        tile = some_tile(rng, most_cells=9, tops=(1, 1, 2, 3, 7))
        if (tile.top + 1) ** len(tile.cells) > 5000:
            continue
        file = reference_flatten.write_tile(tile)
        assert reference_flatten.read_tile(file) == tile, f"read back otherwise: {tile}"
        heights = reference_flatten.solve(tile)
        assert heights == reference_flatten.by_all_grids(tile), f"not the lowest cheapest grid: {tile}"
        assert heights == reference_flatten.solve(tile, nested=False), f"the sets of the levels are not nested: {tile}"
        tried += 1
    return tried


def run(program, file, records, maker):
    words = [program, "--records", str(records), "--cut", maker]
    if records == RECORDS:
        del words[1:3]
    try:
        ended = subprocess.run(words, input=file, capture_output=True, timeout=LIMIT)
    except subprocess.TimeoutExpired:
        return words, None, "", f"no end after {LIMIT} seconds"
    return words, ended.returncode, ended.stdout.decode(errors="replace"), ended.stderr.decode(errors="replace")


def show(kind, file, words, status, said, complained, due):
    print(f"difference: a file of the kind '{kind}', {len(file)} bytes")
    print(f"file in hexadecimal: {file.hex(' ')}")
    print(f"command: {' '.join(words)}")
    print(f"status {status}, standard error: {complained!r}")
    print(f"printed:\n{said}due:\n{due}", end="")


def main():
    parser = argparse.ArgumentParser(description="Compares a program with reference_flatten.py on pseudo-random tile files.")
    parser.add_argument("program")
    parser.add_argument("--files", type=int, default=5000)
    parser.add_argument("--seed", type=int, default=1)
    asked = parser.parse_args()
    if shutil.which(asked.program) is None:
        sys.exit(f"there is no program {asked.program}: `rt run` in crates/flatten builds crates/flatten/out/flatten")

    rng = random.Random(asked.seed)
    print(f"reference: agrees with all grids on {check_reference(rng)} tiny tiles", flush=True)
    counts, first, differences = {kind: Counter() for kind in KINDS}, None, 0
    for i in range(asked.files):
        kind, file, records = some_file(rng)
        due = reference_flatten.text_of(file, records)
        words, status, said, complained = run(asked.program, file, records, ("push", "paths")[i % 2])
        counts[kind][outcome(due)] += 1
        if status != 0 or said != due:
            differences += 1
            first = first or (kind, file, words, status, said, complained, due)
    counts["all"] = sum(counts.values(), Counter())
    for kind, outcomes in counts.items():
        refused = ", ".join(f"{name}: {outcomes[name]}" for name in sorted(outcomes.keys() - {"accepted"}, key=outcome_order))
        print(f"{kind}: {sum(outcomes.values())} files, {outcomes['accepted']} accepted, refused {refused or 'none'}")
    print(f"differences: {differences}")
    if first:
        show(*first)
    sys.exit(1 if first else 0)


if __name__ == "__main__":
    main()
