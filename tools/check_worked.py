#!/usr/bin/env python3
"""Checks that the worked tiles are all proved and run, and are the ones that this script holds.

The rows stand in three places: here, in the statement that `worked_tiles_are_right` proves (crates/cases/specs/Worked.antt), and in
the tests that run them through the calls (crates/cases/src/worked_tiles.rt). A row that was replaced, changed or left out in one of them is
named, and so is a function with rows that is no test, and a line that is missing of those that make the rows mean something (HELD); then
the script ends with status 1.
"""

import re
import sys
from pathlib import Path

ROOT = Path(__file__).resolve().parent.parent
CASES = ROOT / "crates/cases"

# rule, its greatest level, rows, columns, top, readings, classes, ties to the right, ties downward, heights, energy
ROWS = {
    "untied_cell": ("absolute", 7, 1, 1, 7, [5], [1], [], [], [5], 0),
    "untied_cell_of_class_0": ("absolute", 7, 1, 1, 7, [5], [0], [], [], [0], 0),
    "spike_tied_twice": ("absolute", 7, 1, 3, 7, [0, 7, 0], [1, 1, 1], [1, 1], [], [0, 0, 0], 7),
    "spike_tied_once": ("absolute", 7, 1, 3, 7, [0, 7, 0], [1, 1, 1], [1, 0], [], [0, 0, 0], 7),
    "squared_pair_tie_6": ("squared", 10, 1, 2, 10, [0, 10], [1, 1], [6], [], [3, 7], 42),
    "squared_pair_tie_7": ("squared", 10, 1, 2, 10, [0, 10], [1, 1], [7], [], [3, 6], 46),
    "leaning_pair": ("leaning", 10, 1, 2, 10, [10, 2], [1, 1], [2], [], [2, 2], 8),
    "absolute_pair": ("absolute", 10, 1, 2, 10, [10, 2], [1, 1], [2], [], [2, 2], 8),
    "corner_of_class_1": ("absolute", 1, 2, 2, 1, [1, 0, 0, 0], [1, 1, 1, 1], [1, 0, 1], [1, 1], [0, 0, 0, 0], 1),
    "corner_of_class_2": ("absolute", 1, 2, 2, 1, [1, 0, 0, 0], [2, 1, 1, 1], [1, 0, 1], [1, 1], [1, 0, 0, 0], 2),
    "leaning_pair_of_classes_2_and_1": ("leaning", 10, 1, 2, 10, [10, 2], [2, 1], [4], [], [2, 2], 24),
}

# What has to stand, line for line, and in which file.
HELD = [
    ("src/lib.rt", "#[cfg(test)]\nmod worked_tiles;"),
    ("src/lib.rt", "pub fn worked_tiles_are_right()\n    ensures { WorkedTilesAreRight }"),
    ("specs/Cases.antt", "  pub lowest_cheapest : LowestCheapestGrid (posed c) (height c.heights)"),
    ("specs/Cases.antt", "  pub energy_of_it : energy (posed c) (height c.heights) ≡ c.energy"),
    ("src/running.rt", "        assert_eq!(rt; level.height(tile, at / columns, at % columns)?, *height);"),
    ("src/running.rt", "    assert_eq!(rt; level.cost(tile, rule)?, worked.energy);"),
]


def shapes():
    """The rows, columns and top of each shape that the statement names."""
    found = {}
    for path in (CASES / "specs/Worked.antt", ROOT / "crates/tile/specs/Examples.antt"):
        text = path.read_text(encoding="utf-8")
        for name, *sizes in re.findall(r"^(\w+) = record \{ rows = (\d+); columns = (\d+); top = (\d+);", text, re.M):
            found[name] = tuple(map(int, sizes))
    return found


def numbers(text):
    return [int(number) for number in re.findall(r"\d+", text)]


def proved():
    """The rows of the statement, by the names of its fields."""
    text = (CASES / "specs/Worked.antt").read_text(encoding="utf-8")
    _, found, body = text.partition("pub record WorkedTilesAreRight : Type 0 where\n")
    if not found:
        return {}
    sizes = shapes()
    field = re.compile(
        r"^  pub (\w+) : RightCase \(record \{ rule = (\w+) (\d+); shape = (\w+); readings = ([^;]*); classes = ([^;]*); "
        r"right = ([^;]*); down = ([^;]*); heights = ([^;]*); energy = (\d+) \}\)$",
        re.M,
    )
    rows = {}
    for name, rule, greatest, shape, *lists, energy in field.findall(body):
        rows[name] = (rule, int(greatest), *sizes.get(shape, (0, 0, 0)), *map(numbers, lists), int(energy))
    return rows


def run():
    """The functions with rows, each with the line above it and its rows."""
    text = (CASES / "src/worked_tiles.rt").read_text(encoding="utf-8")
    call = re.compile(
        r"check_worked\( &rt, &(\w+)::new\((\d+)\)\?, &Worked \{ rows: (\d+), columns: (\d+), top: (\d+), readings: &\[([^]]*)\], "
        r"classes: &\[([^]]*)\], right: &\[([^]]*)\], down: &\[([^]]*)\], heights: &\[([^]]*)\], energy: (\d+), \}, \)"
    )
    functions = []
    for above, name, body in re.findall(r"^([^\n]*)\nfn (\w+)(.*?)^\}$", text, re.M | re.S):
        found = [
            (rule.lower(), int(greatest), int(rows), int(columns), int(top), *map(numbers, lists), int(energy))
            for rule, greatest, rows, columns, top, *lists, energy in call.findall(" ".join(body.split()))
        ]
        if found:
            functions.append((above, name, found))
    return functions


def main():
    in_statement, functions = proved(), run()
    in_tests = [row for _, _, rows in functions for row in rows]
    faults = [f"{name}: has rows, and no #[test] right above it" for above, name, _ in functions if above != "#[test]"]
    for name, row in ROWS.items():
        if in_statement.get(name) != row:
            faults.append(f"{name}: the statement has {in_statement.get(name)}, and not {row}")
        if row not in in_tests:
            faults.append(f"{name}: no test runs {row}")
    for place, line in HELD:
        if f"\n{line}\n" not in (CASES / place).read_text(encoding="utf-8"):
            faults.append(f"{place}: this is missing: {line}")
    for fault in faults:
        print(fault, file=sys.stderr)
    if not faults:
        print(f"{len(ROWS)} worked tiles are proved and run")
    return 1 if faults else 0


if __name__ == "__main__":
    sys.exit(main())
