#!/usr/bin/env python3
"""Runs the built program `flatten` and compares what it prints, on which stream, and its status with what they have to be.

    tools/check_flatten.py [PROGRAM]

PROGRAM is crates/flatten/out/flatten if not given; `rt run` in crates/flatten builds it. Tried are a tile of 64 x 64 cells, a tile
of each number of rows, `--help`, arguments that are not understood or are no text, `--strict`, input that never ends, and reading
and writing that fail. The texts that are due come from reference_flatten.py. The exit status is 1 where something differs.
"""
import os
import random
import subprocess
import sys

import reference_flatten
from reference_flatten import Tile

ROOT = os.path.join(os.path.dirname(os.path.abspath(__file__)), "..")
LIMIT = 60  # seconds for a run
TOO_LARGE = "refused 14 2 5 2\n"  # a shape that has more cells than there are records


def program_path():
    path = sys.argv[1] if len(sys.argv) > 1 else os.path.join(ROOT, "crates/flatten/out/flatten")
    if not os.access(path, os.X_OK):
        sys.exit(f"there is no program {path}: `rt run` in crates/flatten builds it")
    return os.path.abspath(path)


class Checks:
    def __init__(self, program):
        self.program = program
        self.bad = 0

    def tell(self, name, wrong):
        print(f"{name}: {'; '.join(wrong) if wrong else 'as it has to be'}", flush=True)
        self.bad += bool(wrong)

    def run(self, arguments, stdin, stdout):
        whole = isinstance(stdin, bytes)
        try:
            return subprocess.run([self.program, *arguments], input=stdin if whole else None, stdin=None if whole else stdin,
                                  stdout=stdout, stderr=subprocess.PIPE, timeout=LIMIT)
        except subprocess.TimeoutExpired:
            return None

    def check(self, name, arguments, stdin, status, printed="", complained="", parts=(), stdout=subprocess.PIPE):
        """What is printed is the text `printed`, or has each of the parts; the line on standard error begins with `complained`."""
        ended = self.run(arguments, stdin, stdout)
        if ended is None:
            self.tell(name, [f"no end after {LIMIT} seconds"])
            return
        said = (ended.stdout or b"").decode(errors="replace")
        error = ended.stderr.decode(errors="replace")
        wrong = []
        if ended.returncode != status:
            wrong.append(f"status {ended.returncode}, not {status}")
        if parts:
            wrong += [f"'{part}' is not in what it prints" for part in parts if part not in said]
        elif said != printed:
            wrong.append(f"printed {said[:60]!r}, not {printed[:60]!r}")
        if not error.startswith(complained) or bool(error) != bool(complained):
            wrong.append(f"standard error {error[:60]!r}, not {complained!r}")
        self.tell(name, wrong)

    def check_endless(self, name, arguments, source, printed):
        """Standard input comes from a command that never ends."""
        with subprocess.Popen(["sh", "-c", source], stdout=subprocess.PIPE, stderr=subprocess.DEVNULL, cwd=ROOT) as command:
            self.check(name, arguments, command.stdout, 0, printed)
            command.stdout.close()
            command.kill()


def column(rng, rows):
    """A tile of so many rows in one column."""
    cells = [(rng.randint(0, 3), rng.randint(0, 15)) for _ in range(rows)]
    ties = [(0, rng.randint(0, 40) if row + 1 < rows else 0) for row in range(rows)]
    return Tile(rng.choice("AQL"), rows, 1, 3, cells, ties)


def check_files(checks):
    with open(os.path.join(ROOT, "samples/terrain.tile"), "rb") as file:
        terrain = file.read()
    grid = reference_flatten.text_of(terrain, 4096)
    small = reference_flatten.write_tile(column(random.Random(7), 5))
    small_grid = reference_flatten.text_of(small, 1024)
    for maker in "push", "paths":
        checks.check(f"64 x 64 cells by {maker}", ["--records", "4096", "--cut", maker], terrain, 0, grid)
    checks.check("more records than are ever used", ["--records=18446744073709551615"], terrain, 0, grid)
    checks.check("64 x 64 cells in 4095 records", ["--records", "4095"], terrain, 0, TOO_LARGE)
    checks.check("64 x 64 cells in 1024 records", [], terrain, 0, TOO_LARGE)
    checks.check("no file", [], b"", 0, "refused 11 1 0 0\n")
    checks.check("a byte too many", ["--records", "4096"], terrain + b"\0", 0, "refused 15 4 28687 0\n")
    checks.check("--strict on a good file", ["--strict"], small, 0, small_grid)
    checks.check("--strict on a refused file", ["--strict"], terrain, 3, TOO_LARGE)
    rng = random.Random(1)
    for rows in range(1, 65):
        file = reference_flatten.write_tile(column(rng, rows))
        checks.check(f"{rows} rows", [], file, 0, reference_flatten.text_of(file, 1024))


def check_arguments(checks):
    checks.check("--help", ["--help"], b"", 0, parts=[
        "lowest cheapest grid", "Usage: ", " [OPTIONS]", "--records <N>", "[default: 1024]", "--cut <MAKER>",
        "[possible values: paths, push]", "--strict", "Status: 0"])
    for argument, arguments, complained in [
        ("a value that is no number", ["--records", "x"], "error: invalid value 'x' for '--records <N>'"),
        ("a number below 0", ["--records=-1"], "error: invalid value '-1' for '--records <N>'"),
        ("no value", ["--records"], "error: a value is required for '--records <N>'"),
        ("no such maker", ["--cut", "knife"], "error: invalid value 'knife' for '--cut <MAKER>'"),
        ("no such argument", ["tile"], "error: unexpected argument 'tile' found"),
        ("an argument twice", ["--strict", "--strict"], "error: the argument '--strict' cannot be used multiple times"),
        ("an argument that is no text", [b"\xff"], "error: an argument is no text"),
    ]:
        checks.check(argument, arguments, b"", 2, complained=complained)


def check_streams(checks):
    checks.check_endless("zeros without end", [], "cat /dev/zero", "refused 12 1 0 0\n")
    checks.check_endless("lines without end", [], "yes", "refused 12 1 0 0\n")
    checks.check_endless("a good file, and lines without end", ["--records", "4096"], "cat samples/terrain.tile; yes", "refused 15 4 28687 0\n")
    folder = os.open(ROOT, os.O_RDONLY)
    checks.check("standard input that cannot be read", [], folder, 1, complained="Error: ")
    os.close(folder)
    with open("/dev/full", "wb") as full:
        checks.check("standard output that cannot be written", [], b"", 1, complained="Error: ", stdout=full)


def main():
    checks = Checks(program_path())
    check_arguments(checks)
    check_streams(checks)
    check_files(checks)
    print("all is well" if checks.bad == 0 else f"differences: {checks.bad}")
    sys.exit(1 if checks.bad else 0)


if __name__ == "__main__":
    main()
