#!/usr/bin/env python3
"""Checks that include/yolanthuk.h declares what crates/host exports, and lays its structs out as the crates do.

Compares, as text, the exported functions with their parameters and answers, and the fields of each struct with their types and order.
Prints what differs, and ends with status 1 if anything does.
"""
import re
import sys
from pathlib import Path

TOP = Path(__file__).resolve().parent.parent

# The struct of the header, and the one in Rust.
STRUCTS = {
    "yolanthuk_cell": ("crates/tile/src/cell.rt", "Cell"),
    "yolanthuk_shape": ("crates/host/src/shapes.rt", "ShapeNumbers"),
    "yolanthuk_solution": ("crates/report/src/solving.rt", "Solution"),
    "yolanthuk_fault": ("crates/host/src/fault.rt", "FaultNumbers"),
}
NAMES = {rust: c for c, (_, rust) in STRUCTS.items()}
NUMBERS = {"u8": "uint8_t", "u16": "uint16_t", "u64": "uint64_t", "i32": "int32_t", "usize": "size_t"}


def in_c(kind):
    """The types of C by which a parameter of this Rust type is passed."""
    lent = re.fullmatch(r"&(mut )?(\[)?(\w+)\]?", kind)
    if not lent:
        return [NUMBERS[kind]]
    pointer = ("" if lent[1] else "const ") + (NUMBERS.get(lent[3]) or NAMES[lent[3]]) + " *"
    return [pointer, "size_t"] if lent[2] else [pointer]


def split(parameter):
    """The type of a declared parameter."""
    return re.sub(r"\w+$", "", " ".join(parameter.split())).strip()


def declared(header):
    return {
        name: (answer, [split(parameter) for parameter in parameters.split(",")])
        for answer, name, parameters in re.findall(r"^(\w+) (yolanthuk_\w+)\(([^)]*)\);", header, re.M)
    }


def exported():
    found = {}
    for path in (TOP / "crates/host/src").glob("**/*.rt"):
        for name, parameters, answer in re.findall(r'extern "C" fn (\w+)\(([^)]*)\) -> (\w+)', path.read_text()):
            kinds = [parameter.split(":", 1)[1].strip() for parameter in parameters.split(",") if parameter.strip()]
            found[name] = (NUMBERS[answer], [c for kind in kinds for c in in_c(kind)])
    return found


def fields_in_c(header, name):
    body = re.search(rf"typedef struct {name} \{{(.*?)\}} {name};", header, re.S)[1]
    body = re.sub(r"/\*.*?\*/", "", body, flags=re.S)
    return [(field.rstrip("_"), kind) for kind, field in re.findall(r"(\w+) (\w+);", body)]


def fields_in_rust(path, name):
    text = (TOP / path).read_text()
    head, body = re.search(rf"((?:#\[[^\n]*\]\n)*)pub struct {name} \{{(.*?)^\}}", text, re.M | re.S).groups()
    fields = [(field, NUMBERS[kind]) for field, kind in re.findall(r"^    pub (\w+): (\w+),", body, re.M)]
    return fields if "#[repr(C)]" in head else []


def main():
    header = (TOP / "include/yolanthuk.h").read_text()
    pairs = {name: (fields_in_c(header, name), fields_in_rust(*rust)) for name, rust in STRUCTS.items()}
    in_header, in_crate = declared(header), exported()
    for name in sorted(in_header | in_crate):
        pairs[name] = (in_header.get(name), in_crate.get(name))
    faults = [f"{name}: the header has {c}, and the crates {rust}" for name, (c, rust) in pairs.items() if c != rust]
    for fault in faults:
        print(fault, file=sys.stderr)
    if not faults:
        print(f"the header declares {len(in_crate)} functions and {len(STRUCTS)} structs as the crates have them")
    return 1 if faults else 0


if __name__ == "__main__":
    sys.exit(main())
