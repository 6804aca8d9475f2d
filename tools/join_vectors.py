#!/usr/bin/env python3
"""The text that the program `vectors` has to print for a folder of tile files.

    tools/join_vectors.py [FOLDER] > crates/vectors/stdout

FOLDER (crates/vectors/data if not given) holds the files 001.tile, 002.tile and so on. Where NNN.want lies beside NNN.tile, it
is the text for the file with 1024 records; else the text is what reference_flatten.py comes to. After all files come, once
more and with 4096 records, those whose shape is too large for 1024, by the reference alone.
"""
import os
import sys

from reference_flatten import text_of

RECORDS, MORE_RECORDS = 1024, 4096
TOO_LARGE = "refused 14 2 5 2\n"


def file(folder, name):
    with open(os.path.join(folder, name + ".tile"), "rb") as it:
        return it.read()


def wanted(folder, name):
    beside = os.path.join(folder, name + ".want")
    if not os.path.exists(beside):
        return text_of(file(folder, name), RECORDS)
    with open(beside) as it:
        return it.read()


def main():
    if len(sys.argv) > 2:
        sys.exit("usage: join_vectors.py [FOLDER] > STDOUT")
    top = os.path.dirname(os.path.dirname(os.path.abspath(__file__)))
    folder = sys.argv[1] if len(sys.argv) == 2 else os.path.join(top, "crates", "vectors", "data")
    names = sorted(it[:-5] for it in os.listdir(folder) if it.endswith(".tile"))
    texts = {name: wanted(folder, name) for name in names}
    for name, text in texts.items():
        sys.stdout.write(f"{name}\n{text}")
    for name in names:
        if texts[name] == TOO_LARGE:
            sys.stdout.write(f"{name} with {MORE_RECORDS} records\n{text_of(file(folder, name), MORE_RECORDS)}")


if __name__ == "__main__":
    main()
