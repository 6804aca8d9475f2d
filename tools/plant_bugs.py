#!/usr/bin/env python3
"""Plants bugs in a copy of the crates, and says which the proofs, the tests or the programs' output catch.

usage: tools/plant_bugs.py [CRATE ...]

tools/bugs/CRATE.txt lists the bugs of a crate. A bug is a paragraph of lines `key: text`:

    bug: what is wrong
    check: NAME             optional: the crate whose check is to catch it; else the crate itself
    free: why               optional: no contract is to exclude it, since it changes time alone
    file: src/lib.rt        the file that the lines below edit
    old: TEXT               stands once in that file
    new: TEXT               what stands there instead

A function is proved from its own body and the contracts of what it calls, so bugs in different functions are planted together; one
that stands in no function, as in a constant, and one that nothing is said of, is planted alone.

Prints a line for each bug: `proof` where its function no longer meets its contract, `proof file` where besides a proof no longer
fits the text, `test` where all proofs pass, and a test of the crate fails or its program prints something else, `passed` where
nothing does, or `free` if it may pass, `bad` where the edit does not fit or does not compile. Ends with status 1 if a bug is passed or bad.
"""

import pathlib
import re
import shutil
import subprocess
import sys
import tempfile

HERE = pathlib.Path(__file__).resolve().parent
TOP = HERE.parent

# A place that the checker names: folder, file, line, and what is said there.
PLACE = re.compile(r"^(?:note: )?(?:\./)?((?:src|proofs|specs)/\S*\.(?:rt|antt)):(\d+):\d+: (.*)", re.M)

# So many bugs are planted together at least; fewer are planted alone.
TOGETHER = 4

# The head of an `impl` or a trait, with its type or name; and that of a function, with its indent and name.
OWNER = re.compile(r"^(?:pub )?(?:impl|trait)\b(?:<.*?>)? ?(?:\w+ for )?(\w+)")
FUNCTION = re.compile(r"^( *)(?:pub(?:\(crate\))? )?(?:const )?(?:extern \"C\" )?fn (\w+)")


def bugs_of(crate):
    """The bugs of a crate: name, crate to check, and edits (file, old, new)."""
    bugs = []
    for block in (HERE / "bugs" / f"{crate}.txt").read_text().split("\n\n"):
        bug = {"check": crate, "edits": []}
        file = None
        for line in filter(None, block.splitlines()):
            key, text = line.split(": ", 1)
            if key in ("bug", "check", "free"):
                bug[key] = text
            elif key == "file":
                file = text
            elif key == "old":
                bug["edits"].append([file, text, None])
            elif key == "new":
                bug["edits"][-1][2] = text
            else:
                sys.exit(f"{crate}: no key {key!r}")
        bugs.append(bug)
    return bugs


def functions_of(text):
    """The functions of a file: type or trait that a function belongs to, or none; name; first line and last line."""
    found, open_ones, owner = [], [], ""
    for number, line in enumerate(text.splitlines(), 1):
        block = OWNER.match(line)
        if block:
            owner = block[1]
        elif line == "}":
            owner = ""
        head = FUNCTION.match(line)
        if head:
            open_ones.append((owner if head[1] else "", head[2], number, head[1]))
        # A body that is not `{}` closes at the indent of its head.
        while open_ones and (line == open_ones[-1][3] + "}" or line == open_ones[-1][3] + "{}"):
            *which, _ = open_ones.pop()
            found.append((*which, number))
    return found


def place_in(folder, bug):
    """The functions that a bug edits, as (file, owner, name, first line, last line); None where an edit stands in none."""
    places = set()
    for file, old, _ in bug["edits"]:
        text = (folder / file).read_text()
        line = text[: text.find(old)].count("\n") + 1
        within = [it for it in functions_of(text) if it[2] <= line <= it[3]]
        if not within:
            return None
        places.add((file, *min(within, key=lambda it: it[3] - it[2])))
    return places


def edited(folder, bugs):
    """The texts of the files with these bugs; None where an edit does not fit."""
    texts = {}
    for bug in bugs:
        for file, old, new in bug["edits"]:
            text = texts.get(file) or (folder / file).read_text()
            if text.count(old) != 1:
                return None
            texts[file] = text.replace(old, new)
    return texts


def batches_of(folder, bugs):
    """Parts the bugs into lists that are planted together, no two in one function."""
    batches = []
    for bug in bugs:
        own = bug["check"] == folder.name and edited(folder, [bug]) is not None
        bug["places"] = place_in(folder, bug) if own else None
        fit = None
        for batch in batches:
            taken = set().union(*(it["places"] or {None} for it in batch))
            if bug["places"] and None not in taken and not taken & bug["places"] and edited(folder, [*batch, bug]) is not None:
                fit = batch
                break
        if fit is None:
            batches.append([bug])
        else:
            fit.append(bug)
    return batches


def run(words, folder, stdin=subprocess.DEVNULL, errors=subprocess.STDOUT):
    done = subprocess.run(words, cwd=folder, stdin=stdin, stdout=subprocess.PIPE, stderr=errors, text=True)
    return done.returncode, done.stdout


def with_bugs(folder, texts, work):
    """Does the work while the crate's files have these texts."""
    kept = {file: (folder / file).read_text() for file in texts}
    for file, text in texts.items():
        (folder / file).write_text(text)
    try:
        return work()
    finally:
        for file, text in kept.items():
            (folder / file).write_text(text)


def word_of(bug, said):
    """The word for a bug by what a check said of its functions, and the line."""
    in_src, in_proofs = [], []
    for file, line, text in PLACE.findall(said):
        for source, owner, name, first, last in bug["places"] or ():
            if file == source and first <= int(line) <= last:
                in_src.append(f"{file}:{line}: {text}")
            parent = f"{owner}\\w*" if owner else pathlib.Path(source).stem
            if re.search(rf"^proofs/(.*/)?{parent}/{name}/", file) and "error" in text:
                in_proofs.append(f"{file}:{line}: {text}")
    if in_proofs:
        return "proof file", in_proofs[0]
    if in_src:
        # A broken `ensures` tells more than a sum that may be too large.
        first = next((it for it in in_src if "what the function ensures" in it), in_src[0])
        return "bad" if "error[" in first else "proof", first
    return None


def printed_as_told(folder):
    """Does the crate's program, if it is one, print what it is to print?"""
    if not (folder / "stdout").exists():
        return True
    words = (folder / "args").read_text().split() if (folder / "args").exists() else []
    with open(folder / "stdin" if (folder / "stdin").exists() else "/dev/null", encoding="utf-8") as stdin:
        _, said = run(["rt", "run", *(["--", *words] if words else [])], folder, stdin, subprocess.DEVNULL)
    return said == (folder / "stdout").read_text()


def tests_of(folder):
    """Runs the crate's tests, if it has any: the status, and what was said."""
    any_tests = any("#[test]" in path.read_text() for path in (folder / "src").rglob("*.rt"))
    return run(["rt", "try", "--test"], folder) if any_tests else (0, "")


def only(folder, place):
    """A check of one function alone: by its short name, or by its whole one, where several functions have the short one."""
    file, owner, name, _, _ = place
    status, said = run(["rt", "check", "--only", name], folder)
    if "several functions are named" in said:
        # The methods of an `impl` of a trait go by the type's name and the trait's, written together.
        within = owner or pathlib.Path(file).stem
        named = [it.split("::") for it in re.findall(r"`([\w:]+)`", said)]
        whole = [path for path in named if len(path) > 1 and path[-1] == name and path[-2].startswith(within)]
        status, said = run(["rt", "check", *(["--only", "::".join(whole[0])] if whole else [])], folder)
    # A function of the tests alone is not proved: they judge it.
    return (0, "") if "has no function" in said else (status, said)


def alone(folder, checked, bug):
    """The word for a bug that is planted alone, and what was said."""
    # Where one function is edited, its callers are proved by its contract, and need no check.
    one = bug["check"] == folder.name and len(bug["places"] or ()) == 1
    status, said = only(checked, *bug["places"]) if one else run(["rt", "check"], checked)
    if status != 0:
        places = [f"{file}:{line}: {text}" for file, line, text in PLACE.findall(said)]
        first = next((it for it in places if "error[" in it), None)
        if first or not places:
            return "bad", first or said[-150:]
        wrong = [it for it in places if it.startswith("proofs/") and " error" in it]
        if wrong:
            return "proof file", wrong[0]
        return "proof", next((it for it in places if it.startswith("src/")), places[0])
    status, said = tests_of(checked)
    if status != 0:
        return ("bad", said[-150:]) if "error[" in said else ("test", "a test fails")
    return ("passed", "") if printed_as_told(checked) else ("test", "prints something else")


def judge(crates, crate, batch):
    """The words for bugs that are planted together, and what was said of each."""
    folder = crates / crate
    texts = edited(folder, batch)
    if texts is None:
        return [("bad", "the text to edit does not stand there once")]
    if len(batch) >= TOGETHER:
        _, said = with_bugs(folder, texts, lambda: run(["rt", "check", "--allow-holes"], folder))
        words = [word_of(bug, said) for bug in batch]
    else:
        words = [None] * len(batch)
    for at, bug in enumerate(batch):
        if words[at] is None or words[at][0] == "bad":
            one = edited(folder, [bug])
            words[at] = with_bugs(folder, one, lambda bug=bug: alone(folder, crates / bug["check"], bug))
    return words


def plant(crates, crate):
    """Plants the bugs of one crate; answers how many got each word."""
    counts = {}
    bugs = bugs_of(crate)
    for batch in batches_of(crates / crate, bugs):
        for bug, (word, said) in zip(batch, judge(crates, crate, batch)):
            word = "free" if word == "passed" and "free" in bug else word
            counts[word] = counts.get(word, 0) + 1
            print(f"{crate}: {word}: {bug['bug']}   [{said[:170]}]", flush=True)
    print(f"{crate}: {len(bugs)} planted: " + ", ".join(f"{n} {word}" for word, n in sorted(counts.items())), flush=True)
    return counts


def main():
    if any(word.startswith("-") for word in sys.argv[1:]):
        sys.exit(__doc__)
    names = sys.argv[1:] or sorted(path.stem for path in (HERE / "bugs").glob("*.txt"))
    missed = 0
    with tempfile.TemporaryDirectory() as folder:
        copy = pathlib.Path(folder)
        shutil.copytree(TOP / "crates", copy / "crates", symlinks=True)
        for name in ("crates.txt", "HANDLES"):
            if (TOP / name).exists():
                shutil.copy(TOP / name, copy)
        for name in names:
            counts = plant(copy / "crates", name)
            missed += counts.get("passed", 0) + counts.get("bad", 0)
    sys.exit(1 if missed else 0)


if __name__ == "__main__":
    main()
