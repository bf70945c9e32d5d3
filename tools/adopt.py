#!/usr/bin/env python3
"""Takes over from other clones of the repository what they have proved of the files that stand here.

usage: adopt.py CLONE ..      (at the top of the repository)

Of each crate whose files, and those of the crates below it, are the same there and here: what `tools/prove.py` kept of its proof (crates/NAME/out/, by
hard links), where it isn't proved here, and its line of tests/edits.passed, where it is stale here. So several clones can be at work side by side.
It prints how many proofs and lines it took."""
import os
import shutil
import sys
from pathlib import Path

sys.path.insert(0, str(Path(__file__).resolve().parent.parent / "tests"))
import edits
from kept import crates_below, sum_of


def is_proved(top, name, wanted):
    """Whether a clone has proved a crate whose files have this sum."""
    stamp = top / f"crates/{name}/out/proved"
    return stamp.is_file() and stamp.read_text("utf-8") == wanted


def take_proofs(clone, below):
    """Takes the proofs of a clone, and returns how many."""
    taken = 0
    for name in below:
        wanted, there, here = sum_of(name, below[name]), clone / f"crates/{name}/out", Path(f"crates/{name}/out")
        if not is_proved(clone, name, wanted) or is_proved(Path(), name, wanted) and ((here / "rlib").is_dir() or not (there / "rlib").is_dir()):
            continue
        shutil.rmtree(here, ignore_errors=True)
        shutil.copytree(there, here, copy_function=os.link, ignore=shutil.ignore_patterns("room-*", "must-fail"))
        taken += 1
    return taken


def take_lines(clone, below):
    """Takes the lines of a clone's record of edits that are of the files here, and returns how many."""
    record, taken = edits.read_record(), 0
    theirs = clone / edits.RECORD  # the room in which the gate works has none
    for line in theirs.read_text("utf-8").splitlines() if theirs.is_file() else ():
        name, *fields = line.split()
        if name in below and record.get(name) != fields and fields[0] == edits.sum_of(name, below[name], edits.PARTS):
            record[name] = fields
            taken += 1
    edits.write_record(record)
    return taken


def main():
    os.chdir(Path(__file__).resolve().parent.parent)
    below = crates_below()
    for clone in (Path(it).resolve() for it in sys.argv[1:]):
        print(f"{clone}: {take_proofs(clone, below)} proofs, {take_lines(clone, below)} lines of the record")


if __name__ == "__main__":
    main()
