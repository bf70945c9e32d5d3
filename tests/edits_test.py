#!/usr/bin/env python3
"""Runs tests/edits.py on a repository of two small crates made here, and compares what it says of each edit, its status and its record:
an edit that is refused passes; one that isn't refused, that cannot be applied, that the prover cannot read, or whose crate isn't proved fails;
and a record is stale once a file of the crate, or of one below it, has changed. The last line is 'N passed, M failed'."""
import os
import subprocess
import sys
import tempfile
from pathlib import Path

TOOL = Path(__file__).resolve().parent / "edits.py"
LOW = """//! Two functions: of one it is said what it gives.
#![tactic(auto)]

ghost use Rattle.std.specs.Prelude.{◌≡◌};

pub fn said(x: usize) -> usize
    ensures same { result ≡ x }
{
    let found = x;
    found
}

pub fn unsaid(x: usize) -> usize {
    let other = x;
    other
}
"""
OPEN = LOW.replace("result ≡ x", "result ≡ 7")
EDIT = "file: src/lib.rt\nold: {}\nnew: {}\n"
CRATES = {
    "low": (LOW, {"refused": ("let found = x;", "let found = 3;")}),
    "upper": (
        LOW,
        {
            "refused": ("let found = x;", "let found = 3;"),
            "let_through": ("let other = x;", "let other = 3;"),
            "text_nowhere": ("let another = x;", "let another = 3;"),
            "unreadable": ("let found = x;", "let found = no_such_name;"),
        },
    ),
    "open": (OPEN, {"crate_is_open": ("let other = x;", "let other = 3;")}),
}
WANTED = {
    "low/refused.edit": "refused: ",
    "upper/refused.edit": "refused: ",
    "upper/let_through.edit": "NOT REFUSED",
    "upper/text_nowhere.edit": "BAD EDIT: an 'old:' text is in src/lib.rt 0 times",
    "upper/unreadable.edit": "BAD EDIT: the prover cannot read it",
    "open/crate_is_open.edit": "BAD CRATE",
}


def write(path, text):
    path.parent.mkdir(parents=True, exist_ok=True)
    path.write_text(text, "utf-8")


def lay_out(top):
    """Writes the repository of the test."""
    write(top / "crates.txt", "low:\nupper: low\nopen:\n")
    write(top / "HANDLES", "Handles allowed: none.\n")
    (top / "tests").mkdir()
    for name, (code, edits) in CRATES.items():
        write(top / f"crates/{name}/src/lib.rt", code)
        for edit, (old, new) in edits.items():
            write(top / f"crates/{name}/must-fail/{edit}.edit", EDIT.format(old, new))


def edits(top, *words):
    """Runs the tool, and returns its status and its lines."""
    ran = subprocess.run([sys.executable, TOOL, *words], cwd=top, stdout=subprocess.PIPE, stderr=subprocess.STDOUT, text=True)
    return ran.returncode, ran.stdout.rstrip("\n").split("\n")


def recorded(top):
    return {it.split()[0] for it in (top / "tests/edits.passed").read_text("utf-8").split("\n") if it and it[0] != "#"}


def checks(top):
    """Yields what is looked at, and whether it is so."""
    status, lines = edits(top, "--jobs", "3")
    told = dict(it.split(": ", 1) for it in lines if ".edit: " in it)
    for name, words in WANTED.items():
        yield f"{name} is told as '{words}' (and not as {told.get(name)!r})", told.get(name, "").startswith(words)
    yield "nothing else is told", set(told) == set(WANTED)
    yield "status 1 and the count", status == 1 and lines[-1] == "2 passed, 4 failed"
    yield "the record has just the crate all of whose edits are refused", recorded(top) == {"low"}
    yield "its line is told as good, the others as stale", edits(top, "--stale")[1][-1] == "1 passed, 2 failed"
    for name in ("let_through", "text_nowhere", "unreadable"):
        os.remove(top / f"crates/upper/must-fail/{name}.edit")
    status, lines = edits(top, "upper")
    yield "with the bad edits gone its crate passes", status == 0 and lines[-1] == "1 passed, 0 failed" and recorded(top) == {"low", "upper"}
    write(top / "crates/low/src/lib.rt", LOW + "\n// A comment.\n")
    status, lines = edits(top, "--stale")
    yield "a change makes its crate's line stale, and those above", status == 1 and [it.split("'")[0].split()[-1] for it in lines[:-1]] == ["low", "upper", "open"]
    _, lines = edits(top, "--minutes", "0", "--changed")
    yield "without time none is tried, and that is told", {it.split(":")[0] for it in lines if "the time was over when 0 of" in it} == {"low", "upper"}
    yield "and its line of the record stays", recorded(top) == {"low", "upper"}


def main():
    failed = passed = 0
    with tempfile.TemporaryDirectory() as top:
        lay_out(Path(top))
        for what, is_so in checks(Path(top)):
            passed, failed = passed + is_so, failed + (not is_so)
            if not is_so:
                print(f"tests/edits_test.py: not so: {what}")
    print(f"{passed} passed, {failed} failed")
    return 1 if failed else 0


if __name__ == "__main__":
    raise SystemExit(main())
