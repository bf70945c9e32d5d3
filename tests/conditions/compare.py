#!/usr/bin/env python3
"""Compares what a program says of random conditions with what the second implementation here says. It is no part of the gate.

usage: compare.py PROGRAM COUNT [SEED] [--narrow]      PROGRAM is crates/ottl_cases/out/ottl_cases (cd crates/ottl_cases && rt run)

A pair is a condition and a request, of whose first span, or of that span's first event, it is asked. Most conditions ask for what the request has;
with --narrow all are of kinds where a difference is likely (narrow.py). The answers are true, false, error and fault; the names of errors and faults
and the columns of faults aren't compared. A pair with a pattern that isn't read here (patterns.py) is left out.
It prints a line for each kind of pairs, and the first differences; the last line is 'N compared, M differ'."""
import argparse
import collections
import random
import subprocess
import sys
import tempfile

sys.dont_write_bytecode = True

from making import narrow_pair, pair  # noqa: E402
from meaning import answer  # noqa: E402

SHOWN = 50


def pairs(draw, count, narrow):
    """So many pairs: what kind they are of, the line that asks the program, and what is answered here; and how many were left out."""
    out, left_out = [], 0
    while len(out) < count:
        text, request, kind = narrow_pair(draw, len(out)) if narrow else pair(draw)
        event = kind is True
        ours = answer(text, request, event)
        if ours[0] == "unsure":
            left_out += 1
            continue
        of = kind if narrow else "event" if event else "span"
        out.append((of, ("spanevent\t" if event else "") + text + "\t" + request, ours))
    return out, left_out


def asked(program, lines):
    """What the program prints of these lines, a line for each."""
    with tempfile.TemporaryFile() as given:
        given.write("".join(line + "\n" for line in lines).encode("utf-8"))
        given.seek(0)
        done = subprocess.run([program], stdin=given, stdout=subprocess.PIPE, check=True)
    printed = done.stdout.decode("utf-8").split("\n")
    if len(printed) != len(lines) + 1 or printed[-1]:
        raise SystemExit(f"{len(printed) - 1} lines for {len(lines)} cases")
    return printed[:-1]


def kind_of(printed):
    """What the program says: of a text that is no pattern it prints a line of its own."""
    return "fault" if printed.startswith("no expression") else printed.split(" ")[0]


def main():
    words = argparse.ArgumentParser(usage=__doc__.split("\n\n")[1].replace("usage: ", ""))
    words.add_argument("program")
    words.add_argument("count", type=int)
    words.add_argument("seed", type=int, nargs="?", default=1)
    words.add_argument("--narrow", action="store_true")
    words = words.parse_args()
    made, left_out = pairs(random.Random(words.seed), words.count, words.narrow)
    kinds, differ = collections.defaultdict(collections.Counter), 0
    for (of, line, ours), printed in zip(made, asked(words.program, [line for _, line, _ in made])):
        theirs = kind_of(printed)
        kinds[of][theirs if theirs == ours[0] else f"{theirs} where {ours[0]} is answered here"] += 1
        if theirs != ours[0]:
            differ += 1
            if differ <= SHOWN:
                print(f"{line}\n  here: {' '.join(ours)}\n  program: {printed}")
    for of, answers in sorted(kinds.items()):
        print(f"{of}: {sum(answers.values())} pairs, " + ", ".join(f"{count} {kind}" for kind, count in sorted(answers.items())))
    print(f"seed {words.seed}, {left_out} pairs left out for a pattern that isn't read here")
    print(f"{len(made)} compared, {differ} differ")
    return 1 if differ else 0


if __name__ == "__main__":
    raise SystemExit(main())
