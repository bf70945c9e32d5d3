#!/usr/bin/env python3
"""Compares which texts random regular expressions match with what Python's `re` says of them.

    tests/expressions.py PROGRAM [ROUNDS [SEED]]

A round is one replay: 60 policies with an expression each, and for each of them 40 texts, each the attribute of a trace of its own. Expressions are of what
both dialects write alike, but that Python's end of a text is `\\Z`. It prints each difference; the last line is 'N texts compared, M told otherwise'."""
import json
import random
import re
import subprocess
import sys
import tempfile
from pathlib import Path

POLICIES, TEXTS = 60, 40
LETTERS = "abcAB01_- /.\n\u00e9\u00df\u0416"
CLASSES = ["[a-c]", "[^a-c]", "[0-9_]", "[^/]", "[\u00e9\u0416]", r"\d", r"\w", r"\s", r"\D", r"\W", r"\S", "[A-Ba]", r"[\d.]", r"[^\w-]"]
COUNTS = ["*", "+", "?", "{2}", "{1,}", "{0,2}", "{2,3}", "*?", "+?", "??", "{1,2}?"]


def piece(chance, depth):
    """A part of an expression, as both write it: a pair of texts."""
    kind = chance.random()
    if depth and kind < 0.2:
        inner = branches(chance, depth - 1)
        opening = chance.choice(["(", "(?:", "(?i:", "(?s:"])
        return tuple(f"{opening}{text})" for text in inner)
    if depth and kind < 0.4:
        inner, count = branches(chance, depth - 1), chance.choice(COUNTS)
        return tuple(f"(?:{text}){count}" for text in inner)
    if kind < 0.5:
        return (r"\b", r"\b") if chance.random() < 0.5 else (r"\B", r"\B")
    if kind < 0.58:
        return "^", r"\A"
    if kind < 0.66:
        return "$", r"\Z"
    if kind < 0.8:
        count = chance.choice(COUNTS + ["", "", ""])
        one = chance.choice(CLASSES + ["."]) + count
        return one, one
    one = re.escape(chance.choice(LETTERS.replace("\n", "")))
    return one.replace("\\ ", " ").replace("\\/", "/"), one


def branches(chance, depth):
    """One to three branches of up to four parts."""
    both = [[piece(chance, depth) for _ in range(chance.randint(0, 4))] for _ in range(chance.choice([1, 1, 2, 3]))]
    return tuple("|".join("".join(part[side] for part in branch) for branch in both) for side in (0, 1))


def text_of(chance):
    """A short text."""
    return "".join(chance.choice(LETTERS) for _ in range(chance.randint(0, 10)))


def replay(program, folder, expressions, texts):
    """The numbers of the traces that are kept: text t under expression e is trace 1 + e * TEXTS + t."""
    tables = [f"""[[policies]]\nname = "{n}"\ntype = "string_attribute"\nstring_attribute = {{ key = "k{n}", enabled_regex_matching = true, values = ['{it}'] }}\n""" for n, it in enumerate(expressions)]
    (folder / "config.toml").write_text("queue_capacity = 65536\nnum_traces = 100000\n" + "".join(tables), "utf-8")
    spans = []
    for trace, (number, text) in enumerate(((n, text) for n in range(len(expressions)) for text in texts[n]), 1):
        attributes = [{"key": f"k{number}", "value": {"stringValue": text}}]
        spans.append({"traceId": f"{trace:032x}", "spanId": f"{1:016x}", "attributes": attributes})
    body = json.dumps({"resourceSpans": [{"scopeSpans": [{"spans": spans}]}]})
    done = subprocess.run([program, "replay", folder / "config.toml"], input=f"recv 1 0 {body}\nclose\n", capture_output=True, text=True, check=True)
    lines = [json.loads(line) for line in done.stdout.splitlines() if line.startswith("{")]
    return {int(span["traceId"], 16) for line in lines for of in line["resourceSpans"] for scope in of["scopeSpans"] for span in scope["spans"]}


def main():
    program, rounds, seed = sys.argv[1], int(sys.argv[2]) if len(sys.argv) > 2 else 20, int(sys.argv[3]) if len(sys.argv) > 3 else 1
    compared = otherwise = 0
    with tempfile.TemporaryDirectory() as folder:
        for number in range(rounds):
            chance = random.Random(seed * 1000 + number)
            pairs = [branches(chance, 2) for _ in range(POLICIES)]
            texts = [[text_of(chance) for _ in range(TEXTS)] for _ in pairs]
            kept = replay(program, Path(folder), [ours for ours, _ in pairs], texts)
            for place, (ours, python) in enumerate(pairs):
                for at, text in enumerate(texts[place]):
                    if not text and r"\B" in ours:
                        continue  # Python's \B doesn't match there
                    compared += 1
                    if (re.search(python, text) is not None) != (1 + place * TEXTS + at in kept):
                        otherwise += 1
                        print(f"{ours!r} on {text!r}: Python says {re.search(python, text) is not None}")
    print(f"{compared} texts compared, {otherwise} told otherwise")
    sys.exit(otherwise > 0)


if __name__ == "__main__":
    main()
