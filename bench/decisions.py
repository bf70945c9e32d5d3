#!/usr/bin/env python3
"""Counts the instructions of `tsc serve` for a span without and with the lines of decisions, by valgrind: decisions.py PROGRAM [SPANS]

Requests as in bench/encodings.py, of 100 spans in traces of ten each, one lane and one shard; a run with SPANS (10,000 unless said) and one with twice as
many are compared. No part of the gate; the program must be the proved one, since one of `rt try` checks as it runs."""

import importlib.util
import sys
import tempfile
from pathlib import Path

# By its path, since a module of Python's own has this name.
SPEC = importlib.util.spec_from_file_location("by_encoding", Path(__file__).resolve().parent / "encodings.py")
by_encoding = importlib.util.module_from_spec(SPEC)
SPEC.loader.exec_module(by_encoding)


def main():
    """Prints a line without and one with lines of decisions, for each share that is kept."""
    program, spans = sys.argv[1], int(sys.argv[2]) if len(sys.argv) > 2 else 10_000
    made = [by_encoding.requests(spans), by_encoding.requests(2 * spans)]
    for name in ("errors.toml", "all.toml"):
        policies, found = (by_encoding.HERE / name).read_text("utf-8"), []
        for is_told in (False, True):
            runs = []
            for texts in made:
                with tempfile.TemporaryDirectory() as folder:
                    path = Path(folder) / "decisions.jsonl"
                    settings = f'decisions = "{path}"\n{policies}' if is_told else policies
                    runs.append(by_encoding.counted(program, settings, "json", [it.encode() for it in texts])[0])
                    lines = path.read_text("utf-8").count("\n") if is_told else 0
            found.append((runs[1] - runs[0]) / spans)
        print(f"{name}: {found[0]:.0f} instructions a span, and {found[1]:.0f} with {lines} lines of decisions for {2 * spans} spans: {(found[1] / found[0] - 1) * 100:.1f} % more", flush=True)


if __name__ == "__main__":
    main()
