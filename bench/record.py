#!/usr/bin/env python3
"""Counts the instructions of `tsc serve` for a span without and with a record of what came, by valgrind: record.py PROGRAM [SPANS]

Requests as in bench/encodings.py, of 100 spans each, in JSON and in protobuf, one lane and one shard; a run with SPANS (10,000 unless said) and one with twice
as many are compared. No part of the gate; the program must be the proved one, since one of `rt try` checks as it runs."""

import importlib.util
import json
import sys
import tempfile
from pathlib import Path

# By its path, since a module of Python's own has this name.
SPEC = importlib.util.spec_from_file_location("by_encoding", Path(__file__).resolve().parent / "encodings.py")
by_encoding = importlib.util.module_from_spec(SPEC)
SPEC.loader.exec_module(by_encoding)


def bodies_of(texts, encoding):
    """The bodies of requests in an encoding."""
    return [it.encode() if encoding == "json" else by_encoding.request_of(json.loads(it)) for it in texts]


def main():
    """Prints a line for each encoding and each share that is kept."""
    program, spans = sys.argv[1], int(sys.argv[2]) if len(sys.argv) > 2 else 10_000
    made = [by_encoding.requests(spans), by_encoding.requests(2 * spans)]
    for name in ("errors.toml", "all.toml"):
        policies = (by_encoding.HERE / name).read_text("utf-8")
        for encoding in by_encoding.MEDIA:
            found = []
            for is_kept in (False, True):
                runs = []
                for texts in made:
                    with tempfile.TemporaryDirectory() as folder:
                        path = Path(folder) / "came.txt"
                        settings = f'record = "{path}"\n{policies}' if is_kept else policies
                        runs.append(by_encoding.counted(program, settings, encoding, bodies_of(texts, encoding))[0])
                        lines = path.read_text("utf-8").count("\nrecv ") + 1 if is_kept else 0
                found.append((runs[1] - runs[0]) / spans)
            assert lines == len(made[1]), (lines, len(made[1]))
            print(f"{name} {encoding}: {found[0]:.0f} instructions a span, and {found[1]:.0f} with a record: {(found[1] / found[0] - 1) * 100:.1f} % more", flush=True)


if __name__ == "__main__":
    main()
