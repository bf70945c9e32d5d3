#!/usr/bin/env python3
"""Runs a replay of the first example over outputs that take little or fail: what they took is a first part of what the example prints.

usage: failing_writes.py PROGRAM ..      (it needs a C compiler; failing.c)

- Each write takes one byte, or three: the same output as ever, and status 0.
- Writes fail behind each number of bytes, from none up to one less than there are: just these bytes, the first of what the example prints, and status 1.
- Behind all of them: all, and status 0.
- A write takes nothing behind so many bytes, and later ones would take some: just these bytes, and status 1.
- Each write is interrupted sixteen times before it takes something: the same output as ever. Seventeen times: nothing, and status 1.

The last line is 'N passed, M failed': of runs."""
import os
import subprocess
import sys
import tempfile
from pathlib import Path

TOP = Path(__file__).resolve().parent.parent.parent


def run(program, library, **limits):
    """Returns the status and what the output took."""
    words = [program, "replay", TOP / "examples/errors.toml"]
    given = (TOP / "examples/error_span.script").read_bytes()
    done = subprocess.run(words, input=given, env={**os.environ, "LD_PRELOAD": library, **limits}, capture_output=True, timeout=600)
    return done.returncode, done.stdout


def main():
    expected = (TOP / "examples/error_span.expected").read_bytes()
    passed = failed = 0
    with tempfile.TemporaryDirectory() as work:
        library = f"{work}/failing.so"
        subprocess.run(["cc", "-shared", "-fPIC", "-O1", "-o", library, TOP / "tests/failing_writes/failing.c"], check=True)
        for program in sys.argv[1:]:
            cases = [("one byte a write", {"WRITE_AT_MOST": "1"}, (0, expected)), ("three bytes a write", {"WRITE_AT_MOST": "3"}, (0, expected))]
            for count in range(len(expected) + 1):
                wanted = (0 if count == len(expected) else 1, expected[:count])
                cases.append((f"fails behind {count} bytes", {"FAIL_AFTER": str(count)}, wanted))
                cases.append((f"fails behind {count} bytes, one a write", {"FAIL_AFTER": str(count), "WRITE_AT_MOST": "1"}, wanted))
            for count in range(0, len(expected), 7):
                cases.append((f"takes nothing behind {count} bytes", {"ZERO_AFTER": str(count)}, (1, expected[:count])))
            cases.append(("interrupted sixteen times", {"INTERRUPTS": "16"}, (0, expected)))
            cases.append(("interrupted seventeen times", {"INTERRUPTS": "17"}, (1, b"")))
            for name, limits, wanted in cases:
                found = run(program, library, **limits)
                passed, failed = passed + (found == wanted), failed + (found != wanted)
                if found != wanted:
                    print(f"{os.path.basename(program)} {name}: status {found[0]}, {len(found[1])} bytes")
    print(f"{passed} passed, {failed} failed")
    return 1 if failed or not passed else 0


if __name__ == "__main__":
    raise SystemExit(main())
