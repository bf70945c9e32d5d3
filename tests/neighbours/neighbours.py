#!/usr/bin/env python3
"""Runs `tsc serve` among programs that nobody here wrote, as the recipes of examples/neighbours have them, and compares what went in with what came out.

usage: neighbours.py PROGRAM FOLDER [CHECK..]      (tests/neighbours.sh gives these; all checks, or those that are named)"""

import json
import os
import subprocess
import sys
import tempfile
from pathlib import Path

import applications
import days
import encoded
import figures
import kills
import proxies
from running import Failure, Here


def main():
    passed = failed = 0
    named = sys.argv[3:]
    for check in proxies.CHECKS + applications.CHECKS + encoded.CHECKS + days.CHECKS + figures.CHECKS + kills.CHECKS:
        if named and check.__name__ not in named:
            continue
        with tempfile.TemporaryDirectory() as folder:
            os.chmod(folder, 0o755)
            here = Here(*sys.argv[1:3], Path(folder))
            try:
                check(here)
                passed += 1
                print(f"ok {check.__name__}", flush=True)
            except (Failure, OSError, ValueError, json.JSONDecodeError, subprocess.SubprocessError) as problem:
                failed += 1
                print(f"FAILED {check.__name__}: {problem}", flush=True)
            finally:
                here.stop()
    print(f"{passed} passed, {failed} failed")
    return 1 if failed else 0


if __name__ == "__main__":
    raise SystemExit(main())
