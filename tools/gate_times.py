#!/usr/bin/env python3
"""Runs a command, such as .ci/run, and tells what its checks took of a processor: by crate, and for what (proof, tests, edits, other).

usage: gate_times.py COMMAND ..

It looks at /proc every 0.3 seconds; what a check takes after the last look at it, or one that is shorter, is only in the sum of all. Last it prints a table
in Markdown, in minutes, and the sum and the time by the clock. Under `taskset` it leaves out what runs on other processors."""
import collections
import os
import re
import resource
import subprocess
import sys
import time

TICKS = os.sysconf("SC_CLK_TCK")


def text_of(path):
    try:
        with open(path, "rb") as file:
            return file.read().decode("utf-8", "replace")
    except OSError:
        return ""


def looked_at(since):
    """Yields each process of the prover on the same processors that began since then (in ticks): its number and beginning, its crate, what it is for, its seconds."""
    for number in filter(str.isdigit, os.listdir("/proc")):
        words = text_of(f"/proc/{number}/cmdline").split("\0")
        if "--crate-name" not in words or not words[0].endswith("rattle"):
            continue
        fields = text_of(f"/proc/{number}/stat").rpartition(")")[2].split()
        try:
            folder = os.readlink(f"/proc/{number}/cwd")
            if os.sched_getaffinity(int(number)) != os.sched_getaffinity(0):
                continue
        except OSError:
            continue
        if fields and int(fields[19]) >= since:
            kind = "edits" if "/rt-edit" in folder else "tests" if "--test" in words else "proof" if words[1] == "check" else "other"
            yield (number, fields[19]), words[words.index("--crate-name") + 1], kind, sum(map(int, fields[11:13])) / TICKS


def main():
    began, found = time.time(), {}
    since = int(text_of("/proc/self/stat").rpartition(")")[2].split()[19])
    running = subprocess.Popen(sys.argv[1:])
    while running.poll() is None:
        for key, crate, kind, seconds in looked_at(since):
            found[key] = crate, kind, seconds
        time.sleep(0.3)
    took, used = time.time() - began, resource.getrusage(resource.RUSAGE_CHILDREN)
    sums = collections.Counter()
    for crate, kind, seconds in found.values():
        sums[crate, kind] += seconds / 60
    order = [it for it in re.findall(r"(?m)^(\w+)[^:\n]*:", text_of("crates.txt")) if any(name == it for name, _ in sums)]
    kinds = ("proof", "tests", "edits", "other")
    print("| Crate | " + " | ".join(kinds) + " | all |\n|---|---|---|---|---|---|")
    for name in [*order, "all"]:
        each = [sum(it for (crate, of), it in sums.items() if name in (crate, "all") and of == kind) for kind in kinds]
        print(f"| `{name}` | " + " | ".join(f"{it:.1f}" if it >= 0.05 else "" for it in each) + f" | {sum(each):.1f} |")
    print(f"{(used.ru_utime + used.ru_stime) / 60:.0f} minutes of a processor, {took / 60:.0f} by the clock, status {running.returncode}")
    return running.returncode


if __name__ == "__main__":
    raise SystemExit(main())
