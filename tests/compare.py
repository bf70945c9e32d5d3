#!/usr/bin/env python3
"""Runs `tsc compare` over scripts that are made here, and holds its numbers against the lines that `tsc replay` prints by each configuration alone.

    tests/compare.py PROGRAM ..

What is held: kept traces, spans and bytes, by policy and in all; spans by service; which traces both, one or none keep; the first that differ, with their
verdict, policy and cause under each; the sum of the spans over time. What each policy keeps is worked out here from the spans. The texts are looked at for
the same numbers, and the page for the same JSON. It prints a line for each mismatch, and last 'N passed, M failed'."""
import json
import random
import re
import subprocess
import sys
import tempfile
from pathlib import Path

OLD = """
decision_wait_ms = 1000
send_batch_size = 7
[[policies]]
name = "errors"
type = "status_code"
status_code = { status_codes = ["ERROR"] }
[[policies]]
name = "slow"
type = "latency"
latency = { threshold_ms = 500 }
"""
NEW = """
decision_wait_ms = 3000
num_traces = 40
[[policies]]
name = "slow"
type = "latency"
latency = { threshold_ms = 300 }
[[policies]]
name = "shop"
type = "string_attribute"
string_attribute = { key = "service.name", values = ["shop"] }
"""
SERVICES = ["shop", "cart", "pay \"now\"", "<b>"]


class Trace:
    """A trace with its spans, each with a moment, a duration in milliseconds and whether it failed."""

    def __init__(self, number, random_):
        self.id = f"{number + 1:032x}"
        self.service = random_.choice(SERVICES)
        self.spans = [(random_.randrange(1, 900), random_.random() < 0.1) for _ in range(random_.randrange(1, 5))]
        self.late = random_.random() < 0.2

    def span(self, place):
        duration, failed = self.spans[place]
        start = 1_700_000_000_000
        span = {"traceId": self.id, "spanId": f"{place + 1:016x}", "name": f"{self.id[-4:]} {place}", "startTimeUnixNano": str(start * 1_000_000), "endTimeUnixNano": str((start + duration) * 1_000_000)}
        return span | ({"status": {"code": 2}} if failed else {})

    def body(self, places):
        return {"resourceSpans": [{"resource": {"attributes": [{"key": "service.name", "value": {"stringValue": self.service}}]}, "scopeSpans": [{"spans": [self.span(it) for it in places]}]}]}


def script_of(traces):
    """The lines of a script: a tick each second, five traces in between; the last span of a late trace comes six seconds later."""
    lines, later = [], []
    for number, trace in enumerate(traces):
        moment = number * 200
        now = list(range(len(trace.spans)))
        if trace.late and len(now) > 1:
            later.append((moment + 6_000, trace, now.pop()))
        while later and later[0][0] <= moment:
            at, of, place = later.pop(0)
            lines.append(f"recv {number % 3} {moment} {json.dumps(of.body([place]))}")
        lines.append(f"recv {number % 3} {moment} {json.dumps(trace.body(now))}")
        if number % 5 == 4:
            lines.append(f"tick {moment}")
    return "\n".join(lines) + "\nclose\n"


def kept_of(program, config, script):
    """What `tsc replay` prints: of each trace the texts of its kept spans, and of each service the number of its spans."""
    run = subprocess.run([program, "replay", config], input=script, capture_output=True, text=True, check=True)
    kept, services = {}, {}
    for line in run.stdout.splitlines():
        if not line.startswith('{"resourceSpans"'):
            continue
        for resource in json.loads(line)["resourceSpans"]:
            (name,) = [it["value"]["stringValue"] for it in resource["resource"]["attributes"]]
            for span in (span for scope in resource["scopeSpans"] for span in scope["spans"]):
                kept.setdefault(span["traceId"], []).append(json.dumps(span, separators=(",", ":")))
                services[name] = services.get(name, 0) + 1
    return kept, services


def amount(kept):
    """The traces, spans and bytes of what was kept."""
    return {"traces": len(kept), "spans": sum(map(len, kept.values())), "bytes": sum(len(it.encode()) for spans in kept.values() for it in spans)}


class Checks:
    """Counts what holds and says what doesn't."""

    def __init__(self):
        self.passed = self.failed = 0

    def same(self, what, got, wanted):
        if got == wanted:
            self.passed += 1
        else:
            self.failed += 1
            print(f"{what}: got {got!r}, and not {wanted!r}")

    def holds(self, what, is_so):
        self.same(what, bool(is_so), True)


def compare(program, *arguments, script=""):
    return subprocess.run([program, "compare", *arguments], input=script, capture_output=True, text=True)


def check_numbers(checks, told, traces, kept):
    """The comparison's numbers, beside what both replays printed."""
    for side in ("old", "new"):
        checks.same(f"kept by {side}", told[side]["kept"], amount(kept[side][0]))
        services = {it["name"]: it[side] for it in told["services"] if it[side]}
        checks.same(f"spans of services by {side}", services, kept[side][1])
        checks.same(f"spans over time by {side}", sum(told["over_time"][side]), amount(kept[side][0])["spans"])
        by_policy = [it[side] for it in told["policies"] if it[side]]
        whole = {key: sum(it[key] for it in by_policy) + told[side]["without_policy"][key] for key in ("traces", "spans", "bytes")}
        checks.same(f"the sum over policies by {side}", whole, told[side]["kept"])
    old, new = set(kept["old"][0]), set(kept["new"][0])
    checks.same("traces", told["traces"], {"both": len(old & new), "only_old": len(old - new), "only_new": len(new - old), "none": len(traces) - len(old | new), "unknown": 0})
    sample = {it["trace_id"]: it for it in told["differ"]}
    checks.same("how many differ", len(sample), min(100, len(old ^ new)))
    checks.holds("each that differs is kept by one alone", set(sample) <= old ^ new)
    return sample


def check_policies(checks, told, traces, kept):
    """What each policy keeps, worked out from the spans that the trace had when it was decided."""
    first = {it.id: it for it in traces}
    errors = {id for id in kept["old"][0] if any(failed for _, failed in early(first[id]))}
    (row,) = [it["old"] for it in told["policies"] if it["name"] == "errors"]
    checks.same("traces that the policy `errors` keeps", row["traces"], len(errors))
    (row,) = [it["old"] for it in told["policies"] if it["name"] == "slow"]
    checks.same("traces that the policy `slow` keeps by the old configuration", row["traces"], len(set(kept["old"][0]) - errors))


def early(trace):
    """The spans that a trace has when it is decided: all, but the last one of a late trace."""
    return trace.spans[:-1] if trace.late and len(trace.spans) > 1 else trace.spans


def check_reasons(checks, sample, traces):
    """Why each trace that differs was kept, or not, by the old configuration."""
    first = {it.id: it for it in traces}
    for id, row in sample.items():
        spans = early(first[id])
        slow = max(duration for duration, _ in spans) >= 500
        wanted = "errors" if any(failed for _, failed in spans) else "slow" if slow else None
        checks.same(f"the policy of {id}", row["old"]["policy"], wanted)
        checks.same(f"the verdict of {id}", row["old"]["verdict"], "sampled" if wanted else "notSampled")


def check_faults(checks, program, old, new, folder):
    """What is refused."""
    missing = str(folder / "missing.toml")
    for what, arguments, script, status, said in (
        ("no second configuration", [old], "", 2, "tsc: usage: tsc replay CONFIG or tsc serve CONFIG\n"),
        ("another form", [old, new, "--xml"], "", 2, "tsc: usage: tsc replay CONFIG or tsc serve CONFIG\n"),
        ("no old file", [missing, new], "", 3, "tsc: configuration refused: unreadable\n"),
        ("no new file", [old, missing], "", 3, "tsc: configuration refused: unreadable\n"),
        ("a line that is none", [old, new], "tick 1\nnothing\n", 4, "tsc: script refused: line 2\n"),
    ):
        run = compare(program, *arguments, script=script)
        checks.same(what, (run.returncode, run.stdout), (status, said))


def check_program(checks, program, folder):
    generator = random.Random(71)
    traces = [Trace(it, generator) for it in range(300)]
    script = script_of(traces)
    old, new = str(folder / "old.toml"), str(folder / "new.toml")
    Path(old).write_text(OLD, "utf-8")
    Path(new).write_text(NEW, "utf-8")
    kept = {"old": kept_of(program, old, script), "new": kept_of(program, new, script)}
    run = compare(program, old, new, "--json", script=script)
    checks.same("the status", (run.returncode, run.stderr), (0, ""))
    told = json.loads(run.stdout)
    checks.holds("one line", run.stdout.endswith("\n") and run.stdout.count("\n") == 1)
    sample = check_numbers(checks, told, traces, kept)
    check_policies(checks, told, traces, kept)
    check_reasons(checks, sample, traces)
    again = compare(program, old, new, "--json", script=script)
    checks.same("the same again", again.stdout, run.stdout)
    alone = json.loads(compare(program, old, old, "--json", script=script).stdout)
    checks.same("a configuration beside itself", (alone["traces"]["only_old"], alone["traces"]["only_new"], alone["differ"]), (0, 0, []))
    page = compare(program, old, new, "--html", script=script).stdout
    (block,) = re.findall(r'<script type="application/json" id="comparison">(.*?)</script>', page, re.S)
    checks.same("the page's numbers", json.loads(block), told)
    checks.holds("no name ends the block", "<" not in block)
    text = compare(program, old, new, script=script).stdout
    for number in told["traces"].values():
        checks.holds(f"the text tells {number}", re.search(rf"\b{number}\b", text.replace(",", "")))
    empty = json.loads(compare(program, old, new, "--json").stdout)
    checks.same("an empty script", (empty["old"]["kept"], empty["traces"]["none"], empty["differ"]), ({"traces": 0, "spans": 0, "bytes": 0}, 0, []))
    check_faults(checks, program, old, new, folder)


def main():
    checks = Checks()
    for program in sys.argv[1:]:
        with tempfile.TemporaryDirectory() as folder:
            check_program(checks, str(Path(program).resolve()), Path(folder))
    print(f"{checks.passed} passed, {checks.failed} failed")
    return checks.failed > 0


if __name__ == "__main__":
    sys.exit(main())
