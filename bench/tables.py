#!/usr/bin/env python3
"""Puts what the tools that measure printed into the tables of docs/speed, of docs/gate/BY_CRATE.md and of docs/GATE.md.

usage: bench/tables.py LOG ..
       bench/tables.py --check     (prints a line for each table or row that isn't there, and ends with status 1 where there is one)

A table that a tool writes stands between `<!-- by TOOL -->` and `<!-- end -->`. A LOG is what tools printed, of one or several runs: a number that differs
between runs is written as a range, and a whole one of more than four digits with three that count. A row of which the logs say nothing stays as it is. In
BY_CRATE.md the minutes of proofs and tests come from tools/gate_times.py, and those of edits from tests/edits.passed. GATE.md has one row of the last run of
.ci/run in the logs, with the day on which that log was last written. It prints which tables it wrote."""

import datetime
import re
import sys
from itertools import islice
from pathlib import Path

TOP = Path(__file__).resolve().parent.parent
RUN = r": \d+ spans, [\d.]+ MB: ([\d.]+) s, .*peak (\d+) MiB"
COUNTED = r": (\d+) instructions"
BY_CRATE = "docs/gate/BY_CRATE.md"
WRITTEN_ON = "the log above was last written on "
SPANS_OF_A_REQUEST = 100  # (PER_REQUEST of bench/serve.py)
# What bench/connections.sh prints of a thousand connections of wrk, by h2load, and where it closes beside clients.
WRK = r"wrk, 1,000 connections, {} lanes: (\d+) requests a second, .*; no error$"
H2LOAD = r"h2load, 1,000 connections, {} lanes: finished in .*?, (\d+)(?:\.\d+)? req/s, .* 200000 succeeded, .*: 200000 2xx, "
CLOSED = r"(?:16 busy, .*, beside 10,000 idle: .*\nthe close|the close beside 50 silent clients, .*): ([\d.]+) s$"
IN_TURN = r": 99 % within ([\d.]+) ms in the middle of (\d+) rounds \(([\d.]+ to [\d.]+)\), (\d+) requests a second; no error$"


def millions(*counts):
    """Whole numbers in millions."""
    return [f"{int(it) / 1e6:.1f}" for it in counts]


def spans_of(requests):
    """The spans of so many requests."""
    return [str(int(requests) * SPANS_OF_A_REQUEST)]


# By tool: the page, and of each row its first cell, what the tool prints (or that, and what makes numbers of it), and the other cells.
TABLES = {
    "bench/instructions.sh": ("docs/speed/REPLAY.md", [
        ("requests of 100 spans, 5 % of the traces kept", r"5 % of the traces kept" + COUNTED + r" a span, (\d+) bytes", ["{}", "{}"]),
        ("the same, all traces kept", r"all kept" + COUNTED + r" a span, (\d+) bytes", ["{}", "{}"]),
        ("one span a request, 5 % of the traces kept", r"one span a request, 5 % of the traces kept" + COUNTED + r" a span, (\d+) bytes", ["{}", "{}"]),
    ]),
    "bench/run.sh": ("docs/speed/REPLAY.md", [
        ("200,000 spans of 215 MB", r"without root wait: 200000 spans, [\d.]+ MB: ([\d.]+) s, .*peak (\d+) MiB", ["{} s", "{} MiB"]),
        ("1,000,000 traces alive, two spans without attributes each", "all traces alive at once" + RUN, ["{} s", "{} MiB"]),
        ("1,000,000 traces alive, one small span each", "traces of a single small span, all alive" + RUN, ["{} s", "{} MiB"]),
        ("a waiting span (the peak of 50,000 that wait less that of 10,000)", r"()a waiting span: ([\d.]+) times its JSON", ["{}", "{} times its JSON"]),
    ]),
    "bench/encodings.py": ("docs/speed/REPLAY.md", [
        (label, rf"{config}\.toml {encoding}: (\d+) instructions a span, of which (\d+) .*; (\d+) bytes each", ["{}", "{}", "{}"])
        for encoding, name in (("json", "JSON"), ("protobuf", "protobuf")) for config, kept in (("errors", "traces with an error kept"), ("all", "all kept"))
        for label in [f"{name}, {kept}"]
    ]),
    "bench/policies.sh": ("docs/speed/REPLAY.md", [
        (label, re.escape(printed) + COUNTED + " a trace", ["{}"]) for label, printed in (
            ("nine policies of nine other types", "nine policies of other types"), ("`probabilistic`, first in the list", "probabilistic"),
            ("an `and` whose first part doesn't sample", "an and that stops at its first part"),
            ("an `and` whose second part has to be asked", "an and that asks both parts"),
            ("`bytes_limiting`: the bytes of the spans are counted when it is asked", "bytes_limiting"),
            ("`maximum_trace_size_bytes`: they are counted as the spans come", "maximum_trace_size_bytes"))
    ]),
    "bench/serve.sh": ("docs/speed/SERVE.md", [
        *((f"{name}, spans a second", rf"{lanes} lanes: ([\d,]+) spans of \d+ bytes a second", ["{}"]) for name, lanes in (("one lane", 1), ("two lanes", 2), ("four lanes", 4))),
        ("processor time for each span", r"\d lanes: .* a second, ([\d.]+) us", ["{} microseconds"]),
        ("with nothing to do (4 lanes, 2 shards)", r"idle, 4 lanes and 2 shards: ([\d.]+) % of a core, \d", ["{} % of a core"]),
        ("1,000,000 spans that wait", r"1,000,000 waiting spans of \d+ bytes: (\d+) MiB", ["{} MiB in all"]),
        ("closing hands these out in", r"closed in ([\d.]+) s", ["{} s"]),
    ]),
    "bench/queue.sh": ("docs/speed/THREADS.md", [
        (label, printed.replace("HERE", "queue_speed"), printed.replace("HERE", "crossbeam-queue"), unit) for label, printed, unit in (
            ("two threads that spin and yield, million items a second", r"two threads, that spin and yield, .*: HERE: ([\d., ]+) million", "{}"),
            ("two that sleep as well, as the workers do", r"two threads, that may sleep as well, .*: HERE: ([\d., ]+) million", "{}"),
            ("one thread that pushes and pops in turn", r"one thread, capacity .*: HERE: ([\d., ]+) million", "{}"),
            ("instructions for these two calls", r"one push and one pop in one thread: HERE: (\d+) instructions", "{}"),
            ("a thread that waits ten seconds at an empty queue", r"idle: HERE: (\d+) ms of", "{} ms"))
    ]),
    "bench/connections.sh": ("docs/speed/SERVE.md", [
        *((f"{clients:,} connections of wrk", rf"{clients} connections, 4 lanes: (\d+) spans a second, ([\d.]+) microseconds .*; no error$", ["{}", "{}"])
          for clients in (4, 64, 1000)),
        ("16 busy connections, one span a request, four lanes", r"16 busy, one span a request, 4 lanes, alone" + IN_TURN,
         ["99 % within {} ms in the middle of {} rounds ({}), {} requests a second"]),
        ("as many beside 10,000 idle ones, in turn with those", r"16 busy, one span a request, 4 lanes, beside 10,000 idle" + IN_TURN,
         ["99 % within {} ms in the middle of {} rounds ({}), {} requests a second"]),
        ("an idle connection", r"10,000 idle connections: .*, (\d+) bytes each", ["{} bytes, besides the system's"]),
        ("10,000 idle connections", r"with 10,000 idle: ([\d.]+) % of a core", ["{} % of a core"]),
        ("1,000 busy connections by wrk, one span a request", WRK.format("one span, 1"), WRK.format("one span, 4"),
         ["{} requests a second by one lane, {} by four, no error"]),
        ("the same, 100 spans a request", (WRK.format("100 spans, 1"), spans_of), (WRK.format("100 spans, 4"), spans_of),
         ["{} spans a second by one lane, {} by four, no error"]),
        ("200,000 requests of 1,000 connections by h2load, one span each", H2LOAD.format(1), H2LOAD.format(4),
         ["{} a second by one lane, {} by four, 200,000 answered 200"]),
        ("connections of one request each, by wrk", r"(\d+) short connections: open files (\d+) and then (\d+), memory (\d+) and then (\d+) KiB; no error$",
         ["{}: {} open files before them and {} after them, {} KiB and {} KiB"]),
        ("the close, beside 10,000 idle ones, and beside 50 that say nothing, 50 within a request and 50 that read no answer", CLOSED, ["{} s"]),
    ]),
    "bench/export.sh": ("docs/speed/SERVE.md", [
        (label, rf"{printed}: \d+ spans handed over in .*, ([\d,]+) a second$", ["{}"])
        for label, printed in (("one backend on the same machine", "one backend"), ("a file", "lines to a file"), ("both (`lines`)", "both"))
    ]),
    "bench/http.sh": ("docs/speed/SERVE.md", [
        ("all", (rf"length{COUNTED}$", millions), ["{} million"]),
        ("`decode` of the same bodies alone", (rf"decode{COUNTED}$", millions), ["{} million"]),
        ("60 bodies with ids and times of their own", (rf"plain{COUNTED}$", millions), ["{} million"]),
        ("the same packed by gzip, level 6", (rf"packed{COUNTED}$", millions), ["{} million"]),
    ]),
    ".ci/run": ("docs/GATE.md", [
        ("`.ci/run`, the last run that was put here",
         (r"rt: ok; .*done in this run: (\d+ of the \d+) proofs .*\n(?:(?!rt: ok).*\n)*?the gate took (\d+) minutes by the clock on (\d+) processors, and of a processor (\d+)m\S+ for programs and (\d+)m\S+ for the system\n"
          rf"(\d+ passed, \d+ failed)\n(?:(?!{WRITTEN_ON}|the gate took ).*\n)*{WRITTEN_ON}(.*)$(?![\s\S]*\nthe gate took )",
          lambda proofs, clock, processors, programs, system, counts, day: (programs, system, clock, day, processors, counts, proofs)),
         ["{} minutes for programs, {} for the system", "{} minutes", "{}; {} processors; {}; {} proofs made in it, the others kept"]),
    ]),
}


def number(text):
    """A number as it is shown: a whole one of more than four digits with three that count."""
    text = text.replace(",", "") if re.fullmatch(r"[\d,]+", text) else text
    if not text.isdigit():
        return text
    value, last = int(text), 10 ** (len(text) - 3) if len(text) > 4 else 1
    return f"{(value + last // 2) // last * last:,}"


def merged(found):
    """What several runs printed of one number: itself, or a range; of ranges, one that has them all; of texts, each."""
    values = {value for it in found for value in it.split(" to ")}
    if not all(re.fullmatch(r"[\d.,]*\d", it) for it in values):
        return "; ".join(sorted(set(found)))
    values = sorted(values, key=lambda it: float(it.replace(",", "")))
    return number(values[0]) if len(values) == 1 else f"{number(values[0])} to {number(values[-1])}"


def cells_of(rule, log):
    """The cells of a row behind its first, or nothing where the log doesn't tell them."""
    _, *patterns, shown = rule
    units = shown if isinstance(shown, list) else [shown] * len(patterns)
    columns = []
    for printed in patterns:
        pattern, made = printed if isinstance(printed, tuple) else (printed, lambda *it: it)
        found = [made(*it.groups()) for it in re.finditer(rf"(?m)^{pattern}", log)]
        columns += [merged(it) for it in zip(*found)] if found else []
    if len(columns) != sum(it.count("{}") for it in units):
        return None
    rest = iter(columns)
    return [it.format(*islice(rest, it.count("{}"))) for it in units]


def gate_rows(log):
    """The rows of BY_CRATE.md: minutes of proofs and of tests by tools/gate_times.py, and of edits by their record."""
    took = {name: [float(it or 0) for it in re.split(r" *\| *", rest)[:4]] for name, rest in re.findall(r"(?m)^\| `(\w+)` \| (.*) \|$", log) if rest.count("|") == 4}
    if not took:
        return None
    lines = [it.split() for it in (TOP / "tests/edits.passed").read_text("utf-8").splitlines() if not it.startswith("#")]
    edits = {crate: (int(seconds) / 60, int(count)) for crate, _, count, seconds in lines}
    rows, sums = [], [0.0, 0.0, 0.0, 0]
    for crate in re.findall(r"(?m)^(\w+)[^:\n]*:", (TOP / "crates.txt").read_text("utf-8")):
        proof, tests, _, other = took.get(crate, [0, 0, 0, 0])
        minutes = [proof + other, tests, edits.get(crate, (0, 0))[0]]
        count = edits.get(crate, (0, 0))[1]
        sums = [one + more for one, more in zip(sums, [*minutes, count])]
        rows.append(f"| `{crate}` | " + " | ".join(f"{it:.1f}" if it >= 0.05 else "" for it in minutes) + f" | {count or ''} |")
    return rows + [f"| all | {sums[0]:.0f} | {sums[1]:.0f} | {sums[2]:.0f} | {sums[3]} |"]


def written(tool, lines, log):
    """The lines of a table as the log has them."""
    if tool == "tools/gate_times.py":
        rows = gate_rows(log)
        return lines[:2] + rows if rows else lines
    told = {rule[0]: cells_of(rule, log) for rule in TABLES[tool][1]}
    firsts = [it.split(" | ")[0].removeprefix("| ") for it in lines[2:]]
    return lines[:2] + [f"| {first} | " + " | ".join(told[first]) + " |" if told.get(first) else line for first, line in zip(firsts, lines[2:])]


MARKED = re.compile(r"<!-- by (\S+) -->\n(.*?)<!-- end -->", re.S)


def not_there():
    """A line for each table that has no marks, and for each row that a tool's table lacks."""
    for tool, page, rules in [*((tool, page, rules) for tool, (page, rules) in TABLES.items()), ("tools/gate_times.py", BY_CRATE, [])]:
        tables = "".join(table for by, table in MARKED.findall((TOP / page).read_text("utf-8")) if by == tool)
        if not tables:
            yield f"{page} has no table by {tool}"
        yield from (f"{page}: no table by {tool} has a row {rule[0]!r}" for rule in rules if tables and f"\n| {rule[0]} |" not in tables)


def text_of(path):
    """A log, and when it was last written."""
    day = datetime.date.fromtimestamp(path.stat().st_mtime)
    return f"{path.read_text('utf-8')}\n{WRITTEN_ON}{day.day} {day:%B %Y}\n"


def main():
    if not sys.argv[1:]:
        raise SystemExit(__doc__)
    if sys.argv[1:] == ["--check"]:
        found = list(not_there())
        print("\n".join(found), end="\n" if found else "")
        return 1 if found else 0
    log = "".join(text_of(Path(it)) for it in sys.argv[1:])
    for page in sorted({it for it, _ in TABLES.values()} | {BY_CRATE}):
        path = TOP / page
        text = path.read_text("utf-8")

        def table(found):
            lines = found[2].strip("\n").split("\n")
            new = written(found[1], lines, log)
            if new != lines:
                print(f"{page}: the table by {found[1]}")
            return f"<!-- by {found[1]} -->\n\n" + "\n".join(new) + "\n\n<!-- end -->"

        path.write_text(MARKED.sub(table, text), "utf-8")
    return 0


if __name__ == "__main__":
    raise SystemExit(main())
