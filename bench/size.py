#!/usr/bin/env python3
"""What to set for a load: the settings of `tsc serve`, and the processors and the memory that it takes. It computes from what docs/SPEED.md has measured;
docs/SIZING.md says how.

usage: size.py SPANS_PER_SECOND BYTES SECONDS [SPANS_OF_A_TRACE [gzip]]
       size.py --table
(the bytes of a span's JSON; the seconds that a trace waits, decision_wait_ms; the spans of a trace, 10; gzip where bodies come packed)"""

import math
import sys

# Measured (docs/SPEED.md), each on the slower of two machines; of spans of 1,021 bytes in requests of 100.
MEASURED_BYTES = 1021
SPANS_OF_A_LANE = 102_000
PROCESSOR_SECONDS = 13e-6
GZIP = 1.4
WAITING = 1.6
LEAST_WAITING = 430
ITEM_BYTES = 108
BEGIN_BYTES = 4 << 20
# Chosen.
FULL = 0.7
TRACES_SPARE = 1.25
MEMORY_SPARE = 1.5
QUEUE_SECONDS = 0.25
LEAST_BYTES = 250
MOST_TRACES, MOST_LANES, MOST_QUEUE, LEAST_QUEUE = 1_000_000, 64, 65_536, 1024


def power_of_two(number):
    """The least power of two that isn't less, within the bounds of a queue."""
    return min(MOST_QUEUE, max(LEAST_QUEUE, 1 << math.ceil(math.log2(max(1, number)))))


def sizes(rate, span_bytes, seconds, spans=10, packed=False):
    """The settings of one collector for such a load, and what it takes."""
    cost = max(span_bytes, LEAST_BYTES) / MEASURED_BYTES * (GZIP if packed else 1)
    lanes = math.ceil(rate * cost / (SPANS_OF_A_LANE * FULL))
    shards = math.ceil(lanes / 2)
    queue = power_of_two(rate / (lanes * shards) * QUEUE_SECONDS)
    waiting = rate * seconds
    items = queue * shards * (lanes + 2)
    memory = waiting * max(WAITING * span_bytes, LEAST_WAITING) + items * ITEM_BYTES + BEGIN_BYTES
    return {
        "lanes": lanes,
        "shards": shards,
        "num_traces": math.ceil(TRACES_SPARE * waiting / spans / 1000) * 1000,
        "queue_capacity": queue,
        "export_capacity": queue,
        "processors": rate * cost * PROCESSOR_SECONDS,
        "memory": memory / 2**20,
        "most": math.ceil(MEMORY_SPARE * memory / 2**28) * 256,
    }


def members_for(rate, *others):
    """How many collectors such a load needs, by the ranges of the settings."""
    members = 1
    while True:
        one = sizes(rate / members, *others)
        if one["num_traces"] <= MOST_TRACES and one["lanes"] <= MOST_LANES:
            return members, one
        members += 1


def main():
    words = sys.argv[1:]
    if words == ["--table"]:
        print("| Spans a second | Bytes | Seconds | `lanes` | `shards` | `num_traces` | `queue_capacity` | Processors | Memory | `MemoryMax` |")
        print("|---|---|---|---|---|---|---|---|---|---|")
        for rate, span_bytes, seconds in [(1000, 1000, 30), (10_000, 1000, 10), (10_000, 1000, 30), (50_000, 1000, 10), (50_000, 500, 30), (100_000, 1000, 10), (200_000, 1000, 10)]:
            of = sizes(rate, span_bytes, seconds)
            print(
                f"| {rate:,} | {span_bytes:,} | {seconds} | {of['lanes']} | {of['shards']} | {of['num_traces']} | {of['queue_capacity']} "
                f"| {of['processors']:.2f} | {of['memory']:,.0f} MiB | {of['most'] / 1024:g}G |"
            )
        return 0
    if not 3 <= len(words) <= 5 or (len(words) == 5 and words[4] != "gzip"):
        print(__doc__.split("\n\n")[1], file=sys.stderr)
        return 2
    rate, span_bytes, seconds = (float(it.replace(",", "").replace("_", "")) for it in words[:3])
    others = (span_bytes, seconds, float(words[3]) if len(words) > 3 else 10, len(words) > 4)
    members, of = members_for(rate, *others)
    if members > 1:
        print(f"# {members} collectors, each for {rate / members:,.0f} spans a second in the mean; plan for the fullest (docs/operating/SCALING.md)")
    print(f"# {of['processors']:.2f} processors and {of['memory']:,.0f} MiB; of a service MemoryMax={of['most']}M")
    print(f"decision_wait_ms = {seconds * 1000:.0f}")
    for key in ("lanes", "shards", "num_traces", "queue_capacity", "export_capacity"):
        print(f"{key} = {of[key]}")
    return 0


if __name__ == "__main__":
    raise SystemExit(main())
