#!/usr/bin/env python3
"""What several collectors behind the OpenTelemetry Collector's `loadbalancing` exporter have to bear: the load of the fullest member, and the traces
that are split when a member goes or comes.

usage: tiers.py [TRACES [SECONDS [SPANS]]]
(traces of the sample, 200000; the mean time from a trace's first span to its last, 2; the spans of a trace, 10)

The exporter routes by a consistent hash ring (as its source is known to have it; not compared with it here): 100 points a member, each the CRC-32 (IEEE) of its address and the point's number as one byte, modulo 36000; a
trace goes to the member of the first point at or behind the CRC-32 of its id, modulo 36000; a point that is taken already is left out. The addresses are
tsc-0:4317, tsc-1:4317 .. Loads are those of 1,000,000 spans a second. Traces begin at random moments and last by an exponential distribution; a member
goes, or comes, at one moment for all who route, and a trace is split where it has spans before and behind that and its member changes. Where the
points come to lie depends on the addresses, so the fullest member's load is also told for two hundred sets of others."""
import bisect
import random
import statistics
import sys
import zlib

POINTS, POSITIONS, SPANS_A_SECOND = 100, 36000, 1_000_000


def ring_of(members):
    """Returns the ring's points in order, and the member of each."""
    taken = {}
    for member in sorted(members):
        for point in range(POINTS):
            taken.setdefault(zlib.crc32(member.encode() + bytes([point])) % POSITIONS, member)
    points = sorted(taken)
    return points, [taken[it] for it in points]


def members_of(ring, hashes):
    points, members = ring
    return [members[bisect.bisect_left(points, it) % len(points)] for it in hashes]


def fullest_by_the_mean(members):
    """The share of the ring of the fullest member, by that of the mean one."""
    points, owners = ring_of(members)
    shares = dict.fromkeys(members, 0)
    for point, before, owner in zip(points, [points[-1] - POSITIONS, *points], owners):
        shares[owner] += point - before
    return max(shares.values()) * len(members) / POSITIONS


def sampled_traces(count, seconds):
    """The hash of each trace's id, and the time from the change to its end where it is under way at the change, else none."""
    dealer = random.Random(1)
    window = 20 * seconds
    hashes, ends = [], []
    for _ in range(count):
        hashes.append(zlib.crc32(dealer.randbytes(16)) % POSITIONS)
        end = dealer.expovariate(1 / seconds) - dealer.random() * window
        ends.append(end if end > 0 else None)
    return hashes, ends, window


def main():
    traces = int(sys.argv[1]) if len(sys.argv) > 1 else 200_000
    seconds = float(sys.argv[2]) if len(sys.argv) > 2 else 2.0
    spans = int(sys.argv[3]) if len(sys.argv) > 3 else 10
    hashes, ends, window = sampled_traces(traces, seconds)
    new = SPANS_A_SECOND / spans
    scale = new * window / traces
    print(f"{traces} traces of {spans} spans, {new:,.0f} new ones a second, each under way for {seconds:g} s in the mean")
    print(f"under way at the change: {sum(it is not None for it in ends) * scale:,.0f} traces ({new * seconds:,.0f} by Little's law)")
    print(
        "| Members | Spans a second: mean | fullest | fullest by the mean | with other addresses | a member goes: traces that move | of them split "
        "| a member comes: traces that move | of them split |"
    )
    print("|---|---|---|---|---|---|---|---|---|")
    split_ends = []
    for count in (2, 8, 32):
        members = [f"tsc-{at}:4317" for at in range(count)]
        routed = members_of(ring_of(members), hashes)
        loads = [routed.count(it) / traces * SPANS_A_SECOND for it in members]
        gone, split = [], []
        for lost in members:
            moves = [a != b for a, b in zip(routed, members_of(ring_of([it for it in members if it != lost]), hashes))]
            gone.append(sum(moves) / traces)
            of_split = [end for moved, end in zip(moves, ends) if moved and end is not None]
            split.append(len(of_split) * scale)
            split_ends += of_split
        moves = [a != b for a, b in zip(routed, members_of(ring_of([*members, f"tsc-{count}:4317"]), hashes))]
        comes, split_come = sum(moves) / traces, sum(moved and end is not None for moved, end in zip(moves, ends)) * scale
        mean, fullest = statistics.mean(loads), max(loads)
        others = sorted(fullest_by_the_mean([f"10.{of}.0.{at}:4317" for at in range(count)]) for of in range(200))
        print(
            f"| {count} | {mean:,.0f} | {fullest:,.0f} | {fullest / mean:.2f} | {others[100]:.2f} (at most {others[-1]:.2f}) | {statistics.mean(gone):.1%} (at most {max(gone):.1%}) "
            f"| {statistics.mean(split):,.0f} (at most {max(split):,.0f}) | {comes:.1%} | {split_come:,.0f} |"
        )
    split_ends.sort()
    print(f"of the traces that are split, half have their last span {split_ends[len(split_ends) // 2]:.1f} s behind the change, 99 of 100 within {split_ends[len(split_ends) * 99 // 100]:.1f} s")


if __name__ == "__main__":
    main()
