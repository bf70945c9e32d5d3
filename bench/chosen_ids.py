#!/usr/bin/env python3
"""Compares trace ids that were chosen to fall together with random ones: chosen_ids.py PROGRAM [TRACES].

The ids are chosen against a hash of a fixed seed, that of the kit's maps where a map is given no key: a multiplication folded for the
eight bytes of the length and then for each byte. Undoing it is not cheap, and not needed. A table of 100,000 ids has 16,384 groups of
twelve; the lowest 14 bits of the hash say in which group an id belongs, and where a group is full the next is tried. One id of 16,384
has 14 bits of 0, and all of these stand in one run of groups, which each look-up walks. `cc` compiles the search, which takes some
seconds.

`tsc serve` is sent, by one connection: a span of each of so many traces, one more of each in another order (the index of the traces that
wait), a span of each of as many others that stand in no list, so that the first leave the buffer, and one late span of each of the first (the
caches of decisions). It prints the processor time that the collector took, for random ids and for chosen ones, and ends with 1 where the
chosen took more than half as long again. It is no part of the gate."""
import http.client
import os
import random
import signal
import socket
import subprocess
import sys
import tempfile
import time

SPANS_OF_A_REQUEST = 1000
REQUESTS_AT_ONCE = 50  # (so many spans as the queue takes)
WAIT_MS = 1000
SETTINGS = """listen = "127.0.0.1:{port}"
decision_wait_ms = {wait}
num_traces = {traces}
queue_capacity = 65536
policies = [{{ name = "slow", type = "latency", latency = {{ threshold_ms = 1000000 }} }}]

[decision_cache]
sampled_cache_size = {traces}
non_sampled_cache_size = {traces}
"""
SEARCH = r"""
#include <stdint.h>
#include <stdio.h>
#include <stdlib.h>

static uint64_t folded(uint64_t a, uint64_t b) {
    unsigned __int128 product = (unsigned __int128)a * b;
    return (uint64_t)product ^ (uint64_t)(product >> 64);
}

int main(int count, char **words) {
    const uint64_t factor = 0x9e3779b97f4a7c15;
    uint64_t wanted = strtoull(words[1], 0, 10), low = strtoull(words[2], 0, 10), first = strtoull(words[3], 0, 10);
    for (uint64_t number = first; wanted > 0; number++) {
        unsigned char id[16] = {0};
        uint64_t state = folded(0x243f6a8885a308d3 ^ 16, factor ^ 16);
        for (int i = 0; i < 15; i++) {
            id[i] = i < 8 ? (unsigned char)(number >> (8 * (7 - i))) : (unsigned char)(folded(number, factor) >> (8 * (i - 8)));
            state = folded(state ^ id[i] * 0x010101ull, factor ^ 2);
        }
        for (int last = 0; last < 256 && wanted > 0; last++) {
            uint64_t hash = folded(state ^ last * 0x010101ull, factor ^ 2);
            if (((hash ^ (hash >> 32)) & low) != 0) continue;
            id[15] = (unsigned char)last;
            for (int i = 0; i < 16; i++) printf("%02x", id[i]);
            printf("\n");
            wanted--;
        }
    }
    return 0;
}
"""


def chosen_ids(count):
    """Returns so many ids whose hashes with the fixed seed have zeros where a table of half as many takes the group from."""
    groups = 1
    while 9 * groups < count // 2:
        groups *= 2
    with tempfile.TemporaryDirectory() as work:
        with open(f"{work}/search.c", "w", encoding="ascii") as file:
            file.write(SEARCH)
        subprocess.run(["cc", "-O2", "-o", f"{work}/search", f"{work}/search.c"], check=True)
        return subprocess.run([f"{work}/search", str(count), str(groups - 1), "1"], capture_output=True, text=True, check=True).stdout.split()


def random_ids(count):
    chance = random.Random(7)
    return [f"{chance.getrandbits(128) | 1:032x}" for _ in range(count)]


class Collector:
    """A running collector, whose output goes to a file."""

    def __init__(self, program, traces):
        with socket.socket() as probe:
            probe.bind(("127.0.0.1", 0))
            port = probe.getsockname()[1]
        self.config = tempfile.NamedTemporaryFile("w", suffix=".toml")
        self.config.write(SETTINGS.format(port=port, traces=traces, wait=WAIT_MS))
        self.config.flush()
        self.output = tempfile.TemporaryFile("w+")
        self.process = subprocess.Popen([program, "serve", self.config.name], stdin=subprocess.DEVNULL, stdout=self.output)
        self.connection = http.client.HTTPConnection("127.0.0.1", port)
        while True:
            try:
                self.connection.connect()
                return
            except ConnectionRefusedError:
                if self.process.poll() is not None:
                    self.output.seek(0)
                    sys.exit(f"the collector ended: {self.output.read()}")
                time.sleep(0.02)

    def cpu(self):
        """The processor time that it took, in seconds."""
        with open(f"/proc/{self.process.pid}/stat", encoding="utf-8") as file:
            fields = file.read().rsplit(")", 1)[1].split()
        return (int(fields[11]) + int(fields[12])) / os.sysconf("SC_CLK_TCK")

    def send(self, ids):
        """Sends a span of each of these traces."""
        for first in range(0, len(ids), SPANS_OF_A_REQUEST):
            spans = ",".join(
                '{"traceId":"%s","spanId":"%016x","name":"a","startTimeUnixNano":"1","endTimeUnixNano":"2"}' % (trace, first + place + 1)
                for place, trace in enumerate(ids[first : first + SPANS_OF_A_REQUEST])
            )
            body = '{"resourceSpans":[{"scopeSpans":[{"spans":[%s]}]}]}' % spans
            self.connection.request("POST", "/v1/traces", body, {"Content-Type": "application/json"})
            answer = self.connection.getresponse()
            said = answer.read()
            assert answer.status == 200 and b"rejected" not in said, (answer.status, said)
            if (first // SPANS_OF_A_REQUEST + 1) % REQUESTS_AT_ONCE == 0:
                self.rest()

    def settle(self):
        """Waits until all that waits is decided and it does nothing more."""
        self.rest()
        time.sleep(WAIT_MS / 1000 + 0.5)
        self.rest()

    def rest(self):
        """Waits until it does nothing more. That may take longer than a silent connection is kept: the next request comes on a new one."""
        self.connection.close()
        took = self.cpu()
        time.sleep(0.2)
        while self.cpu() - took > 0.02:
            took = self.cpu()
            time.sleep(0.2)

    def close(self):
        """Says `POST /close`, and returns the report."""
        self.connection.request("POST", "/close", "")
        self.connection.getresponse().read()
        assert self.process.wait(timeout=600) == 0
        self.output.seek(0)
        return [line.strip() for line in self.output.readlines()[-9:]]


def measure(program, name, ids):
    """Runs a collector on these ids, prints what it took, and returns its processor time in seconds."""
    half = len(ids) // 2
    first, others = ids[:half], ids[half:]
    shuffled = list(first)
    random.Random(8).shuffle(shuffled)
    collector = Collector(program, half)
    try:
        for each in (first, shuffled):
            collector.send(each)
        collector.settle()
        buffered = collector.cpu()
        for each in (others, shuffled):
            collector.send(each)
        collector.settle()
        took = collector.cpu()
        report = collector.close()
    finally:
        if collector.process.poll() is None:
            os.kill(collector.process.pid, signal.SIGTERM)
    print(f"{name}: {buffered:.2f} s of a processor for the index, {took - buffered:.2f} s with the caches; {', '.join(report)}", flush=True)
    return took


def main():
    program, traces = sys.argv[1], int(sys.argv[2]) if len(sys.argv) > 2 else 100_000
    by_chance = measure(program, f"{traces} random ids", random_ids(2 * traces))
    by_choice = measure(program, f"{traces} chosen ids", chosen_ids(2 * traces))
    print(f"chosen ids took {by_choice / by_chance:.2f} times as long")
    sys.exit(1 if by_choice > 1.5 * by_chance else 0)


if __name__ == "__main__":
    main()
