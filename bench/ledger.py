#!/usr/bin/env python3
"""Measures `tsc serve` without and with a ledger of requests: ledger.py PROGRAM [FOLDER]

First half of the load that it takes without a ledger, for twenty seconds of each `sync`: processor time for a span, how long requests wait for their answer, and
what is written. Then how long a million spans that wait take to be received again behind a kill. The ledger is in a folder in FOLDER, or of the
system's temporary files: which disk that is decides what `sync` costs. No part of the gate; the program must be the proved one, since one of
`rt try` checks as it runs."""

import importlib.util
import json
import multiprocessing
import os
import re
import socket
import subprocess
import sys
import tempfile
import time
from pathlib import Path

# By its path, since there is more than one module of this name.
SPEC = importlib.util.spec_from_file_location("load", Path(__file__).resolve().parent / "serve.py")
load = importlib.util.module_from_spec(SPEC)
SPEC.loader.exec_module(load)

CLIENTS, SECONDS, WAITING = 4, 20, 1_000_000
KINDS = {
    "no ledger": "",
    "none": 'sync = "none"\n',
    "interval": 'sync = "interval"\n',
    "request": 'sync = "request"\n',
}


class Collector:
    """A running collector with a ledger, or without one."""

    def __init__(self, program, folder, kind, wait=10_000):
        self.folder, self.ledger = Path(folder), Path(folder) / "ledger"
        with socket.socket() as probe:
            probe.bind(("127.0.0.1", 0))
            self.port = probe.getsockname()[1]
        table = f'[ledger]\npath = "{self.ledger}"\nmax_mib = 16384\n{KINDS[kind]}' if kind != "no ledger" else ""
        settings = f'log = "json"\nlisten = "127.0.0.1:{self.port}"\nqueue_full = "retry"\n' + load.SETTINGS.format(lanes=CLIENTS, wait=wait) + table
        (self.folder / "serve.toml").write_text(settings, "utf-8")
        self.said = open(self.folder / "said", "wb")
        words = [program, "serve", self.folder / "serve.toml"]
        self.began = time.monotonic()
        self.process = subprocess.Popen(words, stdin=subprocess.DEVNULL, stdout=subprocess.DEVNULL, stderr=self.said)
        while True:
            try:
                socket.create_connection(("127.0.0.1", self.port)).close()
                return
            except ConnectionRefusedError:
                assert self.process.poll() is None, (self.folder / "said").read_text("utf-8")
                time.sleep(0.01)

    def cpu(self):
        """The processor time that it took, in seconds."""
        fields = Path(f"/proc/{self.process.pid}/stat").read_text("utf-8").rsplit(")", 1)[1].split()
        return (int(fields[11]) + int(fields[12])) / os.sysconf("SC_CLK_TCK")

    def written(self):
        """The bytes that it has written to files."""
        return int(re.search(r"(?m)^wchar: (\d+)$", Path(f"/proc/{self.process.pid}/io").read_text("utf-8"))[1])

    def memory(self):
        """Its memory, in mebibytes."""
        return int(re.search(r"VmRSS:\s+(\d+)", Path(f"/proc/{self.process.pid}/status").read_text("utf-8"))[1]) >> 10

    def restored(self):
        """The event that all was taken again, once it is said, with the seconds since the start."""
        while True:
            for line in (self.folder / "said").read_text("utf-8").splitlines():
                if (event := json.loads(line))["event"] == "ledger_restored":
                    return event, time.monotonic() - self.began
            assert self.process.poll() is None
            time.sleep(0.02)

    def close(self):
        """Closes it."""
        connection = socket.create_connection(("127.0.0.1", self.port))
        connection.sendall(b"POST /close HTTP/1.1\r\nHost: collector\r\nContent-Length: 0\r\n\r\n")
        assert self.process.wait(timeout=600) == 0
        connection.close()

    def kill(self):
        """Kills it."""
        self.process.kill()
        self.process.wait()


def paced(port, firsts, pause, told):
    """Sends requests, one each so many seconds, or as fast as they are answered; tells how long each took to be answered, from when it was due."""
    made, waits, refused = [load.request(first) for first in firsts], [], 0
    connection = socket.create_connection(("127.0.0.1", port))
    began = time.monotonic()
    for number, data in enumerate(made):
        due = began + number * pause
        time.sleep(max(0, due - time.monotonic()))
        sent = due if pause else time.monotonic()
        while True:
            connection.sendall(data)
            answer = b""
            while not answer.endswith(b"}"):
                answer += connection.recv(4096)
            if answer.startswith(b"HTTP/1.1 200"):
                break
            refused += 1
            time.sleep(0.01)
        waits.append(time.monotonic() - sent)
    told.put((time.monotonic() - began, waits, refused))
    connection.close()


def sent(collector, requests, pause):
    """Sends so many requests by each client. Gives the longest of their seconds, how long each answer took, and how many were 503."""
    told = multiprocessing.Queue()
    ranges = [range(at * requests * load.PER_REQUEST, (at + 1) * requests * load.PER_REQUEST, load.PER_REQUEST) for at in range(CLIENTS)]
    clients = [multiprocessing.Process(target=paced, args=(collector.port, it, pause, told)) for it in ranges]
    for it in clients:
        it.start()
    answers = [told.get() for _ in clients]
    for it in clients:
        it.join()
    return max(seconds for seconds, _, _ in answers), sorted(wait for _, waits, _ in answers for wait in waits), sum(refused for _, _, refused in answers)


def at_half_load(program, room, kind, pause):
    """A row: what a span takes, how long answers take, and what is written."""
    with tempfile.TemporaryDirectory(dir=room) as folder:
        collector = Collector(program, folder, kind)
        cpu, written = collector.cpu(), collector.written()
        requests = round(SECONDS / pause)
        _, waits, refused = sent(collector, requests, pause)
        spans = requests * CLIENTS * load.PER_REQUEST
        cpu, written = collector.cpu() - cpu, collector.written() - written
        collector.close()
    places = [1000 * waits[int(len(waits) * it)] for it in (0.5, 0.99)] + [1000 * waits[-1]]
    return f"| {kind} | {1e6 * cpu / spans:.2f} | {places[0]:.2f} | {places[1]:.2f} | {places[2]:.1f} | {written / spans:,.0f} | {refused} |"


def restored(program, room):
    """Rows: how long a million spans that wait take to come back."""
    with tempfile.TemporaryDirectory(dir=room) as folder:
        collector = Collector(program, folder, "none", 3_600_000)
        sent(collector, WAITING // CLIENTS // load.PER_REQUEST, 0)
        time.sleep(1)
        memory, size = collector.memory(), sum(it.stat().st_size for it in collector.ledger.iterdir())
        collector.kill()
        collector = Collector(program, folder, "none", 3_600_000)
        listening = time.monotonic() - collector.began
        event, seconds = collector.restored()
        print(f"{int(event['spans']):,} spans of {int(event['requests']):,} requests, {size >> 20} MiB in files, {memory} MiB of memory before the kill")
        print(f"listens after {listening:.1f} s, and all is received again after {seconds:.1f} s, {int(event['spans']) / seconds:,.0f} spans a second; {collector.memory()} MiB of memory then", flush=True)
        collector.kill()


def main():
    """Prints a table, and what a restart takes."""
    program, room = sys.argv[1], sys.argv[2] if len(sys.argv) > 2 else None
    with tempfile.TemporaryDirectory(dir=room) as folder:
        collector = Collector(program, folder, "no ledger")
        seconds, _, _ = sent(collector, 1000, 0)
        collector.close()
    most = 1000 * CLIENTS * load.PER_REQUEST / seconds
    pause = 2 * CLIENTS * load.PER_REQUEST / most
    size = len(load.request(0)) // load.PER_REQUEST
    print(f"{CLIENTS} lanes, 2 shards, requests of {load.PER_REQUEST} spans of {size} bytes: {most:,.0f} spans a second at most, and half of that below")
    print("| `sync` | microseconds of processor time a span | median answer, ms | p99, ms | longest, ms | bytes written a span | answers 503 |\n|---|---|---|---|---|---|---|")
    for kind in KINDS:
        print(at_half_load(program, room, kind, pause), flush=True)
    restored(program, room)


if __name__ == "__main__":
    main()
