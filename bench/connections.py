"""What bench/connections.sh measures: each line is what was done, and what came of it."""

import os
import re
import socket
import subprocess
import sys
import tempfile
import time

from serve import PER_REQUEST, Collector, request

BODY = request(0).partition(b"\r\n\r\n")[2]
ONE = b'{"resourceSpans":[{"scopeSpans":[{"spans":[{"traceId":"5b8efff798038103d269b633813fc60c","spanId":"eee19b7ec3c1b174"}]}]}]}'
ROUNDS = 9
LUA = 'wrk.method = "POST"\nwrk.headers["Content-Type"] = "application/json"\nlocal file = io.open("%s", "rb")\nwrk.body = file:read("*a")\n'


class Many(Collector):
    """A collector that may have many connections."""

    def __init__(self, program, lanes, connections, more=""):
        super().__init__(program, lanes, f"1000\nmax_connections = {connections}\n{more}")
        time.sleep(1)  # (it listens before it has taken memory for its queues)

    def files(self):
        """How many files it has open."""
        return len(os.listdir(f"/proc/{self.process.pid}/fd"))

    def kibibytes(self):
        """Its memory."""
        with open(f"/proc/{self.process.pid}/status", encoding="utf-8") as file:
            return int(next(line for line in file if line.startswith("VmRSS")).split()[1])


def script(folder, body):
    """A script of wrk that sends this body."""
    path = os.path.join(folder, "body")
    with open(path, "wb") as file:
        file.write(body)
    with open(os.path.join(folder, "post.lua"), "w", encoding="utf-8") as file:
        file.write(LUA % path)
    return os.path.join(folder, "post.lua")


def wrk(port, connections, seconds, body, *fields):
    """Requests a second, p50 and p99 in milliseconds, and what wrk says of errors."""
    with tempfile.TemporaryDirectory() as folder:
        words = ["wrk", "-t2", f"-c{connections}", f"-d{seconds}", "--timeout", "10", "--latency", "-s", script(folder, body)]
        words += [it for field in fields for it in ("-H", field)] + [f"http://127.0.0.1:{port}/v1/traces"]
        said = subprocess.run(words, capture_output=True, text=True, check=True).stdout
    units = {"us": 0.001, "ms": 1, "s": 1000, "m": 60_000}
    found = {name: float(number) * units[unit] for name, number, unit in re.findall(r"^ +(50|99)% +([\d.]+)(us|ms|s|m) *$", said, re.M)}
    errors = re.findall(r"^ *(Socket errors:.*|Non-2xx.*)$", said, re.M)
    rate = float(re.search(r"Requests/sec: +([\d.]+)", said)[1])
    count = int(re.search(r"(\d+) requests in", said)[1])
    return rate, found.get("50", -1), found.get("99", -1), errors, count


def told(what, rate, half, most, errors, count):
    print(f"{what}: {rate:.0f} requests a second, half within {half:.2f} ms, 99 % within {most:.2f} ms; {count} in all; {'; '.join(errors) or 'no error'}", flush=True)


def many_idle(port, count):
    """So many connections that say nothing."""
    idle = []
    for at in range(count):
        of = socket.socket()
        of.bind((f"127.0.0.{at // 5000 + 2}", 0))
        of.connect(("127.0.0.1", port))
        idle.append(of)
    return idle


def beside_idle(program):
    """Sixteen busy connections on four lanes, alone and beside 10,000 idle ones: of two collectors in turn."""
    alone, beside = Many(program, 4, 16384), Many(program, 4, 16384)
    before = beside.kibibytes()
    idle = many_idle(beside.port, 10_000)
    time.sleep(2)
    more = beside.kibibytes() - before
    print(f"10,000 idle connections: {beside.files()} open files, {more} KiB more, {more * 1024 / 10_000:.0f} bytes each", flush=True)
    used = beside.cpu()
    time.sleep(10)
    print(f"with 10,000 idle: {(beside.cpu() - used) * 10:.2f} % of a core", flush=True)
    found = {alone: [], beside: []}
    for _ in range(ROUNDS):
        for of, rounds in found.items():
            rounds.append(wrk(of.port, 16, 5, ONE))
    for what, rounds in (("alone", found[alone]), ("beside 10,000 idle", found[beside])):
        rates, most = sorted(it[0] for it in rounds), sorted(it[2] for it in rounds)
        errors = sorted({it for of in rounds for it in of[3]})
        print(f"16 busy, one span a request, 4 lanes, {what}: 99 % within {most[ROUNDS // 2]:.2f} ms in the middle of {ROUNDS} rounds ({most[0]:.2f} to {most[-1]:.2f}), {rates[ROUNDS // 2]:.0f} requests a second; {'; '.join(errors) or 'no error'}", flush=True)
    alone.close()
    print(f"the close: {beside.close():.2f} s", flush=True)
    for of in idle:
        of.close()


def errors_of_thousand(program):
    """A thousand busy connections, by wrk and by h2load."""
    for lanes in (1, 4):
        collector = Many(program, lanes, 4096)
        told(f"wrk, 1,000 connections, one span, {lanes} lanes", *wrk(collector.port, 1000, 10, ONE))
        told(f"wrk, 1,000 connections, {PER_REQUEST} spans, {lanes} lanes", *wrk(collector.port, 1000, 10, BODY))
        with tempfile.NamedTemporaryFile() as file:
            file.write(ONE)
            file.flush()
            words = ["h2load", "--h1", "-c1000", "-n200000", "-t2", "-d", file.name, "-H", "Content-Type: application/json", f"http://127.0.0.1:{collector.port}/v1/traces"]
            said = subprocess.run(words, capture_output=True, text=True, check=True).stdout
        print(f"h2load, 1,000 connections, {lanes} lanes: " + "; ".join(re.findall(r"^(finished.*|requests:.*|status codes:.*)$", said, re.M)), flush=True)
        print(f"the close: {collector.close():.2f} s", flush=True)


def throughput(program):
    """Spans a second by four lanes, with 4, 64 and 1,000 connections."""
    for connections in (4, 64, 1000):
        collector = Many(program, 4, 4096)
        began = collector.cpu()
        rate, half, most, errors, count = wrk(collector.port, connections, 10, BODY)
        used = (collector.cpu() - began) / (count * PER_REQUEST) * 1e6
        print(f"{connections} connections, 4 lanes: {rate * PER_REQUEST:.0f} spans a second, {used:.2f} microseconds of a processor a span, 99 % within {most:.2f} ms; {'; '.join(errors) or 'no error'}", flush=True)
        collector.close()


def short_ones(program):
    """Two hundred thousand connections of one request each."""
    collector = Many(program, 4, 1024)
    wrk(collector.port, 16, 5, ONE, "Connection: close")
    time.sleep(3)
    files, memory, count, errors = collector.files(), collector.kibibytes(), 0, []
    while count < 200_000:
        found = wrk(collector.port, 16, 10, ONE, "Connection: close")
        count, errors = count + found[4], errors + found[3]
    time.sleep(3)
    print(f"{count} short connections: open files {files} and then {collector.files()}, memory {memory} and then {collector.kibibytes()} KiB; {'; '.join(errors) or 'no error'}", flush=True)
    print(f"the close: {collector.close():.2f} s", flush=True)


def idle(program):
    """The processor time of a collector that has nothing to do."""
    collector = Many(program, 4, 1024)
    time.sleep(3)
    used = collector.cpu()
    time.sleep(30)
    print(f"idle, 4 lanes and 2 shards: {(collector.cpu() - used) / 0.3:.2f} % of a core", flush=True)
    collector.close()


def close_beside(program):
    """The close beside clients that say nothing, that stop within a request, and that read no answer."""
    collector = Many(program, 2, 1024)
    clients = [socket.create_connection(("127.0.0.1", collector.port)) for _ in range(150)]
    whole = b"POST /v1/traces HTTP/1.1\r\nHost: c\r\nContent-Type: application/json\r\nContent-Length: %d\r\n\r\n" % len(ONE) + ONE
    for of in clients[50:100]:
        of.sendall(whole[:60])
    for of in clients[100:]:
        of.setblocking(False)
        for _ in range(50):
            try:
                of.send(whole * 500)
            except BlockingIOError:
                break
    time.sleep(1)
    print(f"the close beside 50 silent clients, 50 within a request, 50 that read nothing: {collector.close():.2f} s", flush=True)


def main():
    works = [idle, beside_idle, errors_of_thousand, throughput, short_ones, close_beside]
    names = sys.argv[2:]
    for work in works:
        if not names or work.__name__ in names:
            work(sys.argv[1])


if __name__ == "__main__":
    main()
