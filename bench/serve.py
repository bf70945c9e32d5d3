"""The load generator of bench/serve.sh."""

import multiprocessing
import os
import socket
import subprocess
import sys
import tempfile
import time

PER_REQUEST = 100
SETTINGS = """decision_wait_ms = {wait}
num_traces = 1000000
shards = 2
queue_capacity = 65536
export_capacity = 65536
lanes = {lanes}
policies = [{{ name = "errors", type = "status_code", status_code = {{ status_codes = ["ERROR"] }} }}]
"""


def span(number):
    """The JSON of a span of about a kilobyte; five of a hundred have an error."""
    attributes = ",".join(
        '{"key":"http.request.header.x-%02d","value":{"stringValue":"%s"}}' % (i, "abcdefghij" * 4) for i in range(8)
    )
    status = ',"status":{"code":2}' if number % 20 == 0 else ""
    return (
        '{"traceId":"%032x","spanId":"%016x","name":"GET /orders","kind":2,"startTimeUnixNano":"1700000000000000000",'
        '"endTimeUnixNano":"1700000000250000000","attributes":[%s]%s}' % (number // 4 + 1, number + 1, attributes, status)
    )


def request(first):
    """The bytes of a request of some spans from this number on."""
    spans = ",".join(span(first + i) for i in range(PER_REQUEST))
    body = '{"resourceSpans":[{"resource":{"attributes":[{"key":"service.name","value":{"stringValue":"shop"}}]},"scopeSpans":[{"spans":[%s]}]}]}' % spans
    head = "POST /v1/traces HTTP/1.1\r\nHost: collector\r\nContent-Type: application/json\r\nContent-Length: %d\r\n\r\n" % len(body)
    return (head + body).encode()


def client(port, requests, ready, begin):
    """Sends its requests one after the other, each when the last was answered."""
    made = [request(first) for first in requests]
    connection = socket.create_connection(("127.0.0.1", port))
    ready.release()
    begin.wait()
    for data in made:
        connection.sendall(data)
        answer = b""
        while not answer.endswith(b"}"):
            answer += connection.recv(4096)
        assert answer.startswith(b"HTTP/1.1 200"), answer
    connection.close()


class Collector:
    """A running collector, whose output is thrown away."""

    def __init__(self, program, lanes, wait):
        with socket.socket() as probe:
            probe.bind(("127.0.0.1", 0))
            self.port = probe.getsockname()[1]
        self.config = tempfile.NamedTemporaryFile("w", suffix=".toml")
        self.config.write(f'listen = "127.0.0.1:{self.port}"\n' + SETTINGS.format(lanes=lanes, wait=wait))
        self.config.flush()
        self.process = subprocess.Popen([program, "serve", self.config.name], stdin=subprocess.DEVNULL, stdout=subprocess.DEVNULL)
        while True:
            try:
                socket.create_connection(("127.0.0.1", self.port)).close()
                return
            except ConnectionRefusedError:
                time.sleep(0.02)

    def cpu(self):
        """The processor time that it took, in seconds."""
        with open(f"/proc/{self.process.pid}/stat", encoding="utf-8") as file:
            fields = file.read().rsplit(")", 1)[1].split()
        return (int(fields[11]) + int(fields[12])) / os.sysconf("SC_CLK_TCK")

    def memory(self):
        """Its memory, in mebibytes."""
        with open(f"/proc/{self.process.pid}/status", encoding="utf-8") as file:
            return int(next(line for line in file if line.startswith("VmRSS")).split()[1]) // 1024

    def send(self, clients, spans):
        """Sends so many spans by so many clients at once, and gives the seconds from the first request to the last answer."""
        each = spans // PER_REQUEST // clients
        ready, begin = multiprocessing.Semaphore(0), multiprocessing.Event()
        processes = []
        for number in range(clients):
            firsts = [(number * each + i) * PER_REQUEST for i in range(each)]
            processes.append(multiprocessing.Process(target=client, args=(self.port, firsts, ready, begin)))
        for process in processes:
            process.start()
        for _ in processes:
            ready.acquire()
        started = time.monotonic()
        begin.set()
        for process in processes:
            process.join()
        return time.monotonic() - started

    def close(self):
        """Says `POST /close`, and gives the seconds until its end."""
        started = time.monotonic()
        connection = socket.create_connection(("127.0.0.1", self.port))
        connection.sendall(b"POST /close HTTP/1.1\r\nHost: collector\r\nContent-Length: 0\r\n\r\n")
        assert self.process.wait(timeout=120) == 0
        connection.close()
        return time.monotonic() - started


def main():
    """Prints a line for each measure."""
    program = sys.argv[1]
    size = len(request(0)) // PER_REQUEST
    for lanes in (1, 2, 4):
        collector = Collector(program, lanes, 10000)
        spans = 100000 * lanes
        seconds = collector.send(lanes, spans)
        cpu = collector.cpu()
        ended = collector.close()
        print(f"{lanes} lanes: {spans / seconds:,.0f} spans of {size} bytes a second, {1e6 * cpu / spans:.1f} us of processor time each; closed in {ended:.1f} s", flush=True)
    collector = Collector(program, 4, 3600000)
    time.sleep(1)
    before, memory = collector.cpu(), collector.memory()
    time.sleep(10)
    print(f"idle, 4 lanes and 2 shards: {10 * (collector.cpu() - before):.1f} % of a core, {memory} MiB", flush=True)
    collector.send(4, 1000000)
    print(f"1,000,000 waiting spans of {size} bytes: {collector.memory()} MiB", flush=True)
    print(f"closed in {collector.close():.1f} s")


if __name__ == "__main__":
    main()
