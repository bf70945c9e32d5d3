"""The load of bench/export.sh, and a backend that takes all."""

import multiprocessing
import socket
import subprocess
import sys
import tempfile
import time

from serve import PER_REQUEST, request

CLIENTS = 2
SETTINGS = """decision_wait_ms = 100
tick_ms = 50
num_traces = 1000000
shards = 2
lanes = 2
queue_capacity = 65536
export_capacity = 65536
queue_full = "retry"
policies = [{ name = "all", type = "always_sample" }]
"""
OK = b"HTTP/1.1 200 OK\r\nContent-Length: 2\r\n\r\n{}"


def backend(port, counts):
    """Answers each request with 200, and tells how many requests and bytes of bodies came once the connection ends."""
    listener = socket.create_server(("127.0.0.1", 0))
    port.value = listener.getsockname()[1]
    requests, size, room = 0, 0, memoryview(bytearray(1 << 20))
    while True:
        connection, _ = listener.accept()
        left = b""
        while True:
            while b"\r\n\r\n" not in left:
                n = connection.recv_into(room)
                if n == 0:
                    break
                left += room[:n]
            if b"\r\n\r\n" not in left:
                break
            head, left = left.split(b"\r\n\r\n", 1)
            length = int(head.lower().split(b"content-length: ")[1].split(b"\r\n")[0])
            missing, left = length - len(left), left[length:]
            while missing > 0:
                missing -= connection.recv_into(room, min(missing, len(room)))
            connection.sendall(OK)
            requests, size = requests + 1, size + length
            counts[0], counts[1] = requests, size


def asked_again(port, requests, ready, begin):
    """Sends its requests one after the other; one that is answered 503 is sent again."""
    made = [request(first) for first in requests]
    connection = socket.create_connection(("127.0.0.1", port))
    ready.release()
    begin.wait()
    for data in made:
        while True:
            connection.sendall(data)
            answer = b""
            while not answer.endswith(b"}"):
                answer += connection.recv(4096)
            if answer.startswith(b"HTTP/1.1 200"):
                break
            assert answer.startswith(b"HTTP/1.1 503"), answer
            time.sleep(0.02)
    connection.close()


def run(program, settings, spans, output):
    """Sends so many spans, closes, and gives the seconds from the first request to the program's end, and the report."""
    with socket.socket() as probe:
        probe.bind(("127.0.0.1", 0))
        port = probe.getsockname()[1]
    with tempfile.NamedTemporaryFile("w", suffix=".toml") as config:
        config.write(f'listen = "127.0.0.1:{port}"\n' + SETTINGS + settings)
        config.flush()
        process = subprocess.Popen([program, "serve", config.name], stdin=subprocess.DEVNULL, stdout=output)
        while True:
            try:
                socket.create_connection(("127.0.0.1", port)).close()
                break
            except ConnectionRefusedError:
                time.sleep(0.02)
    each = spans // PER_REQUEST // CLIENTS
    ready, begin = multiprocessing.Semaphore(0), multiprocessing.Event()
    senders = [multiprocessing.Process(target=asked_again, args=(port, [(number * each + i) * PER_REQUEST for i in range(each)], ready, begin)) for number in range(CLIENTS)]
    for sender in senders:
        sender.start()
    for _ in senders:
        ready.acquire()
    started = time.monotonic()
    begin.set()
    for sender in senders:
        sender.join()
    sent = time.monotonic() - started
    connection = socket.create_connection(("127.0.0.1", port))
    connection.sendall(b"POST /close HTTP/1.1\r\nHost: collector\r\nContent-Length: 0\r\n\r\n")
    assert process.wait(timeout=300) == 0
    connection.close()
    return sent, time.monotonic() - started


def handed(output):
    """What the report counts as handed over."""
    output.seek(max(0, output.seek(0, 2) - 300))
    return int(output.read().split(b"handed ")[1].split(b"\n")[0])


def main():
    """Prints a line for each measure."""
    program, spans = sys.argv[1], int((sys.argv[2:] or ["200000"])[0])
    port, counts = multiprocessing.Value("i", 0), multiprocessing.Array("q", 2)
    server = multiprocessing.Process(target=backend, args=(port, counts), daemon=True)
    server.start()
    while port.value == 0:
        time.sleep(0.01)
    export = f'[export]\nendpoint = "http://127.0.0.1:{port.value}/v1/traces"\n'
    rates = {}
    for name, settings in (("lines to a file", ""), ("one backend", export), ("both", export + "lines = true\n")) * 3:
        with tempfile.TemporaryFile() as output:
            sent, whole = run(program, settings, spans, output)
            took = handed(output)
        rates.setdefault(name, []).append(took / whole)
        print(f"{name}: {took} spans handed over in {whole:.1f} s ({sent:.1f} s until all were answered), {took / whole:,.0f} a second", flush=True)
    print(f"{counts[0]} requests with {counts[1]} bytes")
    best = {name: max(found) for name, found in rates.items()}
    print(f"of what a file has a backend has {best['one backend'] / best['lines to a file']:.2f}, both have {best['both'] / best['lines to a file']:.2f} (the best of three each)")


if __name__ == "__main__":
    main()
