"""Checks of `tsc serve` on what sockets seldom do: reads that are interrupted, a client that waits in line at the close, one that never reads."""

import os
import shutil
import socket
import subprocess
import tempfile
import time

from collector import ALL, ERROR_SPAN, PATIENCE, Client, Failure, LeftOut, asked, body_of, free_port, post, scrape, tried, until, want
from serve_export import Backend
from serve_many import comes_back_to, open_files

HERE = os.path.dirname(os.path.abspath(__file__))


def library_of(name, folder):
    """Makes the library of this C file, which is loaded ahead of the C library, and returns its path. Without a C compiler the check is left out."""
    if not shutil.which("cc"):
        raise LeftOut("there is no C compiler")
    library = os.path.join(folder, f"{name}.so")
    subprocess.run(["cc", "-shared", "-fPIC", "-O1", "-o", library, os.path.join(HERE, f"{name}.c")], check=True)
    return library


def interrupted_reads(start):
    """The first read of each connection is interrupted: the connection goes on, and its request is answered once the rest of it came."""
    admin, request = free_port(), post(body_of([ERROR_SPAN]))
    with tempfile.TemporaryDirectory() as folder:
        library, told = library_of("interrupted_reads", folder), os.path.join(folder, "told")
        surroundings = {"LD_PRELOAD": library, "INTERRUPTED": told}
        collector = start(f'admin = "127.0.0.1:{admin}"\n' + ALL, surroundings=surroundings)
        until("the first interruption", lambda: os.path.exists(told))
        for _ in range(3):
            before = os.path.getsize(told)
            client = collector.client()
            client.send(request[:40])
            until("an interruption", lambda: os.path.getsize(told) > before)
            client.send(request[40:])
            want("the answer behind an interrupted read", client.answer()[::2], (200, "{}"))
            client.close()
        want("the answer of the second address", asked(admin, post(b"", "/close"))[::2], (200, "{}"))
        want("the report", collector.end()[1], [3, 3, 0, 0, 0, 0, 0, 0, 0])


def is_there(port):
    """Whether somebody listens at this port."""
    with socket.socket() as probe:
        return probe.connect_ex(("127.0.0.1", port)) == 0


def second_address(start):
    """Of a name with two addresses, at the first of which somebody else listens, the second is listened at; and a backend is sent to at its second."""
    with tempfile.TemporaryDirectory() as folder, socket.create_server(("127.0.0.2", 0)) as taken:
        port, backend = taken.getsockname()[1], Backend()
        config = os.path.join(folder, "config.toml")
        with open(config, "w", encoding="utf-8") as file:
            file.write(f'log = "off"\nlisten = "two.test:{port}"\n' + ALL + backend.settings().replace("127.0.0.1", "two.test"))
        surroundings = {**os.environ, "LD_PRELOAD": library_of("two_addresses", folder)}
        ran = subprocess.Popen([start.program, "serve", config], stdin=subprocess.DEVNULL, stdout=subprocess.PIPE, env=surroundings)
        try:
            until("the second address", lambda: is_there(port) or ran.poll() is not None)
            want("whether it runs", ran.poll(), None)
            client = Client(port)
            client.send(post(body_of([ERROR_SPAN])) + post(b"", "/close"))
            want("the answers", [client.answer()[0] for _ in range(2)], [200, 200])
            want("the report", ran.communicate(timeout=PATIENCE)[0].split(b"\n")[:2], [b"received 1", b"handed 1"])
            want("how many requests", len(backend.requests), 1)
            client.close()
        finally:
            ran.kill()
            ran.wait()


def addresses_that_hang(start):
    """Of a backend with two addresses, neither of which takes a connection, an attempt of a second takes a second in all: six at least in ten seconds,
    in one of three tries."""
    tried(3, lambda: two_that_hang(start))


def two_that_hang(start):
    """The same, once."""
    with tempfile.TemporaryDirectory() as folder, socket.socket() as first, socket.socket() as second:
        first.bind(("127.0.0.2", 0))
        port, held = first.getsockname()[1], []
        second.bind(("127.0.0.1", port))
        for listener in (first, second):
            # A full queue: whoever connects waits for an answer that doesn't come.
            listener.listen(0)
            for _ in range(4):
                held.append(socket.socket())
                held[-1].setblocking(False)
                held[-1].connect_ex(listener.getsockname())
        admin = free_port()
        waits = f'[export]\nendpoint = "http://two.test:{port}/v1/traces"\ntimeout_ms = 1000\nretry_initial_ms = 1\nretry_max_ms = 1\nclose_wait_ms = 1\n'
        collector = start(f'decision_wait_ms = 50\ntick_ms = 20\nadmin = "127.0.0.1:{admin}"\n' + ALL + waits, surroundings={"LD_PRELOAD": library_of("two_addresses", folder)})
        want("the answer", collector.ask(post(body_of([ERROR_SPAN])))[0], 200)
        time.sleep(10)
        ended = scrape(admin)['tsc_export_attempts_total{result="unanswered"}']
        if not 6 <= ended <= 11:
            raise Failure(f"{ended} attempts of a second in ten seconds")
        want("the answer to /close", asked(admin, post(b"", "/close"))[0], 200)
        want("the report", collector.end()[1], [1, 0, 0, 0, 0, 0, 0, 0, 1])
        for it in held:
            it.close()


def is_refused(client):
    """Whether a client that waited is told that the collector closes, and not cut off."""
    try:
        want("the answer to one that waits", client.answer()[::2], (503, '{"message":"closing"}'))
        return True
    except ConnectionError:
        return False
    finally:
        client.close()


def refused_of_three(start):
    """How many of three that wait at the close, behind one with a request under way, are told of it."""
    admin, request = free_port(), post(body_of([ERROR_SPAN]))
    collector = start(f'max_connections = 1\nadmin = "127.0.0.1:{admin}"\n' + ALL)
    busy = collector.client()
    busy.send(request[:40])
    collector.has_open(1)
    waiting = [collector.client() for _ in range(3)]
    for client in waiting:
        client.send(request)
    want("the answer to the close", asked(admin, post(b"", "/close"))[::2], (200, "{}"))
    refused = [is_refused(client) for client in waiting]
    busy.close()
    want("the report", collector.end()[1], [0] * 9)
    return sum(refused)


def waits_at_the_close(start):
    """Where one connection may be open and has a request under way, three others wait: at the close they are taken once it is cut, and refused. (A
    machine that stands still for a tenth of a second may cut them off: one may be, and there are six tries.)"""
    refused = []
    while not refused or refused[-1] < 2:
        if len(refused) == 6:
            raise Failure(f"of three that waited at the close, in six tries {refused} were refused")
        refused.append(refused_of_three(start))


def never_reads(start):
    """A client that sends requests and never reads an answer has its connection ended, thirty seconds after it took the last bytes."""
    collector = start(ALL)
    want("the answer to another", collector.ask(post(b"[]"))[0], 400)
    collector.has_open(0)
    before = open_files(collector)
    deaf = socket.socket()
    # Short segments and small buffers, so that few answers wait on the way.
    deaf.setsockopt(socket.IPPROTO_TCP, socket.TCP_MAXSEG, 536)
    deaf.setsockopt(socket.SOL_SOCKET, socket.SO_RCVBUF, 4096)
    deaf.setsockopt(socket.SOL_SOCKET, socket.SO_SNDBUF, 65536)
    deaf.connect(("127.0.0.1", collector.port))
    deaf.settimeout(5)
    try:
        while True:
            deaf.sendall(post(b"[]") * 100)
    except TimeoutError:
        pass
    comes_back_to(collector, before, PATIENCE)
    deaf.close()
    want("the report", collector.close()[1], [0] * 9)


CHECKS = [waits_at_the_close, never_reads, interrupted_reads, second_address, addresses_that_hang]
