"""Checks of `tsc serve` with many connections at once: idle ones, slow ones, ones that read nothing, and refusals under way."""

import json
import os
import resource
import signal
import socket
import subprocess
import sys
import threading
import time

from collector import ALL, ERROR_SPAN, Failure, body_of, post, tried, until, want
from serve_limits import at_most, side_by_side, spans_by_number

MEGABYTES = b" " * 5_000_000


def beside_idle_ones(start):
    """Ten thousand idle connections on four lanes (as many as may be open here, and as can be made in twenty seconds) hold none of sixteen busy ones;
    and each tenth is served when it asks, before it has been idle for a minute."""
    most = resource.getrlimit(resource.RLIMIT_NOFILE)[1]
    resource.setrlimit(resource.RLIMIT_NOFILE, (most, most))
    count = min(10_000, most - 200)
    collector = start("lanes = 4\nmax_connections = 16384\nnum_traces = 10000\nqueue_capacity = 65536\n" + ALL)
    made = time.monotonic()
    idle = made_within(20, count, collector)
    busy = [collector.client() for _ in range(16)]
    began = time.monotonic()

    def asks(at):
        for number in range(25):
            busy[at].send(post(body_of(spans_by_number(25 * at + number, 1))))
            want("the answer", busy[at].answer()[::2], (200, "{}"))

    side_by_side(asks, range(16))
    at_most("four hundred requests beside idle connections", 25, began)
    received = 400
    for client in idle[::10]:
        # (One that is as old as the first may be at its end by now.)
        if time.monotonic() - made > 55:
            break
        client.send(post(body_of(spans_by_number(600 + received, 1))))
        want("the answer to one that was idle", client.answer()[::2], (200, "{}"))
        received += 1
    want(f"whether {received - 400} that were idle are twenty or more", received >= 420, True)
    began = time.monotonic()
    want("the report", collector.close()[1], [received, received, 0, 0, 0, 0, 0, 0, 0])
    at_most("the close beside idle connections", 25, began)
    for client in idle:
        client.close()


def made_within(seconds, count, collector):
    """So many connections, or as many as are made within these seconds: two hundred at least."""
    made, began = [], time.monotonic()
    while len(made) < count and (len(made) < 200 or time.monotonic() - began < seconds):
        made.append(collector.client())
    return made


def numbered_by_connection(start):
    """Requests of many connections that take turns: spans of one connection and trace come out in the order in which it sent them."""
    collector = start("lanes = 2\nshards = 2\nnum_traces = 10000\nqueue_capacity = 65536\n" + ALL)
    clients = [collector.client() for _ in range(40)]
    for turn in range(10):
        for at, client in enumerate(clients):
            spans = [{"traceId": f"{at + 1:032x}", "spanId": f"{at + 1:08x}{10 * turn + part + 1:08x}"} for part in range(10)]
            client.send(post(body_of(spans)))
        for client in clients:
            want("the answer", client.answer()[::2], (200, "{}"))
    for client in clients:
        client.close()
    lines, numbers = collector.close()
    want("the report", numbers, [4000, 4000, 0, 0, 0, 0, 0, 0, 0])
    seen = {}
    for line in lines:
        for span in spans_in(line):
            seen.setdefault(span["traceId"], []).append(span["spanId"])
    for at in range(40):
        want("the order", seen[f"{at + 1:032x}"], [f"{at + 1:08x}{number + 1:08x}" for number in range(100)])


def spans_in(line):
    """The spans of a line of output, in its order."""
    return [span for of in json.loads(line)["resourceSpans"] for scope in of["scopeSpans"] for span in scope["spans"]]


def sends_while(began, seconds, slow, data):
    """Sends the same to each client as long as so many seconds haven't passed; one that was answered already may be gone."""
    for client in slow:
        if time.monotonic() - began < seconds:
            try:
                client.send(data)
            except OSError:
                pass


def tricklers(start):
    """Two thousand clients (or as many as connect in twenty seconds) that send a byte a second, for eight seconds, are answered 408 ten seconds after
    their first (within nine to forty-five), and hold neither others nor, within five seconds in one of three tries, the close."""
    collector = start("max_connections = 4096\n" + ALL)
    request = post(body_of([ERROR_SPAN]))
    slow = made_within(20, 2000, collector)
    began, rounds = time.monotonic(), 0
    while rounds < 9 and time.monotonic() - began < 8.5:
        sends_while(began, 30 if rounds == 0 else 8, slow, request[rounds : rounds + 1])
        want("the answer beside them", collector.ask(post(body_of([ERROR_SPAN])))[::2], (200, "{}"))
        rounds += 1
        time.sleep(max(0, began + rounds - time.monotonic()))
    for client in slow:
        want("the answer to a trickler", client.answer()[::2], (408, '{"message":"request timeout"}'))
    took = time.monotonic() - began
    if not 9 <= took <= 45:
        raise Failure(f"tricklers were answered after {took:.1f} s")
    for client in slow:
        client.close()
    want("the report", collector.close()[1], [rounds, rounds, 0, 0, 0, 0, 0, 0, 0])
    tried(3, lambda: closes_beside_requests(start))


def closes_beside_requests(start):
    """Twenty requests that are under way don't hold the close: they are cut a second later, and not ten seconds after their first byte."""
    collector = start(ALL)
    under_way = [collector.client() for _ in range(20)]
    for client in under_way:
        client.send(post(b"{}")[:20])
    collector.has_open(20)
    began = time.monotonic()
    want("the report", collector.close()[1], [0] * 9)
    at_most("the close beside requests under way", 5, began)


def open_files(collector):
    """How many files it has open."""
    return len(os.listdir(f"/proc/{collector.process.pid}/fd"))


def kibibytes(collector):
    """The memory that it takes."""
    with open(f"/proc/{collector.process.pid}/status", encoding="utf-8") as file:
        return next(int(line.split()[1]) for line in file if line.startswith("VmRSS"))


def comes_back_to(collector, count, seconds):
    """Waits until it has no more files open than so many."""
    began = time.monotonic()
    while open_files(collector) > count:
        at_most(f"{open_files(collector)} open files, and not {count}", seconds, began)
        time.sleep(0.02)


def stays_behind_its_refusal(start):
    """A client, the only one, that stays behind the 408 to its request: its connection is closed a second later all the same (within six seconds, in one
    of three tries)."""
    tried(3, lambda: one_stays_behind_its_refusal(start))


def one_stays_behind_its_refusal(start):
    """The same, once."""
    collector = start(ALL)
    client = collector.client()
    client.send(b"POST /v1/traces HTTP/1.1\r\n")
    collector.has_open(1)
    before = open_files(collector)
    want("the answer", client.answer()[::2], (408, '{"message":"request timeout"}'))
    comes_back_to(collector, before - 1, 6)
    client.close()
    want("the report", collector.close()[1], [0] * 9)


def twenty_thousand_short_ones(start):
    """Twenty thousand connections of one request each leave no open file behind."""
    collector = start("lanes = 4\nnum_traces = 100000\nqueue_capacity = 65536\n" + ALL)
    want("the answer", collector.ask(post(body_of([ERROR_SPAN])))[::2], (200, "{}"))
    collector.has_open(0)
    before = open_files(collector)

    def asks(at):
        for number in range(5000):
            client = collector.client()
            client.socket.setsockopt(socket.SOL_SOCKET, socket.SO_LINGER, b"\1\0\0\0\0\0\0\0")
            client.send(post(body_of(spans_by_number(5000 * at + number, 1))))
            want("the answer", client.answer()[::2], (200, "{}"))
            client.close()

    side_by_side(asks, range(4))
    comes_back_to(collector, before, 40)
    want("the report", collector.close()[1], [20_001, 20_001, 0, 0, 0, 0, 0, 0, 0])


def short_ones(collector, count):
    """So many short connections by each of four programs, all answered."""
    words = [sys.executable, os.path.join(os.path.dirname(__file__), "short_connections.py"), str(collector.port), str(count)]
    clients = [subprocess.Popen(words, stdout=subprocess.PIPE) for _ in range(4)]
    want("how many were answered", [int(it.communicate()[0]) for it in clients], [count] * 4)


def two_hundred_thousand_short_ones(start):
    """Two hundred thousand connections of one request each leave no open file and no memory behind."""
    collector = start("lanes = 4\n" + ALL)
    want("the answer", collector.ask(post(body_of([ERROR_SPAN])))[::2], (200, "{}"))
    short_ones(collector, 2_000)
    collector.has_open(0)
    before, memory = open_files(collector), kibibytes(collector)
    short_ones(collector, 50_000)
    comes_back_to(collector, before, 40)
    more = kibibytes(collector) - memory
    if more > 1024:
        raise Failure(f"{more} KiB more are taken than before")
    want("the report", collector.close()[1], [1, 1, 0, 0, 0, 0, 0, 0, 0])


def few_may_be_open(start):
    """At sixteen connections at most, on two lanes: a hundred clients are served one after the other though none of them leaves; one that asked waits for nobody."""
    collector = start("lanes = 2\nmax_connections = 16\n" + ALL)
    clients = []
    for at in range(100):
        clients.append(collector.client())
        clients[-1].send(post(body_of(spans_by_number(at, 1))))
        want(f"the answer to client {at}", clients[-1].answer()[::2], (200, "{}"))
    until("eighteen are open at most", lambda: sum(is_open(it.socket) for it in clients) <= 18)
    time.sleep(0.5)
    open_now = sum(is_open(it.socket) for it in clients)
    if not 8 <= open_now <= 18:
        raise Failure(f"of a hundred connections {open_now} are open")
    want("the report", collector.close()[1], [100, 100, 0, 0, 0, 0, 0, 0, 0])


def is_open(of):
    """Whether the other side of a socket hasn't ended it."""
    of.setblocking(False)
    try:
        return of.recv(1) != b""
    except BlockingIOError:
        return True
    except ConnectionResetError:
        return False


def longest_idle_one_leaves(start):
    """At three connections at most a fourth one takes the place of the one that has been idle longest, and not of the one that came first."""
    collector = start("max_connections = 3\n" + ALL)
    collector.has_open(0)  # (the one that looked whether it listens has gone)
    clients = [collector.client() for _ in range(3)]
    for at, client in enumerate(clients + clients[:1]):
        client.send(post(body_of(spans_by_number(at, 1))))
        want("the answer", client.answer()[::2], (200, "{}"))
        time.sleep(0.05)
    clients.append(collector.client())
    clients[-1].send(post(body_of(spans_by_number(4, 1))))
    want("the answer to the fourth", clients[-1].answer()[::2], (200, "{}"))
    want("what the one that has been idle longest gets", clients[1].rest(), b"")
    want("whether the others are still there", [is_open(it.socket) for it in clients[:1] + clients[2:]], [True] * 3)
    want("the report", collector.close()[1], [5, 5, 0, 0, 0, 0, 0, 0, 0])


def few_open_files(start):
    """With 64 open files and two hundred clients that stay: it goes on serving those that ask, and others once they are gone."""
    collector = start("lanes = 4\n" + ALL, limits=[(resource.RLIMIT_NOFILE, 64)])
    clients = [collector.client() for _ in range(200)]
    began = time.monotonic()
    for at in range(50):
        want("the answer beside them", collector.ask(post(body_of(spans_by_number(at, 1))))[::2], (200, "{}"))
    at_most("fifty answers beside them", 40, began)
    for client in clients:
        client.close()
    for at in range(50):
        want("the answer behind them", collector.ask(post(body_of(spans_by_number(50 + at, 1))))[::2], (200, "{}"))
    want("the report", collector.close()[1], [100, 100, 0, 0, 0, 0, 0, 0, 0])


def refusals_arrive(start):
    """A refusal reaches a client that sends all of a long request before it reads: 413, 415, 404 and 431, two hundred times each. What is sent behind it
    is read for a second: a client that was at it for longer may be cut off (fifty of each, as a slow machine has them), and another takes its place."""
    collector = start("lanes = 2\n" + ALL)
    too_long = post(MEGABYTES)
    rows = [
        (413, too_long),
        (415, too_long.replace(b"application/json", b"application/octet-stream")),
        (404, too_long.replace(b"/v1/traces", b"/v1/metrics")),
        (431, b"POST /v1/traces HTTP/1.1\r\nX: " + MEGABYTES),
    ]

    def asks(at):
        status, request = rows[at]
        arrived = late = 0
        while arrived < 200:
            client, began = collector.client(), time.monotonic()
            try:
                client.send(request)
                want(f"the status of refusal {arrived}", client.answer()[0], status)
                arrived += 1
            except ConnectionError:
                late += 1
                if time.monotonic() - began < 0.9 or late > 50:
                    raise
            client.close()

    side_by_side(asks, range(4))
    want("the report", collector.close()[1], [0] * 9)


def reads_nothing(start):
    """A client that sends requests and reads no answer holds nobody: another is served meanwhile, ten times within five seconds in one of three tries."""
    tried(3, lambda: one_reads_nothing(start))


def one_reads_nothing(start):
    """The same, once."""
    collector = start(ALL)
    deaf = socket.socket()
    deaf.setsockopt(socket.SOL_SOCKET, socket.SO_RCVBUF, 4096)
    deaf.connect(("127.0.0.1", collector.port))
    deaf.setblocking(False)
    request = post(b"[]") * 1000
    for _ in range(200):
        try:
            deaf.send(request)
        except BlockingIOError:
            time.sleep(0.005)
    began = time.monotonic()
    for _ in range(10):
        want("the answer", collector.ask(post(body_of([ERROR_SPAN])))[::2], (200, "{}"))
    at_most("ten requests beside a client that reads nothing", 5, began)
    want("the report", collector.close()[1], [10, 10, 0, 0, 0, 0, 0, 0, 0])
    deaf.close()


def slow_pipeliner(start):
    """A client that sends fifteen hundred requests in one go, and begins to read four seconds later, has all answers, in their order."""
    collector, count = start("queue_capacity = 65536\n" + ALL), 1500
    client = socket.socket()
    client.setsockopt(socket.SOL_SOCKET, socket.SO_RCVBUF, 4096)
    client.connect(("127.0.0.1", collector.port))
    requests = [post(body_of(spans_by_number(number, 1))) if number % 3 else post(b"[]") for number in range(count)]
    sending = threading.Thread(target=client.sendall, args=(b"".join(requests),), daemon=True)
    sending.start()
    time.sleep(4)
    client.settimeout(60)
    told = b""
    while told.count(b"HTTP/1.1 ") < count and (more := client.recv(65536)):
        told += more
    want("the answers", [int(it[:3]) for it in told.split(b"HTTP/1.1 ")[1:]], [200 if number % 3 else 400 for number in range(count)])
    sending.join()
    client.close()
    want("the report", collector.close()[1], [1000, 1000, 0, 0, 0, 0, 0, 0, 0])


def connections_of_lanes(collector):
    """How many connections each lane watches, the fewest first: each has an epoll of its own, and watches the listener beside them."""
    folder, counts = f"/proc/{collector.process.pid}", []
    for number in os.listdir(f"{folder}/fd"):
        try:
            if "eventpoll" in os.readlink(f"{folder}/fd/{number}"):
                with open(f"{folder}/fdinfo/{number}", encoding="utf-8") as file:
                    counts.append(sum(line.startswith("tfd:") for line in file) - 1)
        except FileNotFoundError:
            pass
    return sorted(counts)


def shared_by_lanes(start):
    """Of eighty connections that come at once each of eight lanes takes five at least, in one of three tries."""
    tried(3, lambda: share_eighty(start))


def share_eighty(start):
    """The same, once."""
    collector = start("lanes = 8\n" + ALL)
    collector.has_open(0)
    clients = [collector.client() for _ in range(80)]
    collector.has_open(80)
    counts = connections_of_lanes(collector)
    want("the lanes and their connections", (len(counts), sum(counts)), (8, 80))
    want(f"whether of {counts} the fewest are five or more", counts[0] >= 5, True)
    for client in clients:
        client.close()
    want("the report", collector.close()[1], [0] * 9)


def unread_at_the_limit(start):
    """A request that lies there unread, on a connection that has to leave for a new one, is answered: the program stands still while both come."""
    collector = start("lanes = 1\nmax_connections = 1\n" + ALL)
    old = collector.client()
    collector.has_open(1)
    os.kill(collector.process.pid, signal.SIGSTOP)
    try:
        old.send(post(body_of([ERROR_SPAN])))
        new = collector.client()
        time.sleep(0.2)
    finally:
        os.kill(collector.process.pid, signal.SIGCONT)
    want("the answer to the old one", old.answer()[::2], (200, "{}"))
    new.send(post(b"[]"))
    want("the answer to the new one", new.answer()[0], 400)
    old.close()
    new.close()
    want("the report", collector.close()[1], [1, 1, 0, 0, 0, 0, 0, 0, 0])


CHECKS = [beside_idle_ones, numbered_by_connection, tricklers, stays_behind_its_refusal, twenty_thousand_short_ones, two_hundred_thousand_short_ones]
CHECKS += [few_may_be_open, longest_idle_one_leaves, few_open_files, refusals_arrive, reads_nothing, slow_pipeliner, unread_at_the_limit, shared_by_lanes]
