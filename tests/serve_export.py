"""Checks of `tsc serve` with `[export]`: a backend that fails by a script, and what it has in the end.

The backend takes one connection after the other; each request takes the next step of its script, and where that is at its end is answered 200.
"""

import json
import os
import socket
import struct
import threading
import time

from collector import ALL, PATIENCE, Failure, asked, body_of, comes_to, free_port, get, post, scrape, tried, until, want
from serve_admin import COUNTS
from serve_limits import at_most, side_by_side

OK = b"HTTP/1.1 200 OK\r\nContent-Type: application/json\r\nContent-Length: 2\r\n\r\n{}"
FAST = "decision_wait_ms = 50\ntick_ms = 20\n"
# How long a line is waited for where a check doesn't say it: a backend that stalls for a while isn't asked twice.
WAITS = "timeout_ms = 60000\nretry_initial_ms = 50\nretry_max_ms = 200\nclose_wait_ms = 60000\n"
# The same where an attempt is to end for want of an answer.
SHORT = WAITS.replace("timeout_ms = 60000", "timeout_ms = 1000")


def answer(status, fields="", body=b"{}"):
    """An answer with a length."""
    return f"HTTP/1.1 {status} Said\r\n{fields}Content-Length: {len(body)}\r\n\r\n".encode() + body


def span(number):
    """A span of a trace of its own."""
    return {"traceId": f"{number + 1:032x}", "spanId": f"{number + 1:016x}"}


def ids_in(body):
    """The ids of the spans of a body."""
    return [s["spanId"] for r in json.loads(body)["resourceSpans"] for g in r["scopeSpans"] for s in g["spans"]]


def with_more(connection, left, is_enough):
    """What was left and what came behind it until it is enough; nothing where the connection ended before."""
    while not is_enough(left):
        more = connection.recv(65536)
        if not more:
            return b""
        left += more
    return left


class Backend:
    """A backend with a script. A step is a list of the pieces of an answer, a tuple of those behind which it ends the connection, a number of
    bytes of the body after which it resets the connection, a wait in seconds before it answers 200, or what makes an answer of a body. `whole` counts
    the answers that were sent to their end, and `connections` those that were taken."""

    def __init__(self, script=(), listens=True):
        self.script, self.requests, self.taken, self.times, self.whole, self.connections = list(script), [], [], [], 0, 0
        self.lock = threading.Lock()
        self.listener = socket.socket()
        self.listener.setsockopt(socket.SOL_SOCKET, socket.SO_REUSEADDR, 1)
        self.listener.bind(("127.0.0.1", 0))
        self.port = self.listener.getsockname()[1]
        if listens:
            self.listen()

    def listen(self):
        """Takes connections from now on."""
        self.listener.listen(16)
        threading.Thread(target=self.serve, daemon=True).start()

    def serve(self):
        """Takes connections."""
        while True:
            try:
                connection, _ = self.listener.accept()
            except OSError:
                return
            self.connections += 1
            threading.Thread(target=self.serve_one, args=(connection,), daemon=True).start()

    def serve_one(self, connection):
        """Answers the requests of a connection."""
        left = b""
        try:
            while left := with_more(connection, left, lambda it: b"\r\n\r\n" in it):
                head, left = left.split(b"\r\n\r\n", 1)
                fields = dict(line.lower().split(": ", 1) for line in head.decode().split("\r\n")[1:])
                with self.lock:
                    step = self.script.pop(0) if self.script else [OK]
                length = int(fields["content-length"])
                stop = min(step, length) if isinstance(step, int) else length
                left = with_more(connection, left, lambda it, wanted=stop: len(it) >= wanted)
                if isinstance(step, int):
                    connection.setsockopt(socket.SOL_SOCKET, socket.SO_LINGER, struct.pack("ii", 1, 0))
                    return
                if not left:
                    return
                body, left = left[:length], left[length:]
                with self.lock:
                    self.times.append(time.monotonic())
                    self.requests.append((head.decode(), body))
                if isinstance(step, float):
                    time.sleep(step)
                    step = [OK]
                step = [step(body)] if callable(step) else step
                whole = b"".join(step)
                if b" 200 " in whole and b"\r\n\r\n" in whole:
                    with self.lock:
                        self.taken.append(body)
                for piece in step:
                    connection.sendall(piece, socket.MSG_NOSIGNAL)
                    time.sleep(0.01 if len(step) > 1 else 0)
                self.whole += 1
                if isinstance(step, tuple) or b"Connection: close" in whole:
                    return
        except OSError:
            return
        finally:
            connection.close()

    def settings(self, waits=WAITS):
        """The settings of a collector that sends here."""
        return f'[export]\nendpoint = "http://127.0.0.1:{self.port}/v1/traces"\n' + waits


def send(collector, first, count=1):
    """Spans in one request."""
    want("the answer", collector.ask(post(body_of([span(i) for i in range(first, first + count)])))[::2], (200, "{}"))


def delivers(start):
    """A line is one request, byte for byte, and nothing but the report is printed."""
    backend = Backend()
    collector = start(FAST + ALL + backend.settings())
    send(collector, 0)
    until("the request", lambda: backend.requests)
    lines, numbers = collector.close()
    line = b'{"resourceSpans":[{"scopeSpans":[{"spans":[{"spanId":"0000000000000001","traceId":"00000000000000000000000000000001"}]}]}]}\n'
    head = f"POST /v1/traces HTTP/1.1\r\nHost: 127.0.0.1:{backend.port}\r\nContent-Type: application/json\r\ncontent-length: {len(line)}"
    want("the requests", backend.requests, [(head, line)])
    want("the lines", lines, [])
    want("the report", numbers, [1, 1, 0, 0, 0, 0, 0, 0, 0])


def sends_headers(start):
    """Each request has the fields of the configuration behind its own, the tries too."""
    backend = Backend([[answer(503)]])
    headers = 'headers = { Authorization = "Bearer a.b", X-Scope-OrgID = "tenant 1", x-empty = "" }\n'
    collector = start(FAST + ALL + backend.settings() + headers)
    send(collector, 0)
    until("the requests", lambda: len(backend.requests) == 2)
    want("the report", collector.close()[1], [1, 1, 0, 0, 0, 0, 0, 0, 0])
    for head, body in backend.requests:
        own = f"POST /v1/traces HTTP/1.1\r\nHost: 127.0.0.1:{backend.port}\r\nContent-Type: application/json\r\n"
        want("the head", head, f"{own}Authorization: Bearer a.b\r\nX-Scope-OrgID: tenant 1\r\nx-empty: \r\ncontent-length: {len(body)}")


def prints_too(start):
    """With `lines` each line is printed as well, once and in order, byte for byte as it is sent, also one that is tried again or given up."""
    backend = Backend([[OK], [answer(503)], [OK], [answer(400)], 10, [OK]])
    collector = start(FAST + ALL + backend.settings() + "lines = true\n")
    for number, requests in enumerate((1, 3, 4, 5)):
        send(collector, number)
        until("the requests", lambda n=requests: len(backend.requests) >= n)
    lines, numbers = collector.close()
    want("the report", numbers, [4, 3, 0, 0, 0, 0, 0, 0, 1])
    want("the lines", [ids_in(line) for line in lines], [[f"{n + 1:016x}"] for n in range(4)])
    want("what was sent", [body.decode() for _, body in backend.requests], [f"{lines[n]}\n" for n in (0, 1, 1, 2, 3)])


def printing_ends(start):
    """With `lines` a line that can't be printed isn't sent, and nothing is behind it: its spans are counted under 7, and the status is 1."""
    backend, admin = Backend(), free_port()
    reading, writing = os.pipe()
    collector = start(FAST + ALL + f'admin = "127.0.0.1:{admin}"\n' + backend.settings() + "lines = true\n", output=writing)
    os.close(writing)
    send(collector, 0)
    until("the request", lambda: backend.requests)
    os.close(reading)
    for number in (1, 2):
        send(collector, number)
        until("the count", lambda n=number: scrape(admin)['tsc_spans_dropped_total{reason="exporter_down"}'] == n)
    want("the answer to /close", asked(admin, post(b"", "/close"))[::2], (200, "{}"))
    collector.end(1)
    want("what was sent", [ids_in(body) for _, body in backend.requests], [[f"{1:016x}"]])


def no_time_is_no_wish(start):
    """`Retry-After: 0` doesn't make the collector ask again at once: it waits as for an answer that says nothing."""
    backend = Backend([[answer(503, "Retry-After: 0\r\n")]] * 1000)
    waits = "timeout_ms = 500\nretry_initial_ms = 100\nretry_max_ms = 100\nretry_for_ms = 1000\n"
    collector = start(FAST + ALL + backend.settings(waits))
    send(collector, 0)
    want("the report", collector.close()[1], [1, 0, 0, 0, 0, 0, 0, 0, 1])
    if len(backend.requests) > 21:
        raise Failure(f"{len(backend.requests)} requests in a second")


def tries_again(start):
    """What may be tried again is, on a connection that is made again where it breaks; each line arrives once, in order. (Two of the answers don't
    come to an end, and are waited for.)"""
    chunked = [b"HTTP/1.1 200 OK\r\nTransfer-Encoding: chunked\r\n\r\n", b"2\r\n{", b"}\r\n0", b"\r\n\r\n"]
    script = [[answer(503, "Retry-After: 1\r\n")], [answer(429)], [answer(502)], [answer(504)], 10, [OK[:20]], [b"unasked"]]
    script += [[b"HTTP/1.1 100 Continue\r\n\r\n", OK], chunked, [OK.replace(b"\r\n\r\n", b"\r\nConnection: close\r\n\r\n")], [OK[at : at + 4] for at in range(0, len(OK), 4)]]
    backend = Backend(script)
    collector = start(FAST + ALL + backend.settings(WAITS.replace("timeout_ms = 60000", "timeout_ms = 10000")))
    for number in range(5):
        send(collector, number)
        until("the line", lambda n=number: len(backend.taken) >= n + 1)
    if backend.times[1] - backend.times[0] < 0.9:
        raise Failure("Retry-After was not waited for")
    want("what arrived", [ids_in(body) for body in backend.taken[-5:]], [[f"{n + 1:016x}"] for n in range(5)])
    want("the report", collector.close()[1], [5, 5, 0, 0, 0, 0, 0, 0, 0])


def tells_attempts(start):
    """The numbers tell how many attempts were answered 200, otherwise, and not at all."""
    backend, admin = Backend([[answer(503)], [answer(429)], 10, [OK], [answer(400)]]), free_port()
    collector = start(FAST + ALL + f'admin = "127.0.0.1:{admin}"\n' + backend.settings())
    names = [f'tsc_export_attempts_total{{result="{result}"}}' for result in ("taken", "refused", "unanswered")]
    want("the numbers at the start", [scrape(admin)[name] for name in names], [0, 0, 0])
    for number, requests in enumerate((3, 4, 5)):
        send(collector, number)
        until("the requests", lambda n=requests: len(backend.requests) >= n)
    until("the numbers", lambda: [scrape(admin)[name] for name in names] == [2, 3, 1])
    want("the answer to /close", asked(admin, post(b"", "/close"))[::2], (200, "{}"))
    want("the report", collector.end()[1], [3, 2, 0, 0, 0, 0, 0, 0, 1])


def backlog_told(start):
    """/status.json tells what waits for the backend: the spans of all batches, for how long one is sent, how many of its tries failed, how many batches were
    given up."""
    backend, admin = Backend([[answer(503)], [answer(429)], 5.0]), free_port()
    collector = start(FAST + "send_batch_size = 4\n" + ALL + f'admin = "127.0.0.1:{admin}"\n' + backend.settings())
    told = lambda: json.loads(asked(admin, get("/status.json"))[2])["export"]
    idle = {"waiting_spans": 0, "under_way_s": 0, "failed_tries": 0, "given_up_batches": 0}
    want("what waits at the start", told(), idle)
    send(collector, 0, 19)
    until("the third try", lambda: len(backend.requests) == 3)
    comes_to("what waits for it", lambda: {**told(), "under_way_s": 0}, {**idle, "waiting_spans": 19, "failed_tries": 2})
    until("two seconds of it", lambda: told()["under_way_s"] >= 2)
    comes_to("what waits then", told, idle)
    want("what arrived", sorted(number for body in backend.taken for number in ids_in(body)), [f"{number + 1:016x}" for number in range(19)])
    backend.script.append([answer(400)])
    send(collector, 19)
    comes_to("what is told of one that is given up", told, {**idle, "given_up_batches": 1})
    want("the answer to /close", asked(admin, post(b"", "/close"))[::2], (200, "{}"))
    want("the report", collector.end()[1], [20, 19, 0, 0, 0, 0, 0, 0, 1])


def no_answers(start):
    """What breaks off after any byte, is too long or is framed twice is no answer, and the line is sent again; up to the connection's end is one."""
    script = [(OK[:end],) for end in range(len(OK))]
    script += [(b"HTTP/1.1 200 OK\r\nX: " + b"a" * 70000,), (b"HTTP/1.1 200 OK\r\nContent-Length: 70000\r\n\r\n" + b"a" * 70000,)]
    script += [(OK.replace(b"\r\n\r\n", b"\r\nTransfer-Encoding: chunked\r\n\r\n"),), (b"HTTP/1.1 200 OK\r\nTransfer-Encoding: chunked\r\n\r\n2\r\n{}\r\n0\r\n",)]
    script += [(b"HTTP/1.0 200 OK\r\n\r\n{}",)]
    tries = len(script)
    backend = Backend(script)
    waits = "timeout_ms = 60000\nretry_initial_ms = 1\nretry_max_ms = 1\nclose_wait_ms = 60000\n"
    collector = start(FAST + ALL + backend.settings(waits))
    send(collector, 0)
    until("the tries", lambda: len(backend.requests) == tries)
    want("the report", collector.close()[1], [1, 1, 0, 0, 0, 0, 0, 0, 0])
    want("how many requests", len(backend.requests), tries)


def gives_up(start):
    """An answer that is neither 200 nor one to try again gives the batch up, which is counted, and the next one is delivered."""
    backend = Backend([[answer(400)], [OK], [answer(500)], [answer(202)], [answer(408)]])
    collector = start(FAST + ALL + backend.settings())
    for number in range(6):
        send(collector, number)
        until("the request", lambda n=number: len(backend.requests) >= n + 1)
    want("how many requests", len(backend.requests), 6)
    want("what arrived", [ids_in(body) for body in backend.taken], [["0000000000000002"], ["0000000000000006"]])
    want("the report", collector.close()[1], [6, 2, 0, 0, 0, 0, 0, 0, 4])


def rejected_spans(start):
    """Spans that the backend took and rejected are told apart, and no line is sent again for them."""

    def partly(body):
        # Spans of one request may come in several lines: of those of the first two requests three are rejected in all.
        rejected = len({f"{number + 1:016x}" for number in (0, 3, 10)} & set(ids_in(body)))
        return answer(200, body=b'{"partialSuccess":{"rejectedSpans":"%d","errorMessage":"no"}}' % rejected)

    backend, admin = Backend([partly] * 15), free_port()
    collector = start(FAST + ALL + f'admin = "127.0.0.1:{admin}"\n' + backend.settings())
    for number in range(3):
        send(collector, 10 * number, 5)
        until("the spans", lambda n=number: sum(len(ids_in(body)) for body in backend.taken) == 5 * n + 5)
    until("the numbers", lambda: scrape(admin)["tsc_spans_rejected_total"] == 3)
    want("the answer to /close", asked(admin, post(b"", "/close"))[::2], (200, "{}"))
    want("the report", collector.end()[1], [15, 15, 0, 0, 0, 0, 0, 0, 0])
    want("what came", sorted(number for _, body in backend.requests for number in ids_in(body)), [f"{10 * n + i + 1:016x}" for n in range(3) for i in range(5)])


def waits_for_a_backend(start):
    """A backend that listens two seconds late has all lines."""
    backend = Backend(listens=False)
    collector = start(FAST + ALL + backend.settings())
    for number in range(10):
        send(collector, number)
    time.sleep(2)
    backend.listen()
    until("the lines", lambda: sum(len(ids_in(body)) for body in backend.taken) == 10)
    want("the report", collector.close()[1], [10, 10, 0, 0, 0, 0, 0, 0, 0])


def late_answer(start):
    """An answer behind the time of an attempt is none: the line is sent again, and counted once."""
    backend = Backend([2.0])
    collector = start(FAST + ALL + backend.settings(SHORT))
    send(collector, 0)
    until("the lines", lambda: len(backend.taken) >= 2)
    want("the report", collector.close()[1], [1, 1, 0, 0, 0, 0, 0, 0, 0])


def patience_ends(start):
    """A line that is not taken within `retry_for_ms` is given up, after three tries or more; so is one at the close, behind `close_wait_ms`. (A machine
    that stands still for three seconds may leave less: there are three lines.)"""
    waits = "timeout_ms = 5000\nretry_initial_ms = 20\nretry_max_ms = 50\nclose_wait_ms = 400\n"
    backend, admin = Backend([[answer(503)]] * 100000), free_port()
    collector = start(FAST + ALL + f'admin = "127.0.0.1:{admin}"\n' + backend.settings(waits + "retry_for_ms = 3000\n"))
    tries = []
    while max(tries, default=0) < 3 and len(tries) < 3:
        before = len(backend.requests)
        send(collector, len(tries))
        until("the end of patience", lambda: scrape(admin)['tsc_spans_dropped_total{reason="exporter_down"}'] == len(tries) + 1)
        tries.append(len(backend.requests) - before)
    want(f"whether of the tries {tries} three or more are of one line", max(tries) >= 3, True)
    want("the answer to /close", asked(admin, post(b"", "/close"))[::2], (200, "{}"))
    want("the report", collector.end()[1], [len(tries), 0, 0, 0, 0, 0, 0, 0, len(tries)])
    collector = start(FAST + ALL + backend.settings(waits + "retry_for_ms = 600000\n"))
    tries = len(backend.requests)
    send(collector, 1)
    until("a try", lambda: len(backend.requests) > tries)
    began = time.monotonic()
    want("the report of the other", collector.close()[1], [1, 0, 0, 0, 0, 0, 0, 0, 1])
    at_most("the close", 60, began)


def waits_grow(start):
    """Each wait before a line is sent again is twice the one before it, less its half at most, up to the longest; with the next line they begin anew,
    so that of three lines one at least is sent again sooner than by half the longest wait."""
    again = [answer(503)]
    backend = Backend([again] * 4 + [[OK], again, [OK], again])
    collector = start(FAST + ALL + backend.settings("timeout_ms = 60000\nretry_initial_ms = 400\nretry_max_ms = 3200\nclose_wait_ms = 60000\n"))
    for number, requests in enumerate((5, 7, 9)):
        send(collector, number)
        until("the requests", lambda n=requests: len(backend.requests) >= n)
    want("the report", collector.close()[1], [3, 3, 0, 0, 0, 0, 0, 0, 0])
    passed = [after - before for before, after in zip(backend.times, backend.times[1:])]
    for wait, took in zip((400, 800, 1600, 3200), passed):
        if took < wait / 2000 - 0.005:
            raise Failure(f"{took:.3f} s were waited in place of {wait} ms")
    soonest = min(passed[0], passed[5], passed[7])
    if soonest > 1.6:
        raise Failure(f"the soonest of three lines was sent again after {soonest:.3f} s, with 400 ms for the first wait")


def short_waits(start):
    """Where the longest wait is forty milliseconds, each wait is twenty at least: in a second and a half no more than a hundred attempts."""
    backend = Backend([[answer(503)]] * 4000)
    collector = start(FAST + ALL + backend.settings("timeout_ms = 60000\nretry_initial_ms = 40\nretry_max_ms = 40\nclose_wait_ms = 1\n"))
    send(collector, 0)
    until("the first attempt", lambda: backend.requests)
    time.sleep(1.5)
    first = backend.times[0]
    within = sum(at < first + 1.5 for at in list(backend.times))
    if not 2 <= within <= 100:
        raise Failure(f"{within} attempts within a second and a half")
    want("the report", collector.close()[1], [1, 0, 0, 0, 0, 0, 0, 0, 1])


def long_answers(start):
    """An answer of sixty thousand bytes is one, and so is one that comes in many pieces, and one of sixty fields."""
    script = [[answer(200, body=b" " * 60000 + b"{}")], [OK[at : at + 8] for at in range(0, len(OK), 8)], [answer(200, "".join(f"X-{n}: y\r\n" for n in range(59)))]]
    backend, admin = Backend(script), free_port()
    collector = start(FAST + ALL + f'admin = "127.0.0.1:{admin}"\n' + backend.settings())
    for number in range(4):
        send(collector, number)
        until("the request", lambda n=number: len(backend.requests) == n + 1)
    until("the numbers", lambda: attempts_told(admin) == [4, 0, 0])
    want("the answer to /close", asked(admin, post(b"", "/close"))[::2], (200, "{}"))
    want("the report", collector.end()[1], [4, 4, 0, 0, 0, 0, 0, 0, 0])


def attempts_told(admin):
    """How many attempts are told as answered 200, otherwise, and not at all."""
    numbers = scrape(admin)
    return [numbers[f'tsc_export_attempts_total{{result="{result}"}}'] for result in ("taken", "refused", "unanswered")]


def ends_behind_its_answers(start):
    """A backend that ends a connection behind its answer, without saying so, or that sends more than its answer, has each line by one attempt, each on
    a connection of its own. (The end of a connection may come late on a slow machine: there are three tries.)"""
    for step in ((OK,), [OK + answer(503)]):
        tried(3, lambda it=step: each_by_one_attempt(start, it))


def each_by_one_attempt(start, step):
    """The same, once."""
    backend, admin = Backend([step] * 3), free_port()
    collector = start(FAST + ALL + f'admin = "127.0.0.1:{admin}"\n' + backend.settings())
    for number in range(3):
        send(collector, number)
        until("the answer", lambda n=number: backend.whole >= n + 1)
        time.sleep(0.3)
    until("the attempts", lambda: sum(attempts_told(admin)) >= 3)
    want("the attempts", attempts_told(admin), [3, 0, 0])
    want("the connections", backend.connections, 3)
    want("the answer to /close", asked(admin, post(b"", "/close"))[::2], (200, "{}"))
    want("the report", collector.end()[1], [3, 3, 0, 0, 0, 0, 0, 0, 0])


def reads_no_line(start):
    """A backend that takes connections and reads nothing: an attempt to send it three megabytes ends once its time is over."""
    with socket.socket() as deaf:
        deaf.setsockopt(socket.SOL_SOCKET, socket.SO_RCVBUF, 4096)
        deaf.bind(("127.0.0.1", 0))
        deaf.listen(64)
        admin = free_port()
        waits = "timeout_ms = 500\nretry_initial_ms = 20\nretry_max_ms = 20\nclose_wait_ms = 1\n"
        settings = f'[export]\nendpoint = "http://127.0.0.1:{deaf.getsockname()[1]}/v1/traces"\n' + waits
        collector = start(FAST + f'admin = "127.0.0.1:{admin}"\n' + ALL + settings)
        want("the answer", collector.ask(post(body_of([{**span(0), "name": "x" * 3_000_000}])))[0], 200)
        until("the attempts", lambda: attempts_told(admin)[2] >= 2)
        want("the answer to /close", asked(admin, post(b"", "/close"))[::2], (200, "{}"))
        want("the report", collector.end()[1], [1, 0, 0, 0, 0, 0, 0, 0, 1])


def trickling_answer(start):
    """An answer that comes byte by byte for longer than an attempt may take is none: the line is sent again within four seconds, in one of three tries."""
    tried(3, lambda: answer_trickles(start))


def answer_trickles(start):
    """The same, once: the answer takes a minute."""
    trickle = answer(200, body=b" " * 6000 + b"{}")
    backend = Backend([[trickle[at : at + 1] for at in range(len(trickle))]])
    waits = "timeout_ms = 500\nretry_initial_ms = 20\nretry_max_ms = 20\nclose_wait_ms = 60000\n"
    collector = start(FAST + ALL + backend.settings(waits))
    send(collector, 0)
    until("the second request, or the end of the first answer", lambda: len(backend.requests) > 1 or backend.whole)
    want("whether it is sent again before the first answer is whole", len(backend.requests) > 1, True)
    want("whether it is sent again within four seconds", backend.times[1] - backend.times[0] < 4, True)
    want("the report", collector.close()[1], [1, 1, 0, 0, 0, 0, 0, 0, 0])


def closes_while_it_waits(start):
    """A backend that asked to wait for two minutes doesn't hold the close for longer than `close_wait_ms`."""
    backend = Backend([[answer(503, "Retry-After: 120\r\n")]])
    collector = start(FAST + ALL + backend.settings("close_wait_ms = 500\n"))
    send(collector, 0)
    until("the request", lambda: backend.requests)
    time.sleep(0.2)
    began = time.monotonic()
    want("the report", collector.close()[1], [1, 0, 0, 0, 0, 0, 0, 0, 1])
    at_most("the close", 60, began)


def closes_while_it_hangs(start):
    """An attempt that begins behind the close, and isn't answered, takes no longer than what is left of `close_wait_ms`."""
    backend = Backend([[answer(503, "Retry-After: 1\r\n")], float(PATIENCE)])
    collector = start(FAST + ALL + backend.settings("timeout_ms = 600000\nclose_wait_ms = 10000\n"))
    send(collector, 0)
    until("the request", lambda: backend.requests)
    began = time.monotonic()
    want("the report", collector.close()[1], [1, 0, 0, 0, 0, 0, 0, 0, 1])
    at_most("the close", 60, began)
    want("the requests", len(backend.requests), 2)


def told_behind_a_loss(start):
    """Behind a batch that was given up the numbers tell the ones that are delivered as such, and only those as lines."""
    backend, admin = Backend([[OK], [answer(400)]]), free_port()
    collector = start(FAST + ALL + f'admin = "127.0.0.1:{admin}"\n' + backend.settings())
    for number in range(4):
        send(collector, number)
        until("the request", lambda n=number: len(backend.requests) == n + 1)
    names = ["tsc_spans_handed_total", 'tsc_spans_dropped_total{reason="exporter_down"}', "tsc_spans_waiting", "tsc_lines_total"]
    until("the numbers", lambda: [scrape(admin)[name] for name in names] == [3, 1, 0, 3])
    delivered = sum(len(body) for at, (_, body) in enumerate(backend.requests) if at != 1)
    comes_to("the bytes", lambda: scrape(admin)["tsc_output_bytes_total"], delivered)
    want("health", asked(admin, get("/healthz"))[0], 200)
    want("the answer to /close", asked(admin, post(b"", "/close"))[::2], (200, "{}"))
    want("the report", collector.end()[1], [4, 3, 0, 0, 0, 0, 0, 0, 1])


def under_load(start):
    """Of 100,000 spans of four clients a backend that fails one request in ten has each that is counted as handed over, once."""
    script = [[answer(503)] if n % 10 == 9 else [answer(400)] if n % 50 == 24 else [OK] for n in range(100000)]
    backend, admin = Backend(script), free_port()
    waits = "timeout_ms = 600000\nretry_initial_ms = 20\nretry_max_ms = 50\nretry_for_ms = 0\nclose_wait_ms = 3600000\n"
    # Each trace may be open at once: where a shard waits for the backend none leaves undecided.
    settings = 'num_traces = 200000\nqueue_capacity = 65536\nexport_capacity = 65536\nsend_batch_size = 100\nqueue_full = "retry"\nlanes = 2\nshards = 2\n'
    collector = start(FAST + f'admin = "127.0.0.1:{admin}"\n' + settings + ALL + backend.settings(waits))
    side_by_side(lambda first: send_until_taken(collector, range(first, first + 25000, 500)), range(0, 100000, 25000))
    until("each span is handed over or given up", lambda: sum(scrape(admin)[it] for it in (COUNTS[1], COUNTS[8])) == 100000, 600)
    want("the answer to /close", asked(admin, post(b"", "/close"))[::2], (200, "{}"))
    numbers = collector.end()[1]
    have = [number for body in backend.taken for number in ids_in(body)]
    want("repeats", len(have) - len(set(have)), 0)
    want(f"what the backend has, by the report {numbers}", len(have), numbers[1])
    want("the report", numbers, [100000, numbers[1], 0, 0, 0, 0, 0, 0, 100000 - numbers[1]])
    if numbers[8] == 0:
        raise Failure("no batch was given up")


def send_until_taken(collector, firsts):
    """Requests of 500 spans on one connection; what is answered 503 is sent again until it is taken."""
    client = collector.client()
    for first in firsts:
        request = post(body_of([span(i) for i in range(first, first + 500)]))
        until(f"the spans from {first} on are taken", lambda: asks_again(client, request))
    client.close()


def asks_again(client, request):
    """Whether a request is taken; where it isn't it is to be sent again."""
    client.send(request)
    status, _, text = client.answer()
    want("the answer", (status, text) in ((200, "{}"), (503, '{"message":"busy"}')), True)
    return status == 200


CHECKS = [delivers, sends_headers, prints_too, printing_ends, no_time_is_no_wish, tries_again, tells_attempts, backlog_told, no_answers, gives_up, rejected_spans, waits_for_a_backend, late_answer, patience_ends, under_load]
CHECKS += [waits_grow, short_waits, long_answers, ends_behind_its_answers, reads_no_line, trickling_answer, closes_while_it_waits, closes_while_it_hangs, told_behind_a_loss]
