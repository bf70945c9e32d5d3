"""Runs `tsc serve` under clients on the loopback address, and compares what they are answered, what it prints and how it ends.

    serve.py [--share K/N] [--without NAME ..] PROGRAM..      (each N-th check, from the K-th on; NAME: a check that is left out)

Each check counts once; one that can't be made on this machine is told as left out, and fails where the environment's CI is `true`. What must come out
is computed here, from what was sent and answered, and never by the program.
"""

import json
import os
import shutil
import subprocess
import sys
import tempfile
import threading
import time

import senders
import serve_admin
import serve_close
import serve_config
import serve_decisions
import serve_destination
import serve_export
import serve_faults
import serve_ledger
import serve_limits
import serve_many
import serve_memory
import serve_operated
import serve_output
import serve_protobuf
import serve_record
import serve_restart
from collector import ALL, ERRORS, ERROR_LINE, ERROR_SPAN, PATIENCE, Failure, LeftOut, body_of, comes_to, post, run_checks, spans_of, tried, until, want


def printed_by(collector):
    """What it has printed so far."""
    with open(collector.printed, encoding="utf-8") as file:
        return file.read()


def one_error(start):
    """An error span is kept, and the counts add up. Its wait is over at once, but with a tick a minute nothing comes out until the close."""
    collector = start("decision_wait_ms = 50\ntick_ms = 60000\n" + ERRORS)
    want("the answer", collector.ask(post(body_of([ERROR_SPAN])))[::2], (200, "{}"))
    time.sleep(2)
    want("the output before a tick", printed_by(collector), "")
    lines, numbers = collector.close()
    want("the lines", lines, [ERROR_LINE])
    want("the report", numbers, [1, 1, 0, 0, 0, 0, 0, 0, 0])


def serve_on_loopback(start):
    """A span with an error and `POST /close` in two requests on one connection: all that is answered, byte for byte, the output and the report."""
    collector = start(ERRORS)
    body = body_of([ERROR_SPAN])
    client = collector.client()
    client.send(post(body) + post(b"", "/close"))
    head = b"HTTP/1.1 200 OK\r\nContent-Type: application/json\r\nContent-Length: 2\r\n"
    want("the answers", client.rest(), head + b"\r\n{}" + head + b"Connection: close\r\n\r\n{}")
    lines, numbers = collector.end()
    want("the lines", lines, [ERROR_LINE])
    want("the report", numbers, [1, 1, 0, 0, 0, 0, 0, 0, 0])


def asks_behind_the_close(start):
    """A request of which the first half came before the close, and the rest just behind it, is refused; one that comes whole on an idle connection is
    refused, or the connection is ended. Neither is counted. (The rest may take a second, which a machine that stands still may miss.)"""
    tried(5, lambda: ask_behind_the_close(start))


def ask_behind_the_close(start):
    """The same, once."""
    collector = start("lanes = 2\n" + ALL)
    silent, closing, late, idle = (collector.client() for _ in range(4))
    request = post(body_of([ERROR_SPAN]))
    for client in (closing, late, idle):
        client.send(request)
        want("the answer before the close", client.answer()[::2], (200, "{}"))
    late.send(request[:40])
    closing.send(post(b"", "/close"))
    want("the answer to /close", closing.answer()[::2], (200, "{}"))
    late.send(request[40:])
    refused = b'HTTP/1.1 503 Service Unavailable\r\nContent-Type: application/json\r\nContent-Length: 21\r\nRetry-After: 1\r\nConnection: close\r\n\r\n{"message":"closing"}'
    try:
        idle.send(request)
        want("the answer on an idle connection", idle.rest() in (refused, b""), True)
    except (ConnectionResetError, BrokenPipeError):
        pass
    want("the answer behind the close", late.rest(), refused)
    lines, numbers = collector.end()
    silent.close()
    want("the number of spans", len(spans_of(lines)), 3)
    want("the report", numbers, [3, 3, 0, 0, 0, 0, 0, 0, 0])


def is_kept_while_it_runs(start):
    """A trace is decided by a tick, long before the close."""
    collector = start("decision_wait_ms = 200\ntick_ms = 50\n" + ERRORS)
    want("the answer", collector.ask(post(body_of([ERROR_SPAN])))[::2], (200, "{}"))
    comes_to("the output", lambda: printed_by(collector), ERROR_LINE + "\n")
    lines, numbers = collector.close()
    want("the lines", lines, [ERROR_LINE])
    want("the report", numbers, [1, 1, 0, 0, 0, 0, 0, 0, 0])


def keep_alive(start):
    """Requests one after the other on one connection, and two in one write."""
    collector = start(ALL)
    client = collector.client()
    request = post(body_of([ERROR_SPAN]))
    for _ in range(3):
        client.send(request)
        want("the answer", client.answer()[::2], (200, "{}"))
    client.send(request + request)
    want("the first of two", client.answer()[::2], (200, "{}"))
    want("the second of two", client.answer()[::2], (200, "{}"))
    client.close()
    _, numbers = collector.close()
    want("the report", numbers, [5, 5, 0, 0, 0, 0, 0, 0, 0])


def chunked(start):
    """A body in chunks, in pieces of a few bytes."""
    collector = start(ALL)
    body = body_of([ERROR_SPAN])
    head = b"POST /v1/traces HTTP/1.1\r\nHost: collector\r\nContent-Type: application/json\r\nTransfer-Encoding: chunked\r\n\r\n"
    chunks = b"".join(b"%x\r\n%s\r\n" % (len(body[i : i + 7]), body[i : i + 7]) for i in range(0, len(body), 7))
    client = collector.client()
    for piece in (head[:11], head[11:], chunks[:20], chunks[20:], b"0\r\n\r\n"):
        client.send(piece)
        time.sleep(0.02)
    want("the answer", client.answer()[::2], (200, "{}"))
    client.close()
    lines, numbers = collector.close()
    want("the lines", lines, [ERROR_LINE])
    want("the report", numbers, [1, 1, 0, 0, 0, 0, 0, 0, 0])


def expect(start):
    """A client that asks before it sends its body."""
    collector = start(ALL)
    body = body_of([ERROR_SPAN])
    request = post(body, fields=["Expect: 100-continue"])
    client = collector.client()
    client.send(request[: -len(body)])
    want("the interim line", client.until(b"\r\n\r\n"), b"HTTP/1.1 100 Continue\r\n\r\n")
    client.send(body)
    want("the answer", client.answer()[::2], (200, "{}"))
    client.close()
    want("the report", collector.close()[1], [1, 1, 0, 0, 0, 0, 0, 0, 0])


def refusals(start):
    """Requests that are refused, each by its row of the table of answers (RFC 9110, RFC 9112, OTLP/HTTP)."""
    collector = start(ALL)
    body = body_of([ERROR_SPAN])
    rows = [
        ("another path", post(body, "/v1/metrics"), 404, '{"message":"not found"}'),
        ("a query", post(body, "/v1/traces?x=1"), 404, '{"message":"not found"}'),
        ("another method", post(b"", method="GET"), 405, '{"message":"method not allowed"}'),
        ("another type", post(body).replace(b"application/json", b"application/x-protobuf"), 415, '{"message":"unsupported media type: application/json is wanted"}'),
        ("a wrong shape", post(b"[]"), 400, '{"message":"wrong shape"}'),
    ]
    for name, request, status, text in rows:
        want(name, collector.ask(request)[::2], (status, text))
    status, fields, _ = collector.ask(post(b"", method="HEAD"), has_body=False)
    want("HEAD", (status, fields.get("allow")), (405, "post"))
    lines, numbers = collector.close()
    want("the lines", lines, [])
    want("the report", numbers, [0] * 9)


def broken_clients(start):
    """A client that stops in the middle of a body, and one that says nothing: neither harms the others."""
    collector = start("lanes = 4\n" + ALL)
    silent = collector.client()
    cut = collector.client()
    cut.send(post(body_of([ERROR_SPAN]))[:-10])
    cut.close()
    for _ in range(10):
        want("the answer", collector.ask(post(body_of([ERROR_SPAN])))[::2], (200, "{}"))
    lines, numbers = collector.close()
    silent.close()
    want("the number of spans", len(spans_of(lines)), 10)
    want("the report", numbers, [10, 10, 0, 0, 0, 0, 0, 0, 0])


def sends(collector, client_number, requests, per_request, sent, problems):
    """One client of many: spans of traces that it alone sends, each with its number in the trace's order."""
    try:
        client = collector.client()
        number = 0
        for request in range(requests):
            spans = []
            for _ in range(per_request):
                trace = f"{client_number + 1:016x}{(number * 7919) % 251 + 1:016x}"
                spans.append({"traceId": trace, "spanId": f"{number + 1:016x}", "name": f"{number}"})
                number += 1
            client.send(post(body_of(spans)))
            want(f"the answer to request {request}", client.answer()[0], 200)
            sent.extend((span["traceId"], int(span["name"])) for span in spans)
        client.close()
    except (Failure, OSError) as error:
        problems.append(str(error))


def many_clients(start):
    """Sixteen clients at once send 50,000 spans: each is in the output once or counted, in order within its trace."""
    collector = start("lanes = 16\nshards = 4\nnum_traces = 100000\nqueue_capacity = 4096\n" + ALL)
    sent, problems, threads = [], [], []
    for client_number in range(16):
        arguments = (collector, client_number, 125, 25, sent, problems)
        threads.append(threading.Thread(target=sends, args=arguments, daemon=True))
    for thread in threads:
        thread.start()
    for thread in threads:
        thread.join()
    want("what went wrong", problems, [])
    lines, numbers = collector.close()
    want("the spans received", numbers[0], 50000)
    spans = [(span["traceId"], int(span["name"])) for span in spans_of(lines)]
    want("the spans handed over", len(spans), numbers[1])
    want("a span that came twice, or was not sent", (len(set(spans)), set(spans) <= set(sent)), (len(spans), True))
    want("what isn't in the output is counted as queue full", 50000 - numbers[1], numbers[3])
    last = {}
    for trace, number in spans:
        if number <= last.get(trace, -1):
            raise Failure(f"span {number} of {trace} came behind span {last[trace]}")
        last[trace] = number


def sends_to_four_traces(collector, client_number, requests, rejected, problems):
    """One client of several: each request has a span of each of four traces, of which the first two have errors."""
    try:
        client = collector.client()
        for number in range(requests):
            spans = [
                {
                    "traceId": f"{trace:032x}",
                    "spanId": f"{(client_number + 1) * 1000000 + number:016x}",
                    "name": f"{client_number} {number}",
                    "status": {"code": 2 if trace < 3 else 0},
                }
                for trace in range(1, 5)
            ]
            client.send(post(body_of(spans)))
            status, _, text = client.answer()
            want(f"the status of request {number}", status, 200)
            rejected.append(int(json.loads(text).get("partialSuccess", {}).get("rejectedSpans", "0")))
        client.close()
    except (Failure, OSError, ValueError) as error:
        problems.append(str(error))


def queues_of_four(start):
    """Three lanes send 10,000 spans of four traces to two shards over queues of four items, on both sides of the decisions: those of the
    two kept traces are in the output, each client's in order and each once, but for what the clients were told to be rejected."""
    collector = start("lanes = 3\nshards = 2\nqueue_capacity = 4\ndecision_wait_ms = 50\ntick_ms = 20\n" + ERRORS)
    rejected, problems, threads = [], [], []
    for client_number, requests in enumerate((834, 833, 833)):
        arguments = (collector, client_number, requests, rejected, problems)
        threads.append(threading.Thread(target=sends_to_four_traces, args=arguments, daemon=True))
    for thread in threads:
        thread.start()
    for thread in threads:
        thread.join()
    want("what went wrong", problems, [])
    lines, numbers = collector.close()
    spans = [(span["traceId"], *map(int, span["name"].split(" "))) for span in spans_of(lines)]
    want("the spans received, handed over and rejected", numbers[:4], [10000, len(spans), 0, sum(rejected)])
    want("other reasons than the decisions", (numbers[4], numbers[5], numbers[8]), (0, 0, 0))
    if len(spans) > 5000 or numbers[6] + numbers[7] > 5000:
        raise Failure(f"of 5000 kept and 5000 other spans {numbers} were counted")
    last = {}
    for trace, client, number in spans:
        if int(trace, 16) > 2 or number <= last.get((trace, client), -1):
            raise Failure(f"span {number} of client {client} and trace {trace} came behind {last.get((trace, client))}")
        last[trace, client] = number


def closes_under_way(start):
    """`POST /close` while clients send: what was answered 200 is in the output or counted."""
    collector = start("lanes = 8\nshards = 2\nnum_traces = 100000\nqueue_capacity = 65536\n" + ALL)
    answered, halt = [0] * 6, threading.Event()

    def go_on(place):
        try:
            client = collector.client()
            while not halt.is_set():
                client.send(post(body_of([ERROR_SPAN] * 5)))
                status, fields, _ = client.answer()
                if status == 200:
                    answered[place] += 5
                if status != 200 or fields.get("connection") == "close":
                    return
        except (Failure, OSError):
            return

    threads = [threading.Thread(target=go_on, args=(place,), daemon=True) for place in range(6)]
    for thread in threads:
        thread.start()
    # Not a while: a machine may need it to lay out the queues.
    until("a hundred answers", lambda: sum(answered) >= 100)
    want("the answer to /close", collector.ask(post(b"", "/close"))[::2], (200, "{}"))
    lines, numbers = collector.end()
    halt.set()
    for thread in threads:
        thread.join()
    if numbers[0] < sum(answered):
        raise Failure(f"{numbers[0]} spans received, but {sum(answered)} answered")
    want("the spans handed over", len(spans_of(lines)), numbers[1])


def refused_address(start):
    """An address that can't be bound ends in status 6."""
    with tempfile.TemporaryDirectory() as folder:
        config = os.path.join(folder, "config.toml")
        with open(config, "w", encoding="utf-8") as file:
            file.write('log = "off"\nlisten = "x"\n' + ALL)
        done = subprocess.run([start.program, "serve", config], stdin=subprocess.DEVNULL, capture_output=True, timeout=PATIENCE, check=False)
        want("the end", (done.returncode, done.stdout, done.stderr), (6, b"tsc: cannot listen\n", b""))


def reader_is_gone(start):
    """An output whose reader is gone ends in status 1, not in a signal."""
    read, write = os.pipe()
    collector = start("decision_wait_ms = 100\ntick_ms = 50\n" + ALL, write)
    os.close(write)
    os.close(read)
    want("the answer", collector.ask(post(body_of([ERROR_SPAN])))[::2], (200, "{}"))
    time.sleep(0.3)
    want("the answer to /close", collector.ask(post(b"", "/close"))[::2], (200, "{}"))
    collector.end(1)


def under_curl(start):
    """The same request by curl, without which this is left out: with a length, in chunks, with an expectation."""
    if not shutil.which("curl"):
        raise LeftOut("there is no curl")
    collector = start(ALL)
    url = f"http://127.0.0.1:{collector.port}/v1/traces"
    ways = [[], ["-H", "Transfer-Encoding: chunked"], ["-H", "Expect: 100-continue"]]
    for way in ways:
        command = ["curl", "-sS", "-H", "Content-Type: application/json", *way, "--data-binary", body_of([ERROR_SPAN]).decode(), url]
        done = subprocess.run(command, capture_output=True, timeout=PATIENCE, check=False)
        want(f"curl {way}", (done.returncode, done.stdout, done.stderr), (0, b"{}", b""))
    want("the report", collector.close()[1], [3, 3, 0, 0, 0, 0, 0, 0, 0])


def main():
    """Runs each check on each program."""
    checks = [one_error, serve_on_loopback, asks_behind_the_close, is_kept_while_it_runs, keep_alive, chunked, expect, refusals, broken_clients, many_clients]
    checks += [queues_of_four, closes_under_way, refused_address, reader_is_gone, under_curl]
    own = [senders, serve_limits, serve_many, serve_faults, serve_admin, serve_config, serve_close, serve_memory, serve_export, serve_destination, serve_operated, serve_output, serve_protobuf, serve_decisions, serve_record, serve_restart, serve_ledger]
    checks += [check for it in own for check in it.CHECKS]
    programs, left_out, share, of = sys.argv[1:], [], 1, 1
    if programs[:1] == ["--share"]:
        share, of = map(int, programs[1].split("/"))
        programs = programs[2:]
    while programs[:1] == ["--without"]:
        left_out, programs = [*left_out, *programs[1:2]], programs[2:]
    if strangers := set(left_out) - {it.__name__ for it in checks}:
        sys.exit(f"serve.py: no check {', '.join(sorted(strangers))}\n0 passed, 1 failed")
    run_checks(programs, [it for it in checks if it.__name__ not in left_out][share - 1 :: of])


if __name__ == "__main__":
    main()
