"""Checks of `tsc serve` for those in charge of it: the second address, a full queue that is to be asked again, an output that fails, the end of the input."""

import base64
import hashlib
import json
import os
import re
import socket
import stat
import subprocess
import tempfile
import threading
import time
from pathlib import Path

from collector import ALL, ERROR_SPAN, PATIENCE, Client, Failure, asked, body_of, comes_to, free_port, get, post, scrape, spans_of, tried, want
from serve_limits import at_most, side_by_side, spans_by_number
from serve_many import is_open

COUNTS = ["tsc_spans_received_total", "tsc_spans_handed_total"] + [
    f'tsc_spans_dropped_total{{reason="{reason}"}}'
    for reason in ("invalid_id", "queue_full", "no_memory", "evicted", "not_sampled", "late_not_sampled", "exporter_down")
]


def decided_of(numbers, policy):
    """How many traces this policy decided, as sampled and as not sampled, and how many none did."""
    return [numbers[f'tsc_traces_decided_total{{policy="{it}",decision="{decision}"}}'] for it in (policy, "") for decision in ("sampled", "not_sampled")]


def late_of(numbers):
    """How many spans came to traces that were decided as sampled, and as not sampled."""
    return [numbers[f'tsc_spans_late_total{{decision="{decision}"}}'] for decision in ("sampled", "not_sampled")]


def in_charge(start):
    """The second address tells health, numbers and configuration, and closes; the first one doesn't close any more."""
    admin, began = free_port(), time.monotonic()
    collector = start(f'admin = "127.0.0.1:{admin}"\ndecision_wait_ms = 50\ntick_ms = 50\n' + ALL)
    want("health", asked(admin, get("/healthz"))[::2], (200, "ok\n"))
    want("the configuration", asked(admin, get("/config"))[0], 200)
    want("the numbers at the start", [scrape(admin)[name] for name in COUNTS], [0] * 9)
    requests = [post(b"", "/close"), post(body_of([ERROR_SPAN, {"traceId": "x", "spanId": "y"}]))]
    want("/close at the first address", collector.ask(requests[0])[::2], (404, '{"message":"not found"}'))
    want("the answer", collector.ask(requests[1])[0], 200)
    told = lambda *names: [numbers[name] for numbers in [scrape(admin)] for name in names]
    comes_to("the numbers", lambda: told(*COUNTS), [2, 1, 1, 0, 0, 0, 0, 0, 0])
    codes = ["200", "400", "404", "405", "408", "413", "415", "431", "503"]
    comes_to("the answers", lambda: told(*(f'tsc_requests_total{{code="{code}"}}' for code in codes)), [1, 0, 1, 0, 0, 0, 0, 0, 0])
    comes_to("the bytes that came", lambda: told("tsc_received_bytes_total"), [sum(len(data) for data in requests)])
    comes_to("the output", lambda: told("tsc_lines_total", "tsc_output_bytes_total"), [1, os.path.getsize(collector.printed)])
    comes_to("what waits", lambda: told("tsc_spans_waiting"), [0])
    comes_to("the decisions", lambda: decided_of(scrape(admin), "all"), [1, 0, 0, 0])
    numbers = scrape(admin)
    want("late spans", late_of(numbers), [0, 0])
    if numbers["tsc_uptime_seconds"] > time.monotonic() - began + 1 or numbers['tsc_build_info{version="0.1.0"}'] != 1 or not 100 < numbers["tsc_sent_bytes_total"] < 1000:
        raise Failure(f"the other numbers: {numbers}")
    if not 1 << 20 < numbers["process_resident_memory_bytes"] < 1 << 30:
        raise Failure(f"the memory that it takes: {numbers}")
    waits = [collector.client() for _ in range(3)]
    for client in waits:
        client.send(post(body_of([])))
        client.answer()
    comes_to("the open connections", lambda: scrape(admin)["tsc_connections_open"], 3)
    for client in waits[1:]:
        client.close()
    comes_to("those that are left", lambda: scrape(admin)["tsc_connections_open"], 1)
    want("the answer to /close", asked(admin, post(b"", "/close"))[::2], (200, "{}"))
    lines, report = collector.end()
    want("the spans", len(spans_of(lines)), 1)
    want("the report", report, [2, 1, 1, 0, 0, 0, 0, 0, 0])


def the_page(start):
    """The page in HTML is that of the repository, with its policy for browsers; nobody tells it but the second address, and it asks that alone."""
    admin, metrics = free_port(), free_port()
    page = Path(__file__).resolve().parent.parent.joinpath("page/status.html").read_text("utf-8")
    hashes = [base64.b64encode(hashlib.sha256(re.search(f"<{it}>(.*?)</{it}>", page, re.DOTALL)[1].encode()).digest()).decode() for it in ("script", "style")]
    collector = start(f'admin = "127.0.0.1:{admin}"\nmetrics = "127.0.0.1:{metrics}"\n' + ALL)
    status, fields, body = asked(admin, get("/"))
    want("the page", (status, body), (200, page))
    want("its length", int(fields["content-length"]), len(page.encode()))
    want("its type", fields["content-type"], "text/html; charset=utf-8")
    want("what keeps it", [fields[it] for it in ("cache-control", "x-content-type-options", "referrer-policy")], ["no-store", "nosniff", "no-referrer"])
    own = f"default-src 'none'; script-src 'sha256-{hashes[0]}'; style-src 'sha256-{hashes[1]}'; connect-src 'self'; img-src data:; "
    # (A client here reads the fields in small letters.)
    want("its policy", fields["content-security-policy"], (own + "base-uri 'none'; form-action 'none'; frame-ancestors 'none'").lower())
    want("what it asks", re.findall('data-feeds="(.*?)"', page), ["metrics status decisions"])
    want("what it takes from elsewhere", re.findall(r"(?:src|href|action)=[\"'](?!#|data:|metrics|config)", page), [])
    for port in (metrics, collector.port):
        want(f"the page at {port}", asked(port, get("/"))[::2], (404, '{"message":"not found"}'))
    want("the answer to /close", asked(admin, post(b"", "/close"))[0], 200)
    want("the report", collector.end()[1], [0] * 9)


REASONS = ["invalid_id", "queue_full", "no_memory", "evicted", "not_sampled", "late_not_sampled", "exporter_down"]


def counts_as_json(start):
    """/status.json tells the counts of now, and a row of them for each ten seconds since the start; no other address tells it, and HEAD has no body."""
    admin, metrics, began = free_port(), free_port(), time.time()
    collector = start(f'admin = "127.0.0.1:{admin}"\nmetrics = "127.0.0.1:{metrics}"\ndecision_wait_ms = 50\ntick_ms = 50\n' + ALL)
    told = lambda: json.loads(asked(admin, get("/status.json"))[2])
    spans = lambda status: [status["spans"]["received"], status["spans"]["handed"], *(status["spans"]["dropped"][it] for it in REASONS), status["spans"]["waiting"]]
    status, fields, body = asked(admin, get("/status.json"))
    want("the answer", (status, fields["content-type"], int(fields["content-length"])), (200, "application/json", len(body)))
    want("its keys", [list(json.loads(body)), list(json.loads(body)["spans"]["dropped"])], [["now_ms", "spans", "export", "history"], REASONS])
    want("what waits for a backend, where there is none", json.loads(body)["export"], None)
    want("the counts at the start", spans(json.loads(body)), [0] * 10)
    want("HEAD of it", asked(admin, get("/status.json", "HEAD"), False)[::2], (200, ""))
    for port in (metrics, collector.port):
        want(f"the status at {port}", asked(port, get("/status.json"))[::2], (404, '{"message":"not found"}'))
    comes_to("the first row", lambda: len(told()["history"]["rows"]), 1)
    want("the answer to spans", collector.ask(post(body_of([ERROR_SPAN, {"traceId": "x", "spanId": "y"}])))[0], 200)
    comes_to("the counts", lambda: spans(told()), [2, 1, 1, 0, 0, 0, 0, 0, 0, 0])
    deadline = time.time() + 15
    while len(told()["history"]["rows"]) < 2 and time.time() < deadline:
        time.sleep(0.2)
    status = told()
    want("the columns", [status["history"]["every_ms"], status["history"]["columns"]], [10000, ["at_ms", "received", "handed", *REASONS]])
    (first, *zeros), (second, *counts) = status["history"]["rows"]
    want("the rows", [zeros, counts], [[0] * 9, [2, 1, 1, 0, 0, 0, 0, 0, 0]])
    if not 1000 * began <= first <= second - 10000 <= status["now_ms"] - 10000 <= 1000 * time.time() - 10000 or second - first > 12000:
        raise Failure(f"the moments of the rows: {status}")
    want("the answer to /close", asked(admin, post(b"", "/close"))[0], 200)
    want("the report", collector.end()[1], [2, 1, 1, 0, 0, 0, 0, 0, 0])


def pages_of_other_sites(start):
    """Pages of other sites don't close the collector, at neither address; the numbers are told by any name, and whoever is no page closes it."""
    admin = free_port()
    own, other = f"127.0.0.1:{admin}", "collector.example"
    named = lambda request, host: request.replace(b"Host: collector", f"Host: {host}".encode())
    close = lambda host, *fields: named(post(b"", "/close", fields=fields), host)
    refused = [
        (own, "Origin: http://evil.example", "Sec-Fetch-Site: cross-site"),
        (own, "Origin: null"),
        (own, f"Origin: https://{own}"),
        (own, "Sec-Fetch-Site: same-site"),
        (other, f"Origin: http://{other}", "Sec-Fetch-Site: same-origin"),
        (other,),
    ]
    collector = start(f'admin = "{own}"\n' + ALL)
    for host, *fields in refused:
        want(f"a close {host} {fields}", asked(admin, close(host, *fields))[::2], (403, '{"message":"forbidden"}'))
    want("the health by another name", asked(admin, named(get("/healthz"), other))[::2], (200, "ok\n"))
    want("a page of its own", asked(admin, close(own, f"Origin: http://{own}", "Sec-Fetch-Site: same-origin"))[::2], (200, "{}"))
    want("the report", collector.end()[1], [0] * 9)
    collector = start(ALL)
    for host, *fields in [(host.replace(own, f"127.0.0.1:{collector.port}"), *fields) for host, *fields in refused]:
        want(f"a close at listen {host} {fields}", collector.ask(close(host, *fields))[::2], (403, '{"message":"forbidden"}'))
    want("spans by another name", collector.ask(named(post(body_of([ERROR_SPAN])), other))[0], 200)
    want("a close at listen", collector.ask(close("collector:4318"))[::2], (200, "{}"))
    want("the report at listen", collector.end()[1], [1, 1, 0, 0, 0, 0, 0, 0, 0])


def told_by_shards(start):
    """Each shard tells what waits in it; late spans and decisions are counted by what was decided."""
    admin = free_port()
    error = '{ name = "e", type = "status_code", status_code = { status_codes = ["ERROR"] } }'
    collector = start(f'admin = "127.0.0.1:{admin}"\nshards = 2\ntick_ms = 50\ndecision_wait_ms = 3600000\nroot_wait_ms = 1\npolicies = [{error}]\n')
    waiting = [{"traceId": f"{trace:032x}", "spanId": f"{number:016x}", "parentSpanId": "1" * 16} for trace in range(1, 31) for number in range(1, 4)]
    collector.ask(post(body_of(waiting)))
    kinds = ["tsc_shard_traces_waiting", "tsc_shard_spans_waiting", "tsc_shard_queue_items"]
    sums = lambda: [sum(numbers[f'{kind}{{shard="{shard}"}}'] for shard in (0, 1)) for numbers in [scrape(admin)] for kind in kinds]
    comes_to("what waits in the shards", sums, [30, 90, 0])
    roots = [{**ERROR_SPAN, "traceId": f"{trace:032x}", "spanId": f"{9:016x}", "parentSpanId": ""} for trace in range(1, 6)]
    roots += [{"traceId": f"{trace:032x}", "spanId": f"{9:016x}"} for trace in range(6, 16)]
    collector.ask(post(body_of(roots)))
    decided = lambda: [number for numbers in [scrape(admin)] for number in decided_of(numbers, "e") + late_of(numbers)]
    comes_to("the decisions", decided, [5, 0, 0, 10, 0, 0])
    collector.ask(post(body_of([{"traceId": f"{trace:032x}", "spanId": f"{10:016x}"} for trace in range(1, 16)])))
    comes_to("late spans", decided, [5, 0, 0, 10, 5, 10])
    comes_to("what waits in the shards then", sums, [15, 45, 0])
    want("the answer to /close", asked(admin, post(b"", "/close"))[::2], (200, "{}"))
    want("the report", collector.end()[1], [120, 25, 0, 0, 0, 0, 85, 10, 0])


def asked_at_a_socket(path, data):
    """The answer to one request at a socket's file, and what follows."""
    with socket.socket(socket.AF_UNIX) as peer:
        peer.settimeout(PATIENCE)
        peer.connect(path)
        peer.sendall(data)
        got = b""
        while more := peer.recv(65536):
            got += more
    head, body = got.split(b"\r\n\r\n", 1)
    return int(head.split(b" ")[1]), body


def in_charge_by_a_socket(start):
    """A socket's file in place of a second port: only its owner may use it, one that was left is replaced, one that is in use isn't, and it is removed at the end."""
    with tempfile.TemporaryDirectory() as folder:
        path = os.path.join(folder, "admin.sock")
        with socket.socket(socket.AF_UNIX) as left:
            left.bind(path)
        collector = start(f'admin = "unix:{path}"\n' + ALL)
        comes_to("the file's mode", lambda: oct(os.stat(path).st_mode), oct(stat.S_IFSOCK | 0o600))
        want("what else is there", os.listdir(folder), ["admin.sock"])
        want("health", asked_at_a_socket(path, get("/healthz")), (200, b"ok\n"))
        want("/close at the first address", collector.ask(post(b"", "/close"))[0], 404)
        other = os.path.join(folder, "other.toml")
        with open(other, "w", encoding="utf-8") as file:
            file.write(f'listen = "127.0.0.1:0"\nadmin = "unix:{path}"\n' + ALL)
        ran = subprocess.run([start.program, "serve", other], stdin=subprocess.DEVNULL, capture_output=True, timeout=PATIENCE, check=False)
        want("a second one there", (ran.returncode, ran.stdout), (6, b"tsc: cannot listen\n"))
        want("health behind it", asked_at_a_socket(path, get("/healthz")), (200, b"ok\n"))
        want("the answer", collector.ask(post(body_of([ERROR_SPAN])))[0], 200)
        command = [start.program, "close", os.path.join(collector.folder.name, "config.toml")]
        ran = subprocess.run(command, stdin=subprocess.DEVNULL, capture_output=True, timeout=PATIENCE, check=False)
        want("what `tsc close` says", (ran.returncode, ran.stdout, ran.stderr), (0, b"", b""))
        want("the report", collector.end()[1], [1, 1, 0, 0, 0, 0, 0, 0, 0])
        want("what is left", sorted(os.listdir(folder)), ["other.toml"])
        ran = subprocess.run(command, stdin=subprocess.DEVNULL, capture_output=True, timeout=PATIENCE, check=False)
        want("`tsc close` where there is none", (ran.returncode, ran.stdout), (6, b"tsc: cannot close\n"))


def nameless_policies(start):
    """What a policy without a name decided is told by its place, apart from what none decided; so is the one that `sample_on_first_match` makes."""
    of = lambda name, code: f'{{ name = "{name}", type = "status_code", status_code = {{ status_codes = ["{code}"] }} }}'
    codes = [2] * 2 + [1] * 3 + [0] * 4
    spans = [{"traceId": f"{at + 1:032x}", "spanId": f"{9:016x}", "status": {"code": code}} for at, code in enumerate(codes)]
    told = lambda numbers, place: [numbers.get(f'tsc_traces_decided_total{{policy="",place="{place}",decision="{it}"}}') for it in ("sampled", "not_sampled")]
    for more, of_none, of_places in (("", [0, 4], [None, None, 3, 0]), ("sample_on_first_match = true\n", [0, 4], [5, 0, None, None])):
        admin = free_port()
        collector = start(f'admin = "127.0.0.1:{admin}"\ntick_ms = 50\ndecision_wait_ms = 50\n{more}policies = [{of("e", "ERROR")}, {of("", "OK")}]\n')
        collector.ask(post(body_of(spans)))
        comes_to("the decisions of none", lambda: decided_of(scrape(admin), "")[2:], of_none)
        numbers = scrape(admin)
        want("the decisions by place", told(numbers, 0) + told(numbers, 1), of_places)
        want("the answer to /close", asked(admin, post(b"", "/close"))[::2], (200, "{}"))
        want("the report", collector.end()[1], [9, 5, 0, 0, 0, 0, 4, 0, 0])


def told_at_the_tick(start):
    """What waits in a shard is told once it was decided, at that tick and not at the next one, which is seconds away."""
    admin = free_port()
    collector = start(f'admin = "127.0.0.1:{admin}"\ntick_ms = 3000\ndecision_wait_ms = 10\n' + ALL)
    collector.ask(post(body_of([{"traceId": f"{trace:032x}", "spanId": f"{9:016x}"} for trace in range(1, 6)])))
    told = lambda *names: [numbers[name] for numbers in [scrape(admin)] for name in names]
    comes_to("the decisions", lambda: decided_of(scrape(admin), "all"), [5, 0, 0, 0])
    began = time.monotonic()
    comes_to("what waits", lambda: told('tsc_shard_traces_waiting{shard="0"}', 'tsc_shard_spans_waiting{shard="0"}'), [0, 0])
    at_most("the time until that is told", 2, began)
    want("the answer to /close", asked(admin, post(b"", "/close"))[::2], (200, "{}"))
    want("the report", collector.end()[1], [5, 5, 0, 0, 0, 0, 0, 0, 0])


def numbers_alone(start):
    """Numbers and health alone are told at `metrics`, within ten seconds while a hundred clients say nothing there (in one of three tries, of which a
    machine that stands still may spoil two); whatever else is asked isn't found. Silent ones don't hold up `admin` either."""
    admin, metrics = free_port(), free_port()
    collector = start(f'admin = "127.0.0.1:{admin}"\nmetrics = "127.0.0.1:{metrics}"\ndecision_wait_ms = 50\ntick_ms = 50\n' + ALL)
    want("the answer", collector.ask(post(body_of([ERROR_SPAN])))[0], 200)
    comes_to("what is handed over", lambda: scrape(metrics)["tsc_spans_handed_total"], 1)
    for port in (metrics, admin):
        tried(3, lambda at=port: behind_silent_ones(at))
    foreign = "Origin: http://evil.example"
    for data in (get("/config"), get("/close"), post(b"", "/close"), post(b"", "/reopen"), get("/reopen"), post(b"", "/close", fields=[foreign]), get("/")):
        want(f"the answer to {data[:14]!r} at metrics", asked(metrics, data)[::2], (404, '{"message":"not found"}'))
    for data in (post(b"", "/metrics"), post(b"", "/healthz", fields=[foreign]), get("/metrics", "PUT")):
        got = asked(metrics, data)
        want(f"the answer to {data[:14]!r} at metrics", (got[0], got[1]["allow"]), (405, "get, head"))
    want("HEAD at metrics", asked(metrics, get("/healthz", "HEAD"), False), asked(metrics, get("/healthz"))[:2] + ("",))
    want("the answer to /close", asked(admin, post(b"", "/close"))[::2], (200, "{}"))
    want("the report", collector.end()[1], [1, 1, 0, 0, 0, 0, 0, 0, 0])


def behind_silent_ones(port):
    """Numbers and health are told within ten seconds behind a hundred who say nothing."""
    silent = [Client(port) for _ in range(100)]
    for _ in range(5):
        began = time.monotonic()
        want("the spans behind a hundred silent ones", scrape(port)["tsc_spans_received_total"], 1)
        want("whether the last of them is still there", is_open(silent[-1].socket), True)
        at_most("the wait behind a hundred silent ones", 9, began)
    began = time.monotonic()
    want("the health behind them", asked(port, get("/healthz"))[::2], (200, "ok\n"))
    at_most("the wait for the health", 9, began)
    want("the first, which was let go for others", silent[0].rest(), b"")
    for client in silent:
        client.close()


def numbers_by_a_socket(start):
    """The address of numbers alone may be a socket's file, which is removed at the end; where it can't be made, that of `admin` is removed too."""
    with tempfile.TemporaryDirectory() as folder:
        paths = [os.path.join(folder, name) for name in ("admin.sock", "metrics.sock")]
        settings = 'admin = "unix:{}"\nmetrics = "unix:{}"\n'.format(*paths) + ALL
        collector = start(settings)
        comes_to("what is there", lambda: sorted(os.listdir(folder)), ["admin.sock", "metrics.sock"])
        want("health at metrics", asked_at_a_socket(paths[1], get("/healthz")), (200, b"ok\n"))
        want("the configuration there", asked_at_a_socket(paths[1], get("/config"))[0], 404)
        want("the answer to /close there", asked_at_a_socket(paths[1], post(b"", "/close"))[0], 404)
        other = os.path.join(folder, "other.toml")
        with open(other, "w", encoding="utf-8") as file:
            file.write(f'listen = "127.0.0.1:0"\nlog = "text"\nadmin = "unix:{folder}/other.sock"\nmetrics = "unix:{paths[1]}"\n' + ALL)
        ran = subprocess.run([start.program, "serve", other], stdin=subprocess.DEVNULL, capture_output=True, timeout=PATIENCE, check=False)
        want("a second one there", (ran.returncode, ran.stdout), (6, b"tsc: cannot listen\n"))
        want("that the log names it", f'ERROR cannot_listen what="unix:{paths[1]}"'.encode() in ran.stderr, True)
        want("what is there behind it", sorted(os.listdir(folder)), ["admin.sock", "metrics.sock", "other.toml"])
        want("the answer to /close", asked_at_a_socket(paths[0], post(b"", "/close")), (200, b"{}"))
        want("the report", collector.end()[1], [0] * 9)
        want("what is left", os.listdir(folder), ["other.toml"])


def asks_to_reopen(start):
    """`POST /reopen` is answered at `admin` as `/close` is, refused to pages of other sites, and closes nothing."""
    admin = free_port()
    collector = start(f'admin = "127.0.0.1:{admin}"\n' + ALL)
    want("the answer", asked(admin, post(b"", "/reopen"))[::2], (200, "{}"))
    for fields in (["Origin: http://evil.example"], ["Sec-Fetch-Site: cross-site"]):
        want(f"the answer with {fields}", asked(admin, post(b"", "/reopen", fields=fields))[::2], (403, '{"message":"forbidden"}'))
    got = asked(admin, get("/reopen"))
    want("the answer to another method", (got[0], got[1]["allow"]), (405, "post"))
    want("/reopen at listen", collector.ask(post(b"", "/reopen"))[0], 404)
    want("the spans", collector.ask(post(body_of([ERROR_SPAN])))[0], 200)
    want("health", asked(admin, get("/healthz"))[::2], (200, "ok\n"))
    want("the answer to /close", asked(admin, post(b"", "/close"))[::2], (200, "{}"))
    want("the report", collector.end()[1], [1, 1, 0, 0, 0, 0, 0, 0, 0])


def slow_questions(start):
    """One who sends a byte now and then is let go after ten seconds in all (forty at most)."""
    admin = free_port()
    collector = start(f'admin = "127.0.0.1:{admin}"\n' + ALL)
    began = time.monotonic()
    client = Client(admin)
    try:
        while time.monotonic() - began < 60:
            client.send(b"G")
            time.sleep(0.3)
    except OSError:
        pass
    if not 9 < time.monotonic() - began < 40:
        raise Failure(f"it was let go after {time.monotonic() - began:.1f} seconds")
    client.close()
    want("the answer to /close", asked(admin, post(b"", "/close"))[::2], (200, "{}"))
    want("the report", collector.end()[1], [0] * 9)


def silent_questions(start):
    """One who says nothing is let go after five seconds: within eight, in one of three tries."""
    admin = free_port()
    collector = start(f'admin = "127.0.0.1:{admin}"\n' + ALL)

    def is_let_go():
        client, began = Client(admin), time.monotonic()
        want("what it is told", client.rest(), b"")
        at_most("the time until it is let go", 8, began)
        client.close()

    tried(3, is_let_go)
    want("the answer to /close", asked(admin, post(b"", "/close"))[::2], (200, "{}"))
    want("the report", collector.end()[1], [0] * 9)


def left_out_of_spans(start):
    """Spans of which attributes were left out are counted, each once: by their sender, of the span, of an event or of a link, or as they hold a double."""
    admin = free_port()
    collector = start(f'admin = "127.0.0.1:{admin}"\n' + ALL)
    left = [{}, {"droppedAttributesCount": 3}, {"events": [{}, {"droppedAttributesCount": 1}]}, {"links": [{"droppedAttributesCount": 2}]}]
    left += [{"attributes": [{"key": "x", "value": {"doubleValue": 0.5}}]}, {"droppedEventsCount": 1, "droppedLinksCount": 1}]
    spans = [{"traceId": f"{at + 1:032x}", "spanId": f"{at + 1:016x}", **more} for at, more in enumerate(left)]
    want("the answer", collector.ask(post(body_of(spans)))[0], 200)
    comes_to("what waits and the incomplete ones", lambda: scrape(admin)["tsc_spans_incomplete_total"], 4)
    want("the answer to /close", asked(admin, post(b"", "/close"))[::2], (200, "{}"))
    want("the report", collector.end()[1], [6, 6, 0, 0, 0, 0, 0, 0, 0])


def oldest_of_all_shards(start):
    """For how long the oldest trace has waited is told of all sixteen shards, in whichever it is."""
    admin = free_port()
    collector = start(f'admin = "127.0.0.1:{admin}"\nshards = 16\ntick_ms = 50\ndecision_wait_ms = 3600000\n' + ALL)
    want("the answer", collector.ask(post(body_of(spans_by_number(0, 1))))[0], 200)
    comes_to("what waits", lambda: sum(scrape(admin)[f'tsc_shard_traces_waiting{{shard="{shard}"}}'] for shard in range(16)), 1)
    time.sleep(6)
    want("the answer to others", collector.ask(post(body_of(spans_by_number(1, 500))))[0], 200)
    comes_to("what waits then", lambda: sum(scrape(admin)[f'tsc_shard_traces_waiting{{shard="{shard}"}}'] for shard in range(16)), 501)
    want("whether the oldest has waited for six seconds", scrape(admin)["tsc_oldest_waiting_seconds"] >= 6, True)
    want("the answer to /close", asked(admin, post(b"", "/close"))[::2], (200, "{}"))
    want("the report", collector.end()[1], [501, 501, 0, 0, 0, 0, 0, 0, 0])


def items_that_wait(start):
    """What waits in a shard's queues from all lanes is told: spans that come while it waits for the output's reader, in one of three tries."""
    tried(3, lambda: items_wait(start))


def items_wait(start):
    """The same, once: a tick decides what waits, the output takes a part of it, and meanwhile more comes."""
    admin = free_port()
    reader, writer = os.pipe()
    settings = "tick_ms = 3000\ndecision_wait_ms = 500\nexport_capacity = 8\nsend_batch_size = 8\nqueue_capacity = 4096\n"
    collector = start(f'admin = "127.0.0.1:{admin}"\n' + settings + ALL, output=writer)
    os.close(writer)
    spans = lambda first, count: post(body_of([{**it, "name": "x" * 1000} for it in spans_by_number(first, count)]))
    want("the answer", collector.ask(spans(0, 300))[0], 200)
    comes_to("whether the output stands still", lambda: scrape(admin)["tsc_output_stalled_seconds"] >= 1, True)
    for number in range(5):
        want("the answer meanwhile", collector.ask(spans(300 + 100 * number, 100))[0], 200)
    reading = threading.Thread(target=lambda: open(reader, "rb").read(), daemon=True)
    reading.start()
    comes_to("whether a hundred items wait", lambda: scrape(admin)['tsc_shard_queue_items{shard="0"}'] >= 100, True)
    want("the answer to /close", asked(admin, post(b"", "/close"))[::2], (200, "{}"))
    collector.end()
    reading.join()


def odd_questions(start):
    """What those in charge are answered to what they can't ask, and that one who says nothing doesn't hold another for long."""
    admin = free_port()
    collector = start(f'admin = "127.0.0.1:{admin}"\n' + ALL)
    for data, status, allow in [
        (get("/close"), 405, "post"),
        (post(b"", "/metrics"), 405, "get, head"),
        (get("/metrics", "get"), 405, "get, head"),
        (get("/close", "HEAD"), 405, "post"),
        (get("/index.html", "HEAD"), 404, None),
        (get("//"), 404, None),
        (post(body_of([ERROR_SPAN])), 404, None),
        (b"what\r\n\r\n", 400, None),
        (b"GET /healthz HTTP/1.0\r\nHost: x\r\n\r\n", 400, None),
        (get("/" + "x" * 40000), 431, None),
    ]:
        got = asked(admin, data, not data.startswith(b"HEAD"))
        want(f"the answer to {data[:20]!r}", (got[0], got[1].get("allow")), (status, allow))
    for target in ("/config", "/healthz", "/"):
        want(f"HEAD {target}", asked(admin, get(target, "HEAD"), False), asked(admin, get(target))[:2] + ("",))
    want("HEAD /metrics", asked(admin, get("/metrics", "HEAD"), False)[0], 200)
    began = time.monotonic()
    for _ in range(20):
        want("health", asked(admin, get("/healthz"))[0], 200)
    at_most("twenty answers, each with the end of its connection", 5, began)
    silent = Client(admin)
    began = time.monotonic()
    want("health behind a silent one", asked(admin, get("/healthz"))[0], 200)
    at_most("the wait behind a silent one", 30, began)
    silent.close()
    want("the answer to /close", asked(admin, post(b"", "/close"))[::2], (200, "{}"))
    want("the report", collector.end()[1], [0] * 9)


def answers_by_status(start):
    """How many requests were answered is told by each status, also of two that were answered at once."""
    admin = free_port()
    collector = start(f'admin = "127.0.0.1:{admin}"\n' + ALL)
    idle = [collector.client() for _ in range(20)]
    slow, began = collector.client(), time.monotonic()
    slow.send(b"POST /v1/traces HTTP/1.1\r\n")
    idle += [collector.client() for _ in range(20)]
    two = collector.client()
    two.send(post(body_of([ERROR_SPAN])) * 2)
    for _ in range(2):
        want("the answer to one of two", two.answer()[0], 200)
    rows = [
        (400, post(b"[]"), 3),
        (404, post(b"", "/v1/metrics"), 4),
        (405, post(b"", method="PUT"), 5),
        (413, post(b"").replace(b"Length: 0", b"Length: 4194305"), 6),
        (415, post(b"").replace(b"/json", b"/xml"), 7),
        (431, post(b"", fields=["X: y"] * 64), 8),
    ]
    for status, request, count in rows:
        for _ in range(count):
            want("the status", collector.ask(request)[0], status)
    want("the answer to a slow one", slow.answer()[0], 408)
    at_most("the wait of one whose head isn't whole after ten seconds, beside idle ones", 40, began)
    codes = ["200", "400", "404", "405", "408", "413", "415", "431", "503"]
    told = lambda: [numbers[f'tsc_requests_total{{code="{code}"}}'] for numbers in [scrape(admin)] for code in codes]
    comes_to("the answers", told, [2, 3, 4, 5, 1, 6, 7, 8, 0])
    want("the answer to /close", asked(admin, post(b"", "/close"))[::2], (200, "{}"))
    want("the report", collector.end()[1], [2, 2, 0, 0, 0, 0, 0, 0, 0])


def head_in_pieces(start):
    """One in charge may send a request in pieces, with pauses between them."""
    admin = free_port()
    collector = start(f'admin = "127.0.0.1:{admin}"\n' + ALL)
    client, request = Client(admin), get("/healthz")
    for piece in (request[:4], request[4:30], request[30:]):
        client.send(piece)
        time.sleep(0.4)
    want("health", client.answer()[::2], (200, "ok\n"))
    client.close()
    want("the answer to /close", asked(admin, post(b"", "/close"))[::2], (200, "{}"))
    want("the report", collector.end()[1], [0] * 9)


def counts_only_rise(start):
    """The numbers that are read under load, more than ten times before the last requests, never go down, and end at the report."""
    admin = free_port()
    collector = start(f'admin = "127.0.0.1:{admin}"\nlanes = 4\nshards = 2\ndecision_wait_ms = 200\ntick_ms = 50\n' + ALL)
    seen = []

    def reads():
        began = time.monotonic()
        while not seen or not seen[-1][0] == sum(seen[-1][1:]) == 8000:
            seen.append([scrape(admin)[name] for name in COUNTS])
            at_most("the time until all is received and counted", 2 * PATIENCE, began)

    def asks(at):
        client = collector.client()
        for number in range(200):
            if number == 199:
                comes_to("whether the numbers were read more than ten times", lambda: len(seen) > 10, True)
            client.send(post(body_of(spans_by_number(10000 * at + 10 * number, 10))))
            want("the answer", client.answer()[0], 200)
        client.close()

    side_by_side(lambda at: asks(at) if at < 4 else reads(), range(5))
    for before, after in zip(seen, seen[1:]):
        if any(later < earlier for earlier, later in zip(before, after)):
            raise Failure(f"a number went down: {before} and then {after}")
    asked(admin, post(b"", "/close"))
    want("the last numbers", seen[-1], collector.end()[1])


def taken_addresses(start):
    """A second address that is taken: it can't listen, and ends with status 6."""
    collector = start(ALL)
    other = os.path.join(collector.folder.name, "other.toml")
    with open(other, "w", encoding="utf-8") as file:
        file.write(f'listen = "127.0.0.1:0"\nadmin = "127.0.0.1:{collector.port}"\n' + ALL)
    ran = subprocess.run([start.program, "serve", other], stdin=subprocess.DEVNULL, capture_output=True, timeout=PATIENCE, check=False)
    want("the end", (ran.returncode, ran.stdout), (6, b"tsc: cannot listen\n"))
    collector.close()


def full_queues_are_asked_again(start):
    """Ten thousand requests from eight clients on queues of four, each sent again where it was answered 503: nothing is lost."""
    collector = start('queue_full = "retry"\nqueue_capacity = 4\nexport_capacity = 4\nlanes = 4\nshards = 2\n' + ALL)

    def asks(at):
        client = collector.client()
        for number in range(1250):
            trace = f"{8 * number + at + 1:032x}"
            body = post(body_of([{"traceId": trace, "spanId": f"{span + 1:016x}"} for span in range(4)]))
            for _ in range(100000):
                client.send(body)
                status, fields, text = client.answer()
                if status == 200:
                    want("the body", text, "{}")
                    break
                want("the refusal", (status, fields["retry-after"], text), (503, "1", '{"message":"busy"}'))
                time.sleep(0.001)  # (so that shards on the same processor get on)
        client.close()

    side_by_side(asks, range(8))
    lines, numbers = collector.close()
    want("the report", numbers, [40000, 40000, 0, 0, 0, 0, 0, 0, 0])
    want("the spans", len(spans_of(lines)), 40000)


def more_than_a_queue_holds(start):
    """A request of more spans than its queue can hold is taken whole where a full queue is to be asked again."""
    collector = start('queue_full = "retry"\nqueue_capacity = 4\n' + ALL)
    spans = [{"traceId": f"{7:032x}", "spanId": f"{span + 1:016x}"} for span in range(1000)]
    want("the answer", collector.ask(post(body_of(spans)))[::2], (200, "{}"))
    lines, numbers = collector.close()
    want("the report", numbers, [1000, 1000, 0, 0, 0, 0, 0, 0, 0])
    want("the spans in order", [span["spanId"] for span in spans_of(lines)], [span["spanId"] for span in spans])


def output_that_fails(start):
    """An output whose reader is gone stops the collector, where it is told to: nothing is answered 200 behind that, and it ends with status 1."""
    reader, writer = os.pipe()
    collector = start('output_fault = "stop"\ndecision_wait_ms = 1\ntick_ms = 10\n' + ALL, output=writer)
    os.close(writer)
    want("the first answer", collector.ask(post(body_of(spans_by_number(0, 1))))[0], 200)
    if not os.read(reader, 65536):
        raise Failure("no line came")
    os.close(reader)
    began = time.monotonic()
    is_refused = False
    for number in range(1, 100000):
        try:
            answer = collector.ask(post(body_of(spans_by_number(number, 1))))[::2]
        except (Failure, OSError):
            break
        if answer[0] == 200:
            want("it was refused before", is_refused, False)
        else:
            want("the refusal", answer, (503, '{"message":"closing"}'))
            is_refused = True
    want("the status", collector.process.wait(timeout=PATIENCE), 1)
    at_most("the end", 90, began)


def closed_by_its_configuration(start):
    """`tsc close` asks the collector of a configuration to close, at its second address or else at its first; where there is none, it says so."""
    for settings in (ALL, f'admin = "127.0.0.1:{free_port()}"\n' + ALL):
        collector = start(settings)
        want("the answer", collector.ask(post(body_of([ERROR_SPAN])))[0], 200)
        command = [start.program, "close", os.path.join(collector.folder.name, "config.toml")]
        ran = subprocess.run(command, stdin=subprocess.DEVNULL, capture_output=True, timeout=PATIENCE, check=False)
        want("what it says", (ran.returncode, ran.stdout, ran.stderr), (0, b"", b""))
        want("the report", collector.end()[1], [1, 1, 0, 0, 0, 0, 0, 0, 0])
        ran = subprocess.run(command, stdin=subprocess.DEVNULL, capture_output=True, timeout=PATIENCE, check=False)
        want("what it says where there is none", (ran.returncode, ran.stdout), (6, b"tsc: cannot close\n"))


def end_of_input(start):
    """The end of the input closes the collector, where it is told to."""
    collector = start("close_at_end_of_input = true\n" + ALL, stdin=subprocess.PIPE)
    want("the answer", collector.ask(post(body_of([ERROR_SPAN])))[0], 200)
    collector.process.stdin.write(b"any words\n")
    collector.process.stdin.flush()
    time.sleep(0.5)
    want("it still runs", collector.process.poll(), None)
    collector.process.stdin.close()
    lines, numbers = collector.end()
    want("the report", numbers, [1, 1, 0, 0, 0, 0, 0, 0, 0])


def input_that_fails(start):
    """An input that can't be read closes the collector as its end does."""
    with tempfile.TemporaryDirectory() as folder:
        config = os.path.join(folder, "config.toml")
        with open(config, "w", encoding="utf-8") as file:
            file.write('log = "off"\nlisten = "127.0.0.1:0"\nclose_at_end_of_input = true\n' + ALL)
        unreadable = os.open(folder, os.O_RDONLY)  # (a folder: each read of it fails)
        try:
            ran = subprocess.run([start.program, "serve", config], stdin=unreadable, capture_output=True, timeout=PATIENCE, check=False)
        finally:
            os.close(unreadable)
        want("the end", (ran.returncode, ran.stdout.split(b"\n")[0], ran.stderr), (0, b"received 0", b""))


CHECKS = [
    in_charge,
    in_charge_by_a_socket,
    the_page,
    counts_as_json,
    pages_of_other_sites,
    told_by_shards,
    nameless_policies,
    told_at_the_tick,
    numbers_alone,
    numbers_by_a_socket,
    asks_to_reopen,
    slow_questions,
    silent_questions,
    left_out_of_spans,
    oldest_of_all_shards,
    items_that_wait,
    odd_questions,
    answers_by_status,
    head_in_pieces,
    counts_only_rise,
    taken_addresses,
    full_queues_are_asked_again,
    more_than_a_queue_holds,
    output_that_fails,
    closed_by_its_configuration,
    end_of_input,
    input_that_fails,
]
