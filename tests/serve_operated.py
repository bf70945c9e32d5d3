"""Checks of `tsc serve` as it is run: an output that stalls while ticks go on, a wall clock that is set, large batches, what it says on standard
error, and what its numbers tell of that."""

import gzip
import json
import os
import re
import resource
import socket
import subprocess
import tempfile
import threading
import time

from collector import ALL, ERROR_SPAN, ERRORS, PATIENCE, Failure, body_of, comes_to, free_port, is_listening, post, scrape, tried, until, want
from serve_export import FAST, OK, WAITS, Backend, answer, send
from serve_faults import library_of
from serve_limits import at_most

LINE = re.compile(r"(\d{4}-\d\d-\d\dT\d\d:\d\d:\d\d(?:\.\d+)?Z) (INFO|WARN|ERROR) (\w+)((?: \w+=(?:\d+|\"[^\"]*\"))*)$")


def roots_and_errors(first, count):
    """A request of so many roots, and behind them of each trace a span with an error."""
    traces = [f"{first + number + 1:032x}" for number in range(count)]
    roots = [{"traceId": it, "spanId": it[16:]} for it in traces]
    errors = [{"traceId": it, "spanId": f"f{it[17:]}", "parentSpanId": it[16:], "status": {"code": 2}} for it in traces]
    return post(body_of(roots + errors))


def ticks_wait_for_spans(start):
    """Each trace has an error, which came in the request of its root. The output stalls for three seconds, and ticks go on: behind that each span is
    kept, since a shard takes what its lanes had pushed before it takes a tick. (Where a machine stands still for longer than a trace waits, in the
    middle of a request, a tick comes before the error: there are three tries.)"""
    tried(3, lambda: tick_waits_for_spans(start))


def tick_waits_for_spans(start):
    """The same, once."""
    reader, writer = os.pipe()
    settings = "decision_wait_ms = 200\ntick_ms = 10\nlanes = 2\nshards = 2\nqueue_capacity = 65536\nexport_capacity = 8\nsend_batch_size = 8\n"
    collector = start(settings + "num_traces = 1000000\n" + ERRORS, output=writer)
    os.close(writer)
    spans, end = 0, time.monotonic() + 3
    clients = [collector.client() for _ in range(2)]
    while time.monotonic() < end:
        for client in clients:
            client.send(roots_and_errors(spans, 100))
            want("the answer", client.answer()[::2], (200, "{}"))
            spans += 200
        time.sleep(0.02)
    kept = []
    reading = threading.Thread(target=lambda: kept.append(open(reader, "rb").read()), daemon=True)
    reading.start()
    time.sleep(1)
    collector.ask(post(b"", "/close"))
    collector.end()
    reading.join()
    report = dict(line.rsplit(" ", 1) for line in kept[0].decode().splitlines()[-9:])
    want("what was received", int(report["received"]), spans)
    want("what wasn't sampled, and what came late", (report["dropped 5"], report["dropped 6"]), ("0", "0"))
    want("what was handed over", int(report["handed"]), spans)


def set_shift(path, seconds):
    """Sets the wall clock off by so many seconds, at once: the file is read at any time."""
    with open(path + ".new", "w", encoding="utf-8") as file:
        file.write(str(seconds))
    os.replace(path + ".new", path)


def waits_by_time_that_passes(start):
    """A wall clock that is set back by an hour, and then forward by two, decides nothing late and nothing early: what is to wait for 4 seconds comes
    within 3.5 to 90. Both are said."""
    with tempfile.TemporaryDirectory() as folder:
        shift = os.path.join(folder, "shift")
        surroundings = {"LD_PRELOAD": library_of("shifted_clock", folder), "SHIFT": shift}
        collector = start('log = "text"\ndecision_wait_ms = 4000\ntick_ms = 100\n' + ALL, surroundings=surroundings)
        for number, seconds in enumerate((-3600, 7200)):
            span, began = {"traceId": f"{number + 1:032x}", "spanId": f"{number + 1:016x}"}, time.monotonic()
            want("the answer", collector.ask(post(body_of([span])))[::2], (200, "{}"))
            set_shift(shift, seconds)
            while printed(collector) == number:
                at_most("the wait for a line", 90, began)
                time.sleep(0.05)
            if time.monotonic() - began < 3.5:
                raise Failure(f"a line came after {time.monotonic() - began:.2f} s")
            until("a jump is said", lambda wanted=number + 1: collector.says().count(" clock_jumped ") == wanted)
            want("the lines behind it", printed(collector), number + 1)
        want("the report", collector.close()[1], [2, 2, 0, 0, 0, 0, 0, 0, 0])
        jumps = [int(number) for number in re.findall(r" WARN clock_jumped by_ms=(\d+) ", collector.said)]
        want("the jumps in whole minutes", [round(number / 60000) for number in sorted(jumps)], [60, 180])


def printed(collector):
    """How many lines are printed."""
    with open(collector.printed, encoding="utf-8") as file:
        return len(file.read().splitlines())


def batches_of_the_collector(start):
    """A batch of 8,192 spans is taken where the limit of a body allows it, also packed; by default it is 413, and one of 4 MiB isn't."""
    attributes = [{"key": f"attribute.{number}", "value": {"stringValue": "x" * 40}} for number in range(8)]
    batch = body_of([{"traceId": f"{number + 1:032x}", "spanId": f"{number + 1:016x}", "attributes": attributes} for number in range(8192)])
    want("whether the batch has more than 4 MiB and less than 20", 4 << 20 < len(batch) < 20 << 20, True)
    room = "num_traces = 100000\nqueue_capacity = 65536\naccept_gzip = true\n"
    collector = start(room + ALL)
    want("a batch by default, by its head", collector.ask(post(batch)[:4096])[0], 413)
    want("a packed batch by default", collector.ask(post(gzip.compress(batch), fields=["Content-Encoding: gzip"]))[0], 413)
    spaces = b" " * ((4 << 20) - len(body_of([ERROR_SPAN])))
    want("a body of 4 MiB", collector.ask(post(body_of([ERROR_SPAN]) + spaces))[::2], (200, "{}"))
    want("the report", collector.close()[1], [1, 1, 0, 0, 0, 0, 0, 0, 0])
    collector = start("max_request_mib = 20\n" + room + ALL)
    want("a batch", collector.ask(post(batch))[::2], (200, "{}"))
    want("a packed batch", collector.ask(post(gzip.compress(batch), fields=["Content-Encoding: gzip"]))[::2], (200, "{}"))
    want("more than the limit, by its head", collector.ask(post(b" " * ((20 << 20) + 1))[:4096])[0], 413)
    want("the report", collector.close()[1], [16384, 16384, 0, 0, 0, 0, 0, 0, 0])


def is_logged(start):
    """A run says its start, its address, what is full, who closed it and its report: in text, in JSON, or nothing."""
    for form in ("text", "json"):
        collector = start(f'log = "{form}"\nqueue_capacity = 1\nshards = 1\nnum_traces = 60000\n' + ALL)
        spans = [{"traceId": "1" * 32, "spanId": f"{number + 1:016x}"} for number in range(2000)]
        _, _, answer = collector.ask(post(body_of(spans)))
        if "partialSuccess" in answer:
            comes_to("whether the full queue is said", lambda: "queue_full" in collector.says(), True)
        time.sleep(1.5)  # (it is looked twice a second at what is to be said; nothing else may be)
        _, numbers = collector.close()
        events = [event_of(form, line) for line in collector.said.splitlines()]
        # (There is room again ten seconds later, which a slow machine may see.)
        told = [name for name, _ in events if name not in ("closing", "queue_has_room")]
        want("the events", told, ["starting", "settings", "listening"] + ["queue_full"] * (numbers[3] > 0) + ["closed"])
        fields = dict(events)
        want("the configuration", os.path.basename(fields["starting"]["configuration"]), "config.toml")
        changed = {"listen", "queue_capacity", "num_traces"} | ({"log"} if form == "json" else set())
        want("what isn't default", set(fields["settings"]["not_default"].split()), changed)
        want("the address", fields["listening"]["address"], f"127.0.0.1:{collector.port}")
        told = [fields["closed"][it] for it in "received handed invalid_id queue_full no_memory evicted not_sampled late_not_sampled exporter_down".split()]
        want("the report", [int(it) for it in told], numbers)
        want("who closed it", fields["closed"]["by"], "request")


def closed_with_its_report(start):
    """The last line of the log tells the report, of which the numbers differ here."""
    metrics = free_port()
    collector = start(f'log = "text"\nmetrics = "127.0.0.1:{metrics}"\ndecision_wait_ms = 50\ntick_ms = 20\n' + ERRORS)
    spans = [{"traceId": f"{trace:032x}", "spanId": f"{trace:016x}", "status": {"code": 2 if trace > 3 else 0}} for trace in range(1, 9)]
    want("the answer", collector.ask(post(body_of(spans + [{"traceId": "x", "spanId": "y"}])))[0], 200)
    name = 'tsc_spans_dropped_total{{reason="{}"}}'.format
    comes_to("those that aren't sampled", lambda: scrape(metrics)[name("not_sampled")], 3)
    want("the answer to late ones", collector.ask(post(body_of([{**span, "spanId": f"{9:016x}"} for span in spans[:2]])))[0], 200)
    comes_to("those that come late", lambda: scrape(metrics)[name("late_not_sampled")], 2)
    _, numbers = collector.close()
    want("the report", numbers, [11, 5, 1, 0, 0, 0, 3, 2, 0])
    fields = dict(event_of("text", line) for line in collector.said.splitlines())["closed"]
    told = [fields[it] for it in "received handed invalid_id queue_full no_memory evicted not_sampled late_not_sampled exporter_down".split()]
    want("what is told", [int(it) for it in told], numbers)


def says_that_files_run_out(start):
    """Where more connect than files may be open, that is said as such."""
    collector = start('log = "text"\n' + ALL, limits=[(resource.RLIMIT_NOFILE, 64)])
    clients = [collector.client() for _ in range(100)]
    until("it is said", lambda: " WARN files_run_out times=" in collector.says())
    for client in clients:
        client.close()
    want("the report", collector.close()[1], [0] * 9)


def says_that_its_backend_is_back(start):
    """That a backend is away is said, and that it takes again also where of each two attempts one still fails."""
    backend = Backend([10, [OK]] * 100000, listens=False)
    collector = start('log = "text"\n' + FAST + ALL + backend.settings(WAITS.replace("retry_initial_ms = 50\nretry_max_ms = 200", "retry_initial_ms = 10\nretry_max_ms = 10")))
    send(collector, 0)
    until("it is said to be away", lambda: " backend_away " in collector.says())
    backend.listen()
    number, began = 1, time.monotonic()
    while " backend_back " not in collector.says():
        at_most("the time until it is said to be back", 30, began)
        send(collector, number)
        number += 1
    want("the report", collector.close()[1], [number, number, 0, 0, 0, 0, 0, 0, 0])


def event_of(form, line):
    """The name and the fields of an event."""
    if form == "json":
        fields = json.loads(line)
        want("the time", re.fullmatch(r"\d{4}-\d\d-\d\dT\d\d:\d\d:\d\d(\.\d+)?Z", fields["time"]) is None, False)
        return fields["event"], fields
    found = LINE.match(line)
    want(f"whether {line!r} is a line of the log", found is None, False)
    return found.group(3), {name: value.strip('"') for name, value in re.findall(r' (\w+)=(\d+|"[^"]*")', found.group(4))}


def says_what_was_given_up(start):
    """Spans of batches that the backend refuses for good are told in the log, once for all that are given up within a minute; others are handed over."""
    backend, began = Backend([[answer(415)], [answer(400)]]), time.monotonic()
    collector = start('log = "text"\n' + FAST + ALL + backend.settings())
    for number in range(3):
        send(collector, number)
        until("the request", lambda wanted=number + 1: len(backend.requests) == wanted)
        until("what is said", lambda: " spans_given_up " in collector.says())
    want("the report", collector.close()[1], [3, 1, 0, 0, 0, 0, 0, 0, 2])
    events = [event_of("text", line) for line in collector.said.splitlines()]
    told = [(name, fields) for name, fields in events if "given_up" in name]
    # (Ten seconds later none is given up any more, and a minute later it is told again.)
    want("what is said", told[:1] if time.monotonic() - began > 9 else told, [("spans_given_up", {"spans": "1"})])


def says_what_cannot_be(start):
    """An address that somebody has is named with the system's error, and so is the file of a configuration that is refused; standard output is as ever."""
    with tempfile.TemporaryDirectory() as folder:
        config = os.path.join(folder, "config.toml")
        collector = start(ALL)
        cases = [
            (f'listen = "127.0.0.1:{collector.port}"\n' + ALL, 6, b"tsc: cannot listen\n", "cannot_listen", f'what="127.0.0.1:{collector.port}"'),
            (f'listen = "127.0.0.1:{free_port()}"\nadmin = "127.0.0.1:{collector.port}"\n' + ALL, 6, b"tsc: cannot listen\n", "cannot_listen", "Address already in use"),
            ("lanes = 0\n" + ALL, 3, b"tsc: configuration refused: 5\n", "configuration_refused", "fault=5"),
            ('log = "off"\nlanes = 0\n' + ALL, 3, b"tsc: configuration refused: 5\n", "configuration_refused", "fault=5"),
        ]
        for text, status, output, event, part in cases:
            with open(config, "w", encoding="utf-8") as file:
                file.write(text)
            done = subprocess.run([start.program, "serve", config], stdin=subprocess.DEVNULL, capture_output=True, timeout=PATIENCE, check=False)
            want("the end", (done.returncode, done.stdout), (status, output))
            last = done.stderr.decode().splitlines()[-1]
            want(f"what {last!r} says", (event in last, part in last), (True, True))
        collector.close()


def listens_everywhere(start):
    """`:PORT` is every address of the machine, for requests and for those in charge, and `tsc close` finds it."""
    with tempfile.TemporaryDirectory() as folder:
        config, port, admin = os.path.join(folder, "config.toml"), free_port(), free_port()
        with open(config, "w", encoding="utf-8") as file:
            file.write(f'listen = ":{port}"\nadmin = ":{admin}"\n' + ALL)
        ran = subprocess.Popen([start.program, "serve", config], stdin=subprocess.DEVNULL, stdout=subprocess.PIPE, stderr=subprocess.PIPE)
        want("the first events", [ran.stderr.readline().split()[2] for _ in range(3)], [b"starting", b"settings", b"listening"])
        hosts = ["127.0.0.1", "127.0.0.2"] + (["::1"] if os.path.exists("/proc/net/if_inet6") and "00000000000000000000000000000001" in open("/proc/net/if_inet6").read() else [])
        comes_to("whether it listens at its second address", lambda: is_listening(f":{admin}"), True)
        for host in hosts:
            for where in (port, admin):
                socket.create_connection((host, where), timeout=PATIENCE).close()
        done = subprocess.run([start.program, "close", config], stdin=subprocess.DEVNULL, capture_output=True, timeout=PATIENCE, check=False)
        want("the end of close", (done.returncode, done.stdout), (0, b""))
        want("the end", (ran.wait(timeout=PATIENCE), ran.stdout.readline()), (0, b"received 0\n"))
        ran.stdout.close()
        ran.stderr.close()


def output_that_stalls(start):
    """For how long a write is under way is told while the output's reader stands still, and 0 once it reads on; for how long the oldest trace has waited, too."""
    metrics = free_port()
    reader, writer = os.pipe()
    collector = start(f'metrics = "127.0.0.1:{metrics}"\ndecision_wait_ms = 3600000\nroot_wait_ms = 1\ntick_ms = 50\n' + ALL, output=writer)
    os.close(writer)
    told = lambda name: scrape(metrics)[name]
    want("before anything", [told("tsc_output_stalled_seconds"), told("tsc_oldest_waiting_seconds")], [0, 0])
    began = time.monotonic()
    want("the answer", collector.ask(post(body_of([{"traceId": "1" * 32, "spanId": "1" * 16, "parentSpanId": "2" * 16}])))[0], 200)
    attributes = [{"key": "x", "value": {"stringValue": "x" * 100000}}]
    for number in range(1, 4):
        span = {"traceId": f"{number:032x}", "spanId": f"{number:016x}", "attributes": attributes}
        want("the answer", collector.ask(post(body_of([span])))[0], 200)
    while told("tsc_output_stalled_seconds") < 2:
        at_most("the time until a stall of two seconds is told", PATIENCE, began)
        time.sleep(0.1)
    for name in ("tsc_output_stalled_seconds", "tsc_oldest_waiting_seconds"):
        seconds = told(name)
        if not 1 <= seconds <= time.monotonic() - began + 1:
            raise Failure(f"{name} is {seconds} after {time.monotonic() - began:.1f} seconds")
    kept = []
    reading = threading.Thread(target=lambda: kept.append(open(reader, "rb").read()), daemon=True)
    reading.start()
    comes_to("the stall once it is read", lambda: told("tsc_output_stalled_seconds"), 0)
    want("the answer", collector.ask(post(body_of([{"traceId": "1" * 32, "spanId": "3" * 16}])))[0], 200)
    comes_to("the oldest once it is decided", lambda: told("tsc_oldest_waiting_seconds"), 0)
    want("the answer to /close", collector.ask(post(b"", "/close"))[::2], (200, "{}"))
    collector.end()
    reading.join()
    want("the report", kept[0].decode().splitlines()[-9:][:2], ["received 5", "handed 5"])


def backend_that_stalls(start):
    """For how long a line is under way is told while its backend doesn't answer, also where the line was printed first."""
    for more in ("", "lines = true\n"):
        metrics, answers = free_port(), threading.Event()

        def late(_, answers=answers):
            answers.wait(PATIENCE)
            return OK

        backend = Backend([late])
        collector = start(f'metrics = "127.0.0.1:{metrics}"\n' + FAST + ALL + backend.settings(WAITS.replace("timeout_ms = 60000", "timeout_ms = 600000")) + more)
        send(collector, 0)
        until("the request", lambda it=backend: it.requests)
        until("a stall of two seconds is told", lambda port=metrics: scrape(port)["tsc_output_stalled_seconds"] >= 2)
        answers.set()
        comes_to("the stall once it is answered", lambda port=metrics: scrape(port)["tsc_output_stalled_seconds"], 0)
        want("the report", collector.close()[1], [1, 1, 0, 0, 0, 0, 0, 0, 0])


def lines_of_the_log(start):
    """What the log warns of and what it calls an error is counted, and jumps of the wall clock also where nothing is logged."""
    for log, warnings, errors in (("text", 1, 1), ("off", 0, 0)):
        metrics = free_port()
        with tempfile.TemporaryDirectory() as folder:
            shift = os.path.join(folder, "shift")
            surroundings = {"LD_PRELOAD": library_of("shifted_clock", folder), "SHIFT": shift}
            reader, writer = os.pipe()
            os.close(reader)
            settings = f'log = "{log}"\nmetrics = "127.0.0.1:{metrics}"\ndecision_wait_ms = 50\ntick_ms = 50\noutput_fault = "discard"\n'
            collector = start(settings + ALL, output=writer, surroundings=surroundings)
            os.close(writer)
            names = ["tsc_clock_jumps_total", 'tsc_log_lines_total{level="warn"}', 'tsc_log_lines_total{level="error"}']
            told = lambda: [numbers[name] for numbers in [scrape(metrics)] for name in names]
            want("before", told(), [0, 0, 0])
            set_shift(shift, -3600)
            comes_to("behind a jump", told, [1, warnings, 0])
            want("the answer", collector.ask(post(body_of([ERROR_SPAN])))[0], 200)
            comes_to("behind a write that failed, and a span given up", told, [1, 2 * warnings, errors])
            time.sleep(1.5)  # (it is looked twice a second at what is to be said: each is said once)
            want("a second and a half later", told(), [1, 2 * warnings, errors])
            want("the answer to /close", collector.ask(post(b"", "/close"))[::2], (200, "{}"))
            collector.end(1)
            want("the lines", (collector.said.count(" WARN "), collector.said.count(" ERROR output_failed\n")), (2 * warnings, errors))


CHECKS = [listens_everywhere, ticks_wait_for_spans, batches_of_the_collector, is_logged, says_what_was_given_up, says_what_cannot_be, output_that_stalls]
CHECKS += [waits_by_time_that_passes, lines_of_the_log, closed_with_its_report, says_that_files_run_out, says_that_its_backend_is_back, backend_that_stalls]
