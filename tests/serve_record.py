"""Checks of `tsc serve` that keeps a record: a line for each request that was taken and each tick, which `tsc replay` takes."""

import contextlib
import gzip
import json
import os
import random
import re
import subprocess
import tempfile
import threading
import time

from collector import ALL, ERRORS, ERROR_SPAN, PATIENCE, LeftOut, body_of, comes_to, free_port, post, spans_of, want
from protobuf_body import request_of
from serve_output import ask_in_charge, lines_of
from serve_protobuf import by_ids, post_in, random_request, want_spans

LINE = re.compile(r"(?:recv (\d+) (\d+) (.*)|tick (\d+))")
KEPT = "queue_capacity = 65536\nexport_capacity = 65536\naccept_gzip = true\naccept_protobuf = true\n"


def parsed(lines):
    """The requests of a record in order, each as its connection, its moment and its value; and the moments of its ticks."""
    requests, ticks = [], []
    for line in lines:
        found = LINE.fullmatch(line)
        want(f"whether {line[:60]!r} is a line", found is not None, True)
        connection, moment, body, tick = found.groups()
        if tick is None:
            requests.append((int(connection), int(moment), json.loads(body)))
        else:
            ticks.append(int(tick))
    return requests, ticks


def replayed(start, settings, lines):
    """What a replay of such lines prints: the lines of spans, and the nine numbers. Each reply is 200."""
    with tempfile.TemporaryDirectory() as folder:
        config = os.path.join(folder, "config.toml")
        with open(config, "w", encoding="utf-8") as file:
            file.write(settings)
        script = "".join(f"{line}\n" for line in lines)
        done = subprocess.run([start.program, "replay", config], input=script.encode(), capture_output=True, timeout=PATIENCE, check=False)
    want("the end of the replay", (done.returncode, done.stderr), (0, b""))
    printed = done.stdout.decode().splitlines()
    replies = [line for line in printed if line.startswith("reply ")]
    want("the replies", {line.split(" ")[1] for line in replies} - {"200"}, set())
    want("how many replies", len(replies), sum(line.startswith("recv ") for line in lines))
    numbers = [int(line.rsplit(" ", 1)[1]) for line in printed[-9:]]
    return [line for line in printed[:-9] if not line.startswith("reply ")], numbers


def filled(request):
    """A request whose scopes all have a list of spans."""
    return {"resourceSpans": [{**group, "scopeSpans": [{"spans": [], **part} for part in group["scopeSpans"]]} for group in request["resourceSpans"]]}


def sent_as(luck, request):
    """The bytes of a request in one of the forms in which it may be sent, and whether they have its value in JSON."""
    form = luck.randrange(5)
    if form == 0:
        return post_in(request_of(request), close=False), False
    if form == 1:
        return post_in(gzip.compress(request_of(request)), fields=["Content-Encoding: gzip"], close=False), False
    if form == 2:
        return post(json.dumps(request, indent=1, ensure_ascii=False).replace("\n", "\r\n").encode()), True
    if form == 3:
        return post(gzip.compress(json.dumps(request, indent="\t").encode()), fields=["Content-Encoding: gzip"]), True
    return post(json.dumps(request).encode()), True


def a_record_replays(start):
    """Requests in JSON over one line and over several, packed, and in protobuf, of five connections to two lanes: each has its line, in its connection's
    order, with its connection and a moment of when it was sent; and a replay keeps the same spans, of which a policy keeps a part, and counts the same."""
    luck = random.Random(23)
    settings = KEPT + "lanes = 2\nshards = 3\ntick_ms = 20\ndecision_wait_ms = 3600000\nsend_batch_size = 1\n" + ERRORS
    with tempfile.TemporaryDirectory() as folder:
        path = os.path.join(folder, "came.txt")
        collector = start(f'record = "{path}"\n' + settings)
        clients = [collector.client() for _ in range(5)]
        first, sent, began = 0, {at: [] for at in range(5)}, int(time.time() * 1000)
        for _ in range(150):
            at = luck.randrange(5)
            request, count = random_request(luck, first)
            first += count
            data, is_json = sent_as(luck, request)
            clients[at].send(data)
            want("the answer", clients[at].answer()[0], 200)
            sent[at].append((request, is_json))
        ended = int(time.time() * 1000)
        comes_to("the requests' lines", lambda: len(parsed(lines_of([path]))[0]), 150)
        comes_to("a tick's line behind them", lambda: lines_of([path])[-1].startswith("tick "), True)
        printed, numbers = collector.close()
        lines = lines_of([path])
    requests, ticks = parsed(lines)
    by_connection = {}
    for connection, moment, value in requests:
        by_connection.setdefault(connection, []).append((moment, value))
    # Each connection by the first trace of its requests that have spans.
    want("how many connections", len(by_connection), 5)
    for came in by_connection.values():
        ids = set(by_ids(filled(value) for _, value in came))
        (at,) = [at for at, made in sent.items() if len(made) == len(came) and ids == set(by_ids(it for it, _ in made))]
        moments = [moment for moment, _ in came]
        want("whether moments go on", moments, sorted(moments))
        want("whether it is their time", began - 1 <= moments[0] and moments[-1] <= ended + 1, True)
        for (_, value), (made, is_json) in zip(came, sent[at]):
            if is_json:
                want("a request in JSON", value, made)
            else:
                want_spans([json.dumps(filled(value))], [made])
    want("whether ticks go on", ticks, sorted(ticks))
    want("whether there are some", len(ticks) > 3, True)
    kept, counted = replayed(start, settings, lines)
    want("the numbers", counted, numbers)
    want("whether some spans are kept, and others not", 0 < len(printed) < first, True)
    want("the kept lines", sorted(kept), sorted(printed))


def settled_order_replays(start):
    """One lane and one shard, where each request comes once the trace before it is decided, and some spans come late: a replay prints the same lines, in
    the same order, and counts the same."""
    settings = KEPT + "tick_ms = 10\ndecision_wait_ms = 60\nsend_batch_size = 1\n" + ERRORS + "[decision_cache]\nsampled_cache_size = 9\nnon_sampled_cache_size = 9\n"
    with tempfile.TemporaryDirectory() as folder:
        path = os.path.join(folder, "came.txt")
        collector = start(f'record = "{path}"\n' + settings)
        expected = 0
        for number in range(1, 21):
            is_error = number % 3 > 0
            span = {"traceId": f"{number // 2 + 1:032x}", "spanId": f"{number:016x}", "status": {"code": 2 if is_error else 1}}
            collector.ask(post(body_of([span])))
            time.sleep(0.25)
        printed, numbers = collector.close()
        lines = lines_of([path])
    # A trace's second span comes late, and goes by what was decided on its first one.
    for number in range(1, 21):
        of_first = number if number % 2 == 0 or number == 1 else number - 1
        expected += of_first % 3 > 0
    want("the spans that are kept", len(spans_of(printed)), expected)
    want("what a replay prints", replayed(start, settings, lines), (printed, numbers))


def is_the_run_that_happened(start):
    """With one lane and one shard a record is the run that happened, also under load: with ticks a few milliseconds apart, traces whose spans come over many
    requests of six connections, while some are decided, late, evicted or beyond a limit, a replay prints the same lines in the same order, and counts the
    same."""
    settings = KEPT + "lanes = 1\nshards = 1\ntick_ms = 3\ndecision_wait_ms = 15\nnum_traces = 60\nsend_batch_size = 1\n"
    settings += "decision_cache = { sampled_cache_size = 20, non_sampled_cache_size = 10 }\n"
    settings += 'policies = [{ name = "errors", type = "status_code", status_code = { status_codes = ["ERROR"] } }, '
    settings += '{ name = "some", type = "rate_limiting", rate_limiting = { spans_per_second = 300 } }]\n'
    with tempfile.TemporaryDirectory() as folder:
        path = os.path.join(folder, "came.txt")
        collector = start(f'record = "{path}"\n' + settings)
        clients = [threading.Thread(target=sends_mixed, args=(collector.client(), number)) for number in range(6)]
        for client in clients:
            client.start()
        for client in clients:
            client.join()
        printed, numbers = collector.close()
        lines = lines_of([path])
    want("how many requests", len(parsed(lines)[0]), 6 * 100)
    kept, counted = replayed(start, settings, lines)
    want("the numbers", counted, numbers)
    # Evicted, not sampled, and late: each of them is tried.
    want("whether all ends are met", [number > 0 for number in numbers], [True, True, False, False, False, True, True, True, False])
    want("the first line that differs", next((pair for pair in enumerate(zip(kept, printed)) if pair[1][0] != pair[1][1]), None), None)
    want("how many lines", len(kept), len(printed))


def sends_mixed(client, number):
    """Sends a hundred requests, each of thirty spans of traces that others send spans of at the same time."""
    luck = random.Random(number)
    for request in range(100):
        spans = []
        for place in range(30):
            trace = request * 4 + luck.randrange(40) + 1
            span = {"traceId": f"{trace:032x}", "spanId": f"{number * 1_000_000 + request * 100 + place + 1:016x}"}
            spans.append({**span, "status": {"code": 2}} if luck.randrange(200) == 0 else span)
        client.send(post(body_of(spans)))
        client.answer()


def refused_requests_are_not_recorded(start):
    """A request that is refused has no line: one that is no JSON or no protobuf, of a broken packing, too long, or at another path. One without a span has its line,
    and one whose span isn't taken, too."""
    with tempfile.TemporaryDirectory() as folder:
        path = os.path.join(folder, "came.txt")
        collector = start(f'record = "{path}"\nmax_request_mib = 1\ntick_ms = 60000\n' + KEPT + ALL)
        broken = [
            (post(b"{"), 400),
            (post(b"no gzip", fields=["Content-Encoding: gzip"]), 400),
            (post(b"").replace(b"Content-Length: 0", b"Content-Length: 1048577"), 413),
            (post(body_of([ERROR_SPAN]), "/v1/other"), 404),
            (post_in(b"\x0a\x05", close=False), 400),
        ]
        for data, status in broken:
            want("the answer", collector.ask(data)[0], status)
        taken = [body_of([ERROR_SPAN]), b"{}", body_of([{**ERROR_SPAN, "spanId": "00"}])]
        for body in taken:
            want("the answer", collector.ask(post(body))[0], 200)
        collector.close()
        lines = lines_of([path])
        requests, ticks = parsed(lines)
        want("the requests", [value for _, _, value in requests], [json.loads(it) for it in taken])
        want("the ticks", ticks, [])
        want("their connections", len({connection for connection, _, _ in requests}), 3)


def too_long_for_a_line(start):
    """A request that no line of a script can hold is taken as ever, and told as lost; the longest that one can hold has its line."""
    with tempfile.TemporaryDirectory() as folder:
        path = os.path.join(folder, "came.txt")
        collector = start(f'record = "{path}"\nmax_request_mib = 8\ntick_ms = 60000\nlog = "text"\n' + KEPT + ALL)
        # A line is at most 4,194,368 bytes long: `recv `, a digit or more, a space, 13 digits of a moment, and a space.
        for length in (4_194_304, 4_194_369):
            body = body_of([ERROR_SPAN])
            want("the answer", collector.ask(post(body + b"\n" * (length - len(body))))[0], 200)
        collector.close()
        (line,) = lines_of([path])
        want("its length", 4_194_304 + 20 < len(line) <= 4_194_368, True)
        want("what it ends with", line.rstrip(" ").endswith("}]}]}]}"), True)
        said = [it for it in collector.said.splitlines() if "record_not_written" in it]
        want("what is said at the end", ["lines=1" in it for it in said], [True])


def record_is_rotated(start):
    """The file is opened anew where it is asked for, and put aside by its size: no line is torn, lost or told twice."""
    with tempfile.TemporaryDirectory() as folder:
        path = os.path.join(folder, "came.txt")
        admin = free_port()
        collector = start(f'record = "{path}"\nrecord_max_mib = 1\nadmin = "127.0.0.1:{admin}"\ntick_ms = 50\n' + KEPT + ALL)
        files, client = [path], collector.client()
        for number in range(1, 901):
            client.send(post(body_of([{"traceId": f"{number:032x}", "spanId": f"{number:016x}", "name": "n" * 2000}])))
            want("the answer", client.answer()[0], 200)
            if number == 100:
                comes_to("the first lines", lambda: len(parsed(lines_of([path]))[0]), 100)
                os.rename(path, path + ".moved")
                ask_in_charge(admin, "/reopen")
                files.insert(0, path + ".moved")
        client.close()
        ask_in_charge(admin, "/close")
        collector.end()
        shifted = sorted((it for it in os.listdir(folder) if it.startswith("came.txt.") and it[-1].isdigit()), key=lambda it: -int(it.rsplit(".", 1)[1]))
        want("files put aside by size", len(shifted) > 0, True)
        requests, ticks = parsed(lines_of(files[:-1] + [os.path.join(folder, it) for it in shifted] + files[-1:]))
        want("the traces, in order", [int(spans_of([json.dumps(value)])[0]["traceId"], 16) for _, _, value in requests], list(range(1, 901)))
        want("their connections", len({connection for connection, _, _ in requests}), 1)
        want("whether ticks go on", ticks, sorted(set(ticks)))


def record_cannot_be_written(start):
    """A file that can't be opened is named, and the program ends at once."""
    with tempfile.TemporaryDirectory() as folder:
        config = os.path.join(folder, "config.toml")
        path = os.path.join(folder, "none", "came.txt")
        with open(config, "w", encoding="utf-8") as file:
            file.write(f'listen = "127.0.0.1:{free_port()}"\nrecord = "{path}"\n' + ALL)
        done = subprocess.run([start.program, "serve", config], stdin=subprocess.DEVNULL, capture_output=True, timeout=PATIENCE, check=False)
        want("the end", (done.returncode, done.stdout), (1, b"tsc: cannot write\n"))
        last = done.stderr.decode().splitlines()[-1]
        want(f"what {last!r} says", ("cannot_write" in last, f'what="{path}"' in last), (True, True))


def record_of_a_full_disk(start):
    """Where no line can be written the collector goes on as before, counts what is lost, and says so at the end."""
    if not os.path.exists("/dev/full"):
        raise LeftOut("there is no /dev/full")
    collector = start('record = "/dev/full"\ntick_ms = 60000\nlog = "text"\n' + ALL)
    for number in range(1, 21):
        want("the answer", collector.ask(post(body_of([{"traceId": f"{number:032x}", "spanId": f"{number:016x}"}])))[::2], (200, "{}"))
    lines, numbers = collector.close()
    want("the report", (len(lines) > 0, numbers), (True, [20, 20, 0, 0, 0, 0, 0, 0, 0]))
    said = [it for it in collector.said.splitlines() if "record_not_written" in it]
    want("what is said at the end", ["lines=20" in it for it in said], [True])


def files_of(collector):
    """The regular files that it has open, but those of its own output."""
    folder = f"/proc/{collector.process.pid}/fd"
    paths = set()
    for it in os.listdir(folder):
        # One that was open a moment ago, as a file of /proc that a thread reads, may be gone.
        with contextlib.suppress(FileNotFoundError):
            paths.add(os.readlink(os.path.join(folder, it)))
    return {it for it in paths if os.path.isfile(it) and not it.startswith("/proc/")} - {collector.printed, collector.errors.name}


def nothing_without_the_key(start):
    """Without the key, and with an empty one, no file is open while it runs; with it, its file alone."""
    with tempfile.TemporaryDirectory() as folder:
        path = os.path.join(folder, "came.txt")
        for settings, files in (("", set()), ('record = ""\n', set()), (f'record = "{path}"\n', {path})):
            collector = start(settings + ALL)
            want("the answer", collector.ask(post(body_of([ERROR_SPAN])))[0], 200)
            want("its files", {os.path.realpath(it) for it in files_of(collector)}, {os.path.realpath(it) for it in files})
            collector.close()
        want("what the folder has", os.listdir(folder), ["came.txt"])


CHECKS = [a_record_replays, settled_order_replays, is_the_run_that_happened, refused_requests_are_not_recorded, too_long_for_a_line, record_is_rotated]
CHECKS += [record_cannot_be_written, record_of_a_full_disk, nothing_without_the_key]
