"""The OpenTelemetry Collector's core, OpenTelemetry's C++ SDK and its codec of OTLP/JSON, each beside a collector."""

import gzip
import http.client
import http.server
import json
import os
import re
import subprocess
import sys
import threading
import time

from running import RECIPES, SETTINGS, TOP, Failure, Neighbour, all_came_back, free_port, ids_of, post, send_from_many, spans_for, spans_of, want

GZIP = "accept_gzip = true\n"
CODEC = "usr/lib/python3/dist-packages"


class Backend:
    """What takes the Collector's requests, as a backend does, and keeps their spans."""

    def __init__(self, port=0):
        kept = self.bodies = []

        class Handler(http.server.BaseHTTPRequestHandler):
            """Answers each request 200, and keeps its body."""

            protocol_version = "HTTP/1.1"

            def do_POST(self):
                """Takes a request."""
                body = self.rfile.read(int(self.headers["Content-Length"]))
                kept.append(gzip.decompress(body) if self.headers.get("Content-Encoding") == "gzip" else body)
                self.send_response(200)
                self.send_header("Content-Type", "application/json")
                self.send_header("Content-Length", "2")
                self.end_headers()
                self.wfile.write(b"{}")

            def log_message(self, *_):
                """Says nothing."""

        self.server = http.server.ThreadingHTTPServer(("127.0.0.1", port), Handler)
        self.port = self.server.server_port
        threading.Thread(target=self.server.serve_forever, daemon=True).start()

    def spans(self):
        """The spans that came."""
        return spans_of(it.decode() for it in self.bodies)

    def end(self):
        """Ends it."""
        self.server.shutdown()
        self.server.server_close()


def core_by_the_recipe(here, collector, backend, is_split=True):
    """The Collector by collector.yaml with other ports, and these; or with a batch processor of its defaults."""
    text = (RECIPES / "collector.yaml").read_text("utf-8")
    if not is_split:
        text = re.sub(r"(?m)^  batch:\n(?:    .*\n)+", "  batch:\n", text)
        want("what is left of the sizes of a batch", "send_batch" in text, False)
    ports = {at: free_port() for at in (4317, 4318, 4338)} | {4328: collector.port, 14318: backend.port}
    for before, now in ports.items():
        want(f"the recipe has :{before}", f"127.0.0.1:{before}" in text, True)
        text = text.replace(f"127.0.0.1:{before}/", f"127.0.0.1:{now}/").replace(f"127.0.0.1:{before} ", f"127.0.0.1:{now} ")
    recipe = here.folder / "collector.yaml"
    # The core's own numbers would take port 8888.
    recipe.write_text(text.replace("service:\n", "service:\n  telemetry: { metrics: { level: none } }\n"), "utf-8")
    return Neighbour(here, [str(here.fetched / "collector" / "otelcore"), "--config", str(recipe)], ports[4318]), ports


def ten_thousand_between_two_pipelines(here):
    """100 clients send to the Collector, its batch processor hands on to tsc, hand_on.sh gives the lines back to it, and its second batch processor
    hands them to a backend: what comes there is what was sent."""
    collector, backend = here.start(SETTINGS + GZIP), Backend()
    core, ports = core_by_the_recipe(here, collector, backend)
    tail = subprocess.Popen(["tail", "-n", "+1", "-F", collector.printed], stdout=subprocess.PIPE, stderr=subprocess.DEVNULL)
    hands_on = subprocess.Popen([str(RECIPES / "hand_on.sh"), f"http://127.0.0.1:{ports[4338]}/v1/traces"], stdin=tail.stdout)
    try:
        sent = send_from_many(lambda: http.client.HTTPConnection("127.0.0.1", ports[4318], timeout=30), 100, 10, 10)
        for _ in range(300):
            if len(backend.spans()) >= len(sent):
                break
            time.sleep(0.1)
        all_came_back(collector, sent)
        want("what came to the backend", ids_of(backend.spans()) == ids_of(sent), True)
    finally:
        tail.kill()
        tail.wait()
        tail.stdout.close()
        hands_on.wait(30)
        core.end()
        backend.end()


def large_batches_are_split(here):
    """A request of 8,192 spans, as a default `batch` sends it, of more than 4 MiB, goes through the Collector by the recipe, and all come."""
    collector, backend = here.start(SETTINGS + GZIP), Backend()
    core, ports = core_by_the_recipe(here, collector, backend)
    sent = [{**it, "attributes": [{"key": "text", "value": {"stringValue": "x" * 400}}]} for it in spans_for(0, 0, 8192)]
    want("a body above 4 MiB", len(json.dumps(sent)) > 4194304, True)
    want("the answer", post(http.client.HTTPConnection("127.0.0.1", ports[4318], timeout=60), sent), 200)
    for _ in range(300):
        with open(collector.printed, encoding="utf-8") as lines:
            if sum(it.count('"spanId"') for it in lines) >= len(sent):
                break
        time.sleep(0.1)
    core.end()
    backend.end()
    all_came_back(collector, sent)


def default_batches_are_taken(here):
    """The Collector's batch processor with its defaults sends 8,192 spans at once, of more than 4 MiB; with `max_request_mib = 20` all 24,576 come, once."""
    collector, backend = here.start(SETTINGS + GZIP + "max_request_mib = 20\n"), Backend()
    core, ports = core_by_the_recipe(here, collector, backend, is_split=False)
    sent = [{**it, "attributes": [{"key": "text", "value": {"stringValue": "x" * 400}}]} for it in spans_for(0, 0, 24576)]
    connection = http.client.HTTPConnection("127.0.0.1", ports[4318], timeout=60)
    for first in range(0, len(sent), 512):
        want("the answer", post(connection, sent[first : first + 512]), 200)
    for _ in range(300):
        with open(collector.printed, encoding="utf-8") as lines:
            if sum(it.count('"spanId"') for it in lines) >= len(sent):
                break
        time.sleep(0.1)
    core.end()
    backend.end()
    all_came_back(collector, sent)


def the_three_steps(here):
    """The README's steps beside a Collector: its configuration brought over by tsc-import, its batches handed on by the recipe, and the lines by hand_on.sh. Of
    2,000 traces of two spans, each with a double, those with an error come to the backend, whole."""
    (here.folder / "collector.yaml").write_text(
        "processors: { tail_sampling: { decision_wait: 2s, policies: [{ name: errors, type: status_code, status_code: { status_codes: [ERROR] } }] } }\n", "utf-8"
    )
    words = [sys.executable, TOP / "packaging/import/tsc-import", "--beside", "--program", here.program, "collector.yaml"]
    made = subprocess.run(words, cwd=here.folder, capture_output=True, text=True, check=True).stdout
    want("the address", made.count('listen = "127.0.0.1:4328"\n'), 1)
    collector, backend = here.start(made.replace('listen = "127.0.0.1:4328"\n', "")), Backend()
    core, ports = core_by_the_recipe(here, collector, backend)
    tail = subprocess.Popen(["tail", "-n", "+1", "-F", collector.printed], stdout=subprocess.PIPE, stderr=subprocess.DEVNULL)
    hands_on = subprocess.Popen([str(RECIPES / "hand_on.sh"), f"http://127.0.0.1:{ports[4338]}/v1/traces"], stdin=tail.stdout)
    try:
        spans = [
            {"traceId": f"{at:032x}", "spanId": f"{2 * at + it:016x}", "status": {"code": 2} if at % 5 == 0 and it else {}, "attributes": [{"key": "ratio", "value": {"doubleValue": at / 8}}]}
            for at in range(1, 2001) for it in (0, 1)
        ]
        connection = http.client.HTTPConnection("127.0.0.1", ports[4318], timeout=30)
        for first in range(0, len(spans), 500):
            want("the answer", post(connection, spans[first : first + 500]), 200)
        wanted = {it["spanId"]: it["attributes"] for it in spans if int(it["traceId"], 16) % 5 == 0}
        for _ in range(300):
            if len(backend.spans()) >= len(wanted):
                break
            time.sleep(0.1)
        want("the report", collector.close()[1], [4000, 800, 0, 0, 0, 0, 3200, 0, 0])
        came = backend.spans()
        want("what came to the backend, once", (len(came), {it["spanId"]: it["attributes"] for it in came} == wanted), (800, True))
    finally:
        tail.kill()
        tail.wait()
        tail.stdout.close()
        hands_on.wait(30)
        core.end()
        backend.end()


def the_second_tier(here):
    """The configuration of the second tier as docs/operating/SCALING.md has it, behind a Collector that speaks gRPC to it, as the first tier does."""
    page = (TOP / "docs" / "operating" / "SCALING.md").read_text("utf-8")
    block = page.split("on each machine of the second tier")[1].split("\n\n")[1]
    collector = here.start(SETTINGS)
    ports = {4317: free_port(), 4328: collector.port}
    for before, now in ports.items():
        want(f"the page has :{before}", block.count(f":{before}"), 1)
        block = block.replace(f":{before}", f":{now}")
    lines = [it[4:] for it in block.split("\n")]
    second, first = here.folder / "second.yaml", here.folder / "first.yaml"
    quiet = "  telemetry: { metrics: { level: none } }\n"
    second.write_text("\n".join(lines).replace("service:\n", "service:\n" + quiet) + "\n", "utf-8")
    listens = free_port()
    first.write_text(
        f"receivers: {{ otlp: {{ protocols: {{ http: {{ endpoint: 127.0.0.1:{listens} }} }} }} }}\n"
        f"exporters: {{ otlp: {{ endpoint: '127.0.0.1:{ports[4317]}', tls: {{ insecure: true }} }} }}\n"
        f"service:\n{quiet}  pipelines: {{ traces: {{ receivers: [otlp], exporters: [otlp] }} }}\n",
        "utf-8",
    )
    core = str(here.fetched / "collector" / "otelcore")
    behind = Neighbour(here, [core, "--config", str(second)], ports[4317])
    before = Neighbour(here, [core, "--config", str(first)], listens)
    sent = send_from_many(lambda: http.client.HTTPConnection("127.0.0.1", listens, timeout=30), 100, 10, 10)
    before.end()
    behind.end()
    all_came_back(collector, sent)


def the_documented_example_is_read(here):
    """The example of the tail_sampling processor's documentation, as it is written for tsc, has no fault."""
    told = subprocess.run([here.program, "validate", str(RECIPES / "tail_sampling.toml")], capture_output=True, text=True)
    want("what validate says", (told.stdout, told.returncode), ("ok\n", 0))


def ten_thousand_of_the_sdk(here):
    """The C++ SDK exports 5,000 traces of two spans by its batch processor."""
    collector = here.start(SETTINGS)
    words = [str(here.fetched / "sdk" / "sdk_client"), f"http://127.0.0.1:{collector.port}/v1/traces", "5000"]
    environment = {**os.environ, "LD_LIBRARY_PATH": str(here.fetched / "sdk/root/usr/lib/x86_64-linux-gnu")}
    said = subprocess.run(words, env=environment, capture_output=True, text=True, check=True, timeout=120).stdout
    sent = [{"spanId": it} for it in said.split("\n") if len(it) == 16]
    want("spans that were sent", len(sent), 10000)
    all_came_back(collector, sent)


def equal_by_the_codec(here):
    """Spans with every kind of value, written and read by OpenTelemetry's own codec, come back equal; of one with a double the attribute is left out."""
    sys.path.insert(0, str(here.fetched / "codec" / CODEC))
    from codec_spans import flat, requests  # noqa: PLC0415

    collector = here.start(SETTINGS)
    whole, double = requests()
    for it in (whole, double):
        connection = http.client.HTTPConnection("127.0.0.1", collector.port, timeout=10)
        connection.request("POST", "/v1/traces", it.to_json().encode(), {"Content-Type": "application/json"})
        want("the answer", connection.getresponse().read(), b"{}")
        connection.close()
    lines, _ = collector.close()
    back = [it for line in lines for it in flat(type(whole).from_json(line))]
    for it in flat(whole):
        want("a span that came back", it in back, True)
    [of_double] = flat(double)
    [got] = [it for it in back if it[4]["spanId"] == of_double[4]["spanId"]]
    keys = [it["key"] for it in of_double[4]["attributes"] if "doubleValue" not in json.dumps(it)]
    want("the attributes beside a double", [it["key"] for it in got[4]["attributes"]], keys)
    want("how many are told as left out", got[4]["droppedAttributesCount"], 1)


def ten_thousand_by_the_codec(here):
    """10,000 spans with every kind of value, doubles among them, written and read by OpenTelemetry's own codec, come back equal."""
    sys.path.insert(0, str(here.fetched / "codec" / CODEC))
    from codec_spans import flat, many_requests  # noqa: PLC0415

    collector = here.start(SETTINGS + 'double_values = "keep"\n')
    connection, sent = http.client.HTTPConnection("127.0.0.1", collector.port, timeout=10), {}
    for it in many_requests(100, 11):
        connection.request("POST", "/v1/traces", it.to_json().encode(), {"Content-Type": "application/json"})
        want("the answer", connection.getresponse().read(), b"{}")
        sent |= {one[4]["spanId"]: repr(one) for one in flat(it)}
    connection.close()
    kind = type(it)
    lines, _ = collector.close()
    back = {one[4]["spanId"]: repr(one) for line in lines for one in flat(kind.from_json(line))}
    want("spans that were sent", len(sent), 10_000)
    want("spans that came back", len(back), 10_000)
    other = [it for it in sent if sent[it] != back.get(it)]
    want("spans that came back otherwise", [(sent[it], back.get(it)) for it in other[:1]], [])


def a_collector_that_is_away(here):
    """tsc is away when clients send, and comes back: the Collector sends again, and no span is lost."""
    port, listens = free_port(), free_port()
    recipe = here.folder / "collector.yaml"
    recipe.write_text(
        f"receivers: {{ otlp: {{ protocols: {{ http: {{ endpoint: 127.0.0.1:{listens} }} }} }} }}\nprocessors: {{ batch: {{ timeout: 100ms }} }}\n"
        f"exporters: {{ otlphttp: {{ traces_endpoint: 'http://127.0.0.1:{port}/v1/traces', encoding: json, retry_on_failure: {{ initial_interval: 500ms }} }} }}\n"
        "service: { telemetry: { metrics: { level: none } }, pipelines: { traces: { receivers: [otlp], processors: [batch], exporters: [otlphttp] } } }\n",
        "utf-8",
    )
    core = Neighbour(here, [str(here.fetched / "collector" / "otelcore"), "--config", str(recipe)], listens)
    sent = send_from_many(lambda: http.client.HTTPConnection("127.0.0.1", listens, timeout=30), 10, 10, 100)
    settings, printed = here.folder / "late.toml", here.folder / "late"
    settings.write_text(f'listen = "127.0.0.1:{port}"\n' + SETTINGS + GZIP, "utf-8")
    with open(printed, "wb") as output:
        late = subprocess.Popen([here.program, "serve", str(settings)], stdout=output)
    try:
        for _ in range(600):
            got = [it for it in printed.read_text("utf-8").split("\n")[:-1] if it.startswith("{")]
            if len(spans_of(got)) >= len(sent):
                break
            time.sleep(0.1)
        core.end()
        subprocess.run([here.program, "close", str(settings)], check=True, timeout=60)
        want("the status", late.wait(60), 0)
    finally:
        if late.poll() is None:
            late.kill()
            late.wait()
    lines = [it for it in printed.read_text("utf-8").split("\n") if it.startswith("{")]
    if ids_of(spans_of(lines)) != ids_of(sent):
        raise Failure(f"{len(sent)} spans were sent, {len(spans_of(lines))} came")


def a_million_to_the_collector(here):
    """tsc sends what it keeps to the Collector, which hands it to a backend: of a million spans of 20 clients all come there, none twice."""
    backend, listens = Backend(), free_port()
    recipe = here.folder / "collector.yaml"
    recipe.write_text(
        f"receivers: {{ otlp: {{ protocols: {{ http: {{ endpoint: 127.0.0.1:{listens} }} }} }} }}\n"
        f"exporters: {{ otlphttp: {{ traces_endpoint: 'http://127.0.0.1:{backend.port}/v1/traces', encoding: json, compression: none }} }}\n"
        "service: { telemetry: { metrics: { level: none } }, pipelines: { traces: { receivers: [otlp], exporters: [otlphttp] } } }\n",
        "utf-8",
    )
    core = Neighbour(here, [str(here.fetched / "collector" / "otelcore"), "--config", str(recipe)], listens)
    export = f'[export]\nendpoint = "http://127.0.0.1:{listens}/v1/traces"\nclose_wait_ms = 600000\n'
    collector = here.start('num_traces = 1000000\nqueue_full = "retry"\n' + SETTINGS + export)
    each = int(os.environ.get("TSC_SPANS", "1000000")) // 20000

    def work(client):
        connection = http.client.HTTPConnection("127.0.0.1", collector.port, timeout=60)
        for request in range(each):
            while post(connection, spans_for(client, request, 1000)) == 503:
                time.sleep(0.05)

    clients = [threading.Thread(target=work, args=(it,)) for it in range(20)]
    for it in clients:
        it.start()
    for it in clients:
        it.join()
    lines, numbers = collector.close()
    core.end()
    count = each * 20000
    want("the lines that are printed", lines, [])
    want("the report", numbers, [count, count, 0, 0, 0, 0, 0, 0, 0])
    came = ids_of(backend.spans())
    want("the spans at the backend, and those without repeats", (len(came), len(set(came))), (count, count))
    backend.end()


CHECKS = [
    ten_thousand_between_two_pipelines, large_batches_are_split, default_batches_are_taken, the_three_steps, a_million_to_the_collector, a_collector_that_is_away, the_second_tier, the_documented_example_is_read, ten_thousand_of_the_sdk,
    equal_by_the_codec,
    ten_thousand_by_the_codec,
]
