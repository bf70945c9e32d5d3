"""SDKs and the Collector's core with their default settings, which send protobuf: no Collector between, and what comes back is what was made."""

import http.client
import json
import os
import subprocess
import time

from applications import Backend
from running import SETTINGS, Neighbour, free_port, ids_of, send_from_many, spans_of, want

PROTOBUF = 'accept_gzip = true\naccept_protobuf = true\ndouble_values = "keep"\n'


def equal_to_what_was_made(collector, said, count):
    """Closes the collector: each span that an SDK says that it made came back once, and each field that it tells is as it was made."""
    made = [json.loads(it) for it in said.splitlines()]
    want("spans that were made", len(made), count)
    lines, numbers = collector.close()
    want("the report", numbers, [count, count, 0, 0, 0, 0, 0, 0, 0])
    back = {it["spanId"]: it for it in spans_of(lines)}
    want("spans that came back", len(back), count)
    for it in made:
        got = back[it["spanId"]]
        linked = [one["spanId"] for one in got.get("links", [])]
        want(f"the span {it['spanId']}", {key: linked if key == "linked" else got.get(key) for key in it}, it)
    resources = [it["resource"]["attributes"] for line in lines for it in json.loads(line)["resourceSpans"]]
    services = [{"key": "service.name", "value": {"stringValue": "checkout"}}, {"key": "replicas", "value": {"intValue": "3"}}]
    want("the resource", all(it in one for it in services for one in resources), True)
    scopes = [it["scope"] for line in lines for one in json.loads(line)["resourceSpans"] for it in one["scopeSpans"]]
    want("the scope", {(it["name"], it["version"]) for it in scopes}, {("client", "1.2")})


def endpoint(collector):
    """The one setting of an SDK: where to send."""
    return {**os.environ, "OTEL_EXPORTER_OTLP_ENDPOINT": f"http://127.0.0.1:{collector.port}"}


def ten_thousand_of_the_python_sdk(here):
    """The Python SDK exports 5,000 traces of two spans with its default settings: protobuf."""
    collector, root = here.start(SETTINGS + PROTOBUF), here.fetched / "python/usr"
    libraries = root / "lib/x86_64-linux-gnu"
    words = [libraries / "ld-linux-x86-64.so.2", "--library-path", libraries, next((root / "bin").glob("python3.*")), here.clients / "python_client.py", "5000"]
    settings = {**endpoint(collector), "PYTHONHOME": str(root), "PYTHONPATH": str(root / "lib/python3/dist-packages")}
    said = subprocess.run(words, env=settings, capture_output=True, text=True, check=True, timeout=300).stdout
    equal_to_what_was_made(collector, said, 10_000)


def ten_thousand_of_the_go_sdk(here):
    """The Go SDK exports 5,000 traces of two spans with its default settings: protobuf."""
    collector = here.start(SETTINGS + PROTOBUF)
    said = subprocess.run([here.fetched / "collector/go_client", "5000"], env=endpoint(collector), capture_output=True, text=True, check=True, timeout=300).stdout
    equal_to_what_was_made(collector, said, 10_000)


def ten_thousand_of_the_sdk_in_protobuf(here):
    """The C++ SDK exports 5,000 traces of two spans by its batch processor, with its binary encoding."""
    collector = here.start(SETTINGS + PROTOBUF)
    words = [here.fetched / "sdk/sdk_client", f"http://127.0.0.1:{collector.port}/v1/traces", "5000", "binary"]
    environment = {**os.environ, "LD_LIBRARY_PATH": str(here.fetched / "sdk/root/usr/lib/x86_64-linux-gnu")}
    said = subprocess.run(words, env=environment, capture_output=True, text=True, check=True, timeout=120).stdout
    made = [it for it in said.split("\n") if len(it) == 16]
    want("spans that were sent", len(made), 10_000)
    lines, numbers = collector.close()
    want("the report", numbers, [10_000, 10_000, 0, 0, 0, 0, 0, 0, 0])
    back = {it["spanId"]: it for it in spans_of(lines)}
    want("the spans that came back", sorted(back) == sorted(made), True)
    values = {"http.status_code": {"intValue": "200"}, "ratio": {"doubleValue": 0.25}, "ok": {"boolValue": True}}
    for at, (root, query) in enumerate(zip(made[::2], made[1::2])):
        got, inner = back[root], back[query]
        want("the root", (got["name"], {it["key"]: it["value"] for it in got["attributes"]}), ("GET /cart", values))
        want("the query", (inner["name"], inner["parentSpanId"], inner["kind"]), ("SELECT", root, 3))
        want("its event", inner["events"][0]["attributes"], [{"key": "n", "value": {"intValue": str(at)}}])
        want("its status", inner.get("status"), {"code": 2, "message": "lost"} if at % 5 == 0 else None)


def ten_thousand_by_the_defaults_of_the_core(here):
    """100 clients send to the Collector's core, whose otlphttp exporter has its defaults (protobuf, gzip); tsc sends what it keeps to the core's receiver in
    protobuf, and the core hands it to a backend: what comes there is what was sent."""
    backend, listens, takes = Backend(), free_port(), free_port()
    collector = here.start(SETTINGS + PROTOBUF + f'[export]\nendpoint = "http://127.0.0.1:{takes}/v1/traces"\nencoding = "proto"\n')
    recipe = here.folder / "defaults.yaml"
    recipe.write_text(
        f"receivers: {{ otlp: {{ protocols: {{ http: {{ endpoint: 127.0.0.1:{listens} }} }} }}, otlp/kept: {{ protocols: {{ http: {{ endpoint: 127.0.0.1:{takes} }} }} }} }}\n"
        f"processors: {{ batch: {{ timeout: 100ms }} }}\nexporters: {{ otlphttp/tsc: {{ endpoint: 'http://127.0.0.1:{collector.port}' }}, "
        f"otlphttp/backend: {{ traces_endpoint: 'http://127.0.0.1:{backend.port}/v1/traces', encoding: json }} }}\n"
        "service: { telemetry: { metrics: { level: none } }, pipelines: { traces: { receivers: [otlp], processors: [batch], exporters: [otlphttp/tsc] },\n"
        "  traces/kept: { receivers: [otlp/kept], exporters: [otlphttp/backend] } } }\n",
        "utf-8",
    )
    core = Neighbour(here, [str(here.fetched / "collector/otelcore"), "--config", str(recipe)], listens)
    sent = send_from_many(lambda: http.client.HTTPConnection("127.0.0.1", listens, timeout=30), 100, 10, 10)
    for _ in range(300):
        if len(backend.spans()) >= len(sent):
            break
        time.sleep(0.1)
    lines, numbers = collector.close()
    want("the lines that are printed", lines, [])
    want("the report", numbers, [len(sent), len(sent), 0, 0, 0, 0, 0, 0, 0])
    want("what came to the backend", ids_of(backend.spans()) == ids_of(sent), True)
    names = {it["spanId"]: it["name"] for it in sent}
    want("their names", all(names[it["spanId"]] == it["name"] for it in backend.spans()), True)
    core.end()
    backend.end()


CHECKS = [ten_thousand_of_the_python_sdk, ten_thousand_of_the_go_sdk, ten_thousand_of_the_sdk_in_protobuf, ten_thousand_by_the_defaults_of_the_core]
