#!/usr/bin/env python3
"""Writes runs of one `ottl_condition` each, all on the same ten traces: NAME.toml, NAME.script and NAME.expected, one name a line on standard output.

    tests/conditions_kept.py FOLDER

The conditions are in the forms of OTTL's documentation and of vendors' pages on sampling. Which of the ten traces each keeps stands in the table, worked out
by hand from OTTL's rules (docs/decisions/CONDITIONS.md where they aren't sure); none of it is the program's answer.
"""
import json
import sys

from limits import Run, attribute, plain_span

MILLISECONDS = 10**6
SERVER, CLIENT = 2, 3


def text(key, value):
    """An attribute with a text."""
    return attribute(key, stringValue=value)


def whole(key, value):
    """An attribute with a whole number."""
    return attribute(key, intValue=str(value))


def span(trace, number, name, kind, milliseconds, *attributes, **fields):
    """A span that begins in the second of its trace's number. The second one of a trace has the first as its parent."""
    start = trace * 10**9
    told = {"name": name, "kind": kind, "startTimeUnixNano": str(start), "endTimeUnixNano": str(start + milliseconds * MILLISECONDS), "attributes": list(attributes)}
    parent = {"parentSpanId": f"{1:016x}"} if number == 2 else {}
    return plain_span(trace, number, **{key: value for key, value in told.items() if value}, **parent, **fields)


def event(trace, milliseconds, name, *attributes):
    """An event so long after its span's start."""
    return {"timeUnixNano": str(trace * 10**9 + milliseconds * MILLISECONDS), "name": name, "attributes": list(attributes)}


def sent(service, environment, library, version, *spans):
    """Spans of a service, by a library."""
    resource = {"attributes": [text("service.name", service), text("deployment.environment", environment)]}
    return {"resource": resource, "scopeSpans": [{"scope": {"name": library, "version": version}, "spans": list(spans)}]}


GET, POST = text("http.method", "GET"), text("http.method", "POST")
LISTED = attribute("tags", arrayValue={"values": [{"stringValue": it} for it in ("a", "b", "slow")]})
MAPPED = attribute("meta", kvlistValue={"values": [text("team", "core"), whole("level", 2)]})
EXCEPTION = event(2, 2000, "exception", text("exception.type", "TimeoutError"), attribute("exception.escaped", boolValue=True))

TRACES = [
    # 1: a health check.
    sent("shop", "prod", "http-lib", "1.2.0", span(1, 1, "GET /health", SERVER, 1, GET, text("http.route", "/health"), whole("http.status_code", 200))),
    # 2: a POST that failed, with an exception.
    sent("shop", "prod", "http-lib", "1.2.0", span(2, 1, "POST /checkout", SERVER, 2500, POST, whole("http.status_code", 503), text("user.tier", "gold"),
        status={"code": 2, "message": "upstream timed out"}, events=[EXCEPTION])),
    # 3: a POST, within which a GET failed.
    sent("shop", "prod", "http-lib", "1.2.0", span(3, 1, "POST /cart", SERVER, 200, POST, whole("http.status_code", 201)),
        span(3, 2, "GET stock", CLIENT, 50, GET, whole("http.status_code", 500), status={"code": 2})),
    # 4: a GET with a call of a database.
    sent("orders", "prod", "sql-lib", "0.9", span(4, 1, "GET /orders", SERVER, 900, GET, whole("http.status_code", 200)),
        span(4, 2, "SELECT orders", CLIENT, 700, text("db.system", "postgresql"), text("db.statement", "SELECT * FROM orders WHERE id = 1"), whole("db.rows", 1200))),
    # 5: a message, sent and processed.
    sent("orders", "prod", "kafka-lib", "2.0", span(5, 1, "orders send", 4, 5, text("messaging.system", "kafka")),
        span(5, 2, "orders process", 5, 40, text("messaging.system", "kafka"), whole("retries", 3))),
    # 6: a job, with a list, a map, a float and a truth.
    sent("jobs", "dev", "jobs-lib", "0.1", span(6, 1, "nightly job", 1, 60000, LISTED, MAPPED, attribute("ratio", doubleValue=0.75), attribute("ok", boolValue=True))),
    # 7: a span that says nothing but its trace state.
    {"scopeSpans": [{"spans": [span(7, 1, "", 0, 0, traceState="vendor=full,other=1")]}]},
    # 8: a slow one with two events and the status OK.
    sent("reports", "prod", "http-lib", "1.3.0", span(8, 1, "GET /report", SERVER, 12000, GET, whole("http.status_code", 200), status={"code": 1},
        events=[event(8, 100, "cache.miss", text("key", "k1")), event(8, 200, "retry", whole("attempt", 3))])),
    # 9: a span of which the parent is elsewhere, and some attributes were left out.
    sent("gateway", "prod", "http-lib", "1.2.0", span(9, 1, "PUT /v1/items/42", CLIENT, 30, text("http.method", "PUT"), whole("http.status_code", 404),
        parentSpanId="00000000000000ff", droppedAttributesCount=2)),
    # 10: a probe that says its status in a text.
    sent("gateway", "dev", "http-lib", "1.2.0", span(10, 1, "GET /metrics", SERVER, 3, GET, text("http.status_code", "200"), text("http.user_agent", "kube-probe/1.28"),
        attribute("probe", boolValue=True))),
]  # fmt: skip

EVERY = set(range(1, 11))
SERVERS = {1, 2, 3, 4, 8, 10}

# A condition on spans, and the traces that it keeps.
ON_SPANS = [
    ('name == "GET /health"', {1}),
    ('name != "GET /health"', EVERY - {1}),
    ('attributes["http.status_code"] >= 500', {2, 3}),
    ('attributes["http.status_code"] >= 500 and attributes["http.method"] == "POST"', {2}),
    ('attributes["http.status_code"] >= 400', {2, 3, 9}),
    ('attributes["http.status_code"] >= 400 and attributes["http.status_code"] < 500', {9}),
    ('attributes["http.status_code"] == "200"', {10}),
    ('attributes["http.status_code"] == 200', {1, 4, 8}),
    ('attributes["http.status_code"] != 200', EVERY - {1, 8}),
    ('attributes["http.status_code"] != nil and attributes["http.status_code"] != 200', {2, 3, 9, 10}),
    ('attributes["http.status_code"] > 499.5', {2, 3}),
    ("status.code == STATUS_CODE_ERROR", {2, 3}),
    ("status.code == STATUS_CODE_OK", {8}),
    ("status.code == STATUS_CODE_UNSET", EVERY - {2, 8}),
    ("status.code == 2", {2, 3}),
    ('status.message == "upstream timed out"', {2}),
    ('status.message != ""', {2}),
    ('IsMatch(status.message, "timed? ?out")', {2}),
    ("kind == SPAN_KIND_SERVER", SERVERS),
    ("kind == SPAN_KIND_CLIENT", {3, 4, 9}),
    ("kind == SPAN_KIND_PRODUCER or kind == SPAN_KIND_CONSUMER", {5}),
    ("kind == SPAN_KIND_INTERNAL", {6}),
    ("kind == SPAN_KIND_UNSPECIFIED", {7}),
    ('kind.string == "Server"', SERVERS),
    ('kind.string == "Client" and status.code == STATUS_CODE_ERROR', {3}),
    ("IsRootSpan()", EVERY - {9}),
    ("not IsRootSpan()", {3, 4, 5, 9}),
    ("IsRootSpan() and kind == SPAN_KIND_SERVER and status.code == STATUS_CODE_ERROR", {2}),
    ("end_time_unix_nano - start_time_unix_nano > 1000000000", {2, 6, 8}),
    ("(end_time_unix_nano - start_time_unix_nano) / 1000000 >= 900", {2, 4, 6, 8}),
    ('end_time - start_time > Duration("10s")', {6, 8}),
    ('end_time - start_time >= Duration("1m")', {6}),
    ('end_time - start_time < Duration("2ms")', {1, 7}),
    ("start_time_unix_nano >= 9000000000", {9, 10}),
    ('attributes["http.method"] == "POST" and status.code != STATUS_CODE_ERROR', {3}),
    ('attributes["http.method"] == "POST" or attributes["http.method"] == "PUT"', {2, 3, 9}),
    ('not (attributes["http.method"] == "GET")', EVERY - {1, 8, 10}),
    ('attributes["http.route"] == "/health"', {1}),
    ('IsMatch(name, "^(GET|HEAD) ")', {1, 3, 4, 8, 10}),
    ('IsMatch(name, "/v[0-9]+/")', {9}),
    ('IsMatch(name, "(?i)HEALTH")', {1}),
    ('not IsMatch(name, "health|metrics")', EVERY - {1, 10}),
    ('HasPrefix(name, "POST ")', {2, 3}),
    ('HasSuffix(name, "orders")', {4}),
    ("Len(name) == 0", {7}),
    ("Len(name) > 14", {9}),
    ('attributes["db.system"] == "postgresql"', {4}),
    ('attributes["db.system"] != nil', {4}),
    ('attributes["db.rows"] > 1000', {4}),
    ('attributes["db.rows"] / 100 == 12', {4}),
    ('IsMatch(attributes["db.statement"], "(?i)^select ")', {4}),
    ('attributes["messaging.system"] == "kafka" and kind == SPAN_KIND_CONSUMER', {5}),
    ('attributes["retries"] >= 3', {5}),
    ('attributes["retries"] * 2 == 6', {5}),
    ('attributes["retries"] - 1 > 1', {5}),
    ('attributes["tags"][2] == "slow"', {6}),
    ('attributes["tags"][0] == "a" and attributes["tags"][1] == "b"', {6}),
    ('Len(attributes["tags"]) == 3', {6}),
    ('attributes["meta"]["team"] == "core"', {6}),
    ('attributes["meta"]["level"] + 1 == 3', {6}),
    ('attributes["meta"]["missing"] == nil', EVERY),
    ('attributes["ratio"] > 0.5', {6}),
    ('attributes["ratio"] * 4 == 3', {6}),
    ('attributes["ok"] == true', {6}),
    ('attributes["probe"] == true', {10}),
    ('IsString(attributes["http.status_code"])', {10}),
    ('IsInt(attributes["http.status_code"])', {1, 2, 3, 4, 8, 9}),
    ('IsDouble(attributes["ratio"])', {6}),
    ('IsBool(attributes["probe"])', {10}),
    ('IsMap(attributes["meta"])', {6}),
    ('IsList(attributes["tags"])', {6}),
    ('Int(attributes["http.status_code"]) == 200', {1, 4, 8, 10}),
    ('Double(attributes["http.status_code"]) == 404.0', {9}),
    ('String(attributes["http.status_code"]) == "503"', {2}),
    ('Substring(name, 0, 4) == "POST"', {2, 3}),
    ('ConvertCase(attributes["http.method"], "lower") == "get"', {1, 3, 4, 8, 10}),
    ('ConvertCase(name, "upper") == "GET STOCK"', {3}),
    ('Concat([resource.attributes["service.name"], attributes["http.status_code"]], ":") == "orders:200"', {4}),
    ('Concat([attributes["user.tier"], name], "/") == "<nil>/GET /health"', {1}),
    ('resource.attributes["service.name"] == "shop"', {1, 2, 3}),
    ('resource.attributes["service.name"] != "shop"', EVERY - {1, 2, 3}),
    ('resource.attributes["deployment.environment"] == "dev"', {6, 10}),
    ('resource.attributes["service.name"] == "orders" and kind == SPAN_KIND_CLIENT', {4}),
    ('resource.attributes["service.name"] == nil', {7}),
    ('instrumentation_scope.name == "http-lib"', {1, 2, 3, 8, 9, 10}),
    ('instrumentation_scope.version == "1.3.0"', {8}),
    ('instrumentation_scope.name == "http-lib" and instrumentation_scope.version != "1.2.0"', {8}),
    ('trace_state == "vendor=full,other=1"', {7}),
    ('IsMatch(trace_state, "(^|,)vendor=full(,|$)")', {7}),
    ('trace_state != ""', {7}),
    ('trace_id.string == "0000000000000000000000000000000a"', {10}),
    ('span_id.string == "0000000000000002"', {3, 4, 5}),
    ('parent_span_id.string == "0000000000000001"', {3, 4, 5}),
    ("dropped_attributes_count > 0", {9}),
    ("dropped_events_count == 0 and dropped_links_count == 0", EVERY),
    ("true", EVERY),
    ("false", set()),
    ('not true or name == ""', {7}),
    ('name == "GET /health" or name == "GET /metrics" and attributes["probe"] == true', {1, 10}),
    ('(name == "GET /health" or name == "GET /metrics") and attributes["probe"] == true', {10}),
    ('attributes["http.user_agent"] != nil and IsMatch(attributes["http.user_agent"], "^kube-probe/")', {10}),
    ('attributes["user.tier"] == "gold" and end_time - start_time > Duration("2s")', {2}),
    ('attributes["http.status_code"] / 0 == 1', set()),
]

# The same of conditions on events.
ON_EVENTS = [
    ('name == "exception"', {2}),
    ('name == "exception" and attributes["exception.type"] == "TimeoutError"', {2}),
    ('attributes["attempt"] >= 3', {8}),
    ('spanevent.name == "cache.miss"', {8}),
    ('spanevent.attributes["exception.escaped"] == true', {2}),
    ('name != "exception"', {8}),
    ('span.name == "GET /report" and name == "retry"', {8}),
    ("time_unix_nano - span.start_time_unix_nano >= 2000000000", {2}),
    ('IsMatch(name, "^(exception|retry)$")', {2, 8}),
    ("span.kind == SPAN_KIND_SERVER", {2, 8}),
    ('attributes["key"] == "k1"', {8}),
    ("dropped_attributes_count == 0", {2, 8}),
]

# Settings, and the traces that they keep: several conditions, and what an error does.
SETTINGS = [
    ({"span": ['name == "GET /health"', "kind == SPAN_KIND_INTERNAL"], "spanevent": ['name == "retry"']}, {1, 6, 8}),
    ({"error_mode": "ignore", "span": ['attributes["db.rows"] / 0 == 1', 'attributes["db.rows"] > 1000']}, {4}),
    ({"error_mode": "silent", "span": ['attributes["db.rows"] / 0 == 1', 'attributes["db.rows"] > 1000']}, {4}),
    # The first condition is an error on each span, since no number is divided by 0.
    ({"error_mode": "propagate", "span": ['attributes["db.rows"] / 0 == 1', 'attributes["db.rows"] > 1000']}, set()),
    ({"error_mode": "propagate", "span": ['attributes["db.rows"] > 1000', "1 / 0 == 1"]}, set()),
    ({"error_mode": "propagate", "span": ["kind == SPAN_KIND_SERVER", "1 / 0 == 1"]}, SERVERS),
]


def main(folder):
    """A run of each row."""
    rows = [({"span": [condition]}, kept) for condition, kept in ON_SPANS] + [({"spanevent": [condition]}, kept) for condition, kept in ON_EVENTS] + SETTINGS
    for number, (settings, kept) in enumerate(rows, 1):
        table = ", ".join(f"{key} = {json.dumps(value)}" for key, value in settings.items())
        policies = f'policies = [{{ name = "it", type = "ottl_condition", ottl_condition = {{ {table} }} }}]\n'
        run = Run(folder, f"condition {number}", {"double_values": '"keep"'}, policies, lambda records, kept=kept: int(records[0][2]["traceId"], 16) in kept)
        run.receive(1, TRACES)
        run.finish()


if __name__ == "__main__":
    main(sys.argv[1])
