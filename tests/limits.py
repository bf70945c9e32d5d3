#!/usr/bin/env python3
"""Writes runs at the limits of the collector to a folder: NAME.toml, NAME.script and NAME.expected, one name a line on standard output.

    tests/limits.py FOLDER

What must come out is worked out here, from the formats and the rules alone: a trace goes to the shard of its id's last 8 bytes, each
shard keeps its share of the traces, and what a line of the script releases goes out shard by shard, the oldest trace first, in batches.
"""
import json
import random
import re
import sys

MEBIBYTE = 1048576
ALL = '[[policies]]\nname = "all"\ntype = "always_sample"\n'


class Run:
    """A script and what it must print, for a collector that decides each trace at the end of the run, or once it is too big."""

    def __init__(self, folder, name, settings, policies, is_kept):
        print(name)
        self.script = open(f"{folder}/{name}.script", "w", encoding="utf-8")
        self.expected = open(f"{folder}/{name}.expected", "w", encoding="utf-8")
        with open(f"{folder}/{name}.toml", "w", encoding="utf-8") as config:
            config.write("".join(f"{key} = {value}\n" for key, value in settings.items()) + policies)
        self.shards = [{} for _ in range(settings.get("shards", 1))]
        self.share = settings.get("num_traces", 50000) // len(self.shards)
        self.capacity = settings.get("queue_capacity", 1024)
        self.batch = settings.get("send_batch_size", 512)
        self.maximum = settings.get("maximum_trace_size_bytes", 0)
        self.remembered = [{} for _ in self.shards]
        self.room = int((re.findall(r"non_sampled_cache_size = (\d+)", settings.get("decision_cache", "")) or [0])[0]) // len(self.shards)
        self.is_kept = is_kept
        self.received = self.handed = 0
        self.dropped = [0] * 8

    def receive(self, connection, resource_spans, body=None):
        """A request, all of whose ids are valid."""
        body = body or json.dumps({"resourceSpans": resource_spans}, separators=(",", ":"))
        self.script.write(f"recv {connection} 0 {body}\n")
        queued = [0] * len(self.shards)
        full = 0
        for resource in resource_spans:
            for scope in resource["scopeSpans"]:
                for span in scope["spans"]:
                    shard = int(span["traceId"][16:], 16) % len(self.shards)
                    self.received += 1
                    if queued[shard] == self.capacity:
                        full += 1
                    else:
                        queued[shard] += 1
                        self.take(self.shards[shard], self.remembered[shard], (resource, scope, span))
        self.dropped[2] += full
        told = f'{{"partialSuccess":{{"errorMessage":"invalid id: 0, queue full: {full}","rejectedSpans":"{full}"}}}}' if full else "{}"
        self.expected.write(f"reply 200 {told}\n")

    def take(self, traces, remembered, record):
        """A span of a new trace makes the oldest leave a full buffer. A trace that is too big stays in it without its spans (None), and is remembered once it leaves."""
        trace = record[2]["traceId"]
        if trace in remembered:
            remembered[trace] = remembered.pop(trace)
            self.dropped[6] += 1
            return
        if trace not in traces and len(traces) == self.share:
            self.leave(traces, remembered)
        records = traces.setdefault(trace, [])
        if records is None:
            self.dropped[6] += 1
            return
        records.append(record)
        if 0 < self.maximum < size([span for _, _, span in records]):
            self.dropped[5] += len(records)
            traces[trace] = None

    def leave(self, traces, remembered):
        """The oldest trace leaves; the decision that was touched the longest ago is forgotten where there are too many."""
        oldest = next(iter(traces))
        records = traces.pop(oldest)
        if records is not None:
            self.dropped[4] += len(records)
        elif self.room:
            remembered[oldest] = None
            if len(remembered) > self.room:
                remembered.pop(next(iter(remembered)))

    def finish(self):
        """All else is decided at the close of the script."""
        released = []
        for traces in self.shards:
            for records in traces.values():
                if records is None:
                    continue
                if self.is_kept(records):
                    released += records
                else:
                    self.dropped[5] += len(records)
        self.handed = len(released)
        for start in range(0, len(released), self.batch):
            self.expected.write(line_of(released[start : start + self.batch]) + "\n")
        counts = [f"received {self.received}", f"handed {self.handed}"] + [f"dropped {n} {self.dropped[n]}" for n in range(1, 8)]
        self.expected.write("\n".join(counts) + "\n")
        self.script.close()
        self.expected.close()


def line_of(records):
    """The canonical text of records: neighbours of one resource, and of one scope in it, share a group."""
    groups = []
    for resource, scope, span in records:
        of_resource = {key: value for key, value in resource.items() if key != "scopeSpans"}
        of_scope = {key: value for key, value in scope.items() if key != "spans"}
        if not groups or groups[-1][0] != of_resource:
            groups.append((of_resource, []))
        scopes = groups[-1][1]
        if not scopes or scopes[-1][0] != of_scope:
            scopes.append((of_scope, []))
        scopes[-1][1].append(span)
    request = [dict(resource, scopeSpans=[dict(scope, spans=spans) for scope, spans in scopes]) for resource, scopes in groups]
    return canonical({"resourceSpans": request})


def canonical(value):
    """The canonical text: no white space, names in order."""
    return json.dumps(value, sort_keys=True, ensure_ascii=False, separators=(",", ":"))


def size(spans):
    """The bytes of these spans' canonical texts, which have no defaults here."""
    return sum(len(canonical(span).encode()) for span in spans)


def plain_span(trace, number, **fields):
    return dict(traceId=f"{trace:032x}", spanId=f"{number:016x}", **fields)


def plain_request(spans):
    return [{"scopeSpans": [{"spans": spans}]}]


def attribute(key, **value):
    return {"key": key, "value": value}


def rich_span(trace, number):
    """A span with every kind of attribute, an event and a link."""
    values = [{"stringValue": f"value {number}"}, {"intValue": str(-number)}, {"boolValue": number % 2 == 0}]
    return plain_span(
        trace,
        number,
        name=f"operation {number % 7}",
        kind=1 + number % 5,
        startTimeUnixNano=str(1700000000000000000 + number),
        endTimeUnixNano=str(1700000000100000000 + number),
        attributes=[
            attribute("text", stringValue=f"{number:0200d}"),
            attribute("list", arrayValue={"values": values}),
            attribute("table", kvlistValue={"values": [attribute("deep", **values[0]), attribute("deeper", **values[1])]}),
        ],
        events=[{"timeUnixNano": str(1700000000000000000 + number), "name": "event", "attributes": [attribute("n", intValue=str(number))]}],
        links=[{"traceId": f"{trace + 1:032x}", "spanId": f"{number + 1:016x}"}],
        status={"code": 2, "message": f"message {number}"},
    )


def greatest_request(folder):
    """A body of just 4 MiB: 120 resources of 3 scopes each, over 40 traces."""
    run = Run(folder, "a request of 4 MiB", {"queue_capacity": 65536}, ALL, lambda records: True)
    resources = []
    for r in range(120):
        scopes = []
        for s in range(3):
            spans = [rich_span(1 + (r * 24 + s * 8 + n) % 40, 1 + r * 24 + s * 8 + n) for n in range(8)]
            scopes.append({"scope": {"name": f"scope {s}", "version": "1.0"}, "spans": spans})
        resources.append({"resource": {"attributes": [attribute("service.name", stringValue=f"service {r}")]}, "scopeSpans": scopes})
    filling = resources[-1]["scopeSpans"][-1]["spans"][-1]["attributes"][0]["value"]
    length = len(json.dumps({"resourceSpans": resources}, separators=(",", ":")))
    filling["stringValue"] += "x" * (4 * MEBIBYTE - length)
    run.receive(1, resources)
    run.finish()


def full_queue_and_batches(folder):
    """A queue of 50,000 and 5,900 spans too many (a line has no room for 65,536 of them), and batches of 8,192."""
    run = Run(folder, "a full queue and full batches", {"queue_capacity": 50000, "send_batch_size": 8192}, ALL, lambda records: True)
    run.receive(1, plain_request([plain_span(1, n) for n in range(1, 55901)]))
    run.finish()


def lanes_and_shards(folder):
    """64 lanes and 64 shards: 200 connections, 150 traces for each shard, which keeps 100."""
    settings = {"lanes": 64, "shards": 64, "num_traces": 6400, "queue_capacity": 65536, "send_batch_size": 1000}
    run = Run(folder, "64 lanes and 64 shards", settings, ALL, lambda records: True)
    for connection in range(200):
        spans = [plain_span(1 + (connection * 96 + n) // 2, connection * 96 + n + 1) for n in range(96)]
        run.receive(connection, plain_request(spans))
    run.finish()


def policies_nested(folder):
    """64 policies, eight of them nested in one another: 56 keep a value of an attribute each, the nested ones an error."""
    texts = [f'{{ name = "p{n}", type = "string_attribute", string_attribute = {{ key = "k", values = ["v{n}"] }} }}' for n in range(56)]
    nested = '{ name = "leaf", type = "status_code", status_code = { status_codes = ["ERROR"] } }'
    for level in range(7):
        nested = f'{{ name = "n{level}", type = "and", and = {{ and_sub_policy = [{nested}] }} }}'
    policies = "policies = [" + ", ".join(texts + [nested]) + "]\n"
    wanted = {f"v{n}" for n in range(56)}

    def is_kept(records):
        spans = [span for _, _, span in records]
        is_error = any(span.get("status") == {"code": 2} for span in spans)
        return is_error or any(span["attributes"][0]["value"]["stringValue"] in wanted for span in spans)

    run = Run(folder, "64 policies nested to 8", {}, policies, is_kept)
    spans = []
    for trace in range(1, 301):
        fields = {"status": {"code": 2}} if trace % 50 == 0 else {"status": {"code": 1}}
        spans += [plain_span(trace, trace * 3 + n, attributes=[attribute("k", stringValue=f"v{trace - n}")], **fields) for n in range(3)]
    for start in range(0, len(spans), 300):
        run.receive(1, plain_request(spans[start : start + 300]))
    run.finish()


def million_traces(folder):
    """1,000,000 traces alive and 1,000 that left for the last ones; one of a hundred has an error."""
    policies = '[[policies]]\nname = "errors"\ntype = "status_code"\nstatus_code = { status_codes = ["ERROR"] }\n'
    settings = {"num_traces": 1000000, "queue_capacity": 65536, "send_batch_size": 8192}
    run = Run(folder, "1,000,000 traces", settings, policies, lambda records: "status" in records[0][2])
    for start in range(1, 1001001, 40000):
        traces = range(start, min(start + 40000, 1001001))
        run.receive(1, plain_request([plain_span(t, t, status={"code": 2}) if t % 100 == 0 else plain_span(t, t) for t in traces]))
    run.finish()


PLAIN = 74
assert size([plain_span(1, 1)]) == PLAIN


def filled(trace, number, octets):
    """A span of so many bytes, which has a name of letters of one and of two bytes."""
    letters = octets - PLAIN - size([{"name": ""}]) + 1
    span = plain_span(trace, number, name="\u00e9" * (letters // 2) + "x" * (letters % 2))
    assert size([span]) == octets
    return span


def traces_of_two_sizes(folder):
    """Traces that grow beyond the maximum in the middle of a request, at their first span, at a span of a later request, or not at all, one after the other and mixed."""
    for maximum in (1, PLAIN - 1, PLAIN, 2 * PLAIN, 2 * PLAIN + 1, 400, 2**30):
        for shards in (1, 3):
            run = Run(folder, f"traces up to {maximum} bytes in {shards} shards", {"maximum_trace_size_bytes": maximum, "shards": shards}, ALL, lambda records: True)
            run.receive(1, plain_request([plain_span(1, 1), plain_span(2, 2), plain_span(1, 3), plain_span(3, 4), plain_span(1, 5), plain_span(2, 6), plain_span(1, 7)]))
            run.receive(2, plain_request([filled(4, 8, 400), filled(5, 9, 401), plain_span(4, 10), plain_span(5, 11), filled(3, 12, 399), plain_span(3, 13)]))
            rich = [rich_span(trace, 20 + n) for n in range(6) for trace in (6, 7)]
            run.receive(1, [{"resource": {"attributes": [attribute("service.name", stringValue="x" * 2000)]}, "scopeSpans": [{"scope": {"name": "y" * 2000}, "spans": rich}]}])
            run.receive(1, plain_request([plain_span(trace, 40 + trace) for trace in range(1, 9)]))
            run.finish()


def too_big_in_a_full_buffer(folder):
    """One trace at a time: what is too big leaves without a further count, and is forgotten or remembered; a first span that is too big makes another leave."""
    grown, alone = [plain_span(1, n) for n in range(1, 5)], filled(2, 5, 2 * PLAIN + 1)
    for room in (0, 1, 2):
        caches = f"{{ sampled_cache_size = 9, non_sampled_cache_size = {room} }}"
        settings = {"maximum_trace_size_bytes": 2 * PLAIN, "num_traces": 1, "decision_cache": caches}
        run = Run(folder, f"too big in a buffer of one that remembers {room}", settings, ALL, lambda records: True)
        run.receive(1, plain_request([*grown, alone, plain_span(2, 6), plain_span(1, 7), plain_span(1, 8)]))
        run.receive(1, plain_request([alone, plain_span(3, 9), alone, filled(3, 10, 2 * PLAIN), plain_span(4, 11), plain_span(1, 12)]))
        run.finish()
        run = Run(folder, f"too big in a buffer of four that remembers {room}", dict(settings, num_traces=4, shards=2), ALL, lambda records: True)
        numbers = random.Random(room)
        for request in range(40):
            run.receive(1, plain_request([filled(numbers.randint(1, 9), 20 * request + n, PLAIN + numbers.randint(10, 76)) for n in range(1, 9)]))
        run.finish()


def too_big_asks_no_limiter(folder):
    """A limiter that lets through just the spans, or just the bytes, of the trace that isn't too big, which comes second."""
    limits = ("rate_limiting", "spans_per_second = 2"), ("bytes_limiting", f"bytes_per_second = {PLAIN}"), ("composite", 'max_total_spans_per_second = 2, policy_order = ["all"], composite_sub_policy = [{ name = "all", type = "always_sample" }]')
    for kind, settings in limits:
        policies = f'policies = [{{ name = "it", type = "{kind}", {kind} = {{ {settings} }} }}]\n'
        run = Run(folder, f"too big and {kind}", {"maximum_trace_size_bytes": 2 * PLAIN}, policies, lambda records: records[0][2]["traceId"] == f"{2:032x}")
        run.receive(1, plain_request([filled(1, 1, 2 * PLAIN + 1), plain_span(2, 2), plain_span(2, 3), plain_span(3, 4)]))
        run.finish()


def one_bucket_over_shards(folder):
    """At the close shard 0 decides the trace 3, then shard 1 the traces 1 and 4, then shard 2 the others: the bucket has just the bytes of three, or one less."""
    for room, kept in ((3 * PLAIN, {3, 1, 4}), (3 * PLAIN - 1, {3, 1})):
        policies = f'policies = [{{ name = "it", type = "bytes_limiting", bytes_limiting = {{ bytes_per_second = 1, burst_capacity = {room} }} }}]\n'
        run = Run(folder, f"a bucket of {room} bytes over three shards", {"shards": 3}, policies, lambda records, kept=kept: int(records[0][2]["traceId"], 16) in kept)
        run.receive(1, plain_request([plain_span(trace, trace) for trace in range(1, 6)]))
        run.finish()


if __name__ == "__main__":
    for write in (greatest_request, full_queue_and_batches, lanes_and_shards, policies_nested, million_traces, traces_of_two_sizes, too_big_in_a_full_buffer, too_big_asks_no_limiter, one_bucket_over_shards):
        write(sys.argv[1])
