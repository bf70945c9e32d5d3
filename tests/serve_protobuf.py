"""Checks of `tsc serve` with bodies in protobuf: what they are read as, and that each answer is in the encoding of its request."""

import gzip
import json
import random

from collector import ALL, ERROR_LINE, ERROR_SPAN, ERRORS, asked, body_of, free_port, post, scrape, until, want
from protobuf_body import counted, number, request_of, text
from serve_export import FAST, Backend

TAKEN = "accept_protobuf = true\n"
PROTOBUF = "application/x-protobuf"
A = "5b8efff798038103d269b633813fc60c"


def post_in(body, media=PROTOBUF, fields=(), close=True):
    """The bytes of a request with a body of this media type, which asks to close the connection behind it."""
    head = ["POST /v1/traces HTTP/1.1", "Host: collector", f"Content-Type: {media}", f"Content-Length: {len(body)}", *fields]
    head += ["Connection: close"] if close else []
    return "\r\n".join(head).encode() + b"\r\n\r\n" + body


def answered(collector, data):
    """All bytes of the answer to what is sent on a connection of its own."""
    client = collector.client()
    client.send(data)
    return client.rest()


def answer(status, body, media=PROTOBUF, fields=()):
    """The bytes of an answer that closes the connection."""
    head = [f"HTTP/1.1 {status}", f"Content-Type: {media}", f"Content-Length: {len(body)}", *fields, "Connection: close"]
    return "\r\n".join(head).encode() + b"\r\n\r\n" + body


def why(code, message):
    """A `google.rpc.Status`."""
    return number(1, code) + text(2, message)


def request_in_protobuf(spans):
    """A request of these spans, of one resource and scope."""
    return request_of(json.loads(body_of(spans)))


def protobuf_comes_in(start):
    """An error span in protobuf is kept as the one in JSON, and answered by an empty message; then one in JSON on the same connection."""
    collector = start(TAKEN + "send_batch_size = 1\n" + ERRORS)
    client = collector.client()
    client.send(post_in(request_in_protobuf([ERROR_SPAN]), close=False) + post(body_of([{**ERROR_SPAN, "spanId": "00000000000000ff"}]), fields=["Connection: close"]))
    first = f"HTTP/1.1 200 OK\r\nContent-Type: {PROTOBUF}\r\nContent-Length: 0\r\n\r\n".encode()
    want("the answers", client.rest(), first + answer("200 OK", b"{}", "application/json"))
    lines, numbers = collector.close()
    want("the first line", lines[0], ERROR_LINE)
    want("the report", numbers, [2, 2, 0, 0, 0, 0, 0, 0, 0])


def protobuf_is_off(start):
    """Without the setting it is refused as any other type; with it the answer to another type names both."""
    collector = start(ERRORS)
    body = request_in_protobuf([ERROR_SPAN])
    refused = b'{"message":"unsupported media type: application/json is wanted"}'
    want("the answer", answered(collector, post_in(body)), answer("415 Unsupported Media Type", refused, "application/json"))
    want("the report", collector.close()[1], [0] * 9)
    collector = start(TAKEN + ERRORS)
    refused = b'{"message":"unsupported media type: application/json or application/x-protobuf is wanted"}'
    want("the other answer", answered(collector, post_in(body, "application/protobuf")), answer("415 Unsupported Media Type", refused, "application/json"))
    collector.close()


def part_of_protobuf(start):
    """Of four spans two have no valid ids, and 300 of 302: `rejected_spans` is a varint."""
    collector = start(TAKEN + ALL)
    bad = [{"traceId": A, "spanId": "00"}, {"spanId": "eee19b7ec3c1b174"}]
    said = "invalid id: 2, queue full: 0"
    partial = counted(1, number(1, 2) + text(2, said))
    want("the answer", answered(collector, post_in(request_in_protobuf([ERROR_SPAN, *bad, ERROR_SPAN]))), answer("200 OK", partial))
    partial = counted(1, number(1, 300) + text(2, "invalid id: 300, queue full: 0"))
    want("the answer of many", answered(collector, post_in(request_in_protobuf(bad * 150 + [ERROR_SPAN] * 2))), answer("200 OK", partial))
    want("the report", collector.close()[1], [306, 4, 302, 0, 0, 0, 0, 0, 0])


def broken_protobuf(start):
    """What is no request is told by the first fault that is met, as a `google.rpc.Status`; nothing of it is received."""
    collector = start(TAKEN + "max_request_mib = 1\naccept_gzip = true\n" + ALL)
    whole = request_in_protobuf([{**ERROR_SPAN, "name": "pay"}])
    faults = [
        (whole[:-1], "the bytes end within a field"),
        (b"\x0b\x0c", "a field is a group"),
        (b"\x08" + b"\xff" * 10 + b"\x01", "a number has more than ten bytes"),
        (b"\x00\x00", "a field's number is not from 1 to 536870911"),
        (b"\x0e", "a wire type is 6 or 7"),
        (whole.replace(b"pay", b"p\xff\xff"), "a text is not in UTF-8"),
        (b"{}", "a field is a group"),
    ]
    for body, said in faults:
        want(f"the answer to {body!r}", answered(collector, post_in(body)), answer("400 Bad Request", why(3, f"not protobuf: {said}")))
    packed = ["Content-Encoding: gzip"]
    want("the answer to no gzip", answered(collector, post_in(whole, fields=packed)), answer("400 Bad Request", why(3, "not gzip")))
    large = gzip.compress(bytes(1 << 21))
    want("the answer to what is too large unpacked", answered(collector, post_in(large, fields=packed)), answer("413 Content Too Large", why(8, "body too large")))
    want("the report", collector.close()[1], [0] * 9)


def packed_and_in_chunks(start):
    """A body that is packed, one in chunks, and one that is both are read as the plain one."""
    collector = start(TAKEN + "accept_gzip = true\nsend_batch_size = 1\n" + ERRORS)
    spans = [[{**ERROR_SPAN, "traceId": f"{number + 1:032x}"}] for number in range(3)]
    bodies = [request_in_protobuf(it) for it in spans]
    head = f"POST /v1/traces HTTP/1.1\r\nHost: collector\r\nContent-Type: {PROTOBUF}\r\nConnection: close\r\n"
    both = gzip.compress(bodies[2])
    sent = [
        post_in(gzip.compress(bodies[0]), fields=["Content-Encoding: gzip"]),
        head.encode() + b"Transfer-Encoding: chunked\r\n\r\n" + in_chunks(bodies[1]),
        head.encode() + b"Transfer-Encoding: chunked\r\nContent-Encoding: gzip\r\n\r\n" + in_chunks(both),
    ]
    for data in sent:
        want("the answer", answered(collector, data), answer("200 OK", b""))
    lines, numbers = collector.close()
    want("the traces", sorted(lines), sorted(ERROR_LINE.replace(A, it[0]["traceId"]) for it in spans))
    want("the report", numbers, [3, 3, 0, 0, 0, 0, 0, 0, 0])


def in_chunks(body):
    """A body as chunks of 7 bytes."""
    pieces = [body[at : at + 7] for at in range(0, len(body), 7)]
    return b"".join(f"{len(it):x}\r\n".encode() + it + b"\r\n" for it in pieces) + b"0\r\n\r\n"


def random_value(luck, levels):
    """A value of an attribute. Of doubles only those whose text is the same everywhere."""
    kinds = ["stringValue", "boolValue", "intValue", "doubleValue", "bytesValue"] + ["arrayValue", "kvlistValue"] * (levels > 0)
    kind = luck.choice(kinds)
    if kind == "stringValue":
        return {kind: luck.choice(["", "ä→\U0001f680", "a\n\"b\\", "x" * luck.randrange(300)])}
    if kind == "boolValue":
        return {kind: luck.random() < 0.5}
    if kind == "intValue":
        return {kind: str(luck.choice([0, 1, -1, 127, 128, -(1 << 63), (1 << 63) - 1, luck.randrange(-1 << 40, 1 << 40)]))}
    if kind == "doubleValue":
        return {kind: luck.choice([0.5, -1.25, 1e300, 3.0])}
    if kind == "bytesValue":
        return {kind: luck.choice(["", "AA==", "/+8=", "SGVsbG8="])}
    if kind == "arrayValue":
        return {kind: {"values": [random_value(luck, levels - 1) for _ in range(luck.randrange(3))]}}
    return {kind: {"values": random_attributes(luck, levels - 1)}}


def random_attributes(luck, levels=3):
    """Some attributes."""
    return [{"key": f"k{number}", "value": random_value(luck, levels)} for number in range(luck.randrange(4))]


def random_span(luck, trace):
    """A span with any of its fields."""
    span = {"traceId": trace, "spanId": f"{luck.randrange(1, 1 << 64):016x}", "name": luck.choice(["GET /", "", "zahlen ä"])}
    if luck.random() < 0.7:
        span["parentSpanId"] = f"{luck.randrange(1, 1 << 64):016x}"
    span.update(kind=luck.randrange(6), startTimeUnixNano=str(luck.randrange(1 << 63)), endTimeUnixNano=str(luck.randrange(1 << 64)))
    span.update(attributes=random_attributes(luck), droppedAttributesCount=luck.choice([0, 7, (1 << 32) - 1]), flags=luck.choice([0, 257]))
    span["events"] = [{"name": "e", "timeUnixNano": "5", "attributes": random_attributes(luck), "droppedAttributesCount": 1} for _ in range(luck.randrange(3))]
    span["links"] = [{"traceId": A, "spanId": "eee19b7ec3c1b174", "attributes": random_attributes(luck), "flags": 1} for _ in range(luck.randrange(2))]
    span.update(droppedEventsCount=luck.randrange(2), droppedLinksCount=luck.randrange(2), traceState=luck.choice(["", "a=b"]))
    span["status"] = luck.choice([{}, {"code": 2, "message": "no"}, {"code": 1}])
    return span


def random_request(luck, first):
    """A request of some resources, scopes and spans; each span is a trace of its own."""
    groups, count = [], 0
    for _ in range(luck.randrange(1, 3)):
        scopes = []
        for _ in range(luck.randrange(1, 3)):
            spans = [random_span(luck, f"{first + count + number + 1:032x}") for number in range(luck.randrange(4))]
            count += len(spans)
            scope = {"name": "s", "version": luck.choice(["", "1"]), "attributes": random_attributes(luck)}
            scopes.append({"scope": scope, "spans": spans, "schemaUrl": luck.choice(["", "u"])})
        groups.append({"resource": {"attributes": random_attributes(luck)}, "scopeSpans": scopes, "schemaUrl": luck.choice(["", "v"])})
    return {"resourceSpans": groups}, count


def bare_value(value):
    """A value of an attribute: which kind it is stays, also where it is that kind's default; lists are left out where they are empty."""
    ((kind, it),) = value.items()
    if kind not in ("arrayValue", "kvlistValue"):
        return value
    values = it.get("values", [])
    values = [bare_value(one) for one in values] if kind == "arrayValue" else bare_attributes(values)
    return {kind: {"values": values} if values else {}}


def bare_attributes(attributes):
    """Attributes with such values."""
    return [{**it, "value": bare_value(it["value"])} for it in attributes]


def bare(message):
    """A message without the fields that have their default, by OTLP; and so are those inside."""

    def field(name, it):
        if name == "attributes":
            return bare_attributes(it)
        return bare(it) if isinstance(it, dict) else [bare(one) for one in it] if isinstance(it, list) else it

    fields = {name: field(name, it) for name, it in message.items()}
    return {name: it for name, it in fields.items() if it not in ("", "0", 0, [], {})}


def without_doubles(message):
    """A message without the attributes that hold a double, which are counted as dropped, up to the greatest number; and so are those inside."""
    if isinstance(message, list):
        return [without_doubles(it) for it in message]
    if not isinstance(message, dict):
        return message
    message = {name: it if name == "attributes" else without_doubles(it) for name, it in message.items()}
    kept = [it for it in message.get("attributes", []) if '"doubleValue"' not in json.dumps(it)]
    if dropped := len(message.get("attributes", [])) - len(kept):
        message.update(attributes=kept, droppedAttributesCount=min(message.get("droppedAttributesCount", 0) + dropped, (1 << 32) - 1))
    return message


def by_ids(requests):
    """Each span of requests by its ids, with its scope, its resource and their URLs, without what is default."""
    found = {}
    for group in (it for request in requests for it in request["resourceSpans"]):
        for part in group["scopeSpans"]:
            around = [{name: it for name, it in of.items() if name not in ("scopeSpans", "spans")} for of in (group, part)]
            found.update({(it["traceId"], it["spanId"]): [bare(of) for of in (it, *around)] for it in part["spans"]})
    return found


def want_spans(lines, requests):
    """Compares the spans of lines with those of the requests as they were made."""
    got, made = by_ids(json.loads(it) for it in lines), by_ids(requests)
    want("the ids", sorted(got), sorted(made))
    for ids, it in made.items():
        want(f"the span {ids}", got[ids], it)


def the_same_as_in_json(start):
    """400 random requests, in JSON to one collector and in protobuf to another: the same lines, with doubles kept and without, which have the spans
    as they were made."""
    for doubles in ("keep", "discard"):
        settings = TAKEN + f'double_values = "{doubles}"\nlanes = 1\nshards = 1\nqueue_capacity = 65536\nsend_batch_size = 1\n' + ALL
        printed = []
        for in_protobuf in (False, True):
            luck, first, made = random.Random(7), 0, []
            collector = start(settings)
            client = collector.client()
            for _ in range(200):
                request, count = random_request(luck, first)
                first += count
                made.append(request)
                client.send(post_in(request_of(request), close=False) if in_protobuf else post(json.dumps(request).encode()))
                want("the answer", client.answer()[0], 200)
            lines, numbers = collector.close()
            want("what was received", numbers[:2], [first, first])
            printed.append(sorted(lines))
        want(f"the number of lines where doubles: {doubles}", len(printed[0]), len(printed[1]))
        for one, other in zip(*printed):
            want("a line of protobuf", other, one)
        want_spans(printed[1], made if doubles == "keep" else without_doubles(made))


def sends_protobuf(start):
    """`[export] encoding = "proto"`: a batch goes as protobuf, byte for byte as the canonical one, and the number that an answer in protobuf rejects is
    counted; a batch that can't be written so goes as JSON."""
    partly = counted(1, number(1, 2) + text(2, "no"))
    said = b"HTTP/1.1 200 OK\r\nContent-Type: application/x-protobuf\r\nContent-Length: %d\r\n\r\n" % len(partly) + partly
    backend, admin = Backend([[said], [said]]), free_port()
    settings = FAST + ALL + f'admin = "127.0.0.1:{admin}"\n' + backend.settings() + 'encoding = "proto"\n'
    collector = start(settings)
    span = {**ERROR_SPAN, "kind": 3, "attributes": [{"key": "n", "value": {"intValue": "-1"}}], "events": [{"name": "e", "timeUnixNano": "5"}]}
    want("the answer", collector.ask(post(body_of([span])))[::2], (200, "{}"))
    until("the request", lambda: len(backend.requests) == 1)
    body = request_in_protobuf([span])
    fields = f"Host: 127.0.0.1:{backend.port}\r\nContent-Type: application/x-protobuf\r\ncontent-length: {len(body)}"
    want("the request", backend.requests[0], (f"POST /v1/traces HTTP/1.1\r\n{fields}", body))
    until("the rejected spans", lambda: scrape(admin)["tsc_spans_rejected_total"] == 2)
    odd = {**ERROR_SPAN, "traceId": f"{7:032x}", "links": [{"traceId": "no hex", "spanId": "00"}]}
    want("the answer", collector.ask(post(body_of([odd])))[::2], (200, "{}"))
    until("the other request", lambda: len(backend.requests) == 2)
    want("its type", "Content-Type: application/json" in backend.requests[1][0], True)
    want("its link", json.loads(backend.requests[1][1])["resourceSpans"][0]["scopeSpans"][0]["spans"][0]["links"], odd["links"])
    want("the answer to /close", asked(admin, post(b"", "/close"))[::2], (200, "{}"))
    want("the report", collector.end()[1], [2, 2, 0, 0, 0, 0, 0, 0, 0])


def protobuf_over_two(start):
    """60 random requests in protobuf through one collector that sends protobuf to another: the second prints the lines that one alone prints,
    which have the spans as they were made."""
    printed = []
    settings = TAKEN + 'double_values = "keep"\nsend_batch_size = 1\n' + FAST + ALL
    for is_chain in (False, True):
        last = start(settings)
        first = start(settings + f'[export]\nendpoint = "http://127.0.0.1:{last.port}/v1/traces"\nencoding = "proto"\ntimeout_ms = 60000\nclose_wait_ms = 100000\n') if is_chain else last
        luck, count, made = random.Random(11), 0, []
        client = first.client()
        for _ in range(60):
            request, spans = random_request(luck, count)
            count += spans
            made.append(request)
            client.send(post_in(request_of(request), close=False))
            want("the answer", client.answer()[0], 200)
        if is_chain:
            want("what the first handed over", first.close()[1][:2], [count, count])
        lines, numbers = last.close()
        want("what was received", numbers[:2], [count, count])
        printed.append(sorted(lines))
    want("the lines", printed[1], printed[0])
    want_spans(printed[1], made)


CHECKS = [protobuf_comes_in, protobuf_is_off, part_of_protobuf, broken_protobuf, packed_and_in_chunks, the_same_as_in_json, sends_protobuf, protobuf_over_two]
