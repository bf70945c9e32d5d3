"""What senders do beside the plain request, as a table: each row is one request on a connection of its own, and what it is answered.

Where a standard decides, the row says so: RFC 9110 and 9112, the OTLP specification ("JSON Protobuf Encoding") and RFC 8259. docs/operating/HTTP.md has the same table for readers."""

import base64
import gzip
import json
import zlib

from collector import ALL, ERROR_SPAN, body_of, post, spans_of, want

ID, SPAN_ID = ERROR_SPAN["traceId"], ERROR_SPAN["spanId"]
ONE = body_of([ERROR_SPAN])
PLAIN = {"Host": "collector", "Content-Type": "application/json"}
PARTIAL = '{"partialSuccess":{"errorMessage":"invalid id: 1, queue full: 0","rejectedSpans":"1"}}'


def in_base64(text):
    return base64.b64encode(bytes.fromhex(text)).decode()


def with_fields(**fields):
    return body_of([{**ERROR_SPAN, **fields}])


def attribute(**value):
    return with_fields(attributes=[{"key": "k", "value": value}])


# (name, what differs of the head, the body, the status, the answer's body)
HEADS = [
    ("user agent, trace context, answers in gzip", {"User-Agent": "OTel-OTLP-Exporter-Python/1.27.0", "Accept-Encoding": "gzip, deflate", "traceparent": f"00-{ID}-{SPAN_ID}-01"}, 200, "{}"),
    ("a charset behind the type", {"Content-Type": "application/json; charset=utf-8"}, 200, "{}"),  # RFC 9110, 8.3
    ("the type in other letters", {"Content-Type": "Application/JSON"}, 200, "{}"),  # RFC 9110, 8.3.1: case doesn't matter
    ("field names in small letters", {"Host": None, "Content-Type": None, "host": "collector", "content-type": "application/json"}, 200, "{}"),  # RFC 9110, 5.1
    ("no compression, named so", {"Content-Encoding": "identity"}, 200, "{}"),
    ("no compression, and an empty element", {"Content-Encoding": "identity,"}, 200, "{}"),  # RFC 9110, 5.6.1: empty elements are ignored
    ("gzip", {"Content-Encoding": "gzip"}, 415, '{"message":"unsupported content encoding: gzip is off (accept_gzip)"}'),
    ("protobuf", {"Content-Type": "application/x-protobuf"}, 415, '{"message":"unsupported media type: application/json is wanted"}'),
    ("no type", {"Content-Type": None}, 415, '{"message":"unsupported media type: application/json is wanted"}'),
    ("no host", {"Host": None}, 400, '{"message":"bad request"}'),  # RFC 9112, 3.2
    ("a user in the host", {"Host": "user@collector"}, 400, '{"message":"bad request"}'),  # RFC 9112, 3.2: an invalid value
    ("a path in the host", {"Host": "collector/v1"}, 400, '{"message":"bad request"}'),
]

# What a 415 says is taken: (the settings, what the head has more, `Accept-Encoding`), by RFC 9110, 12.5.3 and 15.5.16
TAKEN = [
    ("", {"Content-Encoding": "gzip"}, "identity"),
    ("", {"Content-Encoding": "zstd"}, "identity"),
    ("accept_gzip = true\n", {"Content-Encoding": "zstd"}, "gzip, identity"),
    ("accept_gzip = true\n", {"Content-Encoding": "gzip, gzip"}, "gzip, identity"),
    ("accept_gzip = true\n", {"Content-Type": "text/plain"}, None),
    ("", {"Content-Type": "text/plain", "Content-Encoding": "gzip"}, None),
]

# (name, the request line, the status, the answer's body, or None where an answer has none)
LINES = [
    ("a probe by HEAD", "HEAD /v1/traces HTTP/1.1", 405, None),
    ("a probe by GET", "GET /v1/traces HTTP/1.1", 405, '{"message":"method not allowed"}'),
    ("a probe by OPTIONS", "OPTIONS /v1/traces HTTP/1.1", 405, '{"message":"method not allowed"}'),
    ("a probe of the root", "GET / HTTP/1.1", 404, '{"message":"not found"}'),
    ("OPTIONS of the server", "OPTIONS * HTTP/1.1", 404, '{"message":"not found"}'),
    ("a proxy's whole address", "POST http://collector:4318/v1/traces HTTP/1.1", 404, '{"message":"not found"}'),
    ("a query", "POST /v1/traces?tenant=1 HTTP/1.1", 404, '{"message":"not found"}'),
    ("a slash behind the path", "POST /v1/traces/ HTTP/1.1", 404, '{"message":"not found"}'),
    ("metrics", "POST /v1/metrics HTTP/1.1", 404, '{"message":"not found"}'),
    ("HTTP/1.0, nginx's default", "POST /v1/traces HTTP/1.0", 400, '{"message":"bad request"}'),
    ("HTTP/2 without an upgrade", "PRI * HTTP/2.0", 400, '{"message":"bad request"}'),
]

# (name, the body, the status, the answer's body)
BODIES = [
    ("an empty request", b"{}", 200, "{}"),
    ("no body", b"", 400, '{"message":"not JSON"}'),
    ("a byte order mark", b"\xef\xbb\xbf" + ONE, 400, '{"message":"not JSON"}'),  # RFC 8259, 8.1
    ("ids in capital letters", with_fields(traceId=ID.upper(), spanId=SPAN_ID.upper()), 200, "{}"),  # OTLP: hex, case doesn't matter
    ("ids in base64", with_fields(traceId=in_base64(ID), spanId=in_base64(SPAN_ID)), 200, PARTIAL),  # OTLP: not base64
    ("names of enumerations", with_fields(kind="SPAN_KIND_SERVER"), 400, '{"message":"wrong shape"}'),  # OTLP: numbers only
    ("times as numbers", with_fields(startTimeUnixNano=1700000000000000000), 200, "{}"),
    ("times as texts", with_fields(startTimeUnixNano="1700000000000000000"), 200, "{}"),
    ("a whole number as a text", attribute(intValue="5"), 200, "{}"),
    ("a whole number", attribute(intValue=5), 200, "{}"),
    ("a double", attribute(doubleValue=1.5), 200, "{}"),
    ("bytes", attribute(bytesValue="AAE="), 200, "{}"),
    ("fields that are null", with_fields(attributes=None, parentSpanId=None), 200, "{}"),
    ("a key that isn't known", with_fields(newField=[1]), 200, "{}"),
    ("snake case outside", json.dumps({"resource_spans": [{}]}).encode(), 200, "{}"),  # OTLP: such keys aren't known
    ("snake case in a span", body_of([{"trace_id": ID, "span_id": SPAN_ID}]), 200, PARTIAL),
]

# The same where the collector takes gzip: (name, the coding, the body, the status, the answer's body)
PACKED = [
    ("plain", "identity", ONE, 200, "{}"),
    ("gzip", "gzip", gzip.compress(ONE), 200, "{}"),  # RFC 9110, 8.4.1.3
    ("x-gzip in other letters", "X-GZip", gzip.compress(ONE, 1), 200, "{}"),  # RFC 9110, 8.4.1.3: the same as gzip
    ("gzip beside empty elements", ", gzip,", gzip.compress(ONE), 200, "{}"),  # RFC 9110, 5.6.1
    ("gzip in two members", "gzip", gzip.compress(ONE[:40]) + gzip.compress(ONE[40:]), 200, "{}"),  # RFC 1952, 2.2
    ("gzip of no JSON", "gzip", gzip.compress(b""), 400, '{"message":"not JSON"}'),
    ("a plain body that says gzip", "gzip", ONE, 400, '{"message":"not gzip"}'),
    ("gzip that is cut", "gzip", gzip.compress(ONE)[:-1], 400, '{"message":"not gzip"}'),
    ("zlib's own form", "gzip", zlib.compress(ONE), 400, '{"message":"not gzip"}'),
    ("gzip of a byte more than a body may have", "gzip", gzip.compress(b" " * 4194305), 413, '{"message":"body too large"}'),
    ("gzip of 20 MB", "gzip", gzip.compress(bytes(20_000_000)), 413, '{"message":"body too large"}'),
    ("deflate", "deflate", zlib.compress(ONE), 415, '{"message":"unsupported content encoding: identity is wanted, or gzip with accept_gzip"}'),
    ("a list of codings", "gzip, gzip", gzip.compress(gzip.compress(ONE)), 415, '{"message":"unsupported content encoding: identity is wanted, or gzip with accept_gzip"}'),
]


# What a `doubleValue` holds, where doubles are kept: (its JSON, the float of 64 bits that Python reads it as, or None where the answer is another)
DOUBLES = [
    ("1.5", 1.5),
    ("7", 7.0),
    ("-0", -0.0),  # protobuf: a number with its sign
    ("-0.0", -0.0),
    ("0.1", 0.1),
    ("0.30000000000000004", 0.1 + 0.2),  # 17 digits
    ("5e-324", 5e-324),  # the least subnormal
    ("2.225073858507201e-308", 2.225073858507201e-308),  # the greatest subnormal
    ("1e308", 1e308),
    ("1.7976931348623157e308", 1.7976931348623157e308),
    ("9007199254740993", 9007199254740992.0),  # halfway between two floats
    ("18446744073709551615", 18446744073709551616.0),
    ('"2.50"', 2.5),
    ('"NaN"', float("nan")),  # protobuf's JSON: names, and numbers as texts
    ('"Infinity"', float("inf")),
    ('"-Infinity"', float("-inf")),
    ('"1e309"', None),
    ('"nan"', None),
    ('"+1"', None),
    ('""', None),
    ("true", None),
    ("[1.5]", None),
]


def rows():
    """Each row as its name, its bytes, the status and the answer's body."""
    for name, more, status, answer in HEADS:
        yield name, "POST /v1/traces HTTP/1.1", {**PLAIN, **more}, ONE, status, answer
    for name, line, status, answer in LINES:
        yield name, line, PLAIN, ONE, status, answer
    for name, body, status, answer in BODIES:
        yield name, "POST /v1/traces HTTP/1.1", PLAIN, body, status, answer


def what_senders_do(start):
    """Each row of the table is answered so, and the report counts the spans of those that were answered 200."""
    collector = start(ALL)
    taken = invalid = 0
    for name, line, fields, body, status, answer in rows():
        head = [line, *[f"{key}: {value}" for key, value in fields.items() if value], f"Content-Length: {len(body)}"]
        found = collector.ask("\r\n".join(head).encode() + b"\r\n\r\n" + body, answer is not None)
        want(name, (found[0], found[2]), (status, answer or ""))
        taken += status == 200 and (b'"spans"' in body)
        invalid += answer == PARTIAL
    want("the report", collector.close()[1], [taken, taken - invalid, invalid, 0, 0, 0, 0, 0, 0])


def packed_bodies(start):
    """Where gzip is taken each body of that table is answered so, by its length and in chunks, and the spans that are read are counted."""
    collector = start("accept_gzip = true\n" + ALL)
    taken = 0
    for name, coding, body, status, answer in PACKED:
        fields = {**PLAIN, "Content-Encoding": coding}
        head = "\r\n".join(["POST /v1/traces HTTP/1.1", *[f"{key}: {value}" for key, value in fields.items()]]).encode()
        chunks = b"".join(b"%x\r\n%s\r\n" % (len(body[at : at + 1000]), body[at : at + 1000]) for at in range(0, len(body), 1000))
        for framed in (b"\r\nContent-Length: %d\r\n\r\n" % len(body) + body, b"\r\nTransfer-Encoding: chunked\r\n\r\n" + chunks + b"0\r\n\r\n"):
            found = collector.ask(head + framed, True)
            want(name, (found[0], found[2]), (status, answer))
            taken += status == 200
    want("the report", collector.close()[1], [taken, taken, 0, 0, 0, 0, 0, 0, 0])


def taken_codings(start):
    """A 415 for the coding says what is taken, and one for the media type doesn't."""
    for settings in ("", "accept_gzip = true\n"):
        collector = start(settings + ALL)
        for _, more, taken in (it for it in TAKEN if it[0] == settings):
            head = ["POST /v1/traces HTTP/1.1", *[f"{key}: {value}" for key, value in {**PLAIN, **more}.items()], f"Content-Length: {len(ONE)}"]
            status, fields, _ = collector.ask("\r\n".join(head).encode() + b"\r\n\r\n" + ONE, True)
            want(f"what is taken, {more}", (status, fields.get("accept-encoding")), (415, taken))
        want("the report", collector.close()[1], [0] * 9)


def double_bodies():
    """The body of each row of that table, with the float."""
    for text, number in DOUBLES:
        yield attribute(doubleValue="?").replace(b'"?"', text.encode()), number


def doubles_kept(start):
    """Where doubles are kept each that is a float of 64 bits comes out as that float, bit for bit; the others have a wrong shape."""
    collector = start('double_values = "keep"\n' + ALL)
    for body, number in double_bodies():
        found = collector.ask(post(body), True)
        want(body.decode(), (found[0], found[2]), (200, "{}") if number is not None else (400, '{"message":"wrong shape"}'))
    lines, numbers = collector.close()
    wanted = [number for _, number in DOUBLES if number is not None]
    written = [span["attributes"][0]["value"]["doubleValue"] for span in spans_of(lines)]
    names = {"NaN", "Infinity", "-Infinity"}
    want("the names", [text for text in written if isinstance(text, str)], [text for text in written if text in names])
    want("the doubles", sorted(float(text).hex() for text in written), sorted(number.hex() for number in wanted))
    want("the report", numbers, [len(wanted), len(wanted), 0, 0, 0, 0, 0, 0, 0])


def doubles_discarded(start):
    """By default each is left out, whatever stands there, and counted beside its list."""
    collector = start(ALL)
    for body, _ in double_bodies():
        want(body.decode(), collector.ask(post(body), True)[::2], (200, "{}"))
    lines, _ = collector.close()
    want("the spans", spans_of(lines), [{**ERROR_SPAN, "droppedAttributesCount": 1}] * len(DOUBLES))


CHECKS = [what_senders_do, packed_bodies, taken_codings, doubles_kept, doubles_discarded]
