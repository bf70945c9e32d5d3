"""Requests of OTLP's JSON shape, written as protobuf (opentelemetry-proto v1) by hand: the numbers and wire types of the fields stand here, and no
generated code. Names are those of the JSON encoding; a field that isn't there isn't written."""

import base64
import struct


def varint(number):
    """A number, seven bits a byte, the lowest first; a negative one as 64 bits in two's complement."""
    number &= (1 << 64) - 1
    out = bytearray()
    while number > 127:
        out.append(number & 127 | 128)
        number >>= 7
    return bytes(out + bytes([number]))


def counted(field, data):
    """A field of bytes, a text or a message."""
    return varint(field << 3 | 2) + varint(len(data)) + data


def number(field, value):
    """A field that is a varint."""
    return varint(field << 3) + varint(value)


def eight(field, data):
    """A field of eight bytes."""
    return varint(field << 3 | 1) + data


def text(field, value):
    """A field that is a text."""
    return counted(field, value.encode())


def value_of(value):
    """An `AnyValue`."""
    kinds = {
        "stringValue": lambda it: text(1, it),
        "boolValue": lambda it: number(2, int(it)),
        "intValue": lambda it: number(3, int(it)),
        "doubleValue": lambda it: eight(4, struct.pack("<d", it)),
        "arrayValue": lambda it: counted(5, b"".join(counted(1, value_of(one)) for one in it.get("values", []))),
        "kvlistValue": lambda it: counted(6, attributes(1, it.get("values", []))),
        "bytesValue": lambda it: counted(7, base64.b64decode(it)),
    }
    return b"".join(kinds[name](it) for name, it in value.items())


def attributes(field, pairs):
    """`KeyValue`s, each in a field of this number."""
    return b"".join(counted(field, text(1, it["key"]) + counted(2, value_of(it["value"]))) for it in pairs)


def fields_of(message, kinds):
    """The fields of a message that are there, in the order of their kinds."""
    return b"".join(write(message[name]) for name, write in kinds if name in message)


def event_of(event):
    """A `Span.Event`."""
    return fields_of(
        event,
        [
            ("timeUnixNano", lambda it: eight(1, struct.pack("<Q", int(it)))),
            ("name", lambda it: text(2, it)),
            ("attributes", lambda it: attributes(3, it)),
            ("droppedAttributesCount", lambda it: number(4, it)),
        ],
    )


def link_of(link):
    """A `Span.Link`."""
    return fields_of(
        link,
        [
            ("traceId", lambda it: counted(1, bytes.fromhex(it))),
            ("spanId", lambda it: counted(2, bytes.fromhex(it))),
            ("traceState", lambda it: text(3, it)),
            ("attributes", lambda it: attributes(4, it)),
            ("droppedAttributesCount", lambda it: number(5, it)),
            ("flags", lambda it: varint(6 << 3 | 5) + struct.pack("<I", it)),
        ],
    )


def span_of(span):
    """A `Span`."""
    return fields_of(
        span,
        [
            ("traceId", lambda it: counted(1, bytes.fromhex(it))),
            ("spanId", lambda it: counted(2, bytes.fromhex(it))),
            ("traceState", lambda it: text(3, it)),
            ("parentSpanId", lambda it: counted(4, bytes.fromhex(it))),
            ("name", lambda it: text(5, it)),
            ("kind", lambda it: number(6, it)),
            ("startTimeUnixNano", lambda it: eight(7, struct.pack("<Q", int(it)))),
            ("endTimeUnixNano", lambda it: eight(8, struct.pack("<Q", int(it)))),
            ("attributes", lambda it: attributes(9, it)),
            ("droppedAttributesCount", lambda it: number(10, it)),
            ("events", lambda it: b"".join(counted(11, event_of(one)) for one in it)),
            ("droppedEventsCount", lambda it: number(12, it)),
            ("links", lambda it: b"".join(counted(13, link_of(one)) for one in it)),
            ("droppedLinksCount", lambda it: number(14, it)),
            ("status", lambda it: counted(15, fields_of(it, [("message", lambda m: text(2, m)), ("code", lambda c: number(3, c))]))),
            ("flags", lambda it: varint(16 << 3 | 5) + struct.pack("<I", it)),
        ],
    )


def scope_spans_of(group):
    """`ScopeSpans`."""
    scope = [
        ("name", lambda it: text(1, it)),
        ("version", lambda it: text(2, it)),
        ("attributes", lambda it: attributes(3, it)),
        ("droppedAttributesCount", lambda it: number(4, it)),
    ]
    return fields_of(
        group,
        [
            ("scope", lambda it: counted(1, fields_of(it, scope))),
            ("spans", lambda it: b"".join(counted(2, span_of(one)) for one in it)),
            ("schemaUrl", lambda it: text(3, it)),
        ],
    )


def resource_spans_of(group):
    """`ResourceSpans`."""
    resource = [("attributes", lambda it: attributes(1, it)), ("droppedAttributesCount", lambda it: number(2, it))]
    return fields_of(
        group,
        [
            ("resource", lambda it: counted(1, fields_of(it, resource))),
            ("scopeSpans", lambda it: b"".join(counted(2, scope_spans_of(one)) for one in it)),
            ("schemaUrl", lambda it: text(3, it)),
        ],
    )


def request_of(request):
    """An `ExportTraceServiceRequest`."""
    return b"".join(counted(1, resource_spans_of(group)) for group in request.get("resourceSpans", []))
