"""A request of OTLP JSON as conditions see it: the values of its first span and of that span's first event, and the paths to them."""
import json
import re

I64MIN, I64MAX = -(1 << 63), (1 << 63) - 1
BASE64 = {letter: place for place, letter in enumerate("ABCDEFGHIJKLMNOPQRSTUVWXYZabcdefghijklmnopqrstuvwxyz0123456789+/")}
KINDS = ["Unspecified", "Internal", "Server", "Client", "Producer", "Consumer"]


class Time:
    """A time in nanoseconds."""

    __slots__ = ("n",)

    def __init__(self, n):
        self.n = n


class Map:
    """A map: its pairs in order. Of two with one key the first counts."""

    __slots__ = ("pairs",)

    def __init__(self, pairs):
        self.pairs = pairs

    def get(self, key):
        """Whether the key is there, and its value."""
        for other, value in self.pairs:
            if other == key:
                return True, value
        return False, None


def wrap(n):
    """A whole number as one of 64 bits with a sign."""
    n &= (1 << 64) - 1
    return n - (1 << 64) if n >> 63 else n


def unbase64(text):
    """The bytes of a base64 text, up to the first character that is no letter of the standard alphabet."""
    bits, count, out = 0, 0, bytearray()
    for letter in text:
        if letter not in BASE64:
            break
        bits = (bits << 6) | BASE64[letter]
        count += 6
        if count >= 8:
            count -= 8
            out.append((bits >> count) & 255)
            bits &= (1 << count) - 1
    return bytes(out)


def value_of(value):
    """An attribute's value: None, or a text, a bool, a whole number, a float, a list, a Map or bytes."""
    if not value:
        return None
    (kind, it), = value.items()
    return READ[kind](it)


def map_of(pairs):
    """The Map of a list of keys and values."""
    return Map([(pair.get("key", ""), value_of(pair.get("value"))) for pair in pairs])


READ = {
    "stringValue": str,
    "boolValue": bool,
    "intValue": int,
    "doubleValue": float,
    "arrayValue": lambda it: [value_of(each) for each in it.get("values", [])],
    "kvlistValue": lambda it: map_of(it.get("values", [])),
    "bytesValue": unbase64,
}


def id_of(text, length):
    """An id in small letters; None where it is no such id, or is all zeros."""
    if isinstance(text, str) and re.fullmatch("[0-9a-fA-F]{%d}" % length, text) and int(text, 16):
        return text.lower()
    return None


class Span:
    """The first span of a request, with its resource and its scope, and its first event, if there is one."""

    def __init__(self, request):
        if isinstance(request, str):
            request = json.loads(request)
        resource, scope, span = next((resource, scope, span) for resource in request["resourceSpans"]
                                     for scope in resource.get("scopeSpans", []) for span in scope.get("spans", []))
        self.around(resource.get("resource", {}), scope.get("scope", {}))
        self.within(span)
        self.ids(span)
        self.event = Event(span["events"][0]) if span.get("events") else None

    def around(self, resource, scope):
        """What the resource and the scope say."""
        self.resource_attributes = map_of(resource.get("attributes", []))
        self.resource_dropped = int(resource.get("droppedAttributesCount", 0))
        self.scope_name, self.scope_version = scope.get("name", ""), scope.get("version", "")
        self.scope_attributes = map_of(scope.get("attributes", []))
        self.scope_dropped = int(scope.get("droppedAttributesCount", 0))

    def within(self, span):
        """What the span's own fields say."""
        self.name, self.kind, self.trace_state = span.get("name", ""), int(span.get("kind", 0)), span.get("traceState", "")
        status = span.get("status", {})
        self.code, self.message = int(status.get("code", 0)), status.get("message", "")
        self.start, self.end = wrap(int(span.get("startTimeUnixNano", 0))), wrap(int(span.get("endTimeUnixNano", 0)))
        self.attributes = map_of(span.get("attributes", []))
        self.dropped_attributes = int(span.get("droppedAttributesCount", 0))
        self.dropped_events, self.dropped_links = int(span.get("droppedEventsCount", 0)), int(span.get("droppedLinksCount", 0))

    def ids(self, span):
        """Its ids, and whether it is a root: without a valid parent, or without valid ids of its own (D-299)."""
        trace, own, parent = id_of(span.get("traceId"), 32), id_of(span.get("spanId"), 16), id_of(span.get("parentSpanId"), 16)
        self.trace_id, self.span_id = trace or "0" * 32, own or "0" * 16
        self.root = parent is None or trace is None or own is None
        self.parent = "0" * 16 if self.root else parent


class Event:
    """An event of a span."""

    def __init__(self, event):
        self.name, self.time = event.get("name", ""), wrap(int(event.get("timeUnixNano", 0)))
        self.attributes = map_of(event.get("attributes", []))
        self.dropped_attributes = int(event.get("droppedAttributesCount", 0))


SPAN_PATHS = {
    "name": lambda span: span.name,
    "kind": lambda span: span.kind,
    "kind.string": lambda span: KINDS[span.kind] if 0 <= span.kind < len(KINDS) else "",
    "status.code": lambda span: span.code,
    "status.message": lambda span: span.message,
    "trace_state": lambda span: span.trace_state,
    "trace_id.string": lambda span: span.trace_id,
    "span_id.string": lambda span: span.span_id,
    "parent_span_id.string": lambda span: span.parent,
    "start_time_unix_nano": lambda span: span.start,
    "end_time_unix_nano": lambda span: span.end,
    "start_time": lambda span: Time(span.start),
    "end_time": lambda span: Time(span.end),
    "attributes": lambda span: span.attributes,
    "dropped_attributes_count": lambda span: span.dropped_attributes,
    "dropped_events_count": lambda span: span.dropped_events,
    "dropped_links_count": lambda span: span.dropped_links,
}
AROUND_PATHS = {
    "resource.attributes": lambda span: span.resource_attributes,
    "instrumentation_scope.name": lambda span: span.scope_name,
    "instrumentation_scope.version": lambda span: span.scope_version,
    "instrumentation_scope.attributes": lambda span: span.scope_attributes,
    "resource.dropped_attributes_count": lambda span: span.resource_dropped,
    "instrumentation_scope.dropped_attributes_count": lambda span: span.scope_dropped,
}
EVENT_PATHS = {
    "name": lambda span: span.event.name,
    "time_unix_nano": lambda span: span.event.time,
    "time": lambda span: Time(span.event.time),
    "attributes": lambda span: span.event.attributes,
    "dropped_attributes_count": lambda span: span.event.dropped_attributes,
}


def paths(event):
    """Each path by its text: of conditions on spans, or of those on events (D-333)."""
    table = dict(AROUND_PATHS)
    for name, of in SPAN_PATHS.items():
        table["span." + name] = of
        if not event:
            table[name] = of
    if event:
        for name, of in EVENT_PATHS.items():
            table["spanevent." + name] = of
            table[name] = of
    return table


PATHS = {False: paths(False), True: paths(True)}
