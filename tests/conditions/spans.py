"""Random requests of one span or more, of which each field may be absent, with values of every kind."""
import json

from narrow import changed
from request import I64MAX, I64MIN

WORDS = ["a", "b", "GET", "POST", "GET /cart", "/api/v1/users", "error", "ok", "x", "shop", "checkout", "ä", "aé€", "日本", "", "500", "-17", "1.5",
         "true", "a\"b", "c\\d", "1e3", "+7", "0x10", "IOError", "timeout", "Server", " a", "e\nf"]
KEYS = ["a", "b", "k", "http.method", "http.status_code", "ratio", "tags", "m", "n", "ok", "raw", "ä", "q\"", "", "0"]
WHOLE = [0, 1, -1, 2, 3, 5, 7, 10, 200, 404, 500, 503, 1 << 31, 1 << 53, (1 << 53) + 1, 1 << 62, I64MAX, I64MIN, I64MAX - 1, -500, 1000000000]
FLOATS = [0.0, -0.0, 0.5, 1.0, 1.5, -2.25, 500.0, 9007199254740992.0, 1e308, -1e308, 9.3e18, -9.3e18, 2.5e-8, 0.1, 0.2, 0.3, 3.0, 7.0, 2.0]
BASE64 = ["", "YQ==", "YWI=", "YQ", "YQ!", "AAEC", "/+8=", "YWJj", "Y", "Y W I="]
DURATIONS = ["1s", "2.5s", "100ms", "1h2m3s", "-5s", "0", "1.5h", "10us", "7µs", "3ns", "1", "s", "", "1d", "2562047h47m16.854775807s", "0.5ns",
             "+1m", ".5s", "1.s", "1s ", "2500ms", "-0"]


def whole(draw):
    """A whole number: one at a limit, a small one, or any."""
    if draw.random() < 0.7:
        return draw.choice(WHOLE)
    return draw.randint(-20, 20) if draw.random() < 0.7 else draw.randint(I64MIN, I64MAX)


def a_float(draw):
    """A finite float."""
    return draw.choice(FLOATS) if draw.random() < 0.7 else round(draw.uniform(-100, 100), draw.randint(0, 6))


def word(draw):
    """A short text."""
    text = draw.choice(WORDS)
    return text + draw.choice(WORDS) if draw.random() < 0.15 else text


def value(draw, depth=0):
    """An attribute's value."""
    kind = draw.random()
    if kind < 0.28:
        return {"stringValue": draw.choice(DURATIONS) if draw.random() < 0.15 else word(draw)}
    if kind < 0.48:
        number = whole(draw)
        return {"intValue": str(number) if draw.random() < 0.8 else number}
    if kind < 0.60:
        number = a_float(draw)
        return {"doubleValue": draw.choice(["NaN", "Infinity", "-Infinity"]) if draw.random() < 0.06 else number}
    if kind < 0.70:
        return {"boolValue": draw.random() < 0.5}
    if kind < 0.76:
        return {"bytesValue": draw.choice(BASE64)}
    if kind < 0.80:
        return {}
    if depth > 2:
        return {"stringValue": word(draw)}
    if kind < 0.90:
        if draw.random() < 0.08:
            return {"arrayValue": {}}
        return {"arrayValue": {"values": [value(draw, depth + 1) for _ in range(draw.randint(0, 3))]}}
    return {"kvlistValue": {"values": pairs(draw, draw.randint(0, 3), depth + 1)}}


def pairs(draw, count, depth=0):
    """So many keys with values, of which some are equal or near to others."""
    out = []
    for _ in range(count):
        key = draw.choice(KEYS[:4] if depth else KEYS)
        if out and draw.random() < 0.08:
            key = draw.choice(out)["key"]
        if out and draw.random() < 0.2:
            made = json.loads(json.dumps(draw.choice(out).get("value", {})))
            if draw.random() < 0.6:
                made = changed(draw, made)
        else:
            made = value(draw, depth)
        pair = {"key": key, "value": made}
        if made == {} and draw.random() < 0.3:
            del pair["value"]
        out.append(pair)
    return out


def maybe(draw, fields, name, made, share=0.7):
    """A field that is there in such a share."""
    if draw.random() < share:
        fields[name] = made


def identity(draw, length):
    """An id that isn't all zeros."""
    return "".join(draw.choice("0123456789abcdef") for _ in range(length - 1)) + "7"


def nanoseconds(draw):
    """A time: one of a few, so that differences are equal to some durations, one of today, or one at a limit."""
    way = draw.random()
    if way < 0.5:
        number = draw.choice([1000000000, 3500000000, 2500000000, 1500000000, 1000000001])
    elif way < 0.85:
        number = 1700000000000000000 + draw.randint(0, 10**10)
    else:
        number = draw.choice([0, 1 << 63, (1 << 64) - 1, (1 << 63) - 1, 1])
    return str(number) if draw.random() < 0.8 else number


def event(draw):
    """An event."""
    made = {}
    maybe(draw, made, "timeUnixNano", nanoseconds(draw))
    maybe(draw, made, "name", draw.choice(["exception", "message", word(draw)]), 0.9)
    maybe(draw, made, "attributes", pairs(draw, draw.randint(0, 6)), 0.9)
    maybe(draw, made, "droppedAttributesCount", draw.randint(0, 5), 0.5)
    return made


def events(draw):
    """One to three events."""
    return [event(draw) for _ in range(draw.randint(1, 3))]


def span(draw):
    """A span."""
    made = {"traceId": identity(draw, 32), "spanId": identity(draw, 16)}
    way = draw.random()
    if way < 0.6:
        made["parentSpanId"] = identity(draw, 16)
    elif way < 0.7:
        made["parentSpanId"] = ""
    elif way < 0.75:
        made["parentSpanId"] = "0" * 16
    maybe(draw, made, "traceState", draw.choice(["a=b", "a=b,c=d", ""]), 0.5)
    maybe(draw, made, "name", word(draw), 0.95)
    maybe(draw, made, "kind", draw.choice([0, 1, 2, 2, 3, 3, 4, 5, 6, 9]), 0.9)
    maybe(draw, made, "startTimeUnixNano", nanoseconds(draw), 0.95)
    maybe(draw, made, "endTimeUnixNano", nanoseconds(draw), 0.95)
    maybe(draw, made, "attributes", pairs(draw, draw.randint(0, 10)), 0.95)
    maybe(draw, made, "droppedAttributesCount", draw.randint(0, 5), 0.5)
    maybe(draw, made, "events", events(draw), 0.3)
    maybe(draw, made, "droppedEventsCount", draw.randint(0, 5), 0.5)
    maybe(draw, made, "droppedLinksCount", draw.choice([0, 1, 3, 4294967295]), 0.5)
    if draw.random() < 0.8:
        made["status"] = {}
        maybe(draw, made["status"], "code", draw.randint(0, 2), 0.8)
        maybe(draw, made["status"], "message", word(draw), 0.6)
    return made


def scope(draw):
    """A scope."""
    made = {}
    maybe(draw, made, "name", word(draw))
    maybe(draw, made, "droppedAttributesCount", draw.randint(0, 5), 0.3)
    maybe(draw, made, "version", draw.choice(["1.2", "", "0.9.1"]))
    maybe(draw, made, "attributes", pairs(draw, draw.randint(0, 3)))
    return made


def request(draw):
    """A request, and its first span; some have another span behind it, or parts without spans before it."""
    first = span(draw)
    spans = {"spans": [first]}
    if draw.random() < 0.8:
        spans["scope"] = scope(draw)
    around = {"scopeSpans": [spans]}
    if draw.random() < 0.9:
        around["resource"] = {}
        maybe(draw, around["resource"], "attributes", pairs(draw, draw.randint(0, 4)))
        maybe(draw, around["resource"], "droppedAttributesCount", draw.randint(0, 5), 0.3)
    if draw.random() < 0.1:
        second = json.loads(json.dumps(first))
        second["name"] = "second"
        second["attributes"] = pairs(draw, 3)
        spans["spans"].append(second)
    if draw.random() < 0.05:
        around["scopeSpans"].insert(0, {"scope": {"name": "nothing"}, "spans": []})
    out = [around]
    if draw.random() < 0.05:
        out.insert(0, {"resource": {"attributes": pairs(draw, 2)}})
    return {"resourceSpans": out}, first
