#!/usr/bin/python3
"""Compares the protobuf reader with Google's (Debian's python3-protobuf) and with the JSON reader, on random bodies. It is no part of the gate.

usage: protobuf.py [--program PROGRAM] [--seed SEED] [BODIES]      PROGRAM is crates/protobuf_table/out/protobuf_table (cd crates/protobuf_table && rt run)

Each body is parsed by Google's parser, by descriptors that are made here from the field numbers of OTLP 1.x (`trace.proto`, `resource.proto`,
`common.proto` v1). What that gives is written as OTLP/JSON (ids in hexadecimal digits, bytes in base64, numbers of 64 bits as texts) and read by
the JSON reader of PROGRAM. Its protobuf reader has to give the same canonical text, or to refuse where the parser refuses.

Half of the bodies are as SDKs send them. Of the others each is disturbed in one way (KINDS), so that the fault is known that has to be told. Two things
are refused here that the parser reads, by name: groups, and values that nest more than 29 levels deep (the parser stops at 100 messages).
The last line is 'N passed, M failed': of bodies; before it stand a line for each kind, and one for each fault that was told."""
import argparse
import base64
import collections
import json
import math
import os
import random
import struct
import subprocess
import sys
import warnings
from pathlib import Path

from google.protobuf import descriptor_pb2, descriptor_pool, message_factory
from google.protobuf.message import DecodeError

TOP = Path(__file__).resolve().parent.parent.parent
BATCH = 5000  # bodies that are given to the program at once

# ---- the messages: of each its fields by number, with their names, what they hold, and whether they are repeated

MESSAGES = {
    "Request": {1: ("resource_spans", "ResourceSpans", True)},
    "ResourceSpans": {1: ("resource", "Resource", False), 2: ("scope_spans", "ScopeSpans", True), 3: ("schema_url", "string", False)},
    "Resource": {1: ("attributes", "KeyValue", True), 2: ("dropped_attributes_count", "uint32", False)},
    "ScopeSpans": {1: ("scope", "Scope", False), 2: ("spans", "Span", True), 3: ("schema_url", "string", False)},
    "Scope": {1: ("name", "string", False), 2: ("version", "string", False), 3: ("attributes", "KeyValue", True), 4: ("dropped_attributes_count", "uint32", False)},
    "Span": {
        1: ("trace_id", "bytes", False), 2: ("span_id", "bytes", False), 3: ("trace_state", "string", False), 4: ("parent_span_id", "bytes", False),
        5: ("name", "string", False), 6: ("kind", "int32", False), 7: ("start_time_unix_nano", "fixed64", False), 8: ("end_time_unix_nano", "fixed64", False),
        9: ("attributes", "KeyValue", True), 10: ("dropped_attributes_count", "uint32", False), 11: ("events", "Event", True),
        12: ("dropped_events_count", "uint32", False), 13: ("links", "Link", True), 14: ("dropped_links_count", "uint32", False),
        15: ("status", "Status", False), 16: ("flags", "fixed32", False)},
    "Event": {1: ("time_unix_nano", "fixed64", False), 2: ("name", "string", False), 3: ("attributes", "KeyValue", True), 4: ("dropped_attributes_count", "uint32", False)},
    "Link": {
        1: ("trace_id", "bytes", False), 2: ("span_id", "bytes", False), 3: ("trace_state", "string", False), 4: ("attributes", "KeyValue", True),
        5: ("dropped_attributes_count", "uint32", False), 6: ("flags", "fixed32", False)},
    "Status": {2: ("message", "string", False), 3: ("code", "int32", False)},
    "KeyValue": {1: ("key", "string", False), 2: ("value", "AnyValue", False)},
    "AnyValue": {
        1: ("string_value", "string", False), 2: ("bool_value", "bool", False), 3: ("int_value", "int64", False), 4: ("double_value", "double", False),
        5: ("array_value", "ArrayValue", False), 6: ("kvlist_value", "KeyValueList", False), 7: ("bytes_value", "bytes", False)},
    "ArrayValue": {1: ("values", "AnyValue", True)},
    "KeyValueList": {1: ("values", "KeyValue", True)},
}


def request_class():
    """The class of requests, by descriptors made of MESSAGES. An enumeration is an `int32` here: both take any number."""
    file = descriptor_pb2.FileDescriptorProto(name="otlp.proto", package="t", syntax="proto3")
    for name, fields in MESSAGES.items():
        message = file.message_type.add(name=name)
        if name == "AnyValue":
            message.oneof_decl.add(name="value")
        for number, (field, kind, repeated) in fields.items():
            it = message.field.add(name=field, number=number, label=3 if repeated else 1)
            if kind in MESSAGES:
                it.type, it.type_name = 11, f".t.{kind}"
            else:
                it.type = getattr(descriptor_pb2.FieldDescriptorProto, f"TYPE_{kind.upper()}")
            if name == "AnyValue":
                it.oneof_index = 0
    pool = descriptor_pool.DescriptorPool()
    pool.Add(file)
    found = pool.FindMessageTypeByName("t.Request")
    return message_factory.GetMessageClass(found) if hasattr(message_factory, "GetMessageClass") else message_factory.MessageFactory(pool).GetPrototype(found)


# ---- what the parser gives, as OTLP/JSON

def value_json(value):
    kind = value.WhichOneof("value")
    if kind is None:
        return {}
    held = getattr(value, kind)
    if kind == "int_value":
        return {"intValue": str(held)}
    if kind == "double_value":
        return {"doubleValue": held if math.isfinite(held) else {math.inf: "Infinity", -math.inf: "-Infinity"}.get(held, "NaN")}
    if kind == "array_value":
        return {"arrayValue": {"values": [value_json(it) for it in held.values]}}
    if kind == "kvlist_value":
        return {"kvlistValue": {"values": [pair_json(it) for it in held.values]}}
    return {"bytesValue": base64.b64encode(held).decode()} if kind == "bytes_value" else {{"string_value": "stringValue", "bool_value": "boolValue"}[kind]: held}


def pair_json(pair):
    return {"key": pair.key, "value": value_json(pair.value)}


def attributes_json(message):
    return {"attributes": [pair_json(it) for it in message.attributes], "droppedAttributesCount": message.dropped_attributes_count}


def event_json(event):
    return {"timeUnixNano": str(event.time_unix_nano), "name": event.name, **attributes_json(event)}


def link_json(link):
    return {"traceId": link.trace_id.hex(), "spanId": link.span_id.hex(), "traceState": link.trace_state, "flags": link.flags, **attributes_json(link)}


def span_json(span):
    return {
        "traceId": span.trace_id.hex(), "spanId": span.span_id.hex(), "traceState": span.trace_state, "parentSpanId": span.parent_span_id.hex(),
        "flags": span.flags, "name": span.name, "kind": span.kind, "startTimeUnixNano": str(span.start_time_unix_nano),
        "endTimeUnixNano": str(span.end_time_unix_nano), **attributes_json(span), "events": [event_json(it) for it in span.events],
        "droppedEventsCount": span.dropped_events_count, "links": [link_json(it) for it in span.links], "droppedLinksCount": span.dropped_links_count,
        "status": {"message": span.status.message, "code": span.status.code}}


def scope_spans_json(part):
    scope = {"name": part.scope.name, "version": part.scope.version, **attributes_json(part.scope)}
    return {"scope": scope, "spans": [span_json(it) for it in part.spans], "schemaUrl": part.schema_url}


def request_json(request):
    parts = [(it, [scope_spans_json(part) for part in it.scope_spans]) for it in request.resource_spans]
    return {"resourceSpans": [{"resource": attributes_json(it.resource), "scopeSpans": scopes, "schemaUrl": it.schema_url} for it, scopes in parts]}


# ---- bodies

TEXTS = ["", "a", "GET /cart", "é", "日本", "x" * 15, "x" * 16, "x" * 17, "y" * 200, "\U0001f600", "\x00", "\"\\\n"]
NUMBERS = [0, 1, 2, 5, 127, 128, 300, 2**31 - 1, 2**31, 2**32 - 1, 2**32, 2**32 + 7, 2**63 - 1, 2**63, 2**64 - 1, 2**64 - 2]
DOUBLES = [0.0, -0.0, 1.5, -2.25, 1e300, 5e-324, math.inf, -math.inf, math.nan]
BAD_TEXTS = [b"\xff", b"\xc3", b"\xc0\x80", b"\xed\xa0\x80", b"\xf4\x90\x80\x80", b"a\x80"]
GROUP, LONG, TEXT, CUT = "a field is a group", "a number has more than ten bytes", "a text is not in UTF-8", "the bytes end within a field"
NUMBER, TYPE, DEEP = "a field's number is not from 1 to 536870911", "a wire type is 6 or 7", "a value nests more than 29 levels deep"


def varint(number, zeros=0):
    """A number, with so many bytes more than need be."""
    out = []
    while number >= 128:
        out.append(number % 128 + 128)
        number //= 128
    out.append(number)
    return bytes([*out[:-1], out[-1] + 128, *[128] * (zeros - 1), 0] if zeros else out)


class Maker:
    """Makes bodies by random numbers, disturbed in one way or not at all."""

    def __init__(self, draw, kind):
        self.draw, self.kind, self.fault = draw, kind, None

    def at_times(self, kind, often):
        return self.kind == kind and self.draw.random() < often

    def number(self, value, most):
        """A number, now and then longer than need be, of so many bytes at most (the parser takes five of a tag and of a length)."""
        length = len(varint(value))
        return varint(value, self.draw.randrange(1, most - length + 1) if length < most and self.at_times("longer numbers", 0.3) else 0)

    def tag(self, number, wire):
        return self.number(number * 8 + wire, 5)

    def counted(self, number, held):
        return self.tag(number, 2) + self.number(len(held), 5) + held

    def text(self):
        if self.fault is None and self.at_times("bad UTF-8", 0.2):
            self.fault = TEXT
            return self.draw.choice(BAD_TEXTS)
        return self.draw.choice(TEXTS).encode()

    def bytes(self, name):
        size = {"trace_id": 16, "span_id": 8, "parent_span_id": 8}.get(name)
        if size is None or self.draw.random() < 0.1:
            size = self.draw.choice([0, 1, 7, 8, 9, 15, 16, 17])
        return bytes(size) if self.draw.random() < 0.1 else self.draw.randbytes(size)

    def scalar(self, number, name, kind):
        """A field that holds a number."""
        value = self.draw.choice([*NUMBERS, self.draw.randrange(2**64)])
        if kind == "fixed64":
            return self.tag(number, 1) + struct.pack("<Q", value)
        if kind == "fixed32":
            return self.tag(number, 5) + struct.pack("<I", value % 2**32)
        if kind == "double":
            return self.tag(number, 1) + (struct.pack("<Q", value) if self.draw.random() < 0.3 else struct.pack("<d", self.draw.choice([*DOUBLES, self.draw.random()])))
        return self.tag(number, 0) + self.number(value, 10)

    def field(self, number, name, kind, depth):
        """A field, in the bytes of one field or of some."""
        if self.at_times("other wire types", 0.1):
            kind = self.draw.choice(["int32", "fixed64", "fixed32", "string"])
        if kind == "string":
            return [self.counted(number, self.text())]
        if kind == "bytes":
            return [self.counted(number, self.bytes(name))]
        if kind not in MESSAGES:
            return [self.scalar(number, name, kind)]
        fields = self.fields(kind, depth - 1)
        if MESSAGES_IN_PARTS.get(kind) and self.at_times("messages in parts", 0.5):
            at = self.draw.randrange(len(fields) + 1)
            return [self.counted(number, b"".join(it)) for it in (fields[:at], fields[at:])]
        return [self.counted(number, b"".join(fields))]

    def unknown(self):
        number = self.draw.choice([17, 18, 99, 1000, 2**29 - 1])
        return self.draw.choice([
            lambda: self.tag(number, 0) + self.number(self.draw.randrange(2**64), 10), lambda: self.tag(number, 1) + self.draw.randbytes(8),
            lambda: self.tag(number, 5) + self.draw.randbytes(4), lambda: self.counted(number, self.draw.randbytes(self.draw.randrange(40)))])()

    def group(self):
        self.fault = GROUP
        number = self.draw.choice([1, 2, 3, 17, 1000])
        return varint(number * 8 + 3) + b"".join(self.unknown() for _ in range(self.draw.randrange(3))) + varint(number * 8 + 4)

    def bad_tag(self):
        self.fault, tag = self.draw.choice([(NUMBER, self.draw.randrange(6)), (TYPE, 14), (TYPE, 15), (TYPE, 8 * 1000 + 6), (NUMBER, 2**32 + self.draw.choice([0, 1, 2, 5])), (GROUP, 12)])
        return varint(tag) + self.draw.choice([b"", b"\x00", b"\x00" * 8])

    def long_number(self):
        self.fault = LONG
        return varint(self.draw.choice([8, 136, 8000])) + varint(self.draw.randrange(128), 10)

    def fields(self, kind, depth):
        """The fields of a message, each in bytes of its own."""
        out = []
        named = MESSAGES[kind].items() if kind != "AnyValue" else self.draw.sample(sorted(MESSAGES[kind].items()), self.draw.choice([0, 1, 1, 1, 1, 1, 1]))
        for number, (name, held, repeated) in named:
            if held in MESSAGES and depth <= 0:
                continue
            many = self.draw.choice([0, 1, 1, 2, 3]) if repeated else self.draw.choice([0, 1, 1])
            for _ in range(many if repeated or not self.at_times("fields twice", 0.4) else self.draw.choice([2, 3])):
                out += self.field(number, name, held, depth)
        if self.kind in ("fields twice", "messages in parts") and kind != "AnyValue":
            if kind not in MESSAGES_IN_PARTS or self.kind == "fields twice":
                self.draw.shuffle(out)
        if kind == "AnyValue" and self.at_times("fields twice", 0.4) and depth > 0:
            out += self.fields(kind, depth)
        for disturbs, often, make in (("unknown fields", 0.4, self.unknown), ("groups", 0.15, self.group), ("bad tags", 0.15, self.bad_tag), ("eleven bytes", 0.15, self.long_number)):
            if (disturbs == "unknown fields" or self.fault is None) and self.at_times(disturbs, often):
                out.insert(self.draw.randrange(len(out) + 1), make())
        return out

    def deep(self):
        """A request of one span with one attribute, of which the value nests so deep."""
        levels = self.draw.randrange(20, 50)
        value = b"\x10\x01"
        for _ in range(levels - 1):
            value = self.counted(5, self.counted(1, value)) if self.draw.random() < 0.5 else self.counted(6, self.counted(1, b"\x0a\x01k" + self.counted(2, value)))
        self.fault = DEEP if levels > 29 else None
        return self.counted(1, self.counted(2, self.counted(2, self.counted(9, self.counted(2, value)))))

    def body(self):
        if self.kind == "deep values":
            return self.deep()
        out = b"".join(self.fields("Request", self.draw.choice([4, 6, 8, 10])))
        if self.kind == "cuts" and out:
            return out[:self.draw.randrange(len(out))]
        for _ in range(self.draw.choice([1, 1, 2, 3]) if self.kind == "changed bytes" and out else 0):
            at = self.draw.randrange(len(out) + 1)
            out = out[:at] + self.draw.choice([b"", self.draw.randbytes(1), out[at:at + 1] + self.draw.randbytes(1)]) + out[at + 1:]
        return out


MESSAGES_IN_PARTS = {"Resource": True, "Scope": True, "Status": True, "AnyValue": True, "ArrayValue": True, "KeyValueList": True}
KINDS = ["fields twice", "messages in parts", "unknown fields", "other wire types", "longer numbers", "groups", "cuts", "bad tags", "eleven bytes", "bad UTF-8", "deep values", "changed bytes"]
# What is refused here and may be read by the parser. (It drops the bits of a tag above 32.)
OURS_ALONE = {"groups": {GROUP}, "deep values": {DEEP}, "bad tags": {GROUP, NUMBER}, "changed bytes": {GROUP, NUMBER}}


def is_right(made, ours, theirs):
    """Whether what is answered here is what the parser's answer asks for, and which way it went."""
    told = ours[2:] if ours.startswith("! ") else None
    if made.fault is not None and told != made.fault:
        return False, "otherwise"
    if made.kind == "cuts" and told not in (None, CUT):
        return False, "otherwise"
    if told is None:
        return ours == theirs, "read alike" if ours == theirs else "otherwise"
    if theirs is None or theirs.startswith("! "):
        return made.kind in KINDS, "refused by both" if made.kind in KINDS else "otherwise"
    return told in OURS_ALONE.get(made.kind, ()), "refused here alone"


def parsed(requests, word, body):
    """The line of JSON of what the parser reads, if it reads the body. A warning says that a tag of 0 or the end of a group stands where a field begins."""
    try:
        return word.replace("p", "j").replace("P", "J") + " " + json.dumps(request_json(requests.FromString(body))).encode().hex()
    except (DecodeError, RuntimeWarning, SystemError):
        return None


def compare(program, requests, draw, bodies, ways, faults):
    """Makes so many bodies and compares them. Returns how many were answered otherwise."""
    made, lines = [], []
    for number in range(bodies):
        maker = Maker(draw, "as sent" if number % 2 == 0 else draw.choice(KINDS))
        body, word = maker.body(), draw.choice("pP")
        other = parsed(requests, word, body)
        made.append((maker, body, other is not None))
        lines += [f"{word} {body.hex()}"] + ([other] if other else [])
    answers = subprocess.run([program], input="\n".join(lines) + "\n", capture_output=True, text=True, check=True).stdout.split("\n")[:-1]
    if len(answers) != len(lines):
        raise SystemExit(f"{len(answers)} answers to {len(lines)} lines")
    answers, wrong = iter(answers), 0
    for maker, body, is_read in made:
        ours, theirs = next(answers), next(answers) if is_read else None
        good, way = is_right(maker, ours, theirs)
        ways[maker.kind][way] += 1
        if ours.startswith("! "):
            faults[ours[2:]] += 1
        wrong += not good
        if not good:
            print(f"{maker.kind}, {maker.fault}: {body.hex()[:2000]}\n  here   {ours[:300]}\n  parser {theirs and theirs[:300]}")
    return wrong


def main():
    words = argparse.ArgumentParser(usage=__doc__.split("\n\n")[1].replace("usage: ", ""))
    words.add_argument("--program", default=TOP / "crates/protobuf_table/out/protobuf_table")
    words.add_argument("--seed", type=int, default=1)
    words.add_argument("bodies", type=int, nargs="?", default=100000)
    words = words.parse_args()
    warnings.simplefilter("error", RuntimeWarning)
    sys.stderr = os.fdopen(os.dup(2), "w")
    os.dup2(os.open(os.devnull, os.O_WRONLY), 2)  # the parser tells each bad text there
    requests, draw = request_class(), random.Random(words.seed)
    ways, faults, wrong = collections.defaultdict(collections.Counter), collections.Counter(), 0
    for done in range(0, words.bodies, BATCH):
        wrong += compare(words.program, requests, draw, min(BATCH, words.bodies - done), ways, faults)
    for kind in ["as sent", *KINDS]:
        print(f"{kind}: {sum(ways[kind].values())} bodies, " + ", ".join(f"{count} {way}" for way, count in sorted(ways[kind].items())))
    for fault, count in sorted(faults.items()):
        print(f"told {count} times: {fault}")
    print(f"{words.bodies - wrong} passed, {wrong} failed")
    return 1 if wrong else 0


if __name__ == "__main__":
    raise SystemExit(main())
