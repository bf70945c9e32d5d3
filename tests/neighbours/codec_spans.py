"""Spans with every kind of value, by OpenTelemetry's own codec of OTLP/JSON (Debian's python3-opentelemetry-proto-json)."""

import os
import random
import struct

from opentelemetry.proto_json.collector.trace.v1.trace_service import ExportTraceServiceRequest
from opentelemetry.proto_json.common.v1 import common
from opentelemetry.proto_json.resource.v1 import resource
from opentelemetry.proto_json.trace.v1 import trace


def pair(key, **value):
    """An attribute."""
    return common.KeyValue(key=key, value=common.AnyValue(**value))


def span(trace_id, number, more=()):
    """A span that has every field."""
    texts = common.ArrayValue(values=[common.AnyValue(int_value=1), common.AnyValue(string_value="")])
    attributes = [
        pair("text", string_value='\u00e9"\n'), pair("number", int_value=-5), pair("truth", bool_value=False), pair("bytes", bytes_value=b"\x00\xff"),
        pair("list", array_value=texts), pair("pairs", kvlist_value=common.KeyValueList(values=[pair("x", bool_value=True)])), *more,
    ]
    return trace.Span(
        trace_id=trace_id, span_id=os.urandom(8), name=f"s{number}", kind=trace.Span.SpanKind.SPAN_KIND_SERVER, start_time_unix_nano=10**18 + number,
        end_time_unix_nano=10**18 + number + 5, trace_state="k=v", flags=257, dropped_links_count=3, attributes=attributes,
        events=[trace.Span.Event(name="e", time_unix_nano=1, attributes=[pair("n", int_value=2**63 - 1)])],
        links=[trace.Span.Link(trace_id=os.urandom(16), span_id=os.urandom(8), trace_state="a=b")],
        status=trace.Status(code=trace.Status.StatusCode.STATUS_CODE_ERROR, message="m"),
    )


def request(*spans):
    """A request of these spans."""
    scope = trace.ScopeSpans(scope=common.InstrumentationScope(name="n", version="1"), spans=list(spans), schema_url="u")
    of_resource = resource.Resource(attributes=[pair("service.name", string_value="py")])
    return ExportTraceServiceRequest(resource_spans=[trace.ResourceSpans(resource=of_resource, schema_url="v", scope_spans=[scope])])


def requests():
    """A request of two spans of a trace, and one of a span that has a double."""
    trace_id = os.urandom(16)
    return request(span(trace_id, 0), span(trace_id, 1)), request(span(os.urandom(16), 2, [pair("double", double_value=1.5)]))


def any_double(chosen):
    """A double: a measured one, one of any bits that is finite, an infinity, or one at an edge."""
    [of_bits] = struct.unpack("<d", chosen.randbytes(8))
    edges = [0.0, -0.0, 5e-324, 1.7976931348623157e308, 0.1, 1e22, 2.0**53, float("inf"), float("-inf")]
    return chosen.choice([chosen.uniform(-1000, 1000), round(chosen.uniform(0, 10), 3), of_bits if abs(of_bits) < float("inf") else 1.5, chosen.choice(edges)])


def many_requests(count, seed):
    """So many requests of 100 spans, 50 traces each, with doubles wherever a value may stand."""
    chosen = random.Random(seed)
    for _ in range(count):
        spans = []
        for number in range(100):
            trace_id = chosen.randbytes(16) if number % 2 == 0 else spans[-1].trace_id
            double = lambda: common.AnyValue(double_value=any_double(chosen))
            nested = common.KeyValueList(values=[common.KeyValue(key="x", value=double())])
            more = [
                common.KeyValue(key="double", value=double()), pair("doubles", array_value=common.ArrayValue(values=[double(), double()])),
                pair("nested", kvlist_value=nested), pair("random", string_value=chosen.randbytes(9).hex()), pair("whole", int_value=chosen.randrange(-(2**63), 2**63)),
            ]
            one = span(trace_id, number, more)
            one.events[0].attributes.append(common.KeyValue(key="d", value=double()))
            one.links[0].attributes = [common.KeyValue(key="d", value=double())]
            spans.append(one)
        yield request(*spans)


def flat(what):
    """Each span of a request, with its resource, scope and both schema URLs."""
    return [
        (of.resource and of.resource.to_dict(), of.schema_url, scoped.scope and scoped.scope.to_dict(), scoped.schema_url, it.to_dict())
        for of in what.resource_spans for scoped in of.scope_spans for it in scoped.spans
    ]
