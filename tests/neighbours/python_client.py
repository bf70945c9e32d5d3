"""Sends traces by OpenTelemetry's Python SDK and its OTLP/HTTP exporter with their default settings: python_client.py TRACES.

The environment names the endpoint (OTEL_EXPORTER_OTLP_ENDPOINT), as the SDK's documentation has it. A trace has two spans, each fifth an error. What was
made is printed as a line of JSON a span, each field as OTLP/JSON writes it."""

import base64
import json
import sys

from opentelemetry import trace
from opentelemetry.exporter.otlp.proto.http.trace_exporter import OTLPSpanExporter
from opentelemetry.sdk.resources import Resource
from opentelemetry.sdk.trace import TracerProvider
from opentelemetry.sdk.trace.export import BatchSpanProcessor
from opentelemetry.trace import Link, SpanKind, Status, StatusCode


def value(it):
    """A value."""
    if isinstance(it, bool):
        return {"boolValue": it}
    if isinstance(it, int):
        return {"intValue": str(it)}
    if isinstance(it, float):
        return {"doubleValue": it}
    if isinstance(it, bytes):
        return {"bytesValue": base64.b64encode(it).decode()}
    if isinstance(it, (list, tuple)):
        return {"arrayValue": {"values": [value(one) for one in it]}}
    return {"stringValue": it}


def pairs(attributes):
    """Attributes."""
    return [{"key": key, "value": value(it)} for key, it in attributes.items()]


def made(span):
    """What the span must come out as."""
    whole = {
        "traceId": f"{span.context.trace_id:032x}", "spanId": f"{span.context.span_id:016x}", "name": span.name, "kind": span.kind.value + 1,
        "startTimeUnixNano": str(span.start_time), "endTimeUnixNano": str(span.end_time), "attributes": pairs(span.attributes),
        "events": [{"timeUnixNano": str(it.timestamp), "name": it.name, "attributes": pairs(it.attributes)} for it in span.events],
    }
    if span.parent:
        whole["parentSpanId"] = f"{span.parent.span_id:016x}"
    if span.links:
        whole["linked"] = [f"{it.context.span_id:016x}" for it in span.links]
    if span.status.status_code == StatusCode.ERROR:
        whole["status"] = {"code": 2, "message": span.status.description}
    return {it: one for it, one in whole.items() if one != []}


provider = TracerProvider(resource=Resource.create({"service.name": "checkout", "replicas": 3}))
provider.add_span_processor(BatchSpanProcessor(OTLPSpanExporter()))
tracer = provider.get_tracer("client", "1.2")
before = None
for at in range(int(sys.argv[1])):
    root = tracer.start_span("GET /cart", kind=SpanKind.SERVER, attributes={"http.status_code": 200 + at, "ratio": at / 8, "ok": at % 2 == 0, "tags": ["a", "\u00e9"]})
    links = [Link(before)] if before else []
    query = tracer.start_span("SELECT", context=trace.set_span_in_context(root), kind=SpanKind.CLIENT, attributes={"db": "pg", "n": -at}, links=links)
    query.add_event("row", {"n": at, "share": 0.25})
    if at % 5 == 0:
        query.set_status(Status(StatusCode.ERROR, "lost"))
    query.end()
    root.end()
    before = query.get_span_context()
    print(json.dumps(made(query)))
    print(json.dumps(made(root)))
    # The queue of the processor has 2,048 places, and what finds none is dropped by the SDK.
    if at % 500 == 499:
        provider.force_flush()
provider.shutdown()
