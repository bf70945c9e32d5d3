"""Sends traces by OpenTelemetry's Python SDK and its OTLP/HTTP exporter, and tells of each span whether its export succeeded: kept_client.py SECONDS.

The environment names the endpoint (OTEL_EXPORTER_OTLP_ENDPOINT). The exporter is the SDK's own: it sends again what was answered 503, and gives up what it can't
send. A line is a span's id and SUCCESS or FAILURE, as the exporter told its processor."""

import sys
import time

from opentelemetry import trace
from opentelemetry.exporter.otlp.proto.http.trace_exporter import OTLPSpanExporter
from opentelemetry.sdk.trace import TracerProvider
from opentelemetry.sdk.trace.export import BatchSpanProcessor


class Telling(OTLPSpanExporter):
    """The exporter, which tells what it answers."""

    def export(self, spans):
        answer = super().export(spans)
        for it in spans:
            print(f"{it.context.span_id:016x} {answer.name}")
        return answer


provider = TracerProvider()
provider.add_span_processor(BatchSpanProcessor(Telling(), schedule_delay_millis=50, max_export_batch_size=64))
tracer = provider.get_tracer("client")
end = time.monotonic() + float(sys.argv[1])
while time.monotonic() < end:
    root = tracer.start_span("GET /cart")
    for name in ("SELECT", "UPDATE"):
        tracer.start_span(name, context=trace.set_span_in_context(root)).end()
    root.end()
    time.sleep(0.002)
provider.shutdown()
