// Sends traces by OpenTelemetry's C++ SDK: sdk_client URL TRACES [binary]. Each has two spans, each fifth an error. It prints the id of each span. The
// exporter writes JSON, or protobuf (binary).
#include <opentelemetry/exporters/otlp/otlp_http_exporter_factory.h>
#include <opentelemetry/exporters/otlp/otlp_http_exporter_options.h>
#include <opentelemetry/sdk/resource/resource.h>
#include <opentelemetry/sdk/trace/batch_span_processor_factory.h>
#include <opentelemetry/sdk/trace/batch_span_processor_options.h>
#include <opentelemetry/sdk/trace/tracer_provider.h>
#include <opentelemetry/sdk/trace/tracer_provider_factory.h>
#include <opentelemetry/trace/provider.h>

#include <cstdlib>
#include <iostream>
#include <string>

namespace otlp = opentelemetry::exporter::otlp;
namespace sdk = opentelemetry::sdk;
namespace trace = opentelemetry::trace;

static void print_id(const trace::SpanContext& context) {
  char text[16];
  context.span_id().ToLowerBase16(text);
  std::cout << std::string(text, sizeof text) << "\n";
}

int main(int count, char** arguments) {
  const int traces = atoi(arguments[2]);
  otlp::OtlpHttpExporterOptions options;
  options.url = arguments[1];
  options.content_type = count > 3 ? otlp::HttpRequestContentType::kBinary : otlp::HttpRequestContentType::kJson;
  sdk::trace::BatchSpanProcessorOptions batches;
  batches.max_queue_size = 65536;
  batches.schedule_delay_millis = std::chrono::milliseconds(200);
  auto resource = sdk::resource::Resource::Create({{"service.name", "checkout"}, {"replicas", 3}});
  auto processor = sdk::trace::BatchSpanProcessorFactory::Create(otlp::OtlpHttpExporterFactory::Create(options), batches);
  auto provider = sdk::trace::TracerProviderFactory::Create(std::move(processor), resource);
  auto tracer = provider->GetTracer("client", "1.2");
  for (int at = 0; at < traces; at++) {
    auto root = tracer->StartSpan("GET /cart", {{"http.status_code", 200}, {"ratio", 0.25}, {"ok", true}});
    trace::StartSpanOptions inner;
    inner.parent = root->GetContext();
    inner.kind = trace::SpanKind::kClient;
    auto query = tracer->StartSpan("SELECT", {{"db", "pg"}}, inner);
    query->AddEvent("row", {{"n", at}});
    if (at % 5 == 0) query->SetStatus(trace::StatusCode::kError, "lost");
    query->End();
    root->End();
    print_id(root->GetContext());
    print_id(query->GetContext());
  }
  return provider->ForceFlush() && provider->Shutdown() ? 0 : 1;
}
