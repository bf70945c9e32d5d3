// Sends traces by OpenTelemetry's Go SDK and its otlptracehttp exporter with their default settings: go_client TRACES. The environment names the endpoint
// (OTEL_EXPORTER_OTLP_ENDPOINT). A trace has two spans, each fifth an error. What was made is printed as a line of JSON a span.
package main

import (
	"context"
	"encoding/json"
	"fmt"
	"log"
	"os"
	"strconv"

	"go.opentelemetry.io/otel/attribute"
	"go.opentelemetry.io/otel/codes"
	"go.opentelemetry.io/otel/exporters/otlp/otlptrace/otlptracehttp"
	"go.opentelemetry.io/otel/sdk/resource"
	sdk "go.opentelemetry.io/otel/sdk/trace"
	"go.opentelemetry.io/otel/trace"
)

type object = map[string]any

func value(it attribute.Value) object {
	switch it.Type() {
	case attribute.BOOL:
		return object{"boolValue": it.AsBool()}
	case attribute.INT64:
		return object{"intValue": strconv.FormatInt(it.AsInt64(), 10)}
	case attribute.FLOAT64:
		return object{"doubleValue": it.AsFloat64()}
	}
	return object{"stringValue": it.AsString()}
}

func pairs(attributes []attribute.KeyValue) []object {
	var all []object
	for _, it := range attributes {
		all = append(all, object{"key": string(it.Key), "value": value(it.Value)})
	}
	return all
}

func print(span sdk.ReadOnlySpan) {
	own := span.SpanContext()
	it := object{
		"traceId": own.TraceID().String(), "spanId": own.SpanID().String(), "name": span.Name(), "kind": int(span.SpanKind()),
		"startTimeUnixNano": strconv.FormatInt(span.StartTime().UnixNano(), 10), "endTimeUnixNano": strconv.FormatInt(span.EndTime().UnixNano(), 10),
		"attributes": pairs(span.Attributes()),
	}
	if span.Parent().HasSpanID() {
		it["parentSpanId"] = span.Parent().SpanID().String()
	}
	var events []object
	for _, event := range span.Events() {
		events = append(events, object{"timeUnixNano": strconv.FormatInt(event.Time.UnixNano(), 10), "name": event.Name, "attributes": pairs(event.Attributes)})
	}
	if events != nil {
		it["events"] = events
	}
	if span.Status().Code == codes.Error {
		it["status"] = object{"code": 2, "message": span.Status().Description}
	}
	text, _ := json.Marshal(it)
	fmt.Println(string(text))
}

func main() {
	traces, _ := strconv.Atoi(os.Args[1])
	background := context.Background()
	exporter, err := otlptracehttp.New(background)
	if err != nil {
		log.Fatal(err)
	}
	of := resource.NewSchemaless(attribute.String("service.name", "checkout"), attribute.Int("replicas", 3))
	provider := sdk.NewTracerProvider(sdk.WithBatcher(exporter), sdk.WithResource(of))
	tracer := provider.Tracer("client", trace.WithInstrumentationVersion("1.2"))
	for at := 0; at < traces; at++ {
		within, root := tracer.Start(background, "GET /cart", trace.WithSpanKind(trace.SpanKindServer),
			trace.WithAttributes(attribute.Int("http.status_code", 200+at), attribute.Float64("ratio", float64(at)/8), attribute.Bool("ok", at%2 == 0)))
		_, query := tracer.Start(within, "SELECT", trace.WithSpanKind(trace.SpanKindClient), trace.WithAttributes(attribute.String("db", "pg")))
		query.AddEvent("row", trace.WithAttributes(attribute.Int("n", at)))
		if at%5 == 0 {
			query.SetStatus(codes.Error, "lost")
		}
		query.End()
		root.End()
		print(query.(sdk.ReadOnlySpan))
		print(root.(sdk.ReadOnlySpan))
		// The queue of the processor has 2,048 places, and what finds none is dropped by the SDK.
		if at%500 == 499 {
			if err := provider.ForceFlush(background); err != nil {
				log.Fatal(err)
			}
		}
	}
	if err := provider.Shutdown(background); err != nil {
		log.Fatal(err)
	}
}
