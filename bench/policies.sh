#!/usr/bin/env bash
# Counts the instructions in which a trace of ten spans is decided, by valgrind: those of a replay under some policies less those under a policy that
# counts spans alone, for a trace, as the difference of scripts of 4,000 and of 2,000 traces. No policy keeps a trace, so that each is asked.
# It is no part of the gate. The program must be built: (cd crates/collector_main && rt run -- serve). PROGRAM names another one.
set -eu
cd "$(dirname "$0")"
program=${PROGRAM:-../crates/collector_main/out/collector_main}
work=$(mktemp -d)
trap 'rm -rf "$work"' EXIT

for traces in 2000 4000; do
    python3 - "$traces" > "$work/$traces.script" <<'END'
import json
import sys

for trace in range(int(sys.argv[1])):
    spans = []
    for number in range(10):
        spans.append({"traceId": f"{trace + 1:032x}", "spanId": f"{number + 1:016x}", "name": "GET /users", "kind": 2, "flags": 256, "traceState": "vendor=a",
                      "startTimeUnixNano": str(10**9 + number), "endTimeUnixNano": str(10**9 + 5 * 10**6 + number),
                      "attributes": [{"key": "http.method", "value": {"stringValue": "GET"}}, {"key": "http.status_code", "value": {"intValue": "200"}},
                                     {"key": "cache.hit", "value": {"boolValue": True}}]})
    of = {"attributes": [{"key": "service.name", "value": {"stringValue": "front"}}]}
    print(f"recv 1 {trace} " + json.dumps({"resourceSpans": [{"resource": of, "scopeSpans": [{"spans": spans}]}]}, separators=(",", ":")))
print("tick 100000000")
END
done

# A policy in TOML: its type and its settings.
policy() {
    printf '[[policies]]\nname = "%s %s"\ntype = "%s"\n%s\n' "$1" "$RANDOM$RANDOM" "$1" "${2:+$1 = { $2 \}}"
}

# The instructions for a trace under the policies of a file.
count() {
    local traces got short long
    for traces in 2000 4000; do
        got=$(valgrind --tool=cachegrind --cache-sim=no --cachegrind-out-file=/dev/null "$program" replay "$1" < "$work/$traces.script" 2>&1 > "$work/out" |
            awk '/I *refs/ { gsub(",", ""); print $NF }')
        [ "$traces" = 2000 ] && short=$got || long=$got
    done
    echo $(((long - short) / 2000))
}

counted='min_spans = 100'
policy span_count "$counted" > "$work/one.toml"
base=$(count "$work/one.toml")

# What is measured, and the file of its policies, beside the one that counts spans.
measure() {
    echo "$1: $(($(count "$work/$2.toml") - base)) instructions a trace"
}

{
    policy span_count "$counted"
    policy latency 'threshold_ms = 5000'
    policy status_code 'status_codes = ["ERROR"]'
    policy string_attribute 'key = "http.method", values = ["PUT", "POST"]'
    policy numeric_attribute 'key = "http.status_code", min_value = 500, max_value = 599'
    policy boolean_attribute 'key = "cache.hit", value = false'
    policy trace_state 'key = "vendor", values = ["b"]'
    policy trace_flags ''
    policy probabilistic 'sampling_percentage = 0'
    policy rate_limiting 'spans_per_second = 0'
} > "$work/ten.toml"
measure "nine policies of other types" ten
{
    policy probabilistic 'sampling_percentage = 0'
    policy span_count "$counted"
} > "$work/chosen.toml"
measure "probabilistic" chosen
{
    policy span_count "$counted"
    policy and 'and_sub_policy = [{ name = "a", type = "span_count", span_count = { min_spans = 100 } }, { name = "b", type = "string_attribute", string_attribute = { key = "http.method", values = ["PUT"] } }]'
} > "$work/and.toml"
measure "an and that stops at its first part" and
{
    policy span_count "$counted"
    policy and 'and_sub_policy = [{ name = "a", type = "span_count", span_count = { min_spans = 1 } }, { name = "b", type = "string_attribute", string_attribute = { key = "http.method", values = ["PUT"] } }]'
} > "$work/both.toml"
measure "an and that asks both parts" both
{
    policy span_count "$counted"
    policy bytes_limiting 'bytes_per_second = 0, burst_capacity = 0'
} > "$work/bytes.toml"
measure "bytes_limiting" bytes
{
    echo 'maximum_trace_size_bytes = 1073741824'
    policy span_count "$counted"
} > "$work/size.toml"
measure "maximum_trace_size_bytes" size
