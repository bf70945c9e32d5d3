#!/usr/bin/env bash
# Counts the instructions in which a condition is asked of a span of ten attributes, by valgrind: the difference of 4,000 and of 2,000 askings. Of the
# attributes five keys are as long as `http.method`, which is the fifth; `http.status_code` is the last.
# It is no part of the gate. It wants `bench/program.sh condition_speed` first, and valgrind:
#     bench/conditions.sh
# PROGRAM names another program than bench/out/condition_speed.
set -eu
cd "$(dirname "$0")/.."
program=${PROGRAM:-bench/out/condition_speed}
work=$(mktemp -d)
trap 'rm -rf "$work"' EXIT

# The instructions of one run.
instructions() {
    valgrind --tool=callgrind --callgrind-out-file="$work/callgrind" "$program" "$1" "$2" 2>&1 > "$work/out" | awk '/Collected/ { print $4 }'
}

while read -r condition; do
    short=$(instructions "$condition" 2000) && long=$(instructions "$condition" 4000)
    echo "$(((long - short) / 2000)) instructions, $(cat "$work/out"): $condition"
done <<'END'
attributes["http.status_code"] >= 500 and attributes["http.method"] == "POST"
attributes["http.status_code"] >= 500
attributes["http.method"] == "POST"
attributes["http.method"] == "GET"
attributes["http.route"] == nil
not (attributes["http.method"] == "GET" or attributes["http.method"] == "HEAD")
resource.attributes["service.name"] == "front"
kind == SPAN_KIND_SERVER
name == "POST /api/v1/orders"
status.code == STATUS_CODE_ERROR and kind == SPAN_KIND_SERVER
kind.string == "Server"
end_time - start_time > Duration("200ms")
HasPrefix(attributes["http.target"], "/api/")
Len(attributes["http.target"]) > 10
IsMatch(attributes["http.target"], "^/api/v[0-9]+/orders$")
trace_id.string == "00000000000000000000000000000001"
ConvertCase(attributes["http.method"], "lower") == "post"
Concat([attributes["http.method"], kind], "-") == "POST-2"
IsRootSpan()
true
END
