#!/usr/bin/env bash
# Runs the recipes of examples/neighbours for real, before, beside and behind a running `tsc serve`, with 10,000 spans each: HAProxy, nginx, wrk, Prometheus,
# the OpenTelemetry Collector's core, OpenTelemetry's C++, Go and Python SDKs and its codec, all of Debian's packages, unpacked into a folder or built there (nothing is
# installed). No part of the gate: it needs Debian's packages (3 GB), a C++ compiler, python3, curl, jq and openssl.
#     tests/neighbours.sh PROGRAM [FOLDER [CHECK..]]
# FOLDER keeps what was fetched (default: ~/.cache/tsc-neighbours). Its last line is 'N passed, M failed'.
set -eu -o pipefail
top=$(cd "$(dirname "$0")/.." && pwd)
here=$top/tests/neighbours
program=$(realpath "$1")
folder=${2:-${XDG_CACHE_HOME:-$HOME/.cache}/tsc-neighbours}
[ -x "$folder/packages/usr/bin/promtool" ] || "$here/fetch.sh" bookworm "$folder/packages" haproxy nginx-light wrk prometheus
[ -x "$folder/collector/otelcore" ] || "$here/collector.sh" "$folder/collector"
[ -x "$folder/sdk/sdk_client" ] || "$here/sdk_client.sh" "$folder/sdk"
[ -x "$folder/collector/go_client" ] || "$here/go_client.sh" "$folder/collector"
[ -d "$folder/python/usr" ] || "$here/fetch.sh" sid "$folder/python" python3-opentelemetry-sdk python3-opentelemetry-exporter-otlp-proto-http
[ -d "$folder/codec/usr" ] || "$here/fetch.sh" sid "$folder/codec" python3-opentelemetry-proto-json
exec python3 "$here/neighbours.py" "$program" "$folder" "${@:3}"
