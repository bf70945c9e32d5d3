#!/usr/bin/env bash
# Builds FOLDER/sdk_client, a program over OpenTelemetry's own C++ SDK and its OTLP/HTTP exporter (Debian's packages of bookworm-backports).
#     sdk_client.sh FOLDER
# Then `LD_LIBRARY_PATH=FOLDER/root/usr/lib/x86_64-linux-gnu FOLDER/sdk_client URL TRACES [binary]` sends traces of two spans and prints their ids.
set -eu
here=$(cd "$(dirname "$0")" && pwd)
mkdir -p "$1"
folder=$(cd "$1" && pwd)
libraries=$folder/root/usr/lib/x86_64-linux-gnu
[ -e "$libraries/libopentelemetry_trace.so" ] || "$here/fetch.sh" bookworm-backports "$folder/root" opentelemetry-cpp-dev
g++ -std=c++17 -O1 -I"$folder/root/usr/include" "$here/sdk_client.cc" -o "$folder/sdk_client" -L"$libraries" -Wl,-rpath-link,"$libraries" \
    -lopentelemetry_exporter_otlp_http -lopentelemetry_exporter_otlp_http_client -lopentelemetry_trace -lopentelemetry_resources -lopentelemetry_common
