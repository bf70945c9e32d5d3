#!/usr/bin/env bash
# Builds FOLDER/go_client, a program over OpenTelemetry's own Go SDK and its otlptracehttp exporter, with the Go and the libraries that collector.sh fetched.
#     go_client.sh FOLDER
set -eu
here=$(cd "$(dirname "$0")" && pwd)
folder=$(cd "$1" && pwd)
share=$folder/root/usr/share
mkdir -p "$share/gocode/src/go_client"
cp "$here/go_client/main.go" "$share/gocode/src/go_client/"
cd "$share/gocode/src/go_client"
export GOROOT=$folder/root/usr/lib/go-1.26 GOPATH=$share/gocode GO111MODULE=off GOFLAGS=-p=2 GOCACHE=$folder/cache CGO_ENABLED=0
"$GOROOT/bin/go" build -o "$folder/go_client" .
