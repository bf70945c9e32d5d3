#!/usr/bin/env bash
# Builds FOLDER/otelcore: the OpenTelemetry Collector's own core (receiver otlp, processor batch, exporters otlp, otlphttp and debug) of Debian's packages of
# the suite sid. It takes some minutes and 2.5 GB.
#     collector.sh FOLDER
set -eu
here=$(cd "$(dirname "$0")" && pwd)
mkdir -p "$1"
folder=$(cd "$1" && pwd)
"$here/fetch.sh" sid "$folder/root" golang-opentelemetry-collector-dev golang-1.26-go
share=$folder/root/usr/share
export GOROOT=$folder/root/usr/lib/go-1.26
# Debian's links within Go's folder lead to where it would be installed.
for it in src api lib misc test pkg/include; do
    [ ! -L "$GOROOT/$it" ] || rm -f "$GOROOT/$it"
    [ -e "$GOROOT/$it" ] || [ ! -e "$share/go-1.26/$it" ] || { mkdir -p "$(dirname "$GOROOT/$it")" && ln -s "$share/go-1.26/$it" "$GOROOT/$it"; }
done
mkdir -p "$share/gocode/src/collector_core"
cp "$here/collector_core/main.go" "$share/gocode/src/collector_core/"
cd "$share/gocode/src/collector_core"
export GOPATH=$share/gocode GO111MODULE=off GOFLAGS=-p=2 GOCACHE=$folder/cache CGO_ENABLED=0
"$GOROOT/bin/go" build -o "$folder/otelcore" .
