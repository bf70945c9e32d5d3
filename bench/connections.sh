#!/usr/bin/env bash
# Measures `tsc serve` with many connections, by wrk and h2load (Debian's wrk and nghttp2-client): answers beside 10,000 idle connections, errors with
# 1,000 busy ones, memory and open files behind 200,000 short ones, processor time of an idle collector, and how soon it closes. Outside the gate.
#     bench/connections.sh PROGRAM
set -eu
exec python3 "$(cd "$(dirname "$0")" && pwd)/connections.py" "$@"
