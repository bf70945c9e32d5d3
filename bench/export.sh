#!/usr/bin/env bash
# Measures what `tsc serve` hands over a second to one backend on this machine, beside lines to a file, all spans kept. Outside the gate.
#     bench/export.sh PROGRAM [SPANS]
set -eu
exec python3 "$(cd "$(dirname "$0")" && pwd)/export.py" "$@"
