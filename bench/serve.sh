#!/usr/bin/env bash
# Measures `tsc serve` under a load generator on this machine: spans a second at 1, 2 and 4 lanes, the memory that 1,000,000 waiting spans take,
# and the processor time of an idle collector. Outside the gate.
#     bench/serve.sh PROGRAM
set -eu
exec python3 "$(cd "$(dirname "$0")" && pwd)/serve.py" "$@"
