#!/usr/bin/env bash
# Measures what docs/speed tells of the program, one tool after the other, and writes their numbers into its tables (bench/tables.py). It is no part of
# the gate, and takes most of an hour of a machine that has nothing else to do:
#     bench/all.sh [LOG]
# The programs must be the proved ones: crates/collector_main/out/collector_main, or what PROGRAM names; and, where they are built, block_table and
# http_table. It needs valgrind, wrk and h2load (Debian's valgrind, wrk and nghttp2-client). A tool that fails is told at the end, and the others go on.
set -u -o pipefail
cd "$(dirname "$0")/.."
log=${1:-$(mktemp)}
export PROGRAM=$(realpath "${PROGRAM:-crates/collector_main/out/collector_main}")
failed=()
measure() {
    echo "== $*" | tee -a "$log"
    "$@" 2>&1 | tee -a "$log" || failed+=("$1")
}
# Instructions first: they don't mind what else the machine does.
measure bench/instructions.sh
measure bench/policies.sh
measure bench/encodings.py "$PROGRAM"
measure bench/decisions.py "$PROGRAM"
measure bench/record.py "$PROGRAM"
[ ! -x crates/block_table/out/block_table ] || PROGRAM=$PWD/crates/block_table/out/block_table measure bench/blocks.sh
[ ! -x crates/http_table/out/http_table ] || measure bench/http.sh
measure bench/run.sh 200000
measure bench/serve.sh "$PROGRAM"
measure bench/connections.sh "$PROGRAM"
measure bench/export.sh "$PROGRAM"
measure bench/ledger.py "$PROGRAM"
measure bench/compare.py "$PROGRAM" 1000000
bench/tables.py "$log"
echo "the log: $log"
((${#failed[@]} == 0)) || { echo "failed: ${failed[*]}"; exit 1; }
