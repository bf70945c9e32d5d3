#!/usr/bin/env bash
# Counts the instructions of `tsc replay` for a span, by valgrind: the difference of scripts of 4,000 and of 2,000 spans. Of requests of 100 spans
# where 5 % of the traces have an error and those are kept, of the same where all are kept, and of requests of one span.
# It is no part of the gate. The program must be built: (cd crates/collector_main && rt run -- serve). PROGRAM names another one.
set -eu
cd "$(dirname "$0")"
program=${PROGRAM:-../crates/collector_main/out/collector_main}
work=$(mktemp -d)
trap 'rm -rf "$work"' EXIT

# The instructions of one run: the configuration and the script.
count() {
    valgrind --tool=cachegrind --cache-sim=no --cachegrind-out-file=/dev/null "$program" replay "$1" < "$2" 2>&1 > "$work/out" |
        awk '/I *refs/ { gsub(",", ""); print $NF }'
}

# What is measured, the configuration, and the words for the scripts.
measure() {
    local name=$1 config=$2
    shift 2
    ./generate.py 2000 "$@" > "$work/short"
    ./generate.py 4000 "$@" > "$work/long"
    local short long
    short=$(count "$config" "$work/short")
    long=$(count "$config" "$work/long")
    echo "$name: $(((long - short) / 2000)) instructions a span, $((($(wc -c < "$work/long") - $(wc -c < "$work/short")) / 2000)) bytes each"
    echo "  $(tail -9 "$work/out" | tr '\n' ' ')"
}

measure "5 % of the traces kept" errors.toml --errors 0.0093
measure "all kept" all.toml
measure "one span a request, 5 % of the traces kept" errors.toml --errors 0.0093 --of-a-request 1
