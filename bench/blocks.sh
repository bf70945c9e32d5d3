#!/usr/bin/env bash
# Counts the instructions of a span that is packed into a block, unpacked, and written and measured as a block and as a tree, by valgrind: the
# difference of eleven rounds and of one, over the 100 spans of a request of `generate.py`. It is no part of the gate.
# The program must be built: (cd crates/block_table && rt run). PROGRAM names another one.
set -eu
cd "$(dirname "$0")"
program=${PROGRAM:-../crates/block_table/out/block_table}
work=$(mktemp -d)
trap 'rm -rf "$work"' EXIT
spans=100
./generate.py "$spans" | sed -n 's/^recv [0-9]* [0-9]* //p' > "$work/body"

# The instructions of so many rounds of one kind.
count() {
    valgrind --tool=cachegrind --cache-sim=no --cachegrind-out-file=/dev/null "$program" time "$1" "$2" "$work/body" 2>&1 > "$work/out" |
        awk '/I *refs/ { gsub(",", ""); print $NF }'
}

for kind in pack unpack put encode block_size span_size; do
    more=$(count "$kind" 11)
    one=$(count "$kind" 1)
    echo "$kind: $(((more - one) / (10 * spans))) instructions a span ($(cat "$work/out"))"
done
