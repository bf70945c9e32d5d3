#!/usr/bin/env bash
# Compares the texts of floats with those of Python's `repr`, and counts the instructions of a text by valgrind, which is the difference of
# 4,000 and of 2,000 floats. It wants `bench/program.sh shortest_speed` first, python3 and valgrind:
#     bench/shortest.sh [COUNT]
set -eu
cd "$(dirname "$0")/.."
work=$(mktemp -d)
trap 'rm -rf "$work"' EXIT
count=${1:-100000}

# The instructions of one run.
instructions() {
    valgrind --tool=callgrind --callgrind-out-file="$work/callgrind" bench/out/shortest_speed "$1" "$2" quiet 2>&1 > "$work/out" | awk '/Collected/ { print $4 }'
}

for kind in bits edges least short unit; do
    bench/out/shortest_speed "$kind" "$count" | python3 bench/shortest.py "$kind"
done
for kind in usual short unit bits edges least; do
    echo "$kind: $((($(instructions "$kind" 4000) - $(instructions "$kind" 2000)) / 2000)) instructions a text"
done
