#!/usr/bin/env bash
# Counts the instructions in which an attribute is read and written, by valgrind: of a double, of a whole number, of a short text. It is the difference of
# requests of 4,000 and of 2,000 attributes. It wants `bench/program.sh double_speed` first, and valgrind:
#     bench/doubles.sh
set -eu
cd "$(dirname "$0")/.."
work=$(mktemp -d)
trap 'rm -rf "$work"' EXIT

# The instructions of one run.
instructions() {
    valgrind --tool=callgrind --callgrind-out-file="$work/callgrind" bench/out/double_speed "$1" "$2" 2>&1 > "$work/out" | awk '/Collected/ { print $4 }'
}

for kind in double whole text; do
    echo "$kind: $((($(instructions "$kind" 4000) - $(instructions "$kind" 2000)) / 2000)) instructions an attribute"
done
