#!/usr/bin/env bash
# Proves and builds one of the programs that measure, queue_speed, reading_speed, condition_speed or worker_speed, over the kept work of the crates that it stands on
# (tools/prove.py), and leaves it as bench/out/NAME:
#     bench/program.sh NAME
# They prove nothing of the product, so they are no crates of the gate: their files end in .in, and no check of the repository reads them.
set -eu
cd "$(dirname "$0")/.."
name=$1
mkdir -p bench/out
room=$(mktemp -d bench/out/room-XXXXXX)
trap 'rm -rf "$room"' EXIT
for it in crates/*; do
    mkdir -p "$room/$it/out"
    for part in src specs proofs out/rlib; do
        [ ! -d "$it/$part" ] || cp -al "$it/$part" "$room/$it/$part"
    done
done
cp -r "bench/programs/$name" "$room/crates/$name"
find "$room/crates/$name" -name '*.in' -exec sh -c 'mv "$1" "${1%.in}"' _ {} \;
{ cat crates.txt; grep "^$name:" bench/programs/lines.txt; } > "$room/crates.txt"
cp HANDLES "$room/HANDLES"
(cd "$room/crates/$name" && rt run)
mv "$room/crates/$name/out/$name" "bench/out/$name"
