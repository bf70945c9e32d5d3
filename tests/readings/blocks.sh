#!/bin/sh
# Packs the spans of so many random bodies (100,000 where no number is named) into blocks, and compares what `block_json` writes of each block, its
# size, and the span that is unpacked of it, with what `otlp_json` writes of the span's tree. Prints how many bodies were requests, how many spans had a
# block, and how many differed.
#     (cd crates/block_table && rt run); tests/readings/blocks.sh [BODIES [SEED]]
# It needs Python and is no part of the gate. It ends with status 0 where no span differs.
top=$(cd "$(dirname "$0")/../.." && pwd)
bodies=${1:-100000}
printed=$(python3 "$top/tests/readings/generate.py" "$bodies" --seed "${2:-1}" | "$top/crates/block_table/out/block_table" shares)
echo "$printed"
[ "$(echo "$printed" | tail -n 1)" = "$bodies bodies, 0 spans differ" ]
