#!/bin/sh
# Reads so many random bodies (100,000 where no number is named) both ways: in one pass, with care where that declines; and with
# care alone. Prints how many were answered in which way, how many of these the one pass declined, and how many were read otherwise.
#     (cd crates/reading_table && rt run); tests/readings/compare.sh [BODIES [SEED]]
# It needs Python and is no part of the gate. It ends with status 0 where each body was read the same both ways.
top=$(cd "$(dirname "$0")/../.." && pwd)
bodies=${1:-100000}
printed=$(python3 "$top/tests/readings/generate.py" "$bodies" --seed "${2:-1}" | "$top/crates/reading_table/out/reading_table" shares)
echo "$printed"
[ "$(echo "$printed" | tail -n 1)" = "$bodies bodies, 0 read otherwise" ]
