#!/bin/sh
# Runs the test that threads of a run overlap where its lanes, or its shards, are made to work in turn, or its shards behind its lanes: it must fail
# then, and pass where they run as they would.
#     tests/workers_in_turn.sh [TESTS [MODE ..]]      (the tests as `rt test` builds them; modes: none lanes after shards, all if none is named)
# Build the tests first: (cd crates/pipeline_tests && rt test). It needs a C compiler. The gate runs the modes none and lanes.
# Its last line is 'N passed, M failed'.
top=$(cd "$(dirname "$0")/.." && pwd)
tests=${1:-$top/crates/pipeline_tests/out/pipeline_tests_tests}
[ $# -eq 0 ] || shift
[ $# -gt 0 ] || set -- none lanes after shards
work=$(mktemp -d) || exit 2
trap 'rm -rf "$work"' EXIT
passed=0
failed=0
cc -shared -fPIC -O1 -o "$work/turns.so" "$top/tests/workers_in_turn.c" -ldl -lpthread || failed=1
for mode in "$@"; do
    # Where threads run as they would a busy machine may hold one for some seconds, and the test gives up: there are three tries.
    for _ in 1 2 3; do
        MODE=$mode LD_PRELOAD="$work/turns.so" "$tests" overlap::threads_overlap > "$work/out" 2>&1
        ended=$?
        gave_up=no
        grep -q gave_up "$work/out" && gave_up=yes
        [ "$mode $ended" != "none 0" ] && [ "$mode" = none ] || break
    done
    case "$mode $ended $gave_up" in
        "none 0 no" | "lanes "*" yes" | "after "*" yes" | "shards "*" yes") passed=$((passed + 1)) ;;
        *) echo "workers_in_turn $mode: status $ended, gave up: $gave_up" && failed=$((failed + 1)) ;;
    esac
done
echo "$passed passed, $failed failed"
[ "$failed" -eq 0 ]
