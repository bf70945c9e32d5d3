#!/usr/bin/env bash
# Runs `tsc serve` as a collector under clients on this machine: requests in every form, clients that stop or say nothing, many at once, the
# ordered close, and an output whose reader is gone. The whole is in serve.py; it needs python3, and says so where that isn't there.
#     tests/serve.sh PROGRAM..      (words before it are those of serve.py: a share of the checks, and what is left out)
# Its last line is 'N passed, M failed'.
set -u
top=$(cd "$(dirname "$0")/.." && pwd)
command -v python3 > /dev/null || {
    echo "tests/serve.sh: python3 is not there"
    echo "0 passed, 1 failed"
    exit 2
}
exec python3 "$top/tests/serve.py" "$@"
