#!/usr/bin/env bash
# Counts the instructions of `serve` over 60 requests of 100 spans on one connection in memory, beside those of `decode` alone over the same
# bodies, and over 60 bodies with ids and times of their own beside the same packed by gzip, by valgrind. It is no part of the gate. The program must be built: (cd crates/http_table && rt run)
set -eu
cd "$(dirname "$0")"
program=$PWD/../crates/http_table/out/http_table
work=$(mktemp -d)
trap 'rm -rf "$work"' EXIT
python3 - "$work" <<'PYTHON'
import random
import re
import sys
import zlib
span = '{"traceId":"5b8efff798038103d269b633813fc60c","spanId":"eee19b7ec3c1b174","name":"GET /items","kind":2,"startTimeUnixNano":"1544712660000000000","endTimeUnixNano":"1544712661000000000","attributes":[{"key":"http.method","value":{"stringValue":"GET"}},{"key":"http.status_code","value":{"intValue":"200"}}],"status":{"code":2}}'
body = '{"resourceSpans":[{"scopeSpans":[{"spans":[' + ",".join([span] * 100) + "]}]}]}"
head = f"POST /v1/traces HTTP/1.1\r\nHost: x\r\nContent-Type: application/json\r\nContent-Length: {len(body)}\r\n\r\n"
pieces = [body[i:i + 4096] for i in range(0, len(body), 4096)]
chunked = "POST /v1/traces HTTP/1.1\r\nHost: x\r\nContent-Type: application/json\r\nTransfer-Encoding: chunked\r\n\r\n" \
    + "".join(f"{len(piece):x}\r\n{piece}\r\n" for piece in pieces) + "0\r\n\r\n"
rng, plain, packed = random.Random(5), b"", b""
for _ in range(60):
    own = re.sub(r'"(traceId|spanId|\w+UnixNano)":"(\w+)"', lambda it: f'"{it[1]}":"{rng.getrandbits(4 * len(it[2])):0{len(it[2])}x}"' if it[1] in ("traceId", "spanId")
                 else f'"{it[1]}":"{1544712660000000000 + rng.getrandbits(40)}"', body).encode()
    packer = zlib.compressobj(6, zlib.DEFLATED, 31)
    small = packer.compress(own) + packer.flush()
    fields = b"POST /v1/traces HTTP/1.1\r\nHost: x\r\nContent-Type: application/json\r\n"
    plain += fields + b"Content-Length: %d\r\n\r\n" % len(own) + own
    packed += fields + b"Content-Encoding: gzip\r\nContent-Length: %d\r\n\r\n" % len(small) + small
texts = {"body": body, "length": (head + body) * 60, "chunked": chunked * 60, "nothing": "", "plain": plain, "packed": packed}
for name, text in texts.items():
    with open(f"{sys.argv[1]}/{name}", "wb") as file:
        file.write(text if isinstance(text, bytes) else text.encode())
PYTHON
counted() {
    name=$1
    shift
    (cd "$work" && valgrind --tool=callgrind --callgrind-out-file="$work/$name.out" "$program" "$@" 2>&1) \
        | awk -v name="$name" '/Collected/ { printf "%s: %d instructions\n", name, $4 } / served$| read$/ { print }'
}
counted nothing serve nothing
counted decode decode body 60
counted length serve length
counted chunked serve chunked
counted plain serve plain
counted packed serve packed
for name in length chunked; do
    echo "of $name, by crate (a function that is inlined into another counts as its):"
    callgrind_annotate --threshold=100 "$work/$name.out" | awk '
        /^ *[0-9,]+ \(/ {
            count = $1
            gsub(",", "", count)
            if (match($0, /http_lane::|http_text::|httparse::/)) engine += count
            else if (match($0, /lane_seq::|otlp_flatten::|lane_queue::|drop_ledger::/)) lane += count
            else if (match($0, /memmove|memcpy/)) copies += count
            if ($0 ~ /PROGRAM TOTALS/) all = count
        }
        END { printf "  engine %d, lane and queue %d, copies (those of the reading too) %d, of %d\n", engine, lane, copies, all }'
done
callgrind_annotate --threshold=100 "$work/decode.out" | awk '/memmove|memcpy/ { count = $1; gsub(",", "", count); copies += count } END { printf "copies of the reading alone: %d\n", copies }'
