#!/usr/bin/env bash
# Hands the lines that tsc keeps on to whatever takes OTLP/JSON over HTTP, one request a line, in order.
#     tail -n +1 -F /var/log/tsc/traces.jsonl | hand_on.sh http://127.0.0.1:4338/v1/traces
# It needs curl. The report, at each close, is passed over. A line that finds nobody, or is answered 429, 502, 503 or 504, is sent again until it is
# taken, each second or when `Retry-After` says; a line that is answered otherwise is left out and counted. Both are told on standard error.
# It ends with its input, with status 1 where lines were left out. Where it is ended between two lines, `tail` begins at the first line again.
set -u
[ $# -eq 1 ] || { echo "usage: hand_on.sh URL" >&2; exit 2; }
room=$(mktemp -d)
trap 'rm -rf "$room"' EXIT
number=0
left_out=0

# Sends a line once: sets `code` to the answer's status (000 where there was no whole answer) and `pause` to the seconds to wait then.
send() {
    local said ended=0
    said=$(curl -sS -m 60 -o "$room/answer" -w '%{http_code} %header{retry-after}' -H 'Content-Type: application/json' --data-binary @- "$1" \
        <<< "$line" 2> "$room/fault") || ended=$?
    case $ended in
        0) read -r code pause <<< "$said" ;;
        1 | 2 | 3 | 4) cat "$room/fault" >&2; exit 2 ;; # (curl doesn't know what URL this is)
        *) code=000 pause=1 ;;
    esac
    [[ $pause =~ ^[1-9][0-9]{0,3}$ ]] || pause=1
}

while IFS= read -r line || [ -n "$line" ]; do
    number=$((number + 1))
    [[ $line == '{'* ]] || continue
    waiting=no
    while send "$1"; [[ $code =~ ^(000|429|502|503|504)$ ]]; do
        [ "$waiting" = yes ] || echo "hand_on.sh: line $number is sent again until it is taken: answered $code $(cat "$room/fault")" >&2
        waiting=yes
        sleep "$pause"
    done
    if [[ $code == 2?? ]]; then
        [ "$waiting" = no ] || echo "hand_on.sh: line $number was taken" >&2
    else
        left_out=$((left_out + 1))
        echo "hand_on.sh: line $number is left out, $left_out so far: answered $code $(head -c 200 "$room/answer" | tr -d '\0\n')" >&2
    fi
done
[ "$left_out" -eq 0 ] || { echo "hand_on.sh: $left_out lines were left out" >&2; exit 1; }
