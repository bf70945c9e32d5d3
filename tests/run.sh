#!/usr/bin/env bash
# Runs the program on every example, every worked row and some inputs made here, and compares what it prints, byte for byte, and its exit
# status. In each run that is done, the number of spans received must be the sum of the other eight.
#     tests/run.sh            proves and builds the program where it has changed, and runs it
#     tests/run.sh PROGRAM..  runs programs that are built already, as `rt ci` leaves them in crates/collector_main/out
#     tests/run.sh --without NAME .. PROGRAM..      leaves out what has such a name: a group of runs (a function below), or a run
# It prints a line for each mismatch, and last 'N passed, M failed'. Its status is 1 where something failed, and 2 where nothing could be compared.
set -u -o pipefail

# Ends where nothing could be compared.
give_up() {
    echo "tests/run.sh: $1"
    echo "0 passed, 1 failed"
    exit 2
}

top=$(cd "$(dirname "$0")/.." && pwd) || give_up "no folder"
work=$(mktemp -d) || give_up "no folder for its files"
trap 'rm -rf "$work"' EXIT
passed=0
failed=0
declare -A without=()
while [ "${1:-}" = --without ] && [ $# -gt 1 ]; do
    without[$2]=1
    shift 2
done

# Whether a run isn't left out.
is_wanted() {
    [ -z "${without[$1]:-}" ]
}

# Compares one run of a script: its name, the status and the file of output that are wanted, the file of its input, and the command.
check() {
    local name=$1 got wrong=""
    shift
    is_wanted "$name" || return 0
    compare "$@"
    [ "$got" -ne 0 ] || adds_up "$work/out" || wrong="$wrong; received is not the sum of the other counts"
    tell "$name" "$wrong"
}

# The same of a command that ends with no report.
check_text() {
    local name=$1 got wrong=""
    shift
    is_wanted "$name" || return 0
    compare "$@"
    tell "$name" "$wrong"
}

# The same of a collector that says on standard error, too, why it can't begin: one line, an error.
check_refusal() {
    local name=$1 got wrong="" said
    shift
    is_wanted "$name" || return 0
    compare "$@"
    said=$(grep -c '^[-0-9]*T[0-9:.]*Z ERROR [a-z_]* ' "$work/err")
    [ "$said" -eq 1 ] && wrong=${wrong%; it wrote to standard error} || wrong="$wrong; it says $said errors and not one"
    tell "$name" "$wrong"
}

# Runs a command; the status that it had is put into got, and what is wrong with it into wrong.
compare() {
    local status=$1 expected=$2 input=$3
    shift 3
    timeout 600 "$@" < "$input" > "$work/out" 2> "$work/err"
    got=$?
    [ "$got" -eq "$status" ] || wrong="$wrong; status $got and not $status"
    cmp -s "$expected" "$work/out" || wrong="$wrong; $(difference "$expected" "$work/out")"
    [ ! -s "$work/err" ] || wrong="$wrong; it wrote to standard error"
}

# Counts a check, and prints a line where something is wrong with it.
tell() {
    if [ -z "$2" ]; then
        passed=$((passed + 1))
    else
        failed=$((failed + 1))
        echo "$(basename "$program") $1: ${2#; }"
    fi
}

# Says where a file differs from the expected one.
difference() {
    echo "its output differs at $(cmp "$1" "$2" 2>&1 | sed 's/.*\(byte\|EOF\)/\1/')"
}

# Whether the last nine lines are a report whose first number is the sum of the other eight.
adds_up() {
    tail -n 9 "$1" | awk '
        NR == 1 { good = $1 == "received" && NF == 2; received = $2 }
        NR == 2 { good = good && $1 == "handed" && NF == 2; sum = $2 }
        NR > 2 { good = good && $1 == "dropped" && $2 == NR - 2 && NF == 3; sum += $3 }
        END { exit !(NR == 9 && good && received == sum) }'
}

# Each example: a configuration, a script and what it must print.
examples() {
    local script name
    check examples/error_span 0 "$top/examples/error_span.expected" "$top/examples/error_span.script" "$program" replay "$top/examples/errors.toml"
    for script in "$top"/examples/*.script; do
        name=${script%.script}
        [ "$name" = "$top/examples/error_span" ] ||
            check "examples/${name##*/}" 0 "$name.expected" "$script" "$program" replay "$name.toml"
    done
}

# Each worked row: a folder with a configuration, a script, what it must print, and the status where it isn't 0.
rows() {
    local row status
    for row in "$top"/tests/rows/*; do
        status=0
        [ ! -e "$row/status" ] || status=$(cat "$row/status")
        check "tests/rows/${row##*/}" "$status" "$row/expected" "$row/script" "$program" replay "$row/config.toml"
    done
}

# A script cut after each line: every span received is in one of the other counts.
cut_script() {
    local name=$1 config=$2 script=$3 line
    for line in $(seq 0 "$(wc -l < "$script")"); do
        head -n "$line" "$script" > "$work/cut"
        if timeout 600 "$program" replay "$config" < "$work/cut" > "$work/out" && adds_up "$work/out"; then
            tell "$name" ""
        else
            tell "$name cut after line $line" "it isn't done, or received is not the sum of the other counts"
        fi
    done
}

# Rows with late and evicted spans, and each example, cut after each line.
cut_scripts() {
    local row name
    for row in late_spans_follow_sampled cache_of_one_forgets late_span_renews; do
        cut_script "tests/rows/$row" "$top/tests/rows/$row/config.toml" "$top/tests/rows/$row/script"
    done
    for name in "$top"/examples/*.expected; do
        name=$(basename "$name" .expected)
        [ ! -e "$top/examples/$name.toml" ] || cut_script "examples/$name" "$top/examples/$name.toml" "$top/examples/$name.script"
    done
}

# A body cut after each byte but the last is no JSON.
cut_bodies() {
    local row="$top/tests/rows/error_span_is_kept" body length
    body=$(head -n 1 "$row/script" | cut -d ' ' -f 4-)
    : > "$work/script"
    : > "$work/expected"
    for length in $(seq 1 $((${#body} - 1))); do
        echo "recv 1 0 ${body:0:length}" >> "$work/script"
        echo 'reply 400 {"message":"not JSON"}' >> "$work/expected"
    done
    report_of_nothing >> "$work/expected"
    check "a body cut after each byte" 0 "$work/expected" "$work/script" "$program" replay "$row/config.toml"
}

# The report of a run without spans.
report_of_nothing() {
    printf '%s\n' "received 0" "handed 0" "dropped "{1..7}" 0"
}

# As many spaces.
spaces() {
    head -c "$1" /dev/zero | tr '\0' ' '
}

# A script that can't be read is refused at its first line, and one that fails later at the line in which it does.
unreadable_script() {
    printf 'tsc: script refused: line 1\n' > "$work/expected"
    check "a folder as script" 4 "$work/expected" "$work" "$program" replay "$top/examples/errors.toml"
    printf '%s\n' 'reply 200 {}' 'tsc: script refused: line 2' > "$work/expected"
    check "a script that fails in its second line" 4 "$work/expected" /dev/null python3 -c "$failing_script" "$program" replay "$top/examples/errors.toml"
}

# Runs its arguments on a connection whose other end sends a line and a part of one, and is then reset.
failing_script='
import os, socket, struct, sys, time
listener = socket.create_server(("127.0.0.1", 0))
sender = socket.create_connection(listener.getsockname())
script = listener.accept()[0]
sender.sendall(b"recv 1 0 {}\ntick 1")
script.recv(1, socket.MSG_PEEK)
sender.setsockopt(socket.SOL_SOCKET, socket.SO_LINGER, struct.pack("ii", 1, 0))
sender.close()
time.sleep(0.1)
os.dup2(script.fileno(), 0)
os.execv(sys.argv[1], sys.argv[1:])
'

# A line of a script at its greatest length, with and without a line feed, and one byte beyond.
long_lines() {
    local config="$top/tests/rows/error_span_is_kept/config.toml" end
    { echo 'reply 200 {}' && report_of_nothing; } > "$work/expected"
    { printf 'recv 1 0 {}' && spaces 4194357; } > "$work/script"
    check "a line of 4194368 bytes and no line feed" 0 "$work/expected" "$work/script" "$program" replay "$config"
    echo >> "$work/script"
    check "a line of 4194368 bytes" 0 "$work/expected" "$work/script" "$program" replay "$config"
    printf 'tsc: script refused: line 1\n' > "$work/expected"
    for end in ' ' ' \n'; do
        { printf 'recv 1 0 {}' && spaces 4194357 && printf "$end"; } > "$work/script"
        check "a line of 4194369 bytes" 4 "$work/expected" "$work/script" "$program" replay "$config"
    done
}

# Lines at the limits of the script's grammar: a script as printf takes it, what it is replied, and the number of the line that is refused, if one is.
script_lines() {
    local script replies refused status
    while IFS='|' read -r script replies refused; do
        printf "$script" > "$work/script"
        status=0
        printf "$replies" > "$work/expected"
        if [ -z "$refused" ]; then
            report_of_nothing >> "$work/expected"
        else
            status=4
            echo "tsc: script refused: line $refused" >> "$work/expected"
        fi
        check "the script '$script'" "$status" "$work/expected" "$work/script" "$program" replay "$top/examples/errors.toml"
    done <<'LINES'
||
close||
tick 5\nclose\n||
tick 18446744073709551615||
tick 00000000000000000007\n||
recv 1 0 |reply 400 {"message":"not JSON"}\n|
recv 1 0 {} {}\nclose|reply 400 {"message":"not JSON"}\n|
\n||1
tick 5\n\n||2
tick 18446744073709551616||1
tick 000000000000000000007||1
tick +5||1
tick -5||1
tick ||1
tick  5||1
tick 5 ||1
tick 5\r\n||1
Tick 5||1
tick 1\nrecv 1 0||2
recv 1  0 {}||1
tick 1\ntick 2\nclose ||3
tick 5\nclose\ntick 6||3
close\nclose||2
close\n\n||2
LINES
}

# Wrong arguments.
usage() {
    printf 'tsc: usage: tsc replay CONFIG or tsc serve CONFIG\n' > "$work/expected"
    check "no argument" 2 "$work/expected" /dev/null "$program"
    check "no configuration" 2 "$work/expected" /dev/null "$program" replay
    check "no configuration of a collector" 2 "$work/expected" /dev/null "$program" serve
    check "three arguments" 2 "$work/expected" /dev/null "$program" replay "$top/examples/errors.toml" more
    check "another command" 2 "$work/expected" /dev/null "$program" play "$top/examples/errors.toml"
    check "an empty command" 2 "$work/expected" /dev/null "$program" "" "$top/examples/errors.toml"
    check "a command that isn't UTF-8" 2 "$work/expected" /dev/null "$program" $'\377' "$top/examples/errors.toml"
    check "a configuration's name that isn't UTF-8" 2 "$work/expected" /dev/null "$program" replay $'\377'
}

# Help, the version, and words that stand alone or don't.
texts() {
    local word
    for word in help -h --help; do
        check_text "$word" 0 "$top/tests/help.txt" /dev/null "$program" "$word"
    done
    printf 'tsc 0.1.0\n' > "$work/expected"
    check_text "the version" 0 "$work/expected" /dev/null "$program" version
    check_text "the version by --version" 0 "$work/expected" /dev/null "$program" --version
    printf 'tsc: usage: tsc replay CONFIG or tsc serve CONFIG\n' > "$work/expected"
    check_text "help on something" 2 "$work/expected" /dev/null "$program" help serve
    check_text "the version of something" 2 "$work/expected" /dev/null "$program" version "$top/examples/errors.toml"
    check_text "nothing to validate" 2 "$work/expected" /dev/null "$program" validate
    check_text "nothing to close" 2 "$work/expected" /dev/null "$program" close
    check_text "two to validate" 2 "$work/expected" /dev/null "$program" validate "$top/examples/errors.toml" "$top/examples/errors.toml"
    check_full "help to a full device" 1 /dev/null help
    check_full "the version to a full device" 1 /dev/null version
}

# What is told of a configuration that can't be read, of this path and for this reason.
told_unreadable() {
    printf 'tsc: configuration refused: unreadable\n%s: %s\n' "$1" "$2" > "$work/expected"
}

# What is told of configurations: of each example, of those that tests/faulty.py makes, of files that can't be read, aren't UTF-8 or are too long, and of a long list.
validated() {
    local config name status number
    echo ok > "$work/expected"
    for config in "$top"/examples/*.toml "$top"/bench/*.toml; do
        [ ! -e "$config" ] || check_text "$(basename "$config") is valid" 0 "$work/expected" /dev/null "$program" validate "$config"
    done
    check_full "a valid configuration to a full device" 1 /dev/null validate "$top/examples/errors.toml"
    check_full "a faulty configuration to a full device" 3 /dev/null validate "$top/tests/rows/refused_no_policies/config.toml"
    while read -r name; do
        status=0
        [ ! -e "$work/$name.status" ] || status=$(cat "$work/$name.status")
        check_text "$name" "$status" "$work/$name.expected" /dev/null "$program" validate "$work/$name.toml"
    done < "$work/faulty"
    told_unreadable "$work/none.toml" "does not exist"
    check_text "no such configuration to validate" 3 "$work/expected" /dev/null "$program" validate "$work/none.toml"
    told_unreadable "$work" "is a directory"
    check_text "a directory to validate" 3 "$work/expected" /dev/null "$program" validate "$work"
    told_unreadable "$top/examples/errors.toml/none.toml" "reading it failed"
    check_text "a configuration to validate in what is no directory" 3 "$work/expected" /dev/null "$program" validate "$top/examples/errors.toml/none.toml"
    { cat "$top/examples/errors.toml" && printf '# \377\n'; } > "$work/config.toml"
    told_unreadable "$work/config.toml" "not UTF-8"
    check_text "a configuration to validate that isn't UTF-8" 3 "$work/expected" /dev/null "$program" validate "$work/config.toml"
    cp "$top/examples/errors.toml" "$work/config.toml"
    spaces $((1048577 - $(wc -c < "$work/config.toml"))) >> "$work/config.toml"
    told_unreadable "$work/config.toml" "longer than 1048576 bytes"
    check_text "a configuration of 1048577 bytes to validate" 3 "$work/expected" /dev/null "$program" validate "$work/config.toml"
    { printf 'policies = [' && for number in {1..20000}; do printf '%s,' "$number"; done && printf ']\n'; } > "$work/config.toml"
    { for number in {0..19999}; do echo "policies[$number]: a table is wanted (fault 4)"; done && echo 'policies: a list of policies is empty; it follows from another fault (fault 7.1)'; } > "$work/expected"
    check_text "20000 faults" 3 "$work/expected" /dev/null "$program" validate "$work/config.toml"
    scarce_faults
}

# Runs a command that has so many KiB of address space.
within() {
    bash -c 'ulimit -v "$0" && exec "$@"' "$@"
}

# Puts into least the least address space in KiB, by steps of 256, in which the program runs at all. Whether there is one of at most 64 MiB.
find_room() {
    for ((least = 3072; least <= 65536; least += 256)); do
        ! { within "$least" "$program" version; } > /dev/null 2>&1 || return 0
    done
    return 1
}

# The same in address spaces that grow from where the program runs at all: where there is no memory for the configuration, that is fault 8; then there
# is none for its faults, which must be met; and then all are told. In the first MiB of them, before one of these is met, a signal may end the program,
# which then has no memory for its stack.
scarce_faults() {
    local name="no memory for 20000 faults" least room status met="" missed=0 wrong="not all are told in 64 MiB"
    is_wanted "$name" || return 0
    printf 'tsc: no memory\n' > "$work/missed"
    find_room || {
        tell "$name" "it doesn't run in 64 MiB"
        return 0
    }
    for ((room = least; room <= least + 65536; room += 256)); do
        status=0
        { within "$room" "$program" validate "$work/config.toml" > "$work/out" 2> "$work/err"; } 2> /dev/null || status=$?
        [ -n "$met" ] || [ "$status" -lt 126 ] || [ "$room" -ge $((least + 1024)) ] || continue
        met=1
        if [ "$status" -eq 3 ] && cmp -s "$work/expected" "$work/out"; then
            wrong=""
            break
        fi
        if [ "$status" -eq 5 ] && cmp -s "$work/missed" "$work/out"; then
            missed=$((missed + 1))
        elif [ "$status" -ne 3 ] || [ -s "$work/err" ] || ! grep -q '(fault 8)$' "$work/out"; then
            wrong="in $room KiB status $status, and it says $(head -c 200 "$work/err") $(head -c 200 "$work/out")"
            break
        fi
    done
    [ -n "$wrong" ] || [ "$missed" -gt 0 ] || wrong="there was always memory for its faults"
    tell "$name" "$wrong"
}

# A body in protobuf, shown as JSON, or why it is none.
shown() {
    local name status got wrong
    while read -r name; do
        status=0
        wrong=""
        [ ! -s "$work/$name.err" ] || status=4
        compare "$status" "$work/$name.out" "$work/$name.body" "$program" show
        wrong=${wrong%; it wrote to standard error}
        cmp -s "$work/$name.err" "$work/err" || wrong="$wrong; it says $(head -c 300 "$work/err")"
        tell "$name" "$wrong"
    done < "$work/shown"
}

# A collector whose configuration is refused, and one whose address is none.
refused_before_it_listens() {
    printf 'tsc: configuration refused: 7.1\n' > "$work/expected"
    check_refusal "a refused configuration of a collector" 3 "$work/expected" /dev/null "$program" serve "$top/tests/rows/refused_no_policies/config.toml"
    printf 'tsc: cannot listen\n' > "$work/expected"
    printf '%s\n' 'listen = "x"' 'policies = [{ name = "all", type = "always_sample" }]' > "$work/config.toml"
    check_refusal "an address that is none" 6 "$work/expected" /dev/null "$program" serve "$work/config.toml"
}

# A configuration that can't be read, isn't UTF-8, or is a byte too long; and one of the greatest length.
unreadable() {
    printf 'tsc: configuration refused: unreadable\n' > "$work/expected"
    check "no such configuration" 3 "$work/expected" /dev/null "$program" replay "$work/none.toml"
    check_refusal "no such configuration of a collector" 3 "$work/expected" /dev/null "$program" serve "$work/none.toml"
    check "a folder as configuration" 3 "$work/expected" /dev/null "$program" replay "$work"
    { cat "$top/examples/errors.toml" && printf '# \377\n'; } > "$work/config.toml"
    check "a configuration that isn't UTF-8" 3 "$work/expected" /dev/null "$program" replay "$work/config.toml"
    cp "$top/examples/errors.toml" "$work/config.toml"
    spaces $((1048576 - $(wc -c < "$work/config.toml"))) >> "$work/config.toml"
    echo 'recv 1 0 {}' > "$work/script"
    { echo 'reply 200 {}' && report_of_nothing; } > "$work/whole"
    check "a configuration of 1048576 bytes" 0 "$work/whole" "$work/script" "$program" replay "$work/config.toml"
    spaces 1 >> "$work/config.toml"
    check "a configuration of 1048577 bytes" 3 "$work/expected" /dev/null "$program" replay "$work/config.toml"
}

# Where standard output takes nothing, a run that is done or was writing has status 1, and another case keeps its own.
no_room() {
    local row="$top/tests/rows/error_span_is_kept"
    check_full "a reply to a full device" 1 "$row/script" replay "$row/config.toml"
    check_full "a report to a full device" 1 /dev/null replay "$row/config.toml"
    check_full "a usage to a full device" 2 /dev/null
    check_full "a refused configuration to a full device" 3 /dev/null replay "$top/tests/rows/refused_no_policies/config.toml"
    printf 'tick 1\nstop\n' > "$work/script"
    check_full "a refused script to a full device" 4 "$work/script" replay "$row/config.toml"
}

# A run whose standard output takes nothing, and its status.
check_full() {
    local name=$1 status=$2 input=$3 got
    shift 3
    timeout 600 "$program" "$@" < "$input" > /dev/full 2> "$work/err"
    got=$?
    [ "$got" -eq "$status" ] && tell "$name" "" || tell "$name" "status $got and not $status"
}

# Compares one run that has so many KiB of address space.
check_within() {
    local room=$1 name=$2 status=$3 expected=$4 input=$5
    shift 5
    check "$name" "$status" "$expected" "$input" bash -c 'ulimit -v "$0" && exec "$@"' "$room" "$@"
}

# A configuration whose queues and batches want gigabytes, and one that takes more to read than the 4 MiB that it has beside what the program needs to
# run at all: what else is wrong with it is then not seen.
no_memory() {
    local row="$top/tests/rows/error_span_is_kept" least
    {
        printf '%s\n' 'num_traces = 1000000' 'lanes = 64' 'shards = 64' 'queue_capacity = 65536' 'send_batch_size = 8192'
        printf '%s\n' 'policies = [{ name = "all", type = "always_sample" }]'
        printf '%s\n' '[decision_cache]' 'sampled_cache_size = 1000000' 'non_sampled_cache_size = 1000000'
    } > "$work/config.toml"
    printf 'tsc: no memory\n' > "$work/expected"
    check_within 262144 "no memory at the start" 5 "$work/expected" "$row/script" "$program" replay "$work/config.toml"
    { printf 'polices = [' && spaces 500000 | sed 's/ /1,/g' && printf ']\n'; } > "$work/config.toml"
    printf 'tsc: configuration refused: 8\n' > "$work/expected"
    if find_room; then
        check_within $((least + 4096)) "no memory for the configuration" 3 "$work/expected" /dev/null "$program" replay "$work/config.toml"
    else
        tell "no memory for the configuration" "it doesn't run in 64 MiB"
    fi
    printf 'tsc: configuration refused: 2\n' > "$work/expected"
    check "the same with memory" 3 "$work/expected" /dev/null "$program" replay "$work/config.toml"
}

# Runs at the limits of the collector, with ample memory, of each policy at its bounds, and of configurations that are taken and refused:
# tests/limits.py, tests/policies.py, tests/configurations.py, tests/transcribed.py and tests/conditions_kept.py make them, with what must come out.
made_runs() {
    local name status
    while read -r name; do
        status=0
        [ ! -e "$work/$name.status" ] || status=$(cat "$work/$name.status")
        check "$name" "$status" "$work/$name.expected" "$work/$name.script" "$program" replay "$work/$name.toml"
    done < "$work/names"
}

# The tables of docs/CONFIGURATION.md and the example of every key, against the definition of the keys.
table_of_keys() {
    local wrong
    wrong=$(PYTHONDONTWRITEBYTECODE=1 "$top/tests/settings.py" 2>&1) || wrong=${wrong:-"tests/settings.py failed"}
    tell "the table of keys" "$wrong"
}

if [ $# -eq 0 ]; then
    (cd "$top/crates/collector_main" && rt run -- replay ../../examples/errors.toml < /dev/null > /dev/null) || give_up "the program isn't built"
    set -- "$top/crates/collector_main/out/collector_main"
fi
for runs in limits policies configurations transcribed conditions_kept; do
    PYTHONDONTWRITEBYTECODE=1 "$top/tests/$runs.py" "$work" >> "$work/names" || give_up "no $runs"
done
PYTHONDONTWRITEBYTECODE=1 "$top/tests/faulty.py" "$work" > "$work/faulty" || give_up "no faulty configurations"
PYTHONDONTWRITEBYTECODE=1 "$top/tests/shown.py" "$work" > "$work/shown" || give_up "no bodies"
for program in "$@"; do
    [ -x "$program" ] || give_up "$program is no program"
    program=$(realpath "$program")
    for group in examples rows cut_scripts cut_bodies unreadable_script long_lines script_lines usage texts validated shown refused_before_it_listens unreadable no_room no_memory table_of_keys made_runs; do
        ! is_wanted "$group" || "$group"
    done
done
echo "$passed passed, $failed failed"
[ "$failed" -eq 0 ]
