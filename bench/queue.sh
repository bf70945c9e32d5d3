#!/usr/bin/env bash
# Times numbers through one sender and one receiver, beside upstream's `crossbeam-queue` in plain Rust (bench/queue), each three times in turn:
# bench/queue.sh [ITEMS [CAPACITY]]. It prints items in a second, the instructions of one push and one pop in one thread by valgrind, and what a
# thread that waits ten seconds at an empty queue takes of a processor; then spans in a second through a shard's worker. It is no part of the gate.
# The programs must be built: bench/program.sh queue_speed, and worker_speed. Upstream's sources are Debian's: apt-get install
# librust-crossbeam-queue-dev librust-crossbeam-utils-dev.
set -eu
cd "$(dirname "$0")"
items=${1:-5000000}
capacity=${2:-1024}
work=$(mktemp -d)
trap 'rm -rf "$work"' EXIT
(cd queue && cargo build --quiet --release --offline --target-dir "$work/target")
program=$PWD/out/queue_speed
upstream=$work/target/release/queue
echo "load of the machine, over 1, 5 and 15 minutes: $(cut -d' ' -f1-3 /proc/loadavg), on $(nproc) processors"
python3 - "$program" "$upstream" "$items" "$capacity" <<'PYTHON'
import resource, subprocess, sys, time
items, capacity = int(sys.argv[3]), sys.argv[4]
programs = {"queue_speed": sys.argv[1], "crossbeam-queue": sys.argv[2]}

def measure(program, *arguments):
    before = resource.getrusage(resource.RUSAGE_CHILDREN)
    began = time.monotonic()
    subprocess.run([program, *arguments], stdout=subprocess.DEVNULL, check=True)
    took = time.monotonic() - began
    after = resource.getrusage(resource.RUSAGE_CHILDREN)
    return took, after.ru_utime + after.ru_stime - before.ru_utime - before.ru_stime

for mode, what in (("yield", "two threads, that spin and yield"), ("sleep", "two threads, that may sleep as well"), ("alone", "one thread")):
    rounds = {name: [] for name in programs}
    for _ in range(3):
        for name, program in programs.items():
            rounds[name].append(measure(program, mode, str(items), capacity))
    for name, took in rounds.items():
        speeds = ", ".join(f"{items / seconds / 1e6:.2f}" for seconds, _ in took)
        used = min(cpu for _, cpu in took) / items * 1e9
        print(f"{what}, capacity {capacity}: {name}: {speeds} million items a second; at best {used:.0f} ns of processor time an item")
for name, program in programs.items():
    took, cpu = measure(program, "idle", "10", capacity)
    print(f"idle: {name}: {cpu * 1e3:.0f} ms of processor time in {took:.2f} s ({cpu / took * 100:.2f} % of a processor)")
PYTHON
# The instructions of a run in one thread over so many items.
instructions() {
    valgrind --tool=callgrind --callgrind-out-file="$work/callgrind" "$1" alone "$2" "$capacity" 2>&1 | awk '/Collected/ { print $4 }'
}
# Those of 200,000 items less those of none.
instructions_each() {
    echo "one push and one pop in one thread: $1: $((($(instructions "$2" 200000) - $(instructions "$2" 0)) / 200000)) instructions"
}
instructions_each queue_speed "$program"
instructions_each crossbeam-queue "$upstream"
python3 - "$PWD/out/worker_speed" <<'PYTHON'
import subprocess, sys, time
speeds = []
for _ in range(3):
    began = time.monotonic()
    spans = int(subprocess.run([sys.argv[1], "1000"], capture_output=True, check=True).stdout.split()[0])
    speeds.append(spans / (time.monotonic() - began))
print("a shard's worker, in one thread: " + ", ".join(f"{speed:.0f}" for speed in speeds) + " spans a second")
PYTHON
