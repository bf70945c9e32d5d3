#!/usr/bin/env bash
# Times `tsc replay` on generated scripts: bench/run.sh [SPANS ..]. Prints spans in a second and the peak of memory. Each script of so many
# spans is run as collector.toml says, and then with a root wait beside; last come a million traces alive at once, of two spans and then of a
# single small one each (alive.toml), or as many as ALIVE says. First it prints what a waiting span takes, as a multiple of its JSON.
# It is no part of the gate. The program must be built: (cd crates/collector_main && rt run -- serve). PROGRAM names another one.
set -eu
cd "$(dirname "$0")"
program=${PROGRAM:-../crates/collector_main/out/collector_main}
work=$(mktemp -d)
trap 'rm -rf "$work"' EXIT

# Times one run: what it is, its configuration, and how many spans its script has.
measure() {
    python3 - "$program" "$work" "$@" <<'PYTHON'
import os, resource, subprocess, sys, time
program, work, name, config, spans = sys.argv[1], sys.argv[2], sys.argv[3], sys.argv[4], int(sys.argv[5])
size = os.path.getsize(work + "/script")
took = []
for _ in range(3):
    with open(work + "/script") as script, open(work + "/out", "w") as out:
        began = time.monotonic()
        subprocess.run([program, "replay", config], stdin=script, stdout=out, check=True)
        took.append(time.monotonic() - began)
used = resource.getrusage(resource.RUSAGE_CHILDREN)
best = min(took)
print(f"{name}: {spans} spans, {size / 1e6:.1f} MB: {best:.2f} s, {spans / best:.0f} spans a second, {size / best / 1e6:.1f} MB a second, user time {used.ru_utime / 3:.2f} s, peak {used.ru_maxrss / 1024:.0f} MiB")
with open(work + "/out") as out:
    print("  " + ", ".join(line.strip() for line in out.readlines()[-9:]))
PYTHON
}

# Prints what a span that waits takes for each byte of its line: the peak where 50,000 wait less the peak where 10,000 do. None is kept.
waiting() {
    ./generate.py 10000 --errors 0 > "$work/few"
    ./generate.py 50000 --errors 0 > "$work/many"
    python3 - "$program" "$work" <<'PYTHON'
import os, resource, subprocess, sys
program, work = sys.argv[1], sys.argv[2]
peaks, sizes = [], []
for name in ("few", "many"):
    with open(f"{work}/{name}") as script:
        subprocess.run([program, "replay", "alive.toml"], stdin=script, stdout=subprocess.DEVNULL, check=True)
    peaks.append(resource.getrusage(resource.RUSAGE_CHILDREN).ru_maxrss * 1024)
    sizes.append(os.path.getsize(f"{work}/{name}"))
print(f"a waiting span: {(peaks[1] - peaks[0]) / (sizes[1] - sizes[0]):.2f} times its JSON")
PYTHON
}

waiting
sed 's/^decision_wait_ms = .*/&\nroot_wait_ms = 2000/' collector.toml > "$work/root_wait.toml"
for spans in "${@:-20000 200000}"; do
    for n in $spans; do
        ./generate.py "$n" > "$work/script"
        measure "without root wait" collector.toml "$n"
        measure "a root wait of 2 s" "$work/root_wait.toml" "$n"
    done
done
alive=${ALIVE:-1000000}
./generate.py alive "$alive" > "$work/script"
measure "all traces alive at once" alive.toml $((2 * alive))
./generate.py single "$alive" > "$work/script"
measure "traces of a single small span, all alive" alive.toml "$alive"
