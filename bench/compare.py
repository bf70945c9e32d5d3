#!/usr/bin/env python3
"""Times `tsc compare` over a long script beside the two replays that it stands for, and holds its numbers against their lines: compare.py PROGRAM
[SPANS [SCRIPT]]

The script has SPANS (10,000,000 unless said) small spans, 100 a request over eight connections, of traces of 3 to 8 spans that are spread over some seconds, so
that a few come late; a hundredth of the traces have an error. Both configurations are written here. Of each run it tells the time by the clock, of a
processor, and the most memory; then how many times that of both replays the comparison took, and whether kept spans, traces and bytes are those of the lines.
The script takes some 180 bytes a span: in SCRIPT, where it is made unless it is there, or else in a folder for the time being. No part of the gate; the program must be the proved one."""
import json
import os
import random
import subprocess
import sys
import tempfile
import time
from pathlib import Path

OLD = """
decision_wait_ms = 10000
num_traces = 1000000
[decision_cache]
sampled_cache_size = 100000
non_sampled_cache_size = 100000
[[policies]]
name = "errors"
type = "status_code"
status_code = { status_codes = ["ERROR"] }
[[policies]]
name = "slow"
type = "latency"
latency = { threshold_ms = 5000 }
"""
NEW = OLD.replace("threshold_ms = 5000", "threshold_ms = 4000") + """
[[policies]]
name = "some"
type = "probabilistic"
probabilistic = { sampling_percentage = 1 }
"""
SERVICES = ["checkout", "cart", "payment", "shipping", "catalog", "frontend"]
START = 1_700_000_000_000
EVERY = 20


def traces_of(random_):
    """Traces without end, each as its id, whether it fails, and how many spans are to come."""
    while True:
        yield [f"{random_.getrandbits(128) | 1:032x}", random_.random() < 0.01, random_.randrange(3, 9)]


def write_script(path, spans):
    """Writes the script."""
    random_, number = random.Random(71), 0
    fresh, alive = traces_of(random_), []
    with path.open("w", encoding="utf-8") as out:
        for place in range(spans // 100):
            moment = START + place * EVERY
            made = []
            for _ in range(100):
                while len(alive) < 2000:
                    alive.append(next(fresh))
                at = random_.randrange(len(alive))
                trace = alive[at]
                trace[2] -= 1
                if trace[2] == 0:
                    alive[at] = alive[-1]
                    alive.pop()
                number += 1
                took = int(random_.expovariate(1 / 200)) * 1_000_000
                begin = moment * 1_000_000
                status = ',"status":{"code":2}' if trace[1] and trace[2] == 0 else ""
                made.append(f'{{"traceId":"{trace[0]}","spanId":"{number:016x}","name":"GET /cart","startTimeUnixNano":"{begin}","endTimeUnixNano":"{begin + took}"{status}}}')
            service = SERVICES[place % len(SERVICES)]
            out.write(f'recv {place % 8} {moment} {{"resourceSpans":[{{"resource":{{"attributes":[{{"key":"service.name","value":{{"stringValue":"{service}"}}}}]}},"scopeSpans":[{{"spans":[{",".join(made)}]}}]}}]}}\n')
            if place % 50 == 0:
                out.write(f"tick {moment}\n")
        out.write("close\n")


def run(arguments, script, output):
    """Runs the program over the script, and returns the time by the clock, of a processor, and the most memory in MiB."""
    began = time.monotonic()
    with script.open("rb") as given, output.open("wb") as taken:
        process = subprocess.Popen(arguments, stdin=given, stdout=taken)
        _, status, used = os.wait4(process.pid, 0)
    assert status == 0, (arguments, status)
    return time.monotonic() - began, used.ru_utime + used.ru_stime, used.ru_maxrss / 1024


def kept_in(output):
    """Returns the spans and the traces of the lines that a replay printed."""
    spans, traces = 0, set()
    with output.open(encoding="utf-8") as lines:
        for line in lines:
            if line.startswith("{"):
                for resource in json.loads(line)["resourceSpans"]:
                    for scope in resource["scopeSpans"]:
                        spans += len(scope["spans"])
                        traces.update(it["traceId"] for it in scope["spans"])
    return spans, traces


def main():
    """Makes the script, runs all three, and tells what came of it."""
    program, spans = sys.argv[1], int(sys.argv[2]) if len(sys.argv) > 2 else 10_000_000
    with tempfile.TemporaryDirectory(dir=os.environ.get("TMPDIR")) as folder:
        script = Path(sys.argv[3]) if len(sys.argv) > 3 else Path(folder) / "script.txt"
        if not script.exists():
            write_script(script, spans)
        print(f"{spans} spans, {script.stat().st_size / 2**20:.0f} MiB", flush=True)
        paths, took, kept = [], [], []
        for name, text in (("old", OLD), ("new", NEW)):
            path = Path(folder) / f"{name}.toml"
            path.write_text(text, "utf-8")
            paths.append(str(path))
            output = Path(folder) / "output.txt"
            took.append(run([program, "replay", str(path)], script, output))
            kept.append(kept_in(output))
            print(f"replay by the {name} one: {took[-1][0]:.1f} s by the clock, {took[-1][1]:.1f} of a processor, at most {took[-1][2]:.0f} MiB", flush=True)
        output = Path(folder) / "compared.json"
        clock, processor, memory = run([program, "compare", *paths, "--json"], script, output)
        print(f"comparison: {clock:.1f} s by the clock, {processor:.1f} of a processor, at most {memory:.0f} MiB", flush=True)
        print(f"{processor / (took[0][1] + took[1][1]):.2f} times both replays by the processor, {clock / (took[0][0] + took[1][0]):.2f} by the clock")
        told = json.loads(output.read_text("utf-8"))
        both = kept[0][1] & kept[1][1]
        expected = {"both": len(both), "only_old": len(kept[0][1] - both), "only_new": len(kept[1][1] - both)}
        for name, (count, _) in zip(("old", "new"), kept):
            assert told[name]["kept"]["spans"] == count, (name, told[name]["kept"], count)
        for name, count in expected.items():
            assert told["traces"][name] == count, (name, told["traces"], count)
        print(f"the numbers are those of the lines: {told['old']['kept']['spans']} and {told['new']['kept']['spans']} spans, traces {told['traces']}")


if __name__ == "__main__":
    main()
