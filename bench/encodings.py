#!/usr/bin/env python3
"""Counts the instructions of `tsc serve` for a span by the encoding that it comes and goes in, by valgrind: encodings.py PROGRAM [SPANS]

Each request has 100 spans of bench/generate.py, sent by one client over one connection to one lane and one shard; about 5 % of the traces are kept, and
then all. A run with SPANS (10,000 unless said) and one with twice as many are compared, so what starts and ends the program doesn't count; what its
threads do while they wait does. Beside the whole it tells what `http_lane`'s `submit` took: from the bytes of a body to its spans in the queue. No part of the
gate; the program must be the proved one, since one of `rt try` checks as it runs."""

import http.client
import json
import re
import socket
import subprocess
import sys
import tempfile
import time
from pathlib import Path

HERE = Path(__file__).resolve().parent
sys.path.insert(0, str(HERE.parent / "tests"))
from protobuf_body import request_of  # noqa: E402

MEDIA = {"json": "application/json", "protobuf": "application/x-protobuf"}
SETTINGS = "lanes = 1\nshards = 1\nqueue_capacity = 65536\nexport_capacity = 65536\nnum_traces = 1000000\naccept_protobuf = true\n"


def requests(spans):
    """The requests of a script of so many spans, as JSON."""
    script = subprocess.run([HERE / "generate.py", str(spans), "--errors", "0.0093"], capture_output=True, text=True, check=True).stdout
    return [line.split(" ", 3)[3] for line in script.splitlines() if line.startswith("recv ")]


def connected(port):
    """Connects, once the collector listens."""
    for _ in range(600):
        try:
            connection = http.client.HTTPConnection("127.0.0.1", port, timeout=600)
            connection.connect()
            return connection
        except OSError:
            time.sleep(0.1)
    raise OSError("the collector doesn't listen")


def counted(program, policies, encoding, bodies):
    """Sends the bodies to a collector below valgrind, and returns all instructions, those of `submit`, and how many spans were handed over."""
    with tempfile.TemporaryDirectory() as folder:
        settings, counts = Path(folder) / "serve.toml", Path(folder) / "counts"
        with socket.socket() as probe:
            probe.bind(("127.0.0.1", 0))
            port = probe.getsockname()[1]
        settings.write_text(f'listen = "127.0.0.1:{port}"\n{SETTINGS}{policies}', "utf-8")
        words = ["valgrind", "--tool=callgrind", f"--callgrind-out-file={counts}", program, "serve", settings]
        with open(Path(folder) / "printed", "w+b") as printed, open(Path(folder) / "said", "w+b") as said:
            collector = subprocess.Popen(words, stdout=printed, stderr=said)
            connection = connected(port)
            for body in bodies:
                connection.request("POST", "/v1/traces", body, {"Content-Type": MEDIA[encoding]})
                answer = connection.getresponse()
                assert answer.status == 200, (answer.status, answer.read())
                answer.read()
            connection.request("POST", "/close")
            connection.getresponse().read()
            assert collector.wait(600) == 0
            handed = re.search(rb"(?m)^handed (\d+)$", Path(printed.name).read_bytes())
        told = subprocess.run(["callgrind_annotate", "--inclusive=yes", "--threshold=100", counts], capture_output=True, text=True, check=True).stdout
    whole = re.search(r"([\d,]+) \(100\.0%\)\s+PROGRAM TOTALS", told)
    submitted = re.search(r"([\d,]+) \(.*http_lane::serving::submit\b", told)
    return int(whole[1].replace(",", "")), int(submitted[1].replace(",", "")), int(handed[1])


def main():
    """Prints a line for each encoding and each share that is kept."""
    program, spans = sys.argv[1], int(sys.argv[2]) if len(sys.argv) > 2 else 10_000
    made = [requests(spans), requests(2 * spans)]
    for name in ("errors.toml", "all.toml"):
        policies = (HERE / name).read_text("utf-8")
        for encoding in MEDIA:
            runs = []
            for texts in made:
                bodies = [it.encode() if encoding == "json" else request_of(json.loads(it)) for it in texts]
                runs.append((*counted(program, policies, encoding, bodies), sum(map(len, bodies))))
            whole, submitted, handed, size = ((after - before) / spans for before, after in zip(*runs))
            print(f"{name} {encoding}: {whole:.0f} instructions a span, of which {submitted:.0f} from a body's bytes to the queue; {size:.0f} bytes each, {handed * 100:.1f} % kept", flush=True)


if __name__ == "__main__":
    main()
