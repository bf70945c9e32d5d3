#!/usr/bin/env python3
"""Runs a program or a test once for each request for memory that it makes, and refuses that request (refuse.c; it needs a C compiler).

usage: refused.py [--crates FOLDER] [--sample N] exchanges | readings | protobuf | replays | sends | CRATE[/WORD] ..

- exchanges: those of `http_table` that say `starves`. Each run must find that whole answers were written and that the counts are those of the answered
  requests, or end with status 1 and print nothing, where the table itself was refused its memory (109 of 219 do; more than seven in ten may not).
- readings: the table of `reading_table`. A body for which memory is refused is read again, so each run must print that no body is read otherwise, with
  status 1, or 0 where a list that gives up its spare room was refused that; or end with status 1 and print nothing, where the table itself was refused
  its memory (one in twenty at most, or three).
- protobuf: the bodies of `protobuf_table`, in the same way. No answer changes: with status 1, or 0 where a list keeps spare room; or it ends with status 1
  and prints nothing, where its input was refused its memory (one in twenty at most, or three).
- replays: the program, on a script of two requests of one connection, by errors.toml and by expression.toml. A request for which memory is refused is
  answered 503 and takes no number, so that the other one is answered 200 and its span is handed over, or counted for want of memory; each span that was
  received is in one of the other counts. Or the program ends with status 5, or 3 and fault 8, before anything was read.
- sends: the program with `[export]`, over four lines of which one is tried twice, one is cut off and one is given up; refused are the requests of the thread
  that sends, behind its first connection. Each span is counted, and those that are counted as handed over are what the backend took, but for one at most that it
  took though its answer couldn't be read, and then refused; or the program ends with status 1 and prints nothing, where the spans of a line that was given up couldn't be counted for want of memory.
- CRATE: its tests, or those with WORD in their name. Each must answer as ever or end by the refusal.

--sample N refuses N requests, spread evenly, in place of each. The programs must be built: rt run in http_table, reading_table, protobuf_table and collector_main, rt test in CRATE;
--crates says where (the repository's crates). The last line is 'N passed, M failed': of refusals."""
import argparse
import os
import re
import subprocess
import sys
import tempfile
import time
from pathlib import Path

HERE = Path(__file__).resolve().parent
sys.path.insert(0, str(HERE.parent))
import collector
import serve_export


class Runs:
    """Runs a command with one request for memory refused, and counts what passed and what failed."""

    def __init__(self, work, sample):
        self.work, self.library, self.sample, self.passed, self.failed = work, f"{work}/refuse.so", sample, 0, 0
        self.given = ""  # on standard input

    def run(self, words, folder, **more):
        """Returns the status, what was printed, and what was said on standard error."""
        env = {**os.environ, "LD_PRELOAD": self.library, **more}
        done = subprocess.run(words, cwd=folder, env=env, input=self.given, capture_output=True, text=True, errors="replace", timeout=600)
        return done.returncode, done.stdout, done.stderr

    def numbers(self, words, folder):
        """Returns the numbers of the requests that are refused, of a command that makes so many."""
        said = self.run(words, folder, COUNT_ALLOCATIONS="1")[2]
        count = int(re.findall(r"(?m)^allocations (\d+)$", said)[-1])
        return range(1, count + 1) if not self.sample else sorted({1 + count * at // self.sample for at in range(self.sample)})

    def each(self, name, words, folder, is_well, share=1.0):
        """Refuses each request in turn. `is_well` takes the status, what was printed and what was said. Of those runs no more than this share, or
        three, may end with status 1 and print nothing."""
        refused = silent = 0
        for number in self.numbers(words, folder):
            found = self.run(words, folder, REFUSED_ALLOCATION=str(number))
            was_refused = "allocation refused\n" in found[2]
            refused += was_refused
            silent += was_refused and found[:2] == (1, "")
            good = bool(is_well(*found)) if was_refused else found[0] == 0
            self.passed, self.failed = self.passed + good, self.failed + (not good)
            if not good:
                print(f"{name}, request {number}: status {found[0]}: {(found[1] + found[2])[-200:]!r}")
        if not refused:
            self.failed += 1
            print(f"{name}: no request was refused")
        if silent > max(3, share * refused):
            self.failed += 1
            print(f"{name}: {silent} of {refused} runs in which a request was refused print nothing")


def exchanges(runs, crates):
    words, folder = [f"{crates}/http_table/out/http_table", "refused"], f"{crates}/http_table/data"
    expected = runs.run(words, folder)[1]
    runs.each("exchanges", words, folder, lambda status, printed, _: (status, printed) in ((0, expected), (1, "")), 0.7)


def readings(runs, crates):
    words, folder = [f"{crates}/reading_table/out/reading_table"], f"{crates}/reading_table/data"
    expected = Path(f"{crates}/reading_table/stdout").read_text("utf-8").split("\n")[0] + "\n"
    runs.each("readings", words, folder, lambda status, printed, _: (status, printed) in ((0, expected), (1, expected), (1, "")), 0.05)


def protobuf(runs, crates):
    folder = f"{crates}/protobuf_table"
    runs.given, expected = (Path(f"{folder}/{it}").read_text("utf-8") for it in ("stdin", "stdout"))
    words = [f"{folder}/out/protobuf_table"]
    runs.each("protobuf", words, folder, lambda status, printed, _: (status, printed) in ((0, expected), (1, expected), (1, "")), 0.05)
    runs.given = ""


def replays(runs, crates):
    span = '{"resourceSpans":[{"scopeSpans":[{"spans":[{"traceId":"5b8efff798038103d269b633813fc60c","spanId":"eee19b7ec3c1b174","attributes":[{"key":"k","value":{"stringValue":"aab"}}],"status":{"code":2}}]}]}]}'
    counts = re.compile("received (\\d+)\nhanded (\\d+)\n" + "".join(f"dropped {reason} (\\d+)\n" for reason in range(1, 8)))

    def is_well(status, printed, _):
        if status in (3, 5):
            return printed == {3: "tsc: configuration refused: 8\n", 5: "tsc: no memory\n"}[status]
        replies = re.findall(r"(?m)^reply (\d+) (.*)$", printed)
        report = [int(it) for found in counts.findall(printed) for it in found]
        taken = [it for it in replies if it == ("200", "{}")]
        busy = [it for it in replies if it[0] == "503"]
        lines = len(re.findall('"traceId"', printed))
        return (
            status == 0 and len(replies) == 2 and len(taken) + len(busy) == 2 and len(busy) <= 1
            and len(report) == 9 and report[0] == len(taken) == sum(report[1:]) and report[1] == lines and report[1] + report[4] == len(taken)
        )

    runs.given = f"recv 1 1000 {span}\nrecv 1 1001 {span}\ntick 11000\n"
    for name, config in (("replays", HERE.parent.parent / "examples/errors.toml"), ("replays by an expression", HERE / "expression.toml")):
        runs.each(name, [f"{crates}/collector_main/out/collector_main", "replay", config], crates, is_well)
    runs.given = ""


def send_lines(runs, program, **more):
    """A run of four lines of a span each, however late they are. Returns the status, what was printed, what was said on standard error, and how many spans
    the backend took."""
    ok = [serve_export.OK]
    backend = serve_export.Backend([ok, [serve_export.answer(503)], ok, 10, ok, [serve_export.answer(400)]])
    surroundings = {"LD_PRELOAD": runs.library, "SENDER_ALONE": "1", **more}
    with open(f"{runs.work}/printed", "w+", encoding="utf-8") as printed:
        ran = collector.Collector(program, serve_export.FAST + "send_batch_size = 1\n" + collector.ALL + backend.settings(serve_export.SHORT), output=printed, surroundings=surroundings)
        try:
            for number, requests in enumerate((1, 3, 4, 5)):
                serve_export.send(ran, number)
                ended = time.time() + 0.5
                while len(backend.requests) < requests and time.time() < ended:
                    time.sleep(0.005)
            ran.ask(collector.post(b"", "/close"))
            status = ran.process.wait(timeout=collector.PATIENCE)
            printed.seek(0)
            return status, printed.read(), ran.says(), len({it for body in backend.taken for it in serve_export.ids_in(body)})
        finally:
            ran.stop()
            backend.listener.close()


def sends(runs, crates):
    program = f"{crates}/collector_main/out/collector_main"
    count = int(re.findall(r"(?m)^allocations (\d+)$", send_lines(runs, program, COUNT_ALLOCATIONS="1")[2])[-1])
    refused = 0
    for number in range(1, count + 1) if not runs.sample else sorted({1 + count * at // runs.sample for at in range(runs.sample)}):
        status, printed, said, taken = send_lines(runs, program, REFUSED_ALLOCATION=str(number))
        was_refused = "allocation refused\n" in said
        refused += was_refused
        report = [int(it) for it in re.findall(r"(?m)^(?:received|handed|dropped \d) (\d+)$", printed)]
        is_counted = status == 0 and len(report) == 9 and report[0] == 4 == sum(report[1:]) and 0 <= taken - report[1] <= 1
        good = is_counted or (was_refused and (status, printed) == (1, ""))
        runs.passed, runs.failed = runs.passed + good, runs.failed + (not good)
        if not good:
            print(f"sends, request {number}: status {status}, {taken} taken: {(printed + said)[-200:]!r}")
    if not refused:
        runs.failed += 1
        print("sends: no request was refused")


def tests(runs, crates, named):
    crate, _, word = named.partition("/")
    program = f"{crates}/{crate}/out/{crate}_tests"
    listed = subprocess.run([program, "--list"], capture_output=True, text=True).stdout
    names = [it for it in re.findall(r"(?m)^(\S+): test$", listed) if word in it]
    for name in names:
        runs.each(f"{crate} {name}", [program, name], crates, lambda status, printed, said: status == 0 or re.search(r"(?m)^error: Alloc(Error|Failed)", printed + said))
    runs.failed += not names


def main():
    words = argparse.ArgumentParser(usage=__doc__.split("\n\n")[1].replace("usage: ", ""))
    words.add_argument("--crates", default=f"{HERE.parent.parent}/crates")
    words.add_argument("--sample", type=int, default=0)
    words.add_argument("names", nargs="+")
    words = words.parse_args()
    crates = os.path.abspath(words.crates)
    with tempfile.TemporaryDirectory() as work:
        subprocess.run(["cc", "-shared", "-fPIC", "-O1", "-o", f"{work}/refuse.so", HERE / "refuse.c", "-ldl"], check=True)
        runs = Runs(work, words.sample)
        for name in words.names:
            {"exchanges": exchanges, "readings": readings, "protobuf": protobuf, "replays": replays, "sends": sends}.get(name, lambda *given: tests(*given, name))(runs, crates)
    print(f"{runs.passed} passed, {runs.failed} failed")
    return 1 if runs.failed or not runs.passed else 0


if __name__ == "__main__":
    raise SystemExit(main())
