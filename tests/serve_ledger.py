#!/usr/bin/env python3
"""Checks of `tsc ledger` and of what is told of a ledger: what is in its folder, the script of what is pending, what `tsc validate` says, and the numbers of what was
received again.

    serve_ledger.py PROGRAM [NAME ..]      all checks, or these"""

import os
import subprocess
import sys
import tempfile
import time

from collector import ALL, ERROR_SPAN, PATIENCE, body_of, comes_to, free_port, post, run_checks, scrape, tried, until, want
from restarts import LONG, TAKEN, Lives, answered_by, events_of, of_id, records_of, spans_at
from serve_export import WAITS, Backend
from serve_restart import Waiting

NAMES = ["runs", "segments", "files", "cut_files", "bytes", "requests", "pending_requests", "pending_spans", "pending_traces", "oldest_pending_ms", "newest_pending_ms"]


def asked(start, *words, given=b""):
    """What the program answers to these words: its status, its output and what it says."""
    done = subprocess.run([start.program, *words], input=given, capture_output=True, timeout=PATIENCE, check=False)
    return done.returncode, done.stdout, done.stderr.decode()


def numbers_of(start, folder):
    """The numbers that are told of a folder, by their names."""
    status, output, said = asked(start, "ledger", folder)
    want("how it is told", (status, said), (0, ""))
    rows = [line.split(" ") for line in output.decode().splitlines()]
    want("the names", [name for name, _ in rows], NAMES)
    return {name: None if number == "none" else int(number) for name, number in rows}


def state_of(folder):
    """The files of a folder, each with its size and when it was changed."""
    return {it.name: (it.stat().st_size, it.stat().st_mtime_ns) for it in os.scandir(folder)}


def spans_printed(output):
    """The spans of the lines that a replay prints."""
    lines = [it for it in output.splitlines() if it.startswith(b"{") and b"resourceSpans" in it]
    return [span for _, span, _ in spans_at(enumerate(lines))]


def told_as_it_is(start):
    """Behind a kill the numbers are those of the files and of what waits; the script, replayed, prints each pending span once, as it was sent; `tsc validate` says what the
    next start receives again; and no file is changed by any of it."""
    with tempfile.TemporaryDirectory() as folder:
        began = int(time.time() * 1000)
        found = tried(3, lambda: Waiting(start, tempfile.mkdtemp(dir=folder)))
        ended, ledger, lives = int(time.time() * 1000), found.lives.ledger, found.lives
        before, numbers = state_of(ledger), numbers_of(start, ledger)
        names = [it for it in found.files if it != "lock"]
        waits = [spans for ends in found.by_file.values() for _, spans in ends if spans & found.waiting]
        senders = {it.number: it for it in lives.senders}
        wanted = {"runs": 1, "segments": len({it.split(".")[2] for it in names}), "files": len(names), "cut_files": 0}
        wanted["bytes"] = sum(before[it][0] for it in names)
        wanted.update(requests=sum(map(len, found.by_file.values())), pending_requests=len(waits), pending_spans=len(found.waiting))
        wanted["pending_traces"] = len({senders[connection].sent[place][0] for connection, place in found.waiting})
        want("the numbers", {name: numbers[name] for name in wanted}, wanted)
        moments = [began, numbers["oldest_pending_ms"], numbers["newest_pending_ms"], ended]
        want(f"whether {moments} are in order", moments, sorted(moments))
        config = os.path.join(folder, "config.toml")
        with open(config, "w", encoding="utf-8") as file:
            file.write(TAKEN + LONG + ALL + f'[ledger]\npath = "{ledger}"\n')
        status, script, said = asked(start, "ledger", ledger, "--script")
        want("how the script is told", (status, said, {it.split(b" ")[0] for it in script.splitlines()}), (0, "", {b"recv"}))
        status, output, said = asked(start, "replay", config, given=script)
        want("how it is replayed", (status, said), (0, ""))
        spans = spans_printed(output)
        want("whether each is there once", sorted(of_id(it["spanId"]) for it in spans) == sorted(found.waiting), True)
        for span in spans:
            connection, place = of_id(span["spanId"])
            want("a span", span, senders[connection].span(place))
        line = "tsc: the next start receives again, from {}: {pending_requests} requests, {pending_spans} spans, {pending_traces} traces\n".format(ledger, **wanted)
        want("what is said of the configuration", asked(start, "validate", config), (0, b"ok\n", line))
        want("whether nothing was changed", state_of(ledger), before)


def told_while_it_runs(start):
    """The folder of a collector that runs is told, and the collector goes on; and so is one of a second run, which has taken again all that the first one left. What was cut
    is told as cut."""
    with tempfile.TemporaryDirectory() as folder:
        lives = Lives(start, folder, TAKEN + "lanes = 2\n" + ALL)
        collector, began = lives.begin(LONG), time.monotonic()
        for it in lives.sends(collector, 2, requests=5, pause=0):
            it.join()
        want("the spans that wait", numbers_of(start, lives.ledger)["pending_spans"], len(answered_by(lives.senders)))
        want("whether it runs", collector.ask(post(body_of([])))[0], 200)
        lives.kill(collector, [(began, 0)], True)
        first = set(os.listdir(lives.ledger))
        collector = lives.begin(LONG)
        lives.restored(collector)
        for it in lives.sends(collector, 2, requests=5, pause=0):
            it.join()
        lives.kill(collector, [(began, 0)], True)
        want("whether the first run's files went", first & set(os.listdir(lives.ledger)), {"lock"})
        numbers = numbers_of(start, lives.ledger)
        want("the spans of both that wait", (numbers["runs"], numbers["pending_spans"]), (1, len(answered_by(lives.senders))))
        newest = max((os.path.join(lives.ledger, it) for it in os.listdir(lives.ledger) if it.startswith("requests.")), key=os.path.getsize)
        last = records_of(newest)[-1][0]
        with open(newest, "r+b") as file:
            file.truncate(last - 1)
        cut = numbers_of(start, lives.ledger)
        want("what is told of a torn end", (cut["cut_files"], cut["requests"], cut["bytes"]), (1, numbers["requests"] - 1, numbers["bytes"] - 1))


def refused_by_name(start):
    """A folder that is missing, is a file, or may not be read is refused: nothing is printed, and it is said why. One that holds nothing has no numbers, and its script is
    empty; other words are wrong ones."""
    with tempfile.TemporaryDirectory() as folder:
        missing, file_there, config = (os.path.join(folder, it) for it in ("missing", "file", "config.toml"))
        with open(file_there, "w", encoding="utf-8") as file:
            file.write("x")
        for path, why in [(missing, "does not exist"), ("", "does not exist"), (file_there, "is not a directory"), (os.path.join(file_there, "x"), "is not a directory")]:
            for words in ([path], [path, "--script"]):
                want(f"what is told of {path}", asked(start, "ledger", *words), (4, b"", f"tsc: ledger refused: {path}: {why}\n"))
        empty = os.path.join(folder, "empty")
        os.mkdir(empty)
        want("the numbers of an empty one", set(numbers_of(start, empty).values()), {0, None})
        want("its script", asked(start, "ledger", empty, "--script"), (0, b"", ""))
        want("what is in it", os.listdir(empty), [])
        for words in (["ledger"], ["ledger", empty, "--json"], ["ledger", empty, "--script", "x"]):
            want(f"what {words} ask for", asked(start, *words)[0], 2)
        for path, said in [(missing, ""), (empty, ""), (file_there, f"tsc: ledger refused: {file_there}: is not a directory\n")]:
            with open(config, "w", encoding="utf-8") as file:
                file.write(ALL + f'[ledger]\npath = "{path}"\n')
            want(f"what is said of a configuration with {path}", asked(start, "validate", config), (0, b"ok\n", said))


def numbers_agree_with_the_log(start):
    """A trace of which a span was handed over and a later one wasn't, as the backend is away: it comes again whole, and the log and the numbers say so. Without a ledger
    nothing is told of one."""
    metrics = free_port()
    with tempfile.TemporaryDirectory() as folder:
        backend = Backend()
        lives = Lives(start, folder, TAKEN + "lanes = 2\nsend_batch_size = 1\n" + f'metrics = "127.0.0.1:{metrics}"\n' + ALL)
        tables = backend.settings(WAITS)
        collector = lives.begin("decision_wait_ms = 100\ntick_ms = 50\n", tables=tables)
        want("the answer", collector.ask(post(body_of([ERROR_SPAN])))[0], 200)
        until("a span is handed over", lambda: backend.taken)
        time.sleep(0.5)
        backend.script += [[b"HTTP/1.1 503 Service Unavailable\r\nContent-Length: 0\r\n\r\n"]] * 1000
        want("the answer", collector.ask(post(body_of([{**ERROR_SPAN, "spanId": "00000000000000ff"}, {**ERROR_SPAN, "traceId": "0000000000000000000000000000abcd"}])))[0], 200)
        time.sleep(0.5)
        lives.kill(collector, [(time.monotonic(), 0)], True)
        numbers = numbers_of(start, lives.ledger)
        want("what is pending", [numbers[it] for it in ("pending_requests", "pending_spans", "pending_traces")], [2, 3, 2])
        backend.script.clear()
        collector = lives.begin(LONG, tables=tables)
        want("the spans that are taken again", lives.restored(collector), 3)
        (event,) = events_of(collector, "ledger_restored")
        want("what is said of it", [event[it] for it in ("requests", "spans", "traces", "handed_again")], [2, 3, 2, 1])
        want(f"whether {event['took_ms']} milliseconds may be", 0 <= event["took_ms"] < 60_000, True)
        comes_to("the numbers", lambda: [scrape(metrics)[f"tsc_spans_{it}_total"] for it in ("restored", "handed_again")], [3, 1])
        want("what isn't handed over", lives.close(collector)[2:], [0] * 7)
        collector = start(f'metrics = "127.0.0.1:{metrics}"\n' + ALL)
        want("what is told without a ledger", [it for it in scrape(metrics) if "restored" in it or "again" in it], [])
        collector.close()


CHECKS = [told_as_it_is, told_while_it_runs, refused_by_name, numbers_agree_with_the_log]


def main():
    """Makes the checks, or those that are named."""
    program, *names = sys.argv[1:]
    if strangers := set(names) - {it.__name__ for it in CHECKS}:
        sys.exit(f"serve_ledger.py: no check {', '.join(sorted(strangers))}\n0 passed, 1 failed")
    run_checks([program], [it for it in CHECKS if not names or it.__name__ in names])


if __name__ == "__main__":
    main()
