#!/usr/bin/env python3
"""Checks of `tsc serve` with a ledger of requests: it is killed, its files are cut or turned, its disk is full, and what was answered 200 is handed over.

    serve_restart.py PROGRAM [NAME ..]      in full, all checks or these: a quarter of an hour

serve.py makes the same checks in small, over a few kills and a share of the places."""

import collections
import concurrent.futures
import os
import random
import shutil
import subprocess
import sys
import tempfile
import threading
import time

from collector import ALL, ERROR_SPAN, PATIENCE, Failure, body_of, comes_to, free_port, post, run_checks, scrape, tried, until, want
from restarts import LANES, LONG, SHORT, TAKEN, Lives, answered_by, compared, events_of, life_at, life_of, of_id, records_of, spans_at, spans_in, told
from serve_export import WAITS, Backend
from serve_faults import library_of
from serve_memory import NONE
from serve_output import SmallDisk
from serve_record import files_of

# How much is done: kills, kills with errors, each so many-th place of a cut, places of a turned byte, seconds of light load (or until a segment goes), each so
# many-th sync at which the machine crashes.
Extent = collections.namedtuple("Extent", "kills errors every turned seconds crashes")
IN_SMALL, IN_FULL = Extent(4, 2, 257, 12, 0, 13), Extent(200, 20, 1, 1000, 40, 1)
EXTENT = IN_SMALL
SYNCS = ['sync = "none"\n', 'sync = "interval"\nsync_interval_ms = 50\n', 'sync = "request"\n']


def plan(kills):
    """Of each life that is to be killed: its waits, lanes and shards, when it syncs, and for how long clients send. The first waits for longer than it lives."""
    luck = random.Random(kills)
    lives = [(LONG, SYNCS[0], 0.6), (SHORT, SYNCS[1], 0.9), (LONG, SYNCS[2], 0.1), (SHORT, SYNCS[0], 1.2)]
    while len(lives) < kills:
        seconds = luck.uniform(0, 0.2) if luck.random() < 0.25 else luck.uniform(0.2, 1.5)
        lives.append((luck.choice([SHORT, LONG]), luck.choice(SYNCS), seconds))
    return [(f"{waits}lanes = {luck.randrange(1, 5)}\nshards = {luck.randrange(1, 4)}\n", sync, seconds) for waits, sync, seconds in lives[:kills]]


def nothing_answered_is_lost(start):
    """Four clients send requests of each form; the collector is killed, and begun again on the same ledger and the same output, with other waits, lanes and shards,
    again and again. Each span that was answered 200 is in the output at the end, in order; and then nothing is pending."""
    with tempfile.TemporaryDirectory() as folder:
        lives = Lives(start, folder, TAKEN + ALL)
        for settings, sync, seconds in plan(EXTENT.kills):
            lives.killed(lives.begin(settings, sync), seconds)
        pending = answered_by(lives.senders) - {of_id(span["spanId"]) for _, span, _ in spans_at(lives.printed())}
        collector = lives.begin(SHORT + LANES)
        lives.sends(collector)
        restored = lives.restored(collector)
        want(f"whether {restored} spans, as many as are pending or more, are taken again", restored >= len(pending) > 0, True)
        numbers = lives.close(collector)
        sent_now = sum(len(it.sent) for it in lives.senders if life_of(it.number) == len(lives.lives))
        want("whether what is received is what is sent and taken again", numbers[0] <= sent_now + restored, True)
        want("what isn't handed over", numbers[2:], [0] * 7)
        told("nothing_answered_is_lost", lives, compared(lives, lives.printed()))
        is_over(lives)


def is_over(lives):
    """A collector that is begun behind an orderly close finds nothing pending."""
    lines = len(lives.printed())
    want("the report of a life behind the close", lives.begin(SHORT).close()[1], [0] * 9)
    want("the lines behind it", len(lives.printed()), lines)


def closed_before_all_is_taken(start):
    """Collectors that are closed as soon as they listen, while they take again what a killed one left: what they haven't taken is pending for the next. At the end each
    span is handed over, and each once, since none was killed with anything under way."""
    with tempfile.TemporaryDirectory() as folder:
        lives = Lives(start, folder, TAKEN + LANES + ALL)
        collector, began = lives.begin(LONG), time.monotonic()
        for it in lives.sends(collector, requests=12 if EXTENT is IN_SMALL else 200, pause=0):
            it.join()
        lives.kill(collector, [(began, 0)], True)
        want("whether something was handed over before the kill", lives.position(), 0)
        for _ in range(3):
            lives.close(lives.begin(LONG))
        collector = lives.begin(LONG)
        lives.restored(collector)
        lives.close(collector)
        found = compared(lives, lives.printed())
        told("closed_before_all_is_taken", lives, found)
        want("the most times that a span is handed over", max(map(len, found.values())), 1)
        is_over(lives)


def refused_ones_stay(start):
    """Requests in protobuf that the next configuration doesn't take: the others are taken again, and these stay until a configuration takes them; each once."""
    with tempfile.TemporaryDirectory() as folder:
        lives = Lives(start, folder, LANES + ALL)
        collector, began = lives.begin(TAKEN + LONG), time.monotonic()
        for it in lives.sends(collector, requests=10, pause=0):
            it.join()
        lives.kill(collector, [(began, 0)], True)
        collector = lives.begin(TAKEN.replace("accept_protobuf = true\n", "") + LONG)
        until("that a part is taken again is said", lambda: events_of(collector, "ledger_restored_in_part"))
        numbers, answered = lives.close(collector), len(answered_by(lives.senders))
        want("whether a part was received", (0 < numbers[0] < answered, numbers[2:]), (True, [0] * 7))
        collector = lives.begin(TAKEN + LONG)
        want("the spans that are taken again", lives.restored(collector), answered - numbers[0])
        lives.close(collector)
        found = compared(lives, lives.printed(), in_order=False)
        want("the most times that a span is handed over", max(map(len, found.values())), 1)
        is_over(lives)


def traces_at_once(sender, luck):
    """A request of one new trace, of 1 to 6 spans, or of 1 to 3 late spans of one that was sent thirty requests before. Of each three traces one has errors
    alone, one has one error, in its first request, and one has none."""
    firsts = {}
    for place, (trace, _) in enumerate(sender.sent):
        firsts.setdefault(trace, place)
    if len(firsts) > 30 and luck.random() < 0.4:
        trace = list(firsts)[luck.randrange(len(firsts) - 30)]
        return [(trace, trace % 3 == 0)] * luck.randrange(1, 4)
    trace = sender.number * 10000 + len(firsts)
    count = luck.randrange(1, 7)
    return [(trace, trace % 3 == 0 or (trace % 3 == 1 and place == count // 2)) for place in range(count)]


def errors_and_late_spans(start):
    """Traces with errors, late spans, remembered decisions and a limiter, over kills. Each span with an error that was answered 200 is in the output; so is each span
    of a trace with an error in its first request, but for one whose trace was handed over without it by a life that was killed before it had taken all
    again: that one is decided anew, without the others."""
    policies = 'policies = [{ name = "errors", type = "status_code", status_code = { status_codes = ["ERROR"] } }, '
    policies += '{ name = "some", type = "rate_limiting", rate_limiting = { spans_per_second = 100 } }]\n'
    caches = "[decision_cache]\nsampled_cache_size = 10000\nnon_sampled_cache_size = 10000\n"
    with tempfile.TemporaryDirectory() as folder:
        lives = Lives(start, folder, TAKEN + LANES + policies, traces_at_once)
        for number in range(EXTENT.errors):
            waits = LONG if number % 3 == 2 else SHORT
            lives.killed(lives.begin(waits, tables=caches), 1 if EXTENT is IN_SMALL else 2.5)
        collector = lives.begin(SHORT, tables=caches)
        lives.sends(collector)
        lives.restored(collector)
        time.sleep(1)
        # (That the report adds up is seen where the collector is closed.)
        lives.close(collector)
        found = compared(lives, lives.printed(), policies_keep_all=False)
        told("errors_and_late_spans", lives, found)
        anew = [it for sender in lives.senders for it in missing_errors(lives, sender, found)]
        print(f"errors_and_late_spans: {len(anew)} spans were decided anew, without an error", flush=True)


def missing_errors(lives, sender, found):
    """The spans that a sender was answered 200, of a trace with an error in its first request, that aren't there. Each may be missing."""
    first_of, errors, handed = {}, set(), collections.defaultdict(set)
    for first, count, _ in sender.answered:
        for place in range(first, first + count):
            trace, is_error = sender.sent[place]
            if first_of.setdefault(trace, first) == first and is_error:
                errors.add(trace)
            for at in found.get((sender.number, place), []):
                handed[trace].add(life_at(lives, at))
    missing = [it for _, it in sorted(answered_by([sender])) if sender.sent[it][0] in errors and (sender.number, it) not in found]
    for place in missing:
        trace, is_error = sender.sent[place]
        want(f"whether the missing span {place} of {sender.number} has an error", is_error, False)
        begun = {it for it in range(life_of(sender.number) + 1, len(lives.lives)) if not lives.lives[it].is_restored}
        want(f"whether the trace of the missing span {place} of {sender.number} was handed over in a life that hadn't taken all again", bool(handed[trace] & begun), True)
    return missing


def into_short_queues(start):
    """What is pending is taken again whole where queues are so short that some spans of each request find no room, also with `queue_full = "partial"`: nobody would
    learn of it."""
    with tempfile.TemporaryDirectory() as folder:
        lives = Lives(start, folder, LANES + ALL)
        collector, began = lives.begin(TAKEN + LONG), time.monotonic()
        for it in lives.sends(collector, requests=12, pause=0):
            it.join()
        lives.kill(collector, [(began, 0)], True)
        short = TAKEN.replace('queue_full = "retry"\nqueue_capacity = 16384', 'queue_full = "partial"\nqueue_capacity = 2')
        collector = lives.begin(short + LONG)
        want("the spans that are taken again", lives.restored(collector), len(answered_by(lives.senders)))
        want("the report", lives.close(collector), [len(answered_by(lives.senders))] * 2 + [0] * 7)
        compared(lives, lives.printed())


def counted_ones_are_over(start):
    """Spans that were counted, since their traces weren't sampled or left a full buffer, or since they came late or have no valid ids: behind a kill none is received
    again."""
    metrics, caches = free_port(), "[decision_cache]\nsampled_cache_size = 10000\nnon_sampled_cache_size = 10000\n"
    with tempfile.TemporaryDirectory() as folder:
        lives = Lives(start, folder, TAKEN.replace("200000", "100") + f'metrics = "127.0.0.1:{metrics}"\n' + LANES + SHORT + NONE)
        collector = lives.begin("", tables=caches)
        for it in lives.sends(collector, requests=40):
            it.join()
        spans = [{"traceId": f"{number:032x}", "spanId": f"{number:016x}"} for number in range(1, 301)]
        want("the answer", collector.ask(post(body_of(spans + [{"traceId": "x", "spanId": "y"}])))[0], 200)
        comes_to("the spans that wait", lambda: scrape(metrics)["tsc_spans_waiting"], 0)
        numbers = scrape(metrics)
        counted = [numbers[f'tsc_spans_dropped_total{{reason="{it}"}}'] for it in ("invalid_id", "evicted", "not_sampled", "late_not_sampled")]
        want(f"whether some were counted under each reason: {counted}", (counted[0], min(counted) > 0, sum(counted)), (1, True, len(answered_by(lives.senders)) + 301))
        time.sleep(0.5)
        lives.kill(collector, [(time.monotonic(), 0)], True)
        collector = lives.begin("", tables=caches)
        lives.restored(collector)
        want("the report behind the kill", lives.close(collector), [0] * 9)


def segments_of(ledger):
    """The segments of which there are requests, each as the numbers of its run and its own, the oldest first."""
    if not os.path.exists(ledger):
        return []
    return sorted({tuple(map(int, it.split(".")[1:3])) for it in os.listdir(ledger) if it.startswith("requests.")})


def bytes_in(folder):
    """The bytes of all files of a folder."""
    total = 0
    for it in os.listdir(folder):
        try:
            total += os.path.getsize(os.path.join(folder, it))
        except FileNotFoundError:
            pass  # (it went meanwhile)
    return total


def segments_go(start):
    """Under a light load with short waits a segment goes soon after its ten seconds, so that the folder stays as small as it was. Then it is killed and
    begun again, and behind the close no requests are left."""
    with tempfile.TemporaryDirectory() as folder:
        lives = Lives(start, folder, TAKEN + "lanes = 2\n" + ALL)
        collector, began, sizes = lives.begin(SHORT), time.monotonic(), []
        lives.sends(collector, 2, pause=0.1)
        until("a file of requests", lambda: segments_of(lives.ledger))
        first = segments_of(lives.ledger)[0]
        while time.monotonic() < began + EXTENT.seconds or first in segments_of(lives.ledger):
            sizes.append(bytes_in(lives.ledger))
            if time.monotonic() > began + EXTENT.seconds + PATIENCE:
                raise Failure(f"the first segment is still there: {sorted(os.listdir(lives.ledger))}")
            time.sleep(0.1)
        if EXTENT is IN_FULL:
            half, sent = len(sizes) // 2, sum(it.bytes for it in lives.senders)
            want(f"whether the greatest sizes {max(sizes[:half])} and {max(sizes[half:])} are alike", max(sizes[half:]) < 1.5 * max(sizes[:half]), True)
            print(f"segments_go: {sent} bytes were sent, and the folder had {max(sizes)} at most", flush=True)
        lives.killed(collector, 0.6, clients=0)
        collector = lives.begin(SHORT)
        lives.restored(collector)
        want("what isn't handed over", lives.close(collector)[2:], [0] * 7)
        want("the segments behind the close", segments_of(lives.ledger), [])
        compared(lives, lives.printed())


def refuses(collector, lives, refusals=20):
    """Sends by one client after the other until requests were refused so often. (A connection ends where a request can't be kept.)"""
    refused, end = 0, time.monotonic() + PATIENCE
    while refused < refusals and time.monotonic() < end:
        (sender,) = lives.sends(collector, 1, pause=0.001)
        while sender.is_alive() and refused + sender.refused < refusals and time.monotonic() < end:
            time.sleep(0.01)
        lives.joined()
        refused += sender.refused
    want(f"whether {refused} requests were refused, {refusals} at least", refused >= refusals, True)


def full_ledger_answers_busy(start):
    """Where the ledger has as much as it may have, requests are answered 503, and that is said; what was answered 200 is handed over, also where the collector is
    killed then and begun again."""
    with tempfile.TemporaryDirectory() as folder:
        lives = Lives(start, folder, TAKEN + "lanes = 2\n" + ALL)
        collector = lives.begin(LONG, "max_mib = 1\n")
        refuses(collector, lives)
        want(f"whether {bytes_in(lives.ledger)} bytes are about a mebibyte", 900_000 < bytes_in(lives.ledger) < 1_300_000, True)
        until("that it is full is said", lambda: events_of(collector, "ledger_full"))
        lives.kill(collector, [(time.monotonic(), 0)], True)
        collector = lives.begin(LONG, "max_mib = 2\n")
        want("the spans that are taken again", lives.restored(collector), len(answered_by(lives.senders)))
        numbers = lives.close(collector)
        want("the report", numbers, [len(answered_by(lives.senders))] * 2 + [0] * 7)
        compared(lives, lives.printed())
        if EXTENT is IN_FULL:
            has_room_again(lives)


def has_room_again(lives):
    """A ledger that was full has room once its segments go; and what is left behind a kill is taken again with no more room, as segments go."""
    waits = "decision_wait_ms = 3000\ntick_ms = 50\n"
    collector = lives.begin(waits, "max_mib = 1\n")
    refuses(collector, lives)
    until("that there is room is said", lambda: events_of(collector, "ledger_has_room"))
    (sender,) = lives.sends(collector, 1)
    until("requests are taken again", lambda: sender.answered or sender.problem)
    refuses(collector, lives)
    lives.killed(collector, 0.6, clients=0)
    collector = lives.begin(waits, "max_mib = 1\n")
    until("what was pending is taken again", lambda: events_of(collector, "ledger_restored"))
    want("what isn't handed over", lives.close(collector)[2:], [0] * 7)
    compared(lives, lives.printed())


def fill(disk, left):
    """Fills a disk but for so many bytes, and gives the path of what fills it."""
    path = os.path.join(disk, "filler")
    room = os.statvfs(disk)
    with open(path, "wb") as file:
        file.write(bytes(max(0, room.f_bavail * room.f_frsize - left)))
    return path


def full_disk(start):
    """A disk that is full, then has room for a while, and is full again; then the collector is killed, and begun with more room. What was answered 200 is handed
    over, also what came between."""
    with SmallDisk(2048) as disk, tempfile.TemporaryDirectory() as folder:
        lives = Lives(start, folder, TAKEN + "lanes = 2\n" + ALL)
        lives.ledger = os.path.join(disk, "ledger")
        collector = lives.begin(LONG)
        filler = fill(disk, 100_000)
        refuses(collector, lives, 10)
        until("that it fails is said", lambda: events_of(collector, "ledger_fails"))
        os.remove(filler)
        until("that it is back is said", lambda: events_of(collector, "ledger_is_back"))
        (sender,) = lives.sends(collector, 1, requests=40)
        until("requests are taken again", lambda: len(sender.answered) > 20 or sender.problem)
        sender.join()
        fill(disk, 60_000)
        refuses(collector, lives, 10)
        lives.kill(collector, [(time.monotonic(), 0)], True)
        subprocess.run(["mount", "-o", "remount,size=16m", disk], check=True)
        collector = lives.begin(LONG)
        lives.restored(collector)
        want("what isn't handed over", lives.close(collector)[2:], [0] * 7)
        compared(lives, lives.printed())


def own_traces(sender, luck):
    """A request of 1 to 8 spans over ten traces of its own."""
    return [(1000 * sender.number + luck.randrange(10), False) for _ in range(luck.randrange(1, 9))]


class Waiting:
    """A ledger of a life that was killed with some spans handed over and others waiting, and copies of it. `waiting` are those that wait."""

    def __init__(self, start, folder):
        self.start, self.folder, self.lives = start, folder, Lives(start, folder, TAKEN + "lanes = 2\nshards = 2\nsend_batch_size = 8\n" + ALL, own_traces)
        collector = self.lives.begin("decision_wait_ms = 1200\ntick_ms = 50\n")
        for it in self.lives.sends(collector, requests=12, pause=0):
            it.join()
        handed = answered_by(self.lives.senders)
        comes_to("how many are handed over first", lambda: len(self.printed()), len(handed))
        time.sleep(0.7)
        began = time.monotonic()
        for it in self.lives.sends(collector, requests=12, pause=0):
            it.join()
        took = time.monotonic() - began
        self.lives.kill(collector, [(began, 0)], True)
        want(f"whether all was sent within the wait ({took:.2f} s), and nothing of it was handed over", (took < 1, self.printed() == handed), (True, True))
        self.waiting = answered_by(self.lives.senders) - handed
        self.files = sorted(os.listdir(self.lives.ledger))
        self.paths = [os.path.join(self.lives.ledger, it) for it in self.files]
        self.by_file = {it: self.ends_of(it) for it in self.files if it.startswith("requests.")}
        written = set().union(*[spans for ends in self.by_file.values() for _, spans in ends])
        want("whether its files have the spans that were answered", written == answered_by(self.lives.senders), True)

    def printed(self):
        """The spans that are in the output."""
        return {of_id(span["spanId"]) for _, span, _ in spans_at(self.lives.printed())}

    def ends_of(self, name):
        """Where the records of a file end, and the spans of each."""
        return [(end, spans_in(payload)) for end, payload in records_of(os.path.join(self.lives.ledger, name))]

    def before(self, name, place):
        """The spans that wait and whose record isn't behind this place of this file."""
        ends = [(other, end, spans) for other, found in self.by_file.items() for end, spans in found]
        return self.waiting & set().union(*[spans for other, end, spans in ends if other != name or end <= place])

    def tried_with(self, name, change, wanted):
        """Starts on a copy of which a file is changed (`tried_on`)."""
        return self.tried_on(lambda it, data: change(data) if it == name else data, wanted)

    def tried_on(self, change, wanted):
        """Starts on a copy of which files are changed, waits until it has taken again what is pending, if anything is wanted, and closes. Gives the spans of the lines,
        or nothing where it refuses the folder by name; and whether it said that the end of a file wasn't read."""
        with tempfile.TemporaryDirectory(dir=self.folder) as folder:
            copy = os.path.join(folder, "ledger")
            shutil.copytree(self.lives.ledger, copy)
            for name in self.files:
                path = os.path.join(copy, name)
                with open(path, "rb") as file:
                    data = bytearray(file.read())
                with open(path, "wb") as file:
                    file.write(change(name, data))
            settings = TAKEN + 'log = "json"\nlanes = 2\nshards = 2\n' + LONG + ALL + f'[ledger]\npath = "{copy}"\n'
            try:
                collector = self.start(settings)
            except Failure as why:
                want(f"whether {why} is a named refusal", '"cannot_write"' in str(why) and "status 1" in str(why), True)
                return None, True
            if wanted:
                until("what was pending is taken again", lambda: events_of(collector, "ledger_restored"))
            lines, numbers = collector.close()
            is_cut = bool(events_of(collector, "ledger_cut"))
            collector.stop()
            self.start.started.remove(collector)
        want("what isn't handed over", numbers[2:], [0] * 7)
        return list(spans_at(enumerate(lines))), is_cut

    def are_right(self, what, spans, wanted):
        """Whether spans are as they were sent, and these are among them."""
        senders, found = {it.number: it for it in self.lives.senders}, set()
        for _, span, _ in spans:
            connection, place = of_id(span["spanId"])
            want(f"{what}: whether a span was sent", connection in senders and place < len(senders[connection].sent), True)
            want(f"{what}: a span", span, senders[connection].span(place))
            found.add((connection, place))
        missing = sorted(wanted - found)
        want(f"{what}: how many are missing, such as {missing[:3]}", len(missing), 0)

    def all_at_once(self, attempts):
        """Makes attempts, eight at once, and tells the first that fails."""
        with concurrent.futures.ThreadPoolExecutor(8) as pool:
            made = [pool.submit(it) for it in attempts]
            try:
                return [it.result() for it in concurrent.futures.as_completed(made)]
            finally:
                for it in made:
                    it.cancel()


class Crashing(Waiting):
    """A ledger that syncs each request before it is answered, of a life in which nothing was handed over, and what was synced when."""

    def __init__(self, start, folder):
        library, path = library_of("synced_sizes", folder), os.path.join(folder, "syncs")
        self.start, self.folder = start, folder
        surroundings = {"LD_PRELOAD": library, "SYNCS": path}
        self.lives = Lives(lambda settings: start(settings, surroundings=surroundings), folder, TAKEN + "lanes = 2\nshards = 2\n" + ALL, own_traces)
        collector, began = self.lives.begin(LONG, 'sync = "request"\n'), time.monotonic()
        for it in self.lives.sends(collector, requests=20, pause=0):
            it.join()
        self.lives.kill(collector, [(began, 0)], True)
        self.files = sorted(it for it in os.listdir(self.lives.ledger) if it != "lock")
        with open(path, encoding="utf-8") as file:
            lines = [line.rstrip("\n").split(" ", 2) for line in file]
        # Of each sync its moment in seconds, and how much of which file is safe from then on.
        self.syncs = [(int(moment) / 1e9, os.path.basename(name), int(size)) for moment, size, name in lines]

    def synced(self, count):
        """How many bytes of each file are safe behind so many syncs."""
        sizes = dict.fromkeys(self.files, 0)
        for _, name, size in self.syncs[:count]:
            if name in sizes:
                sizes[name] = max(sizes[name], size)
        return sizes

    def answered_before(self, count):
        """The spans of the requests that were answered before the sync behind so many."""
        moment = self.syncs[count][0] if count < len(self.syncs) else float("inf")
        return {(it.number, first + at) for it in self.lives.senders for first, spans, then in it.answered if then < moment for at in range(spans)}


def behind_the_synced(luck, data, size):
    """A file of which so much was synced, as a crash of the machine may leave it: with nothing behind that, with zeros, with a piece of what was written then, or with
    a later piece where an earlier one is missing."""
    rest = data[size:]
    piece = rest[: luck.randrange(len(rest) + 1)]
    hole = bytes(min(len(rest), 7))
    return data[:size] + luck.choice([b"", bytes(luck.randrange(1, 5000)), piece, hole + rest[len(hole) :]])


def machine_crashes(start):
    """A machine that crashes at each sync of a life that syncs each request: of each file there is what was synced until then, and behind it nothing, or what a crash
    may leave. What was answered 200 before is received again, and nothing wrong."""
    with tempfile.TemporaryDirectory() as folder:
        ledger = Crashing(start, folder)
        # Requests of a round share one, so they are fewer than requests.
        want(f"whether {len(ledger.syncs)} syncs are some", len(ledger.syncs) >= 20 and sum(len(it.answered) for it in ledger.lives.senders) > 0, True)

        def attempt(count):
            luck, sizes, wanted = random.Random(count), ledger.synced(count), ledger.answered_before(count)
            spans, _ = ledger.tried_on(lambda name, data: behind_the_synced(luck, data, sizes[name]), wanted)
            want(f"a crash behind {count} syncs: whether the folder is taken", spans is not None, True)
            ledger.are_right(f"a crash behind {count} syncs", spans, wanted)
            return len(wanted)

        counts = range(0, len(ledger.syncs) + 1, EXTENT.crashes)
        answered = ledger.all_at_once([lambda count=count: attempt(count) for count in counts])
        print(f"machine_crashes: {len(counts)} of {len(ledger.syncs) + 1} places, with 0 to {max(answered)} spans answered before", flush=True)


def cut_at_every_byte(start):
    """The newest file of requests is cut at each of its last 4096 bytes: the records before the cut are taken again, and nothing wrong. Uncut, just what waited
    is handed over, each once."""
    with tempfile.TemporaryDirectory() as folder:
        ledger = tried(3, lambda: Waiting(start, tempfile.mkdtemp(dir=folder)))
        newest = max(ledger.by_file, key=lambda it: os.stat(os.path.join(ledger.lives.ledger, it)).st_mtime_ns)
        size = os.path.getsize(os.path.join(ledger.lives.ledger, newest))
        ends = {end for end, _ in ledger.by_file[newest]} | {0}

        def attempt(at):
            wanted = ledger.before(newest, at)
            spans, is_cut = ledger.tried_with(newest, lambda data: data[:at], wanted)
            if spans is not None:
                ledger.are_right(f"{newest} of {size} bytes cut at {at}", spans, wanted)
                want(f"{newest} cut at {at}: whether it is said", is_cut, at not in ends)
            if at == size:
                want("whether the uncut one gives just what waited, each once", sorted(of_id(span["spanId"]) for _, span, _ in spans) == sorted(ledger.waiting), True)
            return spans is None

        places = [size, *range(max(0, size - 4096), size, EXTENT.every)]
        refused = ledger.all_at_once([lambda at=at: attempt(at) for at in places])
        print(f"cut_at_every_byte: {len(places)} cuts, {sum(refused)} of them refused", flush=True)


def one_byte_turned(start):
    """A byte of a file is turned: the records before it are taken again, and nothing wrong; that the end of a file wasn't read is said."""
    with tempfile.TemporaryDirectory() as folder:
        ledger = tried(3, lambda: Waiting(start, tempfile.mkdtemp(dir=folder)))
        sizes = {it: os.path.getsize(os.path.join(ledger.lives.ledger, it)) for it in ledger.files}

        def attempt(number):
            luck = random.Random(number)
            name = luck.choice([it for it in ledger.files if sizes[it]])
            at, turn = luck.randrange(sizes[name]), luck.randrange(1, 256)
            wanted = ledger.before(name, at)
            spans, is_cut = ledger.tried_with(name, lambda data: data[:at] + bytes([data[at] ^ turn]) + data[at + 1 :], wanted)
            if spans is not None:
                ledger.are_right(f"{name} with the byte {at} turned by {turn}", spans, wanted)
                want(f"{name} with the byte {at} turned by {turn}: whether it is said", is_cut, True)
            return spans is None

        refused = ledger.all_at_once([lambda number=number: attempt(number) for number in range(EXTENT.turned)])
        print(f"one_byte_turned: {len(refused)} bytes, {sum(refused)} of them refused", flush=True)


def syncs_as_it_is_told(start):
    """By `sync` no file is synced, or some in each interval, or each request's before it is answered. A request whose sync fails isn't answered 200; once syncs succeed
    again, others are."""
    with tempfile.TemporaryDirectory() as folder:
        library = library_of("counted_syncs", folder)
        for number, sync in enumerate(['sync = "none"\n', 'sync = "interval"\nsync_interval_ms = 100\n', 'sync = "request"\n']):
            path = os.path.join(folder, f"syncs{number}")
            settings = ALL + f'[ledger]\npath = "{folder}/ledger{number}"\n' + sync
            collector, counts = start(settings, surroundings={"LD_PRELOAD": library, "SYNCS": path}), []
            for _ in range(20):
                want("the answer", collector.ask(post(body_of([ERROR_SPAN])))[0], 200)
                counts.append(bytes_at(path))
            if number == 1:
                until("twenty syncs", lambda at=path: bytes_at(at) >= 20)
            if number == 2:
                want("whether each request was synced", all(count > at for at, count in enumerate(counts)), True)
                fails_where_syncs_fail(collector, path + ".fails")
            want("whether any was synced", bytes_at(path) > 0, number > 0)
            collector.close()


def shared_syncs(start):
    """Requests that come over many connections of a lane while it syncs share the next sync, each behind it; where that one fails none is answered 200."""
    with tempfile.TemporaryDirectory() as folder:
        path = os.path.join(folder, "syncs")
        settings = ALL + f'lanes = 1\n[ledger]\npath = "{folder}/ledger"\nsync = "request"\n'
        collector = start(settings, surroundings={"LD_PRELOAD": library_of("counted_syncs", folder), "SYNCS": path, "SYNC_MS": "150"})
        clients = [collector.client() for _ in range(32)]
        for client in clients:
            # Their connections are taken, one or a few in a round.
            client.send(post(body_of([ERROR_SPAN])))
        want("the first answers", [client.answer()[0] for client in clients], [200] * 32)
        for fails in (False, True):
            if fails:
                with open(path + ".fails", "w", encoding="utf-8"):
                    pass
            before = bytes_at(path)
            for client in clients:
                client.send(post(body_of([ERROR_SPAN])))
            if fails:
                want("answers 200 where syncs fail", [status for status in map(status_or_end, clients) if status == 200], [])
            else:
                want("the answers", [client.answer()[0] for client in clients], [200] * 32)
                syncs = bytes_at(path) - before
                want(f"whether {syncs} syncs are some that were shared", 0 < syncs <= 16, True)
        os.remove(path + ".fails")
        until("requests are answered again", lambda: is_taken(collector))
        collector.close()


def status_or_end(client):
    """The status of a client's answer, or None if its connection ended without one."""
    try:
        return client.answer()[0]
    except (Failure, OSError):
        return None


def fails_where_syncs_fail(collector, fails):
    """While syncs fail no request is answered 200: its connection ends, or it is answered 503."""
    with open(fails, "w", encoding="utf-8"):
        pass
    for _ in range(5):
        try:
            want("the answer where a sync fails", collector.ask(post(body_of([ERROR_SPAN])))[0], 503)
        except (Failure, OSError) as why:
            want(f"whether {why} is an end of the connection", "ended behind b''" in str(why) or isinstance(why, OSError), True)
    os.remove(fails)
    until("requests are answered again", lambda: is_taken(collector))


def is_taken(collector):
    """Whether a request is answered 200."""
    try:
        return collector.ask(post(body_of([ERROR_SPAN])))[0] == 200
    except (Failure, OSError):
        return False


def bytes_at(path):
    """The bytes of a file, or 0 where there is none."""
    return os.path.getsize(path) if os.path.exists(path) else 0


def no_ledger_no_folder(start):
    """Without a ledger, and with an empty path, no file is open and none is made."""
    for table in ("", '[ledger]\npath = ""\n'):
        collector = start(ALL + table)
        want("the answer", collector.ask(post(body_of([ERROR_SPAN])))[0], 200)
        want("its files", files_of(collector), set())
        want("the files beside its own", sorted(os.listdir(collector.folder.name)), ["config.toml", "printed", "said"])
        collector.close()


def ledger_cannot_be_made(start):
    """A folder that can't be made, is a file, or is another collector's is named, and the program ends at once."""
    with tempfile.TemporaryDirectory() as folder:
        config, file_there = os.path.join(folder, "config.toml"), os.path.join(folder, "file")
        with open(file_there, "w", encoding="utf-8") as file:
            file.write("x")
        shared = os.path.join(folder, "shared")
        start(ALL + f'[ledger]\npath = "{shared}"\n')
        for path in (os.path.join(file_there, "ledger"), file_there, shared):
            with open(config, "w", encoding="utf-8") as file:
                file.write(f'listen = "127.0.0.1:{free_port()}"\n' + ALL + f'[ledger]\npath = "{path}"\n')
            done = subprocess.run([start.program, "serve", config], stdin=subprocess.DEVNULL, capture_output=True, timeout=PATIENCE, check=False)
            want("the end", (done.returncode, done.stdout), (1, b"tsc: cannot write\n"))
            last = done.stderr.decode().splitlines()[-1]
            want(f"what {last!r} says", ("cannot_write" in last, path in last), (True, True))


def over_a_backend(start):
    """The same as the first with a backend, which is away in the first two lives: what was kept waits over them, and what was answered 200 arrives."""
    with tempfile.TemporaryDirectory() as folder:
        backend = Backend(listens=False)
        lives = Lives(start, folder, TAKEN + LANES + ALL)
        lives.position = lambda: len(backend.taken)
        tables = backend.settings(WAITS)
        for number, seconds in enumerate((0.9, 0.5, 1.1, 0.7)):
            if number == 2:
                backend.listen()
            lives.killed(lives.begin(SHORT, SYNCS[number % 3], tables), seconds)
        collector = lives.begin(SHORT, tables=tables)
        lives.sends(collector)
        lives.restored(collector)
        want("what isn't handed over", lives.close(collector)[2:], [0] * 7)
        told("over_a_backend", lives, compared(lives, list(enumerate(backend.taken, 1))))


CHECKS = [nothing_answered_is_lost, closed_before_all_is_taken, refused_ones_stay, into_short_queues, counted_ones_are_over, errors_and_late_spans, segments_go, full_ledger_answers_busy, full_disk, cut_at_every_byte, one_byte_turned, machine_crashes]
CHECKS += [syncs_as_it_is_told, shared_syncs, no_ledger_no_folder, ledger_cannot_be_made, over_a_backend]


def main():
    """Makes the checks in full, or those that are named."""
    global EXTENT
    EXTENT = IN_FULL
    program, *names = sys.argv[1:]
    if strangers := set(names) - {it.__name__ for it in CHECKS}:
        sys.exit(f"serve_restart.py: no check {', '.join(sorted(strangers))}\n0 passed, 1 failed")
    run_checks([program], [it for it in CHECKS if not names or it.__name__ in names])


if __name__ == "__main__":
    main()
