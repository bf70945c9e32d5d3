"""Checks of `tsc serve` at the edges of what it has: open files, lanes, connections in a row, traces, and how soon it accepts, hands over and ends."""

import os
import resource
import subprocess
import threading
import time

from collector import ALL, ERROR_SPAN, PATIENCE, Failure, body_of, post, spans_of, tried, until, want


def at_most(what, seconds, began):
    """Says where something took longer than it may. The bounds are twenty times what it takes, or more."""
    took = time.monotonic() - began
    if took > seconds:
        raise Failure(f"{what}: {took:.1f} s and not at most {seconds}")


def spans_by_number(first, count):
    """Spans of so many traces, one each, whose ids and numbers go up from the first."""
    return [{"traceId": f"{at + 1:032x}", "spanId": f"{at + 1:016x}"} for at in range(first, first + count)]


def side_by_side(work, arguments):
    """Runs the work on a thread for each argument, and tells what went wrong."""
    problems = []

    def guarded(argument):
        try:
            work(argument)
        except (Failure, OSError, ValueError, LookupError) as problem:
            problems.append(f"{problem}" if isinstance(problem, Failure) else repr(problem))

    threads = [threading.Thread(target=guarded, args=(it,), daemon=True) for it in arguments]
    for it in threads:
        it.start()
    for it in threads:
        it.join()
    want("what went wrong", problems, [])


def too_many_open_files(start):
    """With 24 open files thirty clients are more than it can have; once they are gone it serves as before."""
    collector = start("lanes = 16\n" + ALL, limits=[(resource.RLIMIT_NOFILE, 24)])
    clients = [collector.client() for _ in range(30)]
    time.sleep(0.5)  # (so that it meets the limit)
    for client in clients:
        client.close()
    for _ in range(5):
        want("the answer", collector.ask(post(body_of([ERROR_SPAN])))[::2], (200, "{}"))
    want("the report", collector.close()[1], [5, 5, 0, 0, 0, 0, 0, 0, 0])


def few_traces(start):
    """Two hundred traces where each of two shards keeps two: all but the last two of each are evicted, and counted so."""
    collector = start("lanes = 4\nshards = 2\nnum_traces = 4\ndecision_wait_ms = 3600000\n" + ALL)
    side_by_side(lambda at: want("the answer", collector.ask(post(body_of(spans_by_number(50 * at, 50))))[::2], (200, "{}")), range(4))
    lines, numbers = collector.close()
    want("the spans handed over", len(spans_of(lines)), 4)
    want("the report", numbers, [200, 4, 0, 0, 0, 196, 0, 0, 0])


def most_lanes_and_shards(start):
    """Sixty-four lanes, each with a client at work, and as many shards."""
    collector = start("lanes = 64\nshards = 64\nqueue_capacity = 64\nexport_capacity = 64\n" + ALL)
    clients = [collector.client() for _ in range(64)]

    def asks(at):
        clients[at].send(post(body_of(spans_by_number(10 * at, 10))))
        want("the answer", clients[at].answer()[::2], (200, "{}"))

    side_by_side(asks, range(64))
    for client in clients:
        client.close()
    lines, numbers = collector.close()
    want("the traces handed over", {it["traceId"] for it in spans_of(lines)}, {f"{at + 1:032x}" for at in range(640)})
    want("the report", numbers, [640, 640, 0, 0, 0, 0, 0, 0, 0])


def five_thousand_connections(start):
    """Five thousand connections of one request each, all by one lane."""
    collector = start("queue_capacity = 65536\nnum_traces = 10000\n" + ALL)

    def asks(at):
        for number in range(1250):
            answer = collector.ask(post(body_of(spans_by_number(1250 * at + number, 1))))
            want(f"the answer to request {number}", answer[::2], (200, "{}"))

    side_by_side(asks, range(4))
    want("the report", collector.close()[1], [5000, 5000, 0, 0, 0, 0, 0, 0, 0])


def two_closes(start):
    """A second `POST /close` changes nothing: it ends."""
    collector = start("lanes = 2\n" + ALL)
    first, second = collector.client(), collector.client()
    for client in (first, second):
        client.send(post(body_of([ERROR_SPAN])))
        want("the answer", client.answer()[::2], (200, "{}"))
    first.send(post(b"", "/close"))
    try:
        second.send(post(b"", "/close"))
        second.rest()
    except (ConnectionResetError, BrokenPipeError):
        pass  # (it came so late that the idle connection was ended already)
    want("the answer to the first close", first.answer()[::2], (200, "{}"))
    began = time.monotonic()
    want("the report", collector.end()[1], [2, 2, 0, 0, 0, 0, 0, 0, 0])
    at_most("the end", 40, began)


def ends_before_a_tick(start):
    """With a tick a minute it ends at the close, and not at the next tick."""
    collector = start("tick_ms = 60000\n" + ALL)
    want("the answer", collector.ask(post(body_of([ERROR_SPAN])))[::2], (200, "{}"))
    time.sleep(0.5)  # so that it sleeps already
    began = time.monotonic()
    want("the report", collector.close()[1], [1, 1, 0, 0, 0, 0, 0, 0, 0])
    at_most("the close", 40, began)


def accepts_soon(start):
    """A hundred connections, each made once the one before it is done, don't wait long for their lane, in one of three tries."""
    collector = start(ALL)

    def attempt():
        began = time.monotonic()
        for _ in range(100):
            want("the answer", collector.ask(post(body_of([ERROR_SPAN])))[::2], (200, "{}"))
        at_most("a hundred connections", 10, began)

    tried(3, attempt)
    collector.close()


def lines_in(path):
    with open(path, encoding="utf-8") as file:
        return file.read().count("\n")


def hands_over_soon(start):
    """Thirty traces, each sent once the one before it is in the output: queues don't let an item lie. There are three tries."""
    collector = start("decision_wait_ms = 1\ntick_ms = 1\n" + ALL)
    client = collector.client()

    def attempt():
        began = time.monotonic()
        for _ in range(30):
            hands_over(collector, client, lines_in(collector.printed))
        at_most("thirty traces", 15, began)

    tried(3, attempt)
    client.close()
    collector.close()


def hands_over(collector, client, number):
    """How long it takes until a trace with this number is in the output."""
    began = time.monotonic()
    client.send(post(body_of(spans_by_number(number, 1))))
    want("the answer", client.answer()[::2], (200, "{}"))
    return waits_for(collector.printed, number, began)


def waits_for(path, number, began):
    """How long it took since then until a file has more than so many lines."""
    while lines_in(path) <= number:
        at_most(f"line {number}", PATIENCE, began)
        time.sleep(0.001)
    return time.monotonic() - began


class Relay:
    """Three processes in a row that pass on what they are given, the last one to a file: what this machine takes to wake one after the other."""

    def __init__(self, path):
        self.path = path
        self.process = subprocess.Popen(["sh", "-c", 'cat | cat | cat > "$0"', path], stdin=subprocess.PIPE)
        until("the relay's file", lambda: os.path.exists(path))

    def passes(self, number):
        """How long a line takes."""
        began = time.monotonic()
        self.process.stdin.write(b"line\n")
        self.process.stdin.flush()
        return waits_for(self.path, number, began)

    def end(self):
        """Ends it."""
        self.process.stdin.close()
        self.process.wait(timeout=PATIENCE)


def five_soonest(collector, client, relay, first):
    """Of ten traces from a number on, each sent after a rest, how long the five that were in the output soonest took in all; and of ten lines of the
    relay."""
    waits, passed = [], []
    for number in range(first, first + 10):
        time.sleep(0.3)
        waits.append(hands_over(collector, client, number))
        passed.append(relay.passes(number))
    return sum(sorted(waits)[:5]), sum(sorted(passed)[:5])


def wakes_soon(start):
    """Ten traces, each sent after a rest in which the exporter falls asleep: what is pushed wakes it. The five soonest are in the output at once,
    within half a second in all, and eight times what the machine takes to pass on five lines through three processes (milliseconds, where nothing
    else runs), which a thread that sleeps 250 ms at an empty queue doesn't keep (docs/PLANTED.md). There are three tries."""
    collector = start("decision_wait_ms = 1\ntick_ms = 1\n" + ALL)
    client, relay, took = collector.client(), Relay(collector.printed + ".relay"), []
    try:
        while not took or took[-1][0] > 0.5 + 8 * took[-1][1]:
            if len(took) == 3:
                raise Failure(f"the five soonest of ten traces that came after a rest, and of ten lines of the relay, took {took} s")
            took.append(five_soonest(collector, client, relay, 10 * len(took)))
    finally:
        relay.end()
    client.close()
    collector.close()


def few_lines(start):
    """Five thousand spans that are handed over at the close come in batches, and not each in a line of its own, where the output's reader stands
    still at first (a pipe takes some hundred short lines meanwhile). A shard may be at work for longer on a slow machine: there are three tries."""
    rests = iter((2, 8, 30))
    tried(3, lambda: few_lines_behind(start, next(rests)))


def few_lines_behind(start, seconds):
    """The same, once, where the reader stands still for so long."""
    reader, writer = os.pipe()
    collector = start("send_batch_size = 512\nqueue_capacity = 8192\nexport_capacity = 8192\ndecision_wait_ms = 3600000\n" + ALL, output=writer)
    os.close(writer)
    for at in range(5):
        want("the answer", collector.ask(post(body_of(spans_by_number(1000 * at, 1000))))[::2], (200, "{}"))
    want("the answer to /close", collector.ask(post(b"", "/close"))[::2], (200, "{}"))
    time.sleep(seconds)
    with open(reader, encoding="utf-8") as file:
        lines = file.read().splitlines()
    collector.end()
    want("the report", lines[-9:-7], ["received 5000", "handed 5000"])
    want("the spans", len(spans_of(lines[:-9])), 5000)
    if not 10 <= len(lines) - 9 <= 2500:
        raise Failure(f"5000 spans in {len(lines) - 9} lines")


CHECKS = [too_many_open_files, few_traces, most_lanes_and_shards, five_thousand_connections, two_closes, ends_before_a_tick]
CHECKS += [accepts_soon, hands_over_soon, wakes_soon, few_lines]
