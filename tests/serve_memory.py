"""Checks of `tsc serve` with `memory_limit_mib`: floods of one trace and of many, and what is taken again behind them."""

import resource
import threading
import time

from collector import ALL, Failure, body_of, post, until, want
from serve_limits import side_by_side

LIMIT = 200
MOST = 300
SPANS = 500
NONE = 'policies = [{ name = "none", type = "latency", latency = { threshold_ms = 60000 } }]\n'


def flood_span(trace_id, span_id):
    """A span of about a kilobyte."""
    attributes = [{"key": f"http.request.header.x-{i:02}", "value": {"stringValue": "abcdefghij" * 4}} for i in range(8)]
    return {"traceId": trace_id, "spanId": span_id, "name": "GET /orders", "attributes": attributes}


# A request in which the ids are to be filled in.
FORM = body_of([flood_span("%032x", "%016x")] * SPANS)


def flood_request(trace_of, first):
    """A request of the spans from a number on."""
    return post(FORM % tuple(it + 1 for i in range(first, first + SPANS) for it in (trace_of(i), i)))


def mebibytes(collector):
    """What the process takes, and the most that it took."""
    with open(f"/proc/{collector.process.pid}/status", encoding="utf-8") as file:
        rows = dict(line.split(":", 1) for line in file)
    return int(rows["VmRSS"].split()[0]) >> 10, int(rows["VmHWM"].split()[0]) >> 10


def flood(collector, trace_of, requests):
    """So many requests by four clients, none sent again. Gives how many were answered 200, and how many 503."""
    taken, refused = [], []

    def asks(at):
        client = collector.client()
        for number in range(requests // 4):
            first = (requests // 4 * at + number) * SPANS
            client.send(flood_request(trace_of, first))
            status, fields, text = client.answer()
            if status == 200:
                want("the body", text, "{}")
                taken.append(at)
            else:
                want("the refusal", (status, fields["retry-after"], text), (503, "1", '{"message":"busy"}'))
                refused.append(at)
                time.sleep(0.005)  # (a full queue is a reason, too: shards that a slow machine holds up are waited for)
        client.close()

    side_by_side(asks, range(4))
    return len(taken), len(refused)


def held_within_its_limit(start, trace_of):
    """A flood that waits is refused once the process takes its limit, and nothing of what was taken is lost."""
    settings = f"memory_limit_mib = {LIMIT}\nlanes = 4\nshards = 2\nnum_traces = 1000000\nqueue_capacity = 8192\nqueue_full = 'retry'\ndecision_wait_ms = 3600000\n"
    collector = start(settings + NONE, limits=[(resource.RLIMIT_AS, (8 << 30))])
    taken, refused = flood(collector, trace_of, 2000)
    if not refused or taken < 100:
        raise Failure(f"{taken} requests were taken, and {refused} refused")
    most = mebibytes(collector)[1]
    if most > MOST:
        raise Failure(f"it took {most} MiB")
    want("the report", collector.close()[1], [SPANS * taken, 0, 0, 0, 0, 0, SPANS * taken, 0, 0])


def one_trace(start):
    """A flood of one trace."""
    held_within_its_limit(start, lambda number: 0)


def many_traces(start):
    """A flood of a million traces of one span."""
    held_within_its_limit(start, lambda number: number)


def is_taken(client, data):
    """Whether a request is taken."""
    client.send(data)
    return client.answer()[0] == 200


def takes_again(start):
    """Behind a flood that was decided requests are taken again, and a client that sends again loses nothing."""
    settings = f"memory_limit_mib = {LIMIT}\nlanes = 4\nshards = 2\nnum_traces = 1000000\nqueue_capacity = 8192\nqueue_full = 'retry'\ndecision_wait_ms = 500\ntick_ms = 50\n"
    collector = start(settings + ALL)
    most = []
    done = threading.Event()

    def looks():
        while not done.is_set():
            most.append(mebibytes(collector)[0])
            time.sleep(0.02)

    watcher = threading.Thread(target=looks, daemon=True)
    watcher.start()

    def asks(at):
        client = collector.client()
        for number in range(150):
            first = (150 * at + number) * SPANS
            # (Made span by span, which takes a client as long as the memory watch needs: a faster flood may go an eighth beyond the limit.)
            data = post(body_of([flood_span(f"{first + i + 1:032x}", f"{first + i + 1:016x}") for i in range(SPANS)]))
            until(f"the spans from {first} on are taken", lambda: is_taken(client, data))
        client.close()

    try:
        side_by_side(asks, range(4))
    finally:
        done.set()
        watcher.join()
    if max(most) > MOST:
        raise Failure(f"it took {max(most)} MiB")
    spans = 600 * SPANS
    want("the report", collector.close()[1], [spans, spans, 0, 0, 0, 0, 0, 0, 0])


def refused_at_its_limit(start):
    """Requests are taken until the process takes its limit, and not refused before."""
    settings = f"memory_limit_mib = {LIMIT}\nnum_traces = 1000000\nqueue_capacity = 65536\ndecision_wait_ms = 3600000\n"
    collector = start(settings + NONE, limits=[(resource.RLIMIT_AS, (8 << 30))])
    client = collector.client()
    for number in range(2000):
        client.send(flood_request(lambda at: at, number * SPANS))
        if client.answer()[0] == 503 or mebibytes(collector)[0] > MOST:
            break
    most = mebibytes(collector)[1]
    if not LIMIT - 3 <= most <= MOST:
        raise Failure(f"it took {most} MiB, and not about {LIMIT}, when it refused the first request")
    client.close()
    collector.close()


def far_beyond_its_limit(start):
    """A process that takes far more than its limit refuses requests as long as a span waits, and takes none whose spans it would then give up."""
    collector = start("memory_limit_mib = 1\ndecision_wait_ms = 3600000\n" + ALL)
    request = post(body_of([flood_span(f"{1:032x}", f"{1:016x}")]))
    want("the first answer", collector.ask(request)[0], 200)
    for _ in range(20):
        for _ in range(200):
            if collector.ask(request)[0] == 503:
                break
            time.sleep(0.02)
        # (a span that was still in its queue at the first look is given up, and then none waits)
        answers = [collector.ask(request)[0] for _ in range(10)]
        if answers == [503] * 10:
            break
    want("the answers behind a refusal", answers, [503] * 10)
    collector.close()


CHECKS = [one_trace, many_traces, takes_again, refused_at_its_limit, far_beyond_its_limit]
