"""Lives of `tsc serve` over one ledger of requests: clients that note which of their spans were answered 200, kills, and what stands in the output at the
end. (serve_restart.py has the checks.)

A span's id says which connection sent it, and at which place of it; of which trace it is, and whether it has an error, its sender knows. A connection's
number says in which life it was: the lives are counted from 0."""

import bisect
import collections
import gzip
import json
import os
import random
import re
import struct
import threading
import time

from collector import Client, Failure, post, until, want
from protobuf_body import request_of
from serve_protobuf import post_in

# Requests are taken in each form, and one that finds a queue full is answered 503 and not taken in part.
TAKEN = 'accept_gzip = true\naccept_protobuf = true\nqueue_full = "retry"\nqueue_capacity = 16384\nexport_capacity = 16384\nnum_traces = 200000\n'
LANES = "lanes = 4\nshards = 2\n"
SHORT = "decision_wait_ms = 300\ntick_ms = 50\n"
LONG = "decision_wait_ms = 3600000\ntick_ms = 50\n"
# So many connections a life has at most; so long before a kill what was handed over may come again.
MOST, AGAIN = 100, 0.5
NAMED = re.compile(rb"span (\d+) of (\d+)[.]")


def life_of(connection):
    """The life of a connection."""
    return connection // MOST - 1


def id_of(connection, place):
    """The id of a span."""
    return f"{connection:08x}{place + 1:08x}"


def of_id(span_id):
    """The connection and the place of a span with this id."""
    return int(span_id[:8], 16), int(span_id[8:], 16) - 1


def span_of(connection, place, trace, is_error):
    """A span: all of it follows from where it was sent."""
    span = {"traceId": f"{trace:032x}", "spanId": id_of(connection, place), "name": f"span {place} of {connection}.", "kind": 1 + place % 5}
    span.update(startTimeUnixNano=f"{10**18 + place}", endTimeUnixNano=f"{10**18 + place + connection}")
    span["attributes"] = [{"key": "way", "value": {"stringValue": "über \"alles\"" if place % 2 else "x" * (place % 50)}}]
    return {**span, "status": {"code": 2}} if is_error else span


def resource_of(connection):
    """The resource of each span of a connection."""
    return {"attributes": [{"key": "service.name", "value": {"stringValue": f"sender {connection}"}}]}


def written(luck, request):
    """The bytes of a request: as JSON or protobuf, packed or not."""
    is_packed = luck.random() < 0.4
    fields = ["Content-Encoding: gzip"] if is_packed else []
    if luck.random() < 0.4:
        body = request_of(request)
        return post_in(gzip.compress(body, 1) if is_packed else body, fields=fields, close=False)
    body = json.dumps(request, ensure_ascii=luck.random() < 0.5).encode()
    return post(gzip.compress(body, 1) if is_packed else body, fields=fields)


def shared_traces(sender, luck):
    """A request of 1 to 20 spans over traces that all connections send: some of five lives, some of one, and some of a fifth of a second."""
    life, moment = life_of(sender.number) + 1, int(time.monotonic() * 5)
    kinds = [lambda at: 10**9 * (life // 5) + at, lambda at: 1000 * life + at, lambda at: 10**12 * life + 100 * moment + at]
    return [(luck.choice(kinds)(luck.randrange(1, 16)), False) for _ in range(luck.randrange(1, 21))]


class Sender(threading.Thread):
    """A client with one connection: it sends requests, until it is told to end or its connection ends. `sent` has the trace of each span and whether it has an
    error, `answered` the first place, the number of spans and the moment of each request that was answered 200."""

    def __init__(self, port, number, makes=shared_traces, requests=None, pause=0.02):
        super().__init__(daemon=True)
        self.port, self.number, self.makes, self.requests, self.pause = port, number, makes, requests, pause
        self.sent, self.answered, self.refused, self.bytes, self.problem = [], [], 0, 0, None
        self.halt = threading.Event()

    def span(self, place):
        """The span that it sent at a place."""
        return span_of(self.number, place, *self.sent[place])

    def run(self):
        """Sends."""
        luck = random.Random(self.number)
        try:
            client = Client(self.port)
            while not self.halt.is_set() and self.requests != 0:
                self.asks(client, luck)
                self.requests = self.requests and self.requests - 1
                time.sleep(luck.random() * self.pause)
            client.close()
        except (Failure, OSError):
            pass  # (the collector was killed, or has closed)

    def asks(self, client, luck):
        """One request."""
        first = len(self.sent)
        self.sent += self.makes(self, luck)
        spans = [self.span(it) for it in range(first, len(self.sent))]
        request = {"resourceSpans": [{"resource": resource_of(self.number), "scopeSpans": [{"scope": {"name": "s"}, "spans": spans}]}]}
        data = written(luck, request)
        client.send(data)
        status, _, text = client.answer()
        if status == 200 and text in ("", "{}"):
            self.answered.append((first, len(spans), time.monotonic()))
            self.bytes += len(data)
        elif status == 503:
            self.refused += 1
        else:
            self.problem = f"a request was answered {status} {text!r}"
            self.halt.set()


def answered_by(senders):
    """The connection and the place of each span that was answered 200."""
    return {(it.number, first + at) for it in senders for first, count, _ in it.answered for at in range(count)}


def lines_at(path):
    """Each whole line of a file as its bytes, with where it ends; and how many lines are cut."""
    found, cut, at = [], 0, 0
    if not os.path.exists(path):
        return found, cut
    with open(path, "rb") as file:
        for line in file:
            at += len(line)
            if is_whole(line):
                found.append((at, line))
            else:
                cut += 1
    return found, cut


def is_whole(line):
    """Whether a line is a value in JSON."""
    try:
        json.loads(line)
        return True
    except ValueError:
        return False


def spans_at(lines):
    """Each span of such lines with where its line ends, and its resource."""
    for at, line in lines:
        for resource in json.loads(line)["resourceSpans"]:
            for scope in resource["scopeSpans"]:
                want("the scope of a line", scope["scope"], {"name": "s"})
                for span in scope["spans"]:
                    yield at, span, resource["resource"]


# Of a life that was killed: where the output was half a second before and then, the moment, and whether all that it found had been taken again.
Life = collections.namedtuple("Life", "before end moment is_restored")


class Lives:
    """Collectors, one after the other, on one ledger and one output. `position` tells how much the output has, as a number."""

    def __init__(self, start, folder, settings, makes=shared_traces):
        self.start, self.settings, self.makes = start, settings, makes
        self.ledger, self.output = os.path.join(folder, "ledger"), os.path.join(folder, "spans.jsonl")
        self.position = lambda: os.path.getsize(self.output) if os.path.exists(self.output) else 0
        self.lives, self.senders, self.before = [], [], set()

    def begin(self, settings, ledger="", tables=""):
        """Starts a collector with more settings, more of them for its ledger, and other tables."""
        self.before = runs_of(self.ledger)
        top = f'output = "{self.output}"\nlog = "json"\n' if "[export]" not in tables else 'log = "json"\n'
        return self.start(top + self.settings + settings + f'[ledger]\npath = "{self.ledger}"\n' + ledger + tables)

    def restored(self, collector):
        """Waits until it has taken again what was pending. Gives how many spans that were, as it said; nothing where nothing was."""
        until("what was pending is taken again", lambda: not self.before & runs_of(self.ledger))
        end = time.monotonic() + 2  # (it is looked twice a second at what is to be said; nothing is said where nothing was pending)
        while self.before and not events_of(collector, "ledger_restored") and time.monotonic() < end:
            time.sleep(0.05)
        return sum(int(it["spans"]) for it in events_of(collector, "ledger_restored"))

    def sends(self, collector, clients=4, **more):
        """Clients that send from now on."""
        first = (len(self.lives) + 1) * MOST + sum(life_of(it.number) == len(self.lives) for it in self.senders)
        senders = [Sender(collector.port, first + at, self.makes, **more) for at in range(clients)]
        self.senders += senders
        for it in senders:
            it.start()
        return senders

    def killed(self, collector, seconds, clients=4):
        """Lets clients send for so long, and kills the collector."""
        self.sends(collector, clients)
        end, marks = time.monotonic() + seconds, [(time.monotonic(), self.position())]
        while time.monotonic() < end:
            time.sleep(0.02)
            marks.append((time.monotonic(), self.position()))
        is_restored = "ledger_restored" in collector.says()
        self.kill(collector, marks, is_restored)

    def kill(self, collector, marks, is_restored):
        """Kills it now. The marks are what the output had at moments before."""
        moment = time.monotonic()
        want("whether it runs until it is killed", collector.process.poll(), None)
        collector.process.kill()
        collector.process.wait()
        before = [at for seen, at in marks if seen <= moment - AGAIN]
        self.lives.append(Life(before[-1] if before else marks[0][1], self.position(), moment, is_restored))
        self.joined()

    def joined(self):
        """Ends the clients, and tells what any of them met."""
        for it in self.senders:
            it.halt.set()
        for it in self.senders:
            it.join()
        want("what clients met", [it.problem for it in self.senders if it.problem], [])

    def close(self, collector):
        """Ends the clients and closes the collector. Gives its numbers."""
        self.joined()
        _, numbers = collector.close()
        return numbers

    def printed(self):
        """The lines of the output. A kill may cut one."""
        lines, cut = lines_at(self.output)
        want(f"whether {cut} cut lines are one a kill at most", cut <= len(self.lives), True)
        return lines


def runs_of(ledger):
    """The numbers of the runs of which a ledger has files."""
    names = os.listdir(ledger) if os.path.exists(ledger) else []
    return {int(it.split(".")[1]) for it in names if "." in it}


def events_of(collector, name):
    """The events of a name that a collector has said."""
    return [it for it in map(json.loads, collector.says().splitlines()) if it["event"] == name]


def compared(lives, lines, policies_keep_all=True, in_order=True):
    """What must hold of the lines at the end: each span is as it was sent, each that was answered 200 is there, and those of one connection and trace stand in
    their order, by where they are first; and what is there twice may be (`may_come_again`). Gives where each span is: by its connection and place, where
    the lines end that have it."""
    senders, found, last = {it.number: it for it in lives.senders}, collections.defaultdict(list), {}
    for at, span, resource in spans_at(lines):
        connection, place = of_id(span["spanId"])
        want("whether a span was sent", connection in senders and place < len(senders[connection].sent), True)
        want("a span", span, senders[connection].span(place))
        want("its resource", resource, resource_of(connection))
        if (connection, place) not in found:
            if in_order and place <= last.get((connection, span["traceId"]), -1):
                raise Failure(f"span {place} of {connection} came behind span {last[connection, span['traceId']]} of its trace, in life {life_at(lives, at)}")
            last[connection, span["traceId"]] = place
        found[connection, place].append(at)
    if policies_keep_all:
        missing = sorted(answered_by(lives.senders) - set(found))
        want(f"how many spans are missing that were answered 200, such as {missing[:3]}", len(missing), 0)
    wants_reasons(lives, senders, found)
    return found


def wants_reasons(lives, senders, found):
    """Wants that each span that was handed over, and then again, may have come again."""
    of_trace = collections.defaultdict(list)
    for connection, place in found:
        of_trace[senders[connection].sent[place][0]].append((connection, place))
    known = {}
    for (connection, place), times in found.items():
        trace = senders[connection].sent[place][0]
        for at in times[:-1]:
            life = life_at(lives, at)
            if (trace, life) not in known:
                known[trace, life] = life < len(lives.lives) and is_in_part(lives, life, [(key, found[key]) for key in of_trace[trace]])
            if not known[trace, life] and not may_come_again(lives, connection, at):
                raise Failure(f"span {place} of {connection} was handed over at {times}, of which {at} is {behind_its_kill(lives, at)}")


def is_in_part(lives, life, spans):
    """Whether of the spans of a trace some hadn't been handed over in a life when it was killed, or just then: the trace comes again whole."""
    start = lives.lives[life - 1].end if life else 0
    before = lives.lives[life].before
    for (connection, _), times in spans:
        if life_of(connection) <= life and times[-1] > before and not any(start < at <= before for at in times):
            return True
    return False


def life_at(lives, at):
    """The life in which the output grew up to there."""
    return bisect.bisect_left([it.end for it in lives.lives], at)


def behind_its_kill(lives, at):
    """Where that is in its life, for whoever reads it."""
    life = life_at(lives, at)
    return f"in life {life}, {lives.lives[life]}" if life < len(lives.lives) else "in the last life"


def may_come_again(lives, connection, at):
    """Whether what was handed over there may come again by itself: just before a kill, or behind one of a life that hadn't taken all again."""
    life = life_at(lives, at)
    is_late = life < len(lives.lives) and lives.lives[life].before < at
    return is_late or any(not it.is_restored for it in lives.lives[life_of(connection) + 1 : life + 1])


def told(what, lives, found):
    """Says how many spans are there twice."""
    twice = {it: len(times) - 1 for it, times in found.items() if len(times) > 1}
    sent = sum(len(it.sent) for it in lives.senders)
    print(f"{what}: {len(lives.lives)} kills, {sent} spans sent, {len(answered_by(lives.senders))} of them answered 200, {len(found)} handed over, {sum(twice.values())} times one of {len(twice)} again", flush=True)


def records_of(path):
    """The records of a file of the ledger, each as its end and its payload: a length, two sums, the payload (docs/operating/LEDGER.md)."""
    with open(path, "rb") as file:
        data = file.read()
    at, found = 0, []
    while at + 12 <= len(data):
        length = struct.unpack_from("<I", data, at)[0]
        want(f"whether the record at {at} of {path} is whole", at + 12 + length <= len(data), True)
        at += 12 + length
        found.append((at, data[at - length : at]))
    return found


def spans_in(payload):
    """The spans in the text of a request, in either encoding, by their connection and place."""
    return {(int(connection), int(place)) for place, connection in NAMED.findall(payload)}
