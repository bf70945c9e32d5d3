#!/usr/bin/env python3
"""Sends traces of a made-up shop to a collector for a bounded time, so that the status page has something to show (tests/page.py).

usage: page_load.py ADDRESS SECONDS [TRACES_A_SECOND]

A dozen services. About one trace in forty has an error, one in fifty is slow, one in sixty has a span that comes late; some ids are none. The load
rises and falls."""
import heapq
import http.client
import json
import math
import random
import secrets
import sys
import time

CALLS = {  # who calls whom
    "gateway": ["cart", "checkout", "search", "catalog"],
    "checkout": ["payment", "stock", "shipping", "mail"],
    "cart": ["sessions", "catalog"],
    "search": ["catalog", "recommend"],
    "payment": ["ledger"],
    "shipping": ["stock"],
    "recommend": ["catalog"],
}
SLOW_SHARE, ERROR_SHARE, LATE_SHARE, NO_ID_SHARE = 1 / 50, 1 / 40, 1 / 60, 1 / 500


def trace():
    """Returns the spans of one trace, each with its service, the root last, as tracers send them."""
    trace_id = secrets.token_hex(16) if random.random() > NO_ID_SHARE else "no id"
    slow, broken, spans = random.random() < SLOW_SHARE, random.random() < ERROR_SHARE, []

    def call(service, parent, begin, depth):
        span_id, took = secrets.token_hex(8), random.expovariate(1 / 8e6) + 1e6
        for callee in CALLS.get(service, []):
            if depth < 4 and random.random() < 0.7:
                took += call(callee, span_id, begin + took, depth + 1)
        if slow and not depth:
            took += random.uniform(2.1e9, 6e9)
        span = {
            "traceId": trace_id,
            "spanId": span_id,
            "name": f"call {service}",
            "kind": 2,
            "startTimeUnixNano": str(int(begin)),
            "endTimeUnixNano": str(int(begin + took)),
            "attributes": [{"key": "shop.region", "value": {"stringValue": random.choice(["north", "south", "east", "west"])}}],
        }
        if parent:
            span["parentSpanId"] = parent
        if broken and not depth:
            span["status"] = {"code": 2, "message": "deadline exceeded"}
        spans.append((service, span))
        return took

    call("gateway", None, time.time_ns(), 0)
    return spans


def body_of(spans):
    """Returns the body of a request with these spans, by service."""
    by_service = {}
    for service, span in spans:
        by_service.setdefault(service, []).append(span)
    named = lambda service: {"attributes": [{"key": "service.name", "value": {"stringValue": service}}]}
    return json.dumps({"resourceSpans": [{"resource": named(it), "scopeSpans": [{"spans": some}]} for it, some in by_service.items()]}).encode()


class Sender:
    """A connection that is kept open, and made anew where it breaks."""

    def __init__(self, address):
        self.address, self.connection = address, None

    def post(self, body):
        """Sends one body, and returns the status of the answer, or 0."""
        for _ in range(2):
            try:
                self.connection = self.connection or http.client.HTTPConnection(self.address, timeout=5)
                self.connection.request("POST", "/v1/traces", body, {"Content-Type": "application/json"})
                answer = self.connection.getresponse()
                answer.read()
                return answer.status
            except (OSError, http.client.HTTPException):
                self.connection = None
        return 0


def load(address, seconds, traces=60.0, goes_on=lambda: True):
    """Sends traces, so many a second on average, and returns how many answers had each status."""
    senders, due, answers, sent, owed = [Sender(address) for _ in range(6)], [], {}, 0, 0.0
    began = last = time.monotonic()
    while goes_on() and (now := time.monotonic()) < began + seconds:
        wave = 1 + 0.45 * math.sin((now - began) / 47) + 0.2 * math.sin((now - began) / 11)
        owed = min(owed + traces * max(wave, 0.1) * (now - last), traces)  # what a busy machine couldn't send isn't made up for
        last = now
        while owed >= 1:
            owed -= 1
            spans, sent = trace(), sent + 1
            cut = random.randint(0, len(spans) - 1)
            heapq.heappush(due, (now, 2 * sent, spans[:cut]))
            heapq.heappush(due, (now + random.uniform(0, 0.6), 2 * sent + 1, spans[cut:]))
            if random.random() < LATE_SHARE:
                heapq.heappush(due, (now + 5, 2 * sent, spans[:1]))
        some = []
        while due and due[0][0] <= now:
            some += heapq.heappop(due)[2]
        for at in range(0, len(some), 60):
            status = random.choice(senders).post(body_of(some[at : at + 60]))
            answers[status] = answers.get(status, 0) + 1
        time.sleep(0.05)
    return answers


if __name__ == "__main__":
    print("answers by status:", load(sys.argv[1], float(sys.argv[2]), *map(float, sys.argv[3:])))
