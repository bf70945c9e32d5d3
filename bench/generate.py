#!/usr/bin/env python3
"""Writes a script of requests for `tsc replay` to standard output: generate.py SPANS, generate.py alive TRACES or generate.py single TRACES.

Each request has 100 spans (--of-a-request), of traces of 3 to 8 spans which are spread over neighbouring requests; a span has 10 to 15
attributes with names of the OpenTelemetry semantic conventions, 5 % of the spans end in an error (--errors), and a tick comes each
second. Requests come over 8 connections, 20 in a second where each has 100 spans.

`alive` opens so many traces, of one span without attributes each, in requests of 1000 spans at one moment, and then sends one span
more to each of them in another order: all are alive at once, and each of the second spans looks its trace up. `single` opens them with a
small span each (a name and two times, under a resource and a scope) and sends no more.
"""
import argparse
import json
import random

SPANS_OF_A_LARGE_REQUEST = 1000
REQUEST_EVERY_MS = 50
CONNECTIONS = 8
START_MS = 1_700_000_000_000
SERVICES = ["checkout", "cart", "payment", "shipping", "catalog", "frontend"]
ROUTES = ["/cart", "/cart/{id}", "/checkout", "/products/{id}", "/health", "/login"]


def text(value):
    return {"stringValue": value}


def whole(value):
    return {"intValue": str(value)}


def attributes(draw):
    route = draw.choice(ROUTES)
    every = [
        ("http.request.method", text(draw.choice(["GET", "POST", "PUT"]))),
        ("http.route", text(route)),
        ("url.path", text(route.replace("{id}", str(draw.randrange(10_000))))),
        ("url.scheme", text("https")),
        ("http.response.status_code", whole(draw.choice([200, 200, 200, 204, 404, 500]))),
        ("server.address", text(draw.choice(SERVICES) + ".shop.svc.cluster.local")),
        ("server.port", whole(8443)),
        ("client.address", text("10.%d.%d.%d" % (draw.randrange(256), draw.randrange(256), draw.randrange(256)))),
        ("network.protocol.version", text("1.1")),
        ("user_agent.original", text("Mozilla/5.0 (X11; Linux x86_64; rv:128.0) Gecko/20100101 Firefox/128.0")),
        ("thread.id", whole(draw.randrange(64))),
        ("code.function.name", text("handle_request")),
        ("db.system.name", text("postgresql")),
        ("db.operation.name", text(draw.choice(["SELECT", "INSERT", "UPDATE"]))),
        ("enduser.authenticated", {"boolValue": draw.random() < 0.5}),
    ]
    return [{"key": key, "value": value} for key, value in every[: draw.randint(10, 15)]]


def span(draw, trace, parent, moment, errors):
    start = moment * 1_000_000 + draw.randrange(1_000_000)
    took = int(draw.expovariate(1 / 80.0) * 1_000_000)
    made = {
        "traceId": trace,
        "spanId": "%016x" % draw.randrange(1, 2**64),
        "name": "GET " + draw.choice(ROUTES),
        "kind": draw.randint(1, 5),
        "startTimeUnixNano": str(start),
        "endTimeUnixNano": str(start + took),
        "attributes": attributes(draw),
        "status": {"code": 2, "message": "upstream timed out"} if draw.random() < errors else {},
    }
    if parent:
        made["parentSpanId"] = parent
    return made


def requests(draw, spans, of_a_request):
    """Lists of spans: about 30 traces are under way at a time, and each next span is of one of them."""
    under_way = []
    made = []
    for _ in range(spans):
        while len(under_way) < 30:
            under_way.append(["%032x" % draw.randrange(1, 2**128), draw.randint(3, 8), None])
        trace = draw.choice(under_way)
        made.append(trace)
        trace[1] -= 1
        if trace[1] == 0:
            under_way.remove(trace)
        if len(made) == of_a_request:
            yield made
            made = []
    if made:
        yield made


def alive(traces, draw):
    """A span for each trace, and then one more in another order, of which one in a hundred has an error."""
    opened = ["%032x" % draw.randrange(1, 2**128) for _ in range(traces)]
    shuffled = opened[:]
    draw.shuffle(shuffled)
    for order, failing in ((opened, False), (shuffled, True)):
        for start in range(0, traces, SPANS_OF_A_LARGE_REQUEST):
            spans = [
                '{"traceId":"%s","spanId":"%016x"%s}'
                % (trace, draw.randrange(1, 2**64), ',"status":{"code":2}' if failing and draw.random() < 0.01 else "")
                for trace in order[start : start + SPANS_OF_A_LARGE_REQUEST]
            ]
            print('recv 0 %d {"resourceSpans":[{"scopeSpans":[{"spans":[%s]}]}]}' % (START_MS, ",".join(spans)))
    print("tick", START_MS + 1)
    print("close")


def single(traces, draw):
    """A small span for each trace."""
    for start in range(0, traces, SPANS_OF_A_LARGE_REQUEST):
        spans = [
            {
                "traceId": "%032x" % draw.randrange(1, 2**128),
                "spanId": "%016x" % draw.randrange(1, 2**64),
                "name": "GET /cart",
                "startTimeUnixNano": str(START_MS * 1_000_000),
                "endTimeUnixNano": str(START_MS * 1_000_000 + draw.randrange(1_000_000_000)),
            }
            for _ in range(min(SPANS_OF_A_LARGE_REQUEST, traces - start))
        ]
        print("recv 0 %d %s" % (START_MS, request({"cart": spans})))
    print("close")


def request(by_service):
    body = {
        "resourceSpans": [
            {
                "resource": {"attributes": [{"key": "service.name", "value": text(service)}]},
                "scopeSpans": [{"scope": {"name": "shop", "version": "1.4.2"}, "spans": ones}],
            }
            for service, ones in by_service.items()
        ]
    }
    return json.dumps(body, separators=(",", ":"))


def spread(spans, of_a_request, errors, draw):
    """So many spans of traces that are under way together."""
    moment = START_MS
    ticked = moment
    for number, traces in enumerate(requests(draw, spans, of_a_request)):
        by_service = {}
        for trace in traces:
            one = span(draw, trace[0], trace[2], moment, errors)
            trace[2] = one["spanId"]
            by_service.setdefault(draw.choice(SERVICES), []).append(one)
        print("recv", number % CONNECTIONS, moment, request(by_service))
        if (number + 1) * of_a_request % 100 == 0:
            moment += REQUEST_EVERY_MS
        while ticked + 1000 <= moment:
            ticked += 1000
            print("tick", ticked)
    print("close")


def main():
    words = argparse.ArgumentParser(description=__doc__, formatter_class=argparse.RawDescriptionHelpFormatter)
    words.add_argument("what", help="how many spans, or `alive` or `single`")
    words.add_argument("traces", nargs="?", type=int, help="how many traces, for `alive` and `single`")
    words.add_argument("--seed", type=int, default=1)
    words.add_argument("--errors", type=float, default=0.05, help="the share of spans that end in an error")
    words.add_argument("--of-a-request", type=int, default=100, help="the spans of a request")
    asked = words.parse_args()
    draw = random.Random(asked.seed)
    if asked.what == "alive":
        alive(asked.traces, draw)
    elif asked.what == "single":
        single(asked.traces, draw)
    else:
        spread(int(asked.what), asked.of_a_request, asked.errors, draw)


main()
