"""Checks of `tsc serve` whose decisions are told: a line for each trace that is decided or evicted, with what each policy said of it, and the last of them as
JSON at the address for those in charge, from the first look on, with what the shards hold of a trace."""

import json
import os
import random
import subprocess
import tempfile
import time

from collector import ALL, PATIENCE, Failure, LeftOut, asked, body_of, comes_to, free_port, get, post, scrape, want
from serve_output import ask_in_charge, lines_of

POLICIES = [
    ("errors", 'type = "status_code", status_code = { status_codes = ["ERROR"] }'),
    ("slow", 'type = "latency", latency = { threshold_ms = 100 }'),
    ('not \\"here\\"', 'type = "string_attribute", string_attribute = { key = "k", values = ["v"], invert_match = true }'),
]
THREE = "policies = [" + ", ".join(f'{{ name = "{name}", {rest} }}' for name, rest in POLICIES) + "]\n"
NAMES = ["errors", "slow", 'not "here"']


def trace(number, is_error, is_slow, has_value, spans=1):
    """The spans of a trace, of which the first is an error, takes a fifth of a second, or has the value."""
    first = {"traceId": f"{number:032x}", "spanId": f"{number * 100 + 1:016x}", "startTimeUnixNano": "1000000000", "endTimeUnixNano": "1000000000"}
    if is_error:
        first["status"] = {"code": 2}
    if is_slow:
        first["endTimeUnixNano"] = "1200000000"
    if has_value:
        first["attributes"] = [{"key": "k", "value": {"stringValue": "v"}}]
    others = [{"traceId": f"{number:032x}", "spanId": f"{number * 100 + it:016x}", "startTimeUnixNano": "1000000000", "endTimeUnixNano": "1000000000"} for it in range(2, spans + 1)]
    return [first] + others


def expected(is_error, is_slow, has_value):
    """The verdict, the policy that decided and what each said, by the processor's rules: an inverted match that matches forbids, else any sample keeps."""
    said = ["sampled" if is_error else "notSampled", "sampled" if is_slow else "notSampled", "invertedNotSampled" if has_value else "invertedSampled"]
    if has_value:
        return "notSampled", NAMES[2], said
    if is_error or is_slow:
        return "sampled", NAMES[0] if is_error else NAMES[1], said
    # An inverted sample keeps only where nothing says not to.
    return "notSampled", None, said


def read(path):
    """The lines of a file of decisions, as objects."""
    return [json.loads(line) for line in lines_of([path])]


def each_decided(start):
    """Each trace has its line: its verdict, the policy that decided, what each policy said, its spans, why and how long it waited."""
    rng = random.Random(71)
    with tempfile.TemporaryDirectory() as folder:
        path = os.path.join(folder, "decisions.jsonl")
        collector = start(f'decisions = "{path}"\nshards = 3\nlanes = 2\ndecision_wait_ms = 300\ntick_ms = 20\n' + THREE)
        traces = {}
        for number in range(1, 201):
            traces[number] = (rng.random() < 0.3, rng.random() < 0.3, rng.random() < 0.3, rng.randrange(1, 5))
            want("the answer", collector.ask(post(body_of(trace(number, *traces[number]))))[::2], (200, "{}"))
        comes_to("the lines", lambda: len(lines_of([path])) if os.path.exists(path) else 0, 200)
        told = read(path)
        collector.close()
        want("the traces", sorted(int(it["traceId"], 16) for it in told), sorted(traces))
        for it in told:
            is_error, is_slow, has_value, spans = traces[int(it["traceId"], 16)]
            verdict, policy, said = expected(is_error, is_slow, has_value)
            want("the keys", list(it), ["traceId", "moment", "verdict", "policy", "by", "spans", "waitedMs", "policies"])
            want("the verdict", (it["verdict"], it["policy"], it["spans"], it["by"]), (verdict, policy, spans, "wait"))
            want("what each said", it["policies"], [{"name": name, "said": one} for name, one in zip(NAMES, said)])
            want("how long it waited", 300 <= it["waitedMs"] < PATIENCE * 1000, True)
        want("nothing more", len(read(path)), 200)


def policies_on_spans(start):
    """With `record_policy` each span that is kept has its policy's name on its scope, in the place of what came under that key; nothing else changes."""
    rng = random.Random(72)
    scopes = [{"name": "plain"}, {"name": "full", "version": "1", "attributes": [{"key": "team", "value": {"stringValue": "a"}}], "droppedAttributesCount": 3}]
    forged = {"name": "forged", "attributes": [{"key": "tailsampling.policy", "value": {"intValue": "7"}}, {"key": "z", "value": {"boolValue": True}}]}
    scopes.append(forged)
    kept = {}
    for settings in ("record_policy = true\n", "record_policy = false\n", ""):
        collector = start(settings + "shards = 2\nlanes = 2\ndecision_wait_ms = 300\ntick_ms = 20\nsend_batch_size = 7\n" + THREE)
        traces = {number: (rng.random() < 0.4, rng.random() < 0.4, rng.random() < 0.3, rng.randrange(1, 5)) for number in range(1, 101)}
        for number, shape in traces.items():
            spans = trace(number, *shape)
            groups = [{"scope": scopes[number % 3], "spans": spans[:1]}, {"scope": scopes[(number + 1) % 3], "spans": spans[1:]}]
            want("the answer", collector.ask(post(json.dumps({"resourceSpans": [{"scopeSpans": groups}]}).encode()))[::2], (200, "{}"))
        lines, _numbers = collector.close()
        groups = [group for line in lines for resource in json.loads(line)["resourceSpans"] for group in resource["scopeSpans"]]
        found = {span["spanId"]: group["scope"] for group in groups for span in group["spans"]}
        wanted = {}
        for number, shape in traces.items():
            verdict, policy, _said = expected(*shape[:3])
            for place, span in enumerate(trace(number, *shape) if verdict == "sampled" else []):
                wanted[span["spanId"]] = scope_of(scopes[(number + min(place, 1)) % 3], policy if "true" in settings else None)
        want("the scopes of what was kept", found, wanted)
        kept[settings] = len(wanted)
    want("some were kept", all(20 < it for it in kept.values()), True)


def scope_of(scope, policy):
    """A scope as it is printed, with the attribute that names the policy, if there is one: where its key stands, or else last."""
    attribute = {"key": "tailsampling.policy", "value": {"stringValue": policy}}
    attributes = scope.get("attributes", [])
    if policy is None:
        made = attributes
    elif any(it["key"] == attribute["key"] for it in attributes):
        made = [attribute if it["key"] == attribute["key"] else it for it in attributes]
    else:
        made = [*attributes, attribute]
    return {**scope, "attributes": made} if made else scope


def each_cause(start):
    """A line says why a trace was decided then: by its wait, its root's, its size, or the close; and one that was evicted has its own."""
    with tempfile.TemporaryDirectory() as folder:
        path = os.path.join(folder, "decisions.jsonl")
        settings = "num_traces = 2\ndecision_wait_ms = 3600000\nroot_wait_ms = 50\nmaximum_trace_size_bytes = 2000\ntick_ms = 10\n"
        collector = start(f'decisions = "{path}"\n' + settings + ALL)
        child = {"traceId": f"{1:032x}", "spanId": f"{1:016x}", "parentSpanId": f"{99:016x}"}
        root = {"traceId": f"{2:032x}", "spanId": f"{2:016x}"}
        big = {"traceId": f"{3:032x}", "spanId": f"{3:016x}", "parentSpanId": f"{99:016x}", "name": "x" * 3000}
        collector.ask(post(body_of([root])))
        comes_to("the root's line", lambda: [(it["traceId"][-1], it.get("by")) for it in read(path)] if os.path.exists(path) else [], [("2", "rootWait")])
        collector.ask(post(body_of([big])))
        comes_to("the big one's line", lambda: [(it["traceId"][-1], it.get("by"), it["verdict"], it["policy"]) for it in read(path)][1:], [("3", "size", "notSampled", None)])
        want("what nobody was asked", read(path)[1]["policies"], [{"name": "all", "said": "notAsked"}])
        for number in (4, 5, 6):
            collector.ask(post(body_of([{**child, "traceId": f"{number:032x}"}, {**child, "traceId": f"{number:032x}", "spanId": f"{number + 50:016x}"}])))
        comes_to("the evicted one's line", lambda: [(it["traceId"][-1], it["verdict"], it["spans"]) for it in read(path)][2:], [("4", "evicted", 2)])
        want("its keys", list(read(path)[2]), ["traceId", "moment", "verdict", "spans"])
        collector.close()
        want("those of the close", [(it["traceId"][-1], it["by"], it["policy"], it["spans"]) for it in read(path)[3:]], [("5", "close", "all", 2), ("6", "close", "all", 2)])


def late_spans(start):
    """Spans that come after their trace was decided have lines: how many, of which trace, and the verdict that they met; each span stands in one."""
    with tempfile.TemporaryDirectory() as folder:
        path = os.path.join(folder, "decisions.jsonl")
        collector = start(f'decisions = "{path}"\nshards = 2\ndecision_wait_ms = 20\ntick_ms = 10\n' + THREE)
        for number, is_error in ((1, True), (2, False)):
            collector.ask(post(body_of(trace(number, is_error, False, False))))
        comes_to("the decisions", lambda: sorted(int(it["traceId"], 16) for it in read(path)) if os.path.exists(path) else [], [1, 2])
        late = {1: 7, 2: 5}
        for spans in (1, 2, 4):
            collector.ask(post(body_of(trace(1, True, False, False, spans=spans))))
        collector.ask(post(body_of(trace(2, False, False, False, spans=2) + trace(2, False, False, False, spans=3))))
        sums = lambda: {number: sum(it["spans"] for it in read(path)[2:] if int(it["traceId"], 16) == number) for number in late}
        comes_to("the late spans", sums, late)
        for it in read(path)[2:]:
            want("the keys", list(it), ["traceId", "moment", "verdict", "by", "spans"])
            want("what it says", (it["verdict"], it["by"]), ("sampled" if int(it["traceId"], 16) == 1 else "notSampled", "late"))
        _, numbers = collector.close()
        want("the report", numbers, [14, 8, 0, 0, 0, 0, 1, 5, 0])
        want("nothing more", sums(), late)


def rotated(start):
    """The file is opened anew where it is asked for, and put aside by its size: no line is torn, lost or told twice."""
    with tempfile.TemporaryDirectory() as folder:
        path = os.path.join(folder, "decisions.jsonl")
        admin = free_port()
        long = "n" * 2000
        policy = f'policies = [{{ name = "{long}", type = "always_sample" }}]\n'
        collector = start(f'decisions = "{path}"\ndecisions_max_mib = 1\nadmin = "127.0.0.1:{admin}"\ndecision_wait_ms = 20\ntick_ms = 10\n' + policy)
        files = [path]
        for number in range(1, 901):
            collector.ask(post(body_of(trace(number, False, False, False))))
            if number == 100:
                comes_to("the first lines", lambda: len(lines_of([path])), 100)
                os.rename(path, path + ".moved")
                ask_in_charge(admin, "/reopen")
                files.insert(0, path + ".moved")
        ask_in_charge(admin, "/close")
        collector.end()
        shifted = sorted((it for it in os.listdir(folder) if it.startswith("decisions.jsonl.") and it[-1].isdigit()), key=lambda it: -int(it.rsplit(".", 1)[1]))
        want("files put aside by size", len(shifted) > 0, True)
        told = [json.loads(it) for it in lines_of(files[:-1] + [os.path.join(folder, it) for it in shifted] + files[-1:])]
        want("the traces, in order", [int(it["traceId"], 16) for it in told], list(range(1, 901)))


def all_at_the_close(start):
    """Thousands of traces are decided at once as the collector closes: each has its line, though they are more than are made at a time."""
    with tempfile.TemporaryDirectory() as folder:
        path = os.path.join(folder, "decisions.jsonl")
        collector = start(f'decisions = "{path}"\nshards = 2\nnum_traces = 50000\ndecision_wait_ms = 3600000\n' + THREE)
        client = collector.client()
        for first in range(1, 6001, 200):
            client.send(post(body_of([span for number in range(first, first + 200) for span in trace(number, number % 2 == 0, False, False)])))
            want("the answer", client.answer()[::2], (200, "{}"))
        client.close()
        collector.close()
        told = read(path)
        want("the traces", sorted(int(it["traceId"], 16) for it in told), list(range(1, 6001)))
        want("what they say", {(it["by"], it["policy"], int(it["traceId"], 16) % 2) for it in told}, {("close", "errors", 0), ("close", None, 1)})


def decisions_cannot_be_written(start):
    """A file that can't be opened is named, and the program ends at once."""
    with tempfile.TemporaryDirectory() as folder:
        config = os.path.join(folder, "config.toml")
        path = os.path.join(folder, "none", "decisions.jsonl")
        with open(config, "w", encoding="utf-8") as file:
            file.write(f'listen = "127.0.0.1:{free_port()}"\ndecisions = "{path}"\n' + ALL)
        done = subprocess.run([start.program, "serve", config], stdin=subprocess.DEVNULL, capture_output=True, timeout=PATIENCE, check=False)
        want("the end", (done.returncode, done.stdout), (1, b"tsc: cannot write\n"))
        last = done.stderr.decode().splitlines()[-1]
        want(f"what {last!r} says", ("cannot_write" in last, f'what="{path}"' in last), (True, True))


def decisions_of_a_full_disk(start):
    """Where no line can be written the collector goes on as before, counts what is lost, and says so at the end."""
    if not os.path.exists("/dev/full"):
        raise LeftOut("there is no /dev/full")
    collector = start('decisions = "/dev/full"\ndecision_wait_ms = 20\ntick_ms = 10\nlog = "text"\n' + ALL)
    for number in range(1, 21):
        want("the answer", collector.ask(post(body_of(trace(number, False, False, False))))[::2], (200, "{}"))
    lines, numbers = collector.close()
    want("the report", (len(lines) > 0, numbers), (True, [20, 20, 0, 0, 0, 0, 0, 0, 0]))
    said = [it for it in collector.said.splitlines() if "decisions_not_written" in it]
    want("what is said at the end", ["lines=20" in it for it in said], [True])


# The words of the lines, as the address for those in charge has them.
ANSWERS = {"sampled": "sample", "notSampled": "not_sample", "invertedSampled": "inverted_sample", "invertedNotSampled": "inverted_not_sample"}


def looked_at(admin, path):
    """What an address for those in charge tells as JSON."""
    status, fields, body = asked(admin, get(path))
    want(f"the answer to {path}", (status, fields["content-type"], int(fields["content-length"]), body[-1:]), (200, "application/json", len(body), "\n"))
    return json.loads(body)


def path_of(number):
    """Where it is told what became of a trace."""
    return f"/trace/{number:032x}.json"


def news_of(admin, number):
    """What became of a trace, as far as that was told."""
    told = looked_at(admin, path_of(number))
    want("the last key", list(told)[-1], "held")
    return {key: value for key, value in told.items() if key != "held"}


def held_of(admin, number):
    """What the shards hold of a trace, once they have answered."""
    end = time.monotonic() + PATIENCE
    while (held := looked_at(admin, path_of(number))["held"]) is None and time.monotonic() < end:
        time.sleep(0.05)
    return held


def decided_by(admin):
    """How many traces were decided."""
    return sum(number for name, number in scrape(admin).items() if name.startswith("tsc_traces_decided_total"))


def told_of(number, is_error, is_slow, has_value, spans):
    """What is told of a decided trace, but for its moment and its wait."""
    verdict, policy, said = expected(is_error, is_slow, has_value)
    return {
        "trace_id": f"{number:032x}",
        "state": "decided",
        "decided_ms": 0,
        "verdict": "kept" if verdict == "sampled" else "not_kept",
        "because": "policy" if policy else "none_agreed",
        "policy": policy,
        "spans": spans,
        "wait_ms": 0,
        "ended_wait": "wait",
        "answers": [{"policy": name, "answer": ANSWERS[one]} for name, one in zip(NAMES, said)],
    }


def last_decisions(start):
    """/decisions.json tells the last hundred traces of those that were decided since somebody looked, the newest first, and /trace/ID.json one of the last
    thousand: nothing is told of what was decided before, though the file has it."""
    rng, admin = random.Random(72), free_port()
    with tempfile.TemporaryDirectory() as folder:
        path = os.path.join(folder, "decisions.jsonl")
        collector = start(f'admin = "127.0.0.1:{admin}"\ndecisions = "{path}"\ndecision_wait_ms = 200\ntick_ms = 20\n' + THREE)
        traces = {number: (rng.random() < 0.3, rng.random() < 0.3, rng.random() < 0.3, rng.randrange(1, 5)) for number in range(1, 171)}
        client = collector.client()

        def send(numbers):
            for number in numbers:
                client.send(post(body_of(trace(number, *traces[number]))))
                want("the answer", client.answer()[::2], (200, "{}"))

        send(range(1, 21))
        comes_to("the decisions at which nobody looks", lambda: decided_by(admin), 20)
        began = 1000 * time.time()
        want("what is told of these", looked_at(admin, "/decisions.json")["decisions"], [])
        send(range(21, 171))
        comes_to("the decisions", lambda: decided_by(admin), 170)
        told = looked_at(admin, "/decisions.json")
        want("the keys", (list(told), told["remembers"]), (["now_ms", "remembers", "decisions"], 1000))
        want("the traces", [int(it["trace_id"], 16) for it in told["decisions"]], list(range(170, 70, -1)))
        for it in told["decisions"]:
            number = int(it["trace_id"], 16)
            want("the keys of a trace", list(it), list(told_of(number, *traces[number])))
            want("a trace", {**it, "decided_ms": 0, "wait_ms": 0}, told_of(number, *traces[number]))
            if not began <= it["decided_ms"] <= told["now_ms"] + 1000 or not 200 <= it["wait_ms"] < PATIENCE * 1000:
                raise Failure(f"the moments of {it} at {told['now_ms']}")
            want("the same trace by its id", news_of(admin, number), it)
            want("and by its id in capitals", {**looked_at(admin, f"/trace/{number:032X}.json"), "held": 0}, {**it, "held": 0})
        for number in range(21, 71):
            want("a trace before the last hundred", {**news_of(admin, number), "decided_ms": 0, "wait_ms": 0}, told_of(number, *traces[number]))
        for number in (0, 1, 20, 171, 2**128 - 1):
            want("a trace of which nothing is told", news_of(admin, number), {"trace_id": f"{number:032x}", "state": "unknown"})
        client.close()
        ask_in_charge(admin, "/close")
        collector.end()
        want("the lines", sorted(int(it["traceId"], 16) for it in read(path)), sorted(traces))


def most_decisions(start):
    """Of the decisions of several shards a thousand are remembered, the newest ones."""
    admin = free_port()
    collector = start(f'admin = "127.0.0.1:{admin}"\nshards = 3\nlanes = 2\nnum_traces = 5000\ndecision_wait_ms = 500\ntick_ms = 20\n' + ALL)
    want("the first look", looked_at(admin, "/decisions.json")["decisions"], [])
    client = collector.client()
    for first, wanted in ((1, 500), (501, 3000)):
        client.send(post(body_of([span for number in range(first, wanted + 1) for span in trace(number, False, False, False)])))
        want("the answer", client.answer()[::2], (200, "{}"))
        comes_to("the decisions", lambda most=wanted: decided_by(admin), wanted)
    told = looked_at(admin, "/decisions.json")["decisions"]
    want("how many are told", len({it["trace_id"] for it in told}), 100)
    want("what they say", {(it["verdict"], it["policy"], it["ended_wait"], it["spans"]) for it in told}, {("kept", "all", "wait", 1)})
    states = [news_of(admin, number)["state"] for number in range(1, 3001, 10)]
    want("the oldest", set(states[:50]), {"unknown"})
    if not 50 < states.count("decided") < 150:
        raise Failure(f"of 300 traces of 3000 these are remembered: {states}")
    want("each that is told is found", [news_of(admin, int(it["trace_id"], 16)) for it in told], told)
    client.close()
    ask_in_charge(admin, "/close")
    collector.end()


def left_and_decided(start):
    """A trace that leaves a full buffer is told as evicted; of one that comes again later the decision is told, as the newest. So is why it was decided then."""
    admin = free_port()
    settings = "num_traces = 2\ndecision_wait_ms = 3600000\nroot_wait_ms = 50\nmaximum_trace_size_bytes = 2000\ntick_ms = 10\n"
    collector = start(f'admin = "127.0.0.1:{admin}"\n' + settings + ALL)
    want("the first look", looked_at(admin, path_of(4)), {"trace_id": f"{4:032x}", "state": "unknown", "held": None})
    child = lambda number, span, **more: {"traceId": f"{number:032x}", "spanId": f"{span:016x}", "parentSpanId": f"{99:016x}", **more}
    for number in (4, 5, 6):
        collector.ask(post(body_of([child(number, 1), child(number, 2)])))
    comes_to("the evicted one", lambda: [{**it, "decided_ms": 0} for it in looked_at(admin, "/decisions.json")["decisions"]], [{"trace_id": f"{4:032x}", "state": "evicted", "decided_ms": 0, "spans": 2}])
    want("the keys", list(news_of(admin, 4)), ["trace_id", "state", "decided_ms", "spans"])
    comes_to("what is held of it", lambda: held_of(admin, 4), {"state": "unknown"})
    collector.ask(post(body_of([child(7, 1, name="x" * 3000)])))
    said = lambda it: [int(it["trace_id"], 16), it["state"], *(it.get(key) for key in ("verdict", "because", "policy", "ended_wait", "spans"))]
    told = lambda: [said(it) for it in looked_at(admin, "/decisions.json")["decisions"]]
    big, left = [7, "decided", "not_kept", "too_big", None, "size", 1], lambda number: [number, "evicted", None, None, None, None, 2]
    comes_to("the big one", told, [big, left(5), left(4)])
    want("what nobody was asked", news_of(admin, 7)["answers"], [{"policy": "all", "answer": "not_asked"}])
    collector.ask(post(body_of([{"traceId": f"{4:032x}", "spanId": f"{3:016x}"}])))
    again = [4, "decided", "kept", "policy", "all", "root", 1]
    comes_to("the one that came again", lambda: told()[:1], [again])
    want("what is told of it", said(news_of(admin, 4)), again)
    comes_to("what is held of it", lambda: held_of(admin, 4), {"state": "decided", "verdict": "kept"})
    ask_in_charge(admin, "/close")
    collector.end()


def odd_looks(start):
    """Near targets aren't found, HEAD has no body, and nothing is told where numbers alone are, nor at the first address; a POST is refused, by a page of
    another site as everywhere."""
    admin, metrics = free_port(), free_port()
    collector = start(f'admin = "127.0.0.1:{admin}"\nmetrics = "127.0.0.1:{metrics}"\n' + ALL)
    one, missing = f"/trace/{1:032x}.json", (404, '{"message":"not found"}')
    for port in (metrics, collector.port):
        for path in ("/decisions.json", one):
            want(f"{path} at {port}", asked(port, get(path))[::2], missing)
    near = ["/decisions", "/decisions.json/", "/decisions.json?last=100", "/trace/", "/trace/.json", one[:-5], one.replace(".json", ".JSON"), f"/trace/{1:031x}.json", f"/trace/{1:033x}.json", f"/trace/g{1:031x}.json", "/trace" + one]
    for path in near:
        want(path, asked(admin, get(path))[::2], missing)
    # What is told of it stays the same from here on.
    want("what is held", held_of(admin, 1), {"state": "unknown"})
    for path in ("/decisions.json", one):
        want(f"HEAD of {path}", asked(admin, get(path, "HEAD"), False), asked(admin, get(path))[:2] + ("",))
        got = asked(admin, post(b"", path))
        want(f"a POST of {path}", (got[0], got[1]["allow"]), (405, "get, head"))
        for fields in (["Origin: http://evil.example"], ["Sec-Fetch-Site: cross-site"]):
            want(f"a POST of {path} by another site", asked(admin, post(b"", path, fields=fields))[::2], (403, '{"message":"forbidden"}'))
    ask_in_charge(admin, "/close")
    collector.end()


def told_for_a_minute(start):
    """Where nobody has looked for a minute, decisions are told no more; those that were told before stay."""
    admin = free_port()
    collector = start(f'admin = "127.0.0.1:{admin}"\ndecision_wait_ms = 20\ntick_ms = 10\n' + ALL)
    told = lambda: [int(it["trace_id"], 16) for it in looked_at(admin, "/decisions.json")["decisions"]]
    want("the first look", told(), [])
    collector.ask(post(body_of(trace(1, False, False, False))))
    comes_to("the first trace", told, [1])
    looked = time.monotonic()
    time.sleep(40)
    collector.ask(post(body_of(trace(2, False, False, False))))
    comes_to("the decisions", lambda: decided_by(admin), 2)
    in_time = time.monotonic() < looked + 58
    time.sleep(max(0, looked + 64 - time.monotonic()))
    collector.ask(post(body_of(trace(3, False, False, False))))
    comes_to("the decisions", lambda: decided_by(admin), 3)
    found = told()
    # A machine that stands still for so long may tell less.
    if in_time or found != [1]:
        want("what is told", found, [2, 1])
    collector.ask(post(body_of(trace(4, False, False, False))))
    comes_to("what is told from the next look on", told, [4, *found])
    ask_in_charge(admin, "/close")
    collector.end()


def child(number, span, **more):
    """A span of a trace whose root never comes."""
    return {"traceId": f"{number:032x}", "spanId": f"{span:016x}", "parentSpanId": f"{99:016x}", "startTimeUnixNano": "1000000000", "endTimeUnixNano": "1000000000", **more}


def waits_by_hand(admin, number, spans, began, ended):
    """What is told of a trace that waits is since when it does, and how many spans it has."""
    held = held_of(admin, number)
    want("what is held", {**held, "since_ms": 0}, {"state": "waiting", "since_ms": 0, "spans": spans})
    if not began - 1000 <= held["since_ms"] <= ended + 1000:
        raise Failure(f"trace {number} waits since {held['since_ms']}, and came between {began} and {ended}")


def held_traces(start):
    """Of a trace it is told what the shard holds: it waits, it was decided and is in the buffer, a cache remembers it so, or it isn't known. To look
    renews nothing: of two that are remembered the one that was decided first is forgotten, though somebody looked at it."""
    admin = free_port()
    settings = "num_traces = 3\ndecision_wait_ms = 3600000\nroot_wait_ms = 50\ntick_ms = 20\n"
    settings += "decision_cache = { sampled_cache_size = 2, non_sampled_cache_size = 1 }\n"
    collector = start(f'admin = "127.0.0.1:{admin}"\n' + settings + THREE)
    send = lambda *spans: want("the answer", collector.ask(post(body_of(spans)))[::2], (200, "{}"))
    send(*trace(1, True, False, False, 2), *trace(2, False, False, False))
    comes_to("the decisions", lambda: decided_by(admin), 2)
    began = 1000 * time.time()
    send(child(3, 1), child(3, 2))
    send(child(3, 3))
    kept, not_kept = {"state": "decided", "verdict": "kept"}, {"state": "decided", "verdict": "not_kept"}
    comes_to("what is held of the kept one", lambda: held_of(admin, 1), kept)
    comes_to("of the other one", lambda: held_of(admin, 2), not_kept)
    comes_to("of the one that waits", lambda: (held_of(admin, 3) or {}).get("spans"), 3)
    waits_by_hand(admin, 3, 3, began, 1000 * time.time())
    want("of one that never came", held_of(admin, 4), {"state": "unknown"})
    want("nobody looked when they were decided", [news_of(admin, number)["state"] for number in (1, 2, 3)], ["unknown"] * 3)
    want("a trace whose id is none", looked_at(admin, path_of(0)), {"trace_id": "0" * 32, "state": "unknown", "held": {"state": "unknown"}})
    # Two that are decided drive the first two out of the buffer, and another two the one that waits and the first of these.
    send(*trace(5, True, False, False), *trace(6, True, False, False))
    comes_to("the decisions", lambda: decided_by(admin), 4)
    comes_to("what is remembered of the kept one", lambda: held_of(admin, 1), {"state": "remembered", "verdict": "kept"})
    comes_to("of the other one", lambda: held_of(admin, 2), {"state": "remembered", "verdict": "not_kept"})
    want("a new one is held", held_of(admin, 6), kept)
    send(*trace(7, True, False, False), *trace(8, True, False, False))
    comes_to("the decisions", lambda: decided_by(admin), 6)
    comes_to("the one that waited, and left", lambda: held_of(admin, 3), {"state": "unknown"})
    # Nobody asks for trace 5: so it would be the first that goes, if looks renewed trace 1.
    want("the first is remembered", held_of(admin, 1), {"state": "remembered", "verdict": "kept"})
    send(*trace(9, True, False, False))
    comes_to("the decisions", lambda: decided_by(admin), 7)
    comes_to("the first is forgotten", lambda: held_of(admin, 1), {"state": "unknown"})
    for number in (5, 6):
        comes_to("the others are remembered", lambda it=number: held_of(admin, it), {"state": "remembered", "verdict": "kept"})
    want("what is told of the last one", news_of(admin, 9)["verdict"], "kept")
    ask_in_charge(admin, "/close")
    collector.end()


def held_by_several(start):
    """Whichever shard has a trace, it is told what it holds; that a trace isn't known only once each has said so."""
    rng, admin = random.Random(73), free_port()
    collector = start(f'admin = "127.0.0.1:{admin}"\nshards = 4\nlanes = 2\ndecision_wait_ms = 3600000\ntick_ms = 20\n' + THREE)
    traces = {number: rng.randrange(1, 6) for number in range(1, 41)}
    began = 1000 * time.time()
    collector.ask(post(body_of([span for number, spans in traces.items() for span in trace(number, False, False, False, spans)])))
    ended = 1000 * time.time()
    comes_to("the spans that wait", lambda: sum(it for name, it in scrape(admin).items() if name.startswith("tsc_shard_spans")), sum(traces.values()))
    for number in rng.sample(sorted(traces), 12):
        waits_by_hand(admin, number, traces[number], began, ended)
    for number in (41, 42, 2**127):
        want("one that never came", held_of(admin, number), {"state": "unknown"})
    ask_in_charge(admin, "/close")
    collector.end()


def questions_end(start):
    """Eight traces are asked for at a time, and a further one takes the place of that which was asked for longest ago; a question ends ten seconds after it
    was asked last."""
    admin = free_port()
    collector = start(f'admin = "127.0.0.1:{admin}"\ntick_ms = 20\n' + ALL)
    began = time.monotonic()
    for number in range(1, 9):
        want("none is answered at once", looked_at(admin, path_of(number))["held"], None)
    unknown = {"state": "unknown"}
    for number in range(1, 9):
        want("each of eight", held_of(admin, number), unknown)
    first = looked_at(admin, path_of(1))["held"]
    want("a ninth", looked_at(admin, path_of(9))["held"], None)
    second = looked_at(admin, path_of(2))["held"]
    if time.monotonic() < began + 9:
        want("the first, which was asked for again, and the one after it, whose place was taken", (first, second), (unknown, None))
    want("it is answered again", held_of(admin, 2), unknown)
    time.sleep(11)
    want("a question that has ended", looked_at(admin, path_of(2))["held"], None)
    want("and is asked again", held_of(admin, 2), unknown)
    ask_in_charge(admin, "/close")
    collector.end()


CHECKS = [each_decided, policies_on_spans, each_cause, late_spans, rotated, all_at_the_close, decisions_cannot_be_written, decisions_of_a_full_disk]
CHECKS += [last_decisions, most_decisions, left_and_decided, odd_looks, told_for_a_minute, held_traces, held_by_several, questions_end]
