#!/usr/bin/env python3
"""Writes runs of one trace to a folder, each under policies at, below or above a bound: NAME.toml, NAME.script and NAME.expected, one name a
line on standard output.

    tests/policies.py FOLDER

Whether the trace is kept stands in the tables, by the tailsamplingprocessor's rules for each policy; none of it is the program's answer.
"""
import sys

from limits import PLAIN, Run, attribute, plain_request, plain_span, size
from tables import policy_types

TOP = 2**64 - 1
WHOLE_TOP = 2**63 - 1
ALWAYS = ("always_sample", None)


def policy(name, kind, settings):
    """A policy in TOML."""
    own = f", {kind} = {{ {settings} }}" if settings is not None else ""
    return f'{{ name = "{name}", type = "{kind}"{own} }}'


def policies(*kinds):
    """Policies of these types with these settings, each with a name of its own."""
    return "policies = [" + ", ".join(policy(n, kind, settings) for n, (kind, settings) in enumerate(kinds)) + "]\n"


def span(number, start=0, end=0, code=0, **fields):
    """A span of the trace: defaults are left out, as the canonical text has it."""
    times = {name: str(time) for name, time in (("startTimeUnixNano", start), ("endTimeUnixNano", end)) if time}
    status = {"status": {"code": code}} if code else {}
    return plain_span(1, number, **times, **status, **fields)


def resource_spans(spans):
    """A request of spans, each given with the attributes of its resource."""
    return [dict({"resource": {"attributes": of}} if of else {}, scopeSpans=[{"spans": [one]}]) for one, of in spans]


def one_run(folder, name, kinds, spans, is_kept):
    """A trace of these spans, each with the attributes of its resource, and whether it is kept."""
    run = Run(folder, name, {}, policies(*kinds), lambda _: is_kept)
    run.receive(1, resource_spans(spans))
    run.finish()


def latencies(folder):
    """A span of so many nanoseconds, from each of three starts."""
    rows = [
        (500, 0, 499_999_999, False), (500, 0, 500_000_000, True), (500, 0, 501_000_000, True),
        (499, 500, 499_000_000, False), (499, 500, 499_999_999, False), (499, 500, 500_999_999, True), (499, 500, 501_000_000, False),
        (0, 0, 0, True), (0, 1, 999_999, False), (0, 1, 1_000_000, True),
    ]  # fmt: skip
    for threshold, upper, nanoseconds, is_kept in rows:
        settings = f"threshold_ms = {threshold}, upper_threshold_ms = {upper}"
        for start in (0, 7, TOP - 501_000_000):
            name = f"latency above {threshold} up to {upper} of {nanoseconds} from {start}"
            one_run(folder, name, [("latency", settings)], [(span(1, start, start + nanoseconds), None)], is_kept)
    settings = "threshold_ms = 3, upper_threshold_ms = 4"
    spans = [(span(1, 5_000_000, 6_000_000), None), (span(2, 7_000_000, 9_999_999), None)]
    one_run(folder, "latency of two spans", [("latency", settings)], spans, True)
    # The Collector compares after each span, and so samples this one at its first span; and it passes a start of 0 over.
    settings = "threshold_ms = 500, upper_threshold_ms = 1000"
    spans = [(span(1, 10**9, 10**9 + 600_000_000), None), (span(2, 10**9, 3 * 10**9), None)]
    one_run(folder, "latency above the upper threshold by the second span", [("latency", settings)], spans, False)
    spans = [(span(1, 0, 10**9), None), (span(2, 6 * 10**9, 6 * 10**9 + 1_000_000), None)]
    one_run(folder, "latency from a start that isn't set", [("latency", "threshold_ms = 5000")], spans, True)


def times_at_the_top(folder):
    """Starts and ends at the greatest moment and in the wrong order."""
    rows = [
        (0, 0, TOP, 0, True), (0, 1, TOP, 0, False), (1, 0, TOP, 0, False), (0, 0, 1, 0, True),
        (18_446_744_073_709, 0, 0, TOP, True), (18_446_744_073_710, 0, 0, TOP, False),
        (WHOLE_TOP, 0, 0, TOP, False), (0, 0, TOP, TOP, True),
    ]  # fmt: skip
    for threshold, upper, start, end, is_kept in rows:
        settings = f"threshold_ms = {threshold}, upper_threshold_ms = {upper}"
        one_run(folder, f"latency above {threshold} up to {upper} from {start} to {end}", [("latency", settings)], [(span(1, start, end), None)], is_kept)


def status_codes(folder):
    """The second of two spans has a code; codes beyond the three that have names aren't matched."""
    rows = [("ERROR", 2, True), ("ERROR", 1, False), ("ERROR", 3, False), ("OK", 1, True), ("OK", 2, False), ("OK", -1, False), ("UNSET", 0, True)]
    for wanted, code, is_kept in rows:
        one_run(folder, f"status {wanted} of {code}", [("status_code", f'status_codes = ["{wanted}"]')], [(span(1, code=3), None), (span(2, code=code), None)], is_kept)
    one_run(folder, "one of two statuses", [("status_code", 'status_codes = ["OK", "ERROR"]')], [(span(1), None), (span(2, code=2), None)], True)


def span_counts(folder):
    """Traces of one to four spans."""
    rows = [(2, 3, 1, False), (2, 3, 2, True), (2, 3, 3, True), (2, 3, 4, False), (2, 0, 1, False), (2, 0, 4, True), (0, 1, 1, True), (0, 1, 2, False)]
    for least, most, count, is_kept in rows:
        settings = f"min_spans = {least}, max_spans = {most}"
        one_run(folder, f"{count} spans where {least} to {most} are wanted", [("span_count", settings)], [(span(n), None) for n in range(1, count + 1)], is_kept)


def rates(folder):
    """Two spans under a limit a second."""
    for limit, is_kept in ((2, True), (1, False), (0, False), (WHOLE_TOP, True)):
        one_run(folder, f"two spans where {limit} are granted", [("rate_limiting", f"spans_per_second = {limit}")], [(span(1), None), (span(2), None)], is_kept)


def bytes_of(per_second, burst=None):
    """A limit of bytes a second."""
    return "bytes_limiting", f"bytes_per_second = {per_second}" + (f", burst_capacity = {burst}" if burst is not None else "")


def byte_rates(folder):
    """Traces of one span and of two under a bucket that holds just their bytes, one less, none, or twice what it gets back in a second; each span has a resource of its own."""
    texts = ["", "x", "\u00e9", "\u20ac", "\U0001f600", 'a"b\\c/d', "\n\r\t\b\f\x01\x1f\x7f", "x" * 70000]
    values = [{"intValue": "-9223372036854775808"}, {"boolValue": False}, {"bytesValue": "AAE="}, {"arrayValue": {"values": [{"stringValue": "\u00e9"}, {}]}}, {"kvlistValue": {"values": [attribute("k", intValue="0")]}}]
    rich = span(
        3, TOP - 1, TOP, 2, name="n", kind=3, parentSpanId=f"{1:016x}", traceState="k=v", flags=257, droppedAttributesCount=1, droppedEventsCount=2, droppedLinksCount=3,
        attributes=[attribute(f"a{number}", **value) for number, value in enumerate(values)], events=[{"timeUnixNano": "1", "name": "\u00e9"}], links=[{"traceId": f"{2:032x}", "spanId": f"{3:016x}", "traceState": "a=b"}],
    )  # fmt: skip
    traces = [[span(1)], [span(1), span(2)], [rich], [rich, span(2)]] + [[span(1, attributes=[attribute("a" + text, stringValue=text)])] for text in texts]
    for number, spans in enumerate(traces):
        whole = size(spans)
        rows = [
            (bytes_of(0, whole), True), (bytes_of(0, whole - 1), False), (bytes_of(WHOLE_TOP, whole), True), (bytes_of(WHOLE_TOP, whole - 1), False), (bytes_of(whole, 0), False),
            (bytes_of((whole + 1) // 2), True), (bytes_of((whole - 1) // 2), False), (bytes_of(0), False), (bytes_of(WHOLE_TOP), True), (bytes_of(0, WHOLE_TOP), True),
        ]  # fmt: skip
        for row, (kind, is_kept) in enumerate(rows):
            one_run(folder, f"bytes {row} of trace {number}", [kind], [(one, [attribute("of", intValue=str(place + 1))]) for place, one in enumerate(spans)], is_kept)


def attributes(folder):
    """The last of two spans has an attribute, or its resource has it, or both; an inverted match alone samples just where the plain one doesn't."""
    dev = ("string_attribute", 'values = ["dev"]')
    digit = ("string_attribute", 'values = ["1"]')
    rows = [
        (dev, {"stringValue": "dev"}, True), (dev, {"stringValue": "Dev"}, False), (dev, {"stringValue": ""}, False),
        (dev, {"stringValue": "dev2"}, False), (digit, {"intValue": "1"}, False),
        (("numeric_attribute", "min_value = 0, max_value = 9"), {"stringValue": "1"}, False),
        (("numeric_attribute", "min_value = 0, max_value = 9"), {"boolValue": True}, False),
    ]  # fmt: skip
    bounds = [(-1, 1, -2, False), (-1, 1, -1, True), (-1, 1, 1, True), (-1, 1, 2, False), (7, 7, 7, True)]
    bounds += [(-WHOLE_TOP - 1, WHOLE_TOP, -WHOLE_TOP - 1, True), (0, WHOLE_TOP, -WHOLE_TOP - 1, False)]
    rows += [(("numeric_attribute", f"min_value = {least}, max_value = {most}"), {"intValue": str(value)}, is_in) for least, most, value, is_in in bounds]
    truths = [("true", {"boolValue": True}, True), ("true", {"boolValue": False}, False), ("false", {"boolValue": False}, True)]
    # The Collector reads a value of another type as false, and as the number 0.
    truths += [("false", None, False), ("true", {"intValue": "1"}, False), ("false", {"intValue": "0"}, False), ("false", {"stringValue": "x"}, False)]
    rows += [(("boolean_attribute", f"value = {wanted}"), value, is_in) for wanted, value, is_in in truths]
    other = attribute("other", stringValue="dev")
    for row, ((kind, settings), value, is_in) in enumerate(rows):
        having = [other, attribute("env", **value) if value else {"key": "env"}]
        for place, own, of_resource in (("span", having, [other]), ("resource", [other], having), ("both", having, having)):
            spans = [(span(1, attributes=[other]), [other]), (span(2, attributes=own), of_resource)]
            one_run(folder, f"attribute {row} of the {place}", [(kind, f'key = "env", {settings}')], spans, is_in)
            one_run(folder, f"inverted attribute {row} of the {place}", [(kind, f'key = "env", {settings}, invert_match = true')], spans, not is_in)


def expressions(folder):
    """An attribute of the last of two spans, or of its resource, against regular expressions: a match anywhere is one. In TOML they stand between single quotes."""
    rows = [
        ("^/health", "/health/live", True), ("^/health", "/api/health", False), ("health", "/api/healthz", True), ("health", "/api/Health", False), ("(?i)HEALTH", "/api/Health", True),
        ("^/users/[0-9]+$", "/users/42", True), ("^/users/[0-9]+$", "/users/42/x", False), ("^/users/[0-9]+$", "/users/", False), (r"\d{3}", "ab123", True), (r"\d{3}", "ab12", False),
        ("a.c", "abc", True), ("a.c", "a.c", True), ("a.c", "ac", False), ("a.c", "a\nc", False), ("(?s)a.c", "a\nc", True), (r"a\.c", "abc", False), (r"a\.c", "a.c", True),
        ("", "anything", True), ("", "", True), ("^$", "", True), ("^$", "x", False), ("^.$", "\u00e9", True), ("^..$", "\u00e9", False), ("\u00e9", "caf\u00e9", True), (r"^\w+$", "\u00e9t\u00e9", True),
        (r"\bfoo\b", "a foo b", True), (r"\bfoo\b", "a food b", False), ("^(GET|POST)$", "POST", True), ("^(GET|POST)$", "PUT", False), ("GET|POST", "POSTED", True), ("^[^/]*$", "a/b", False),
        ("(a|a?)+$", "b", True), ("^(a|a?)+$", "aab", False), ("[[:upper:]]{2}", "aBCd", True), ("x*y", "zzy", True), ("x+y", "zzy", False), ("(?m)^b$", "a\nb\nc", True), ("^b$", "a\nb\nc", False),
    ]  # fmt: skip
    other = attribute("other", stringValue="/health/live")
    for row, (expression, value, is_in) in enumerate(rows):
        settings = f"key = \"url\", enabled_regex_matching = true, values = ['{expression}']"
        having = [other, attribute("url", stringValue=value)]
        for place, own, of_resource in (("span", having, [other]), ("resource", [other], having)):
            spans = [(span(1, attributes=[other]), [other]), (span(2, attributes=own), of_resource)]
            one_run(folder, f"expression {row} of the {place}", [("string_attribute", settings)], spans, is_in)
            one_run(folder, f"inverted expression {row} of the {place}", [("string_attribute", settings + ", invert_match = true")], spans, not is_in)


def expressions_and_values(folder):
    """Two expressions, values that are no texts, the size that has no effect, and texts that look like expressions."""
    matching = "enabled_regex_matching = true"
    more = [
        ("two expressions, the second of which matches", f"{matching}, values = ['^a', 'b$']", {"stringValue": "cb"}, True),
        ("two expressions, none of which matches", f"{matching}, values = ['^a', 'b$']", {"stringValue": "ba"}, False),
        ("an expression for a whole number", f"{matching}, values = ['1']", {"intValue": "1"}, False),
        ("an expression for a truth value", f"{matching}, values = ['true']", {"boolValue": True}, False),
        ("an expression, and a size of no effect", f"{matching}, cache_max_size = 0, values = ['^a']", {"stringValue": "ab"}, True),
        ("no expression where none is wanted", "enabled_regex_matching = false, cache_max_size = 100, values = ['a.c', '(']", {"stringValue": "abc"}, False),
        ("a text that looks like an expression", "values = ['a.c', '(']", {"stringValue": "("}, True),
    ]
    for name, settings, value, is_in in more:
        one_run(folder, name, [("string_attribute", f'key = "url", {settings}')], [(span(1, attributes=[attribute("url", **value)]), None)], is_in)


def expressions_together(folder):
    """Policies on expressions beside and inside others; a trace of one span with `url` as `/health/live`."""
    parts = [("string_attribute", f"key = \"url\", enabled_regex_matching = true, values = ['{expression}']") for expression in ("^/", "live$", "dead$")]
    first, second, third = parts
    together = [
        ([third, second], True), ([third, third], False), ([joined("and", first, second)], True), ([joined("and", first, third)], False), ([joined("not", third)], True),
        ([joined("drop", second), ALWAYS], False), ([joined("drop", third), ALWAYS], True), ([composite(9, third, second)], True), ([composite(9, third)], False),
        ([joined("not", joined("and", first, second))], False), ([joined("and", joined("not", third), joined("and", second, first))], True),
    ]  # fmt: skip
    for number, (kinds, is_in) in enumerate(together):
        one_run(folder, f"expressions together {number}", kinds, [(span(1, attributes=[attribute("url", stringValue="/health/live")]), None)], is_in)


def long_texts(folder):
    """A text of 1 MiB under expressions that take a time beyond all bounds where a matcher tries one way after the other."""
    mebibyte = 2**20
    rows = [("(a|a?)+$", "a" * mebibyte, True), ("^(a|a?)+$", "a" * (mebibyte - 1) + "b", False), ("^(a*)*(a*)*c", "a" * mebibyte, False), ("(x+x+)+y", "x" * mebibyte, False)]
    for number, (expression, value, is_in) in enumerate(rows):
        settings = f"key = \"url\", enabled_regex_matching = true, values = ['{expression}']"
        one_run(folder, f"an expression for a long text {number}", [("string_attribute", settings)], [(span(1, attributes=[attribute("url", stringValue=value)]), None)], is_in)


def fnv_1a(octets):
    """The 64-bit FNV-1a hash of bytes."""
    state = 0xCBF29CE484222325
    for octet in octets:
        state = (state ^ octet) * 0x100000001B3 % 2**64
    return state


def percentages(folder):
    """A trace at the least percentage that keeps it, in ten-thousandths of a percent, and one below, for some salts; and at all and none."""
    published = {b"": 0xCBF29CE484222325, b"a": 0xAF63DC4C8601EC8C, b"foobar": 0x85944171F73967E8}
    assert all(fnv_1a(octets) == hashed for octets, hashed in published.items())
    one = span(1)
    for number, salt in enumerate((None, "", "default-hash-seed", "other", "\u00e9")):
        hashed = fnv_1a((salt or "default-hash-seed").encode() + bytes.fromhex(one["traceId"]))
        least = next(count for count in range(10**6 + 1) if hashed <= count * TOP // 10**6)
        for count in (0, least - 1, least, 10**6):
            settings = ([] if salt is None else [f'hash_salt = "{salt}"']) + [f"sampling_percentage = {count // 10**4}.{count % 10**4:04}"]
            one_run(folder, f"{count} ten-thousandths of a percent by salt {number}", [("probabilistic", ", ".join(settings))], [(one, None)], count >= least)


def trace_states(folder):
    """The trace state of the second of two spans: its members are cut at commas, the white space around each is left out, and its key ends at its first `=`."""
    rows = [
        ("k=v", True), ("k=w", True), ("k=v,k=x", True), ("k=x,k=v", True), ("a=1,k=v,b=2", True), ("a=1, k=v", True), ("a=1,\tk=v \t,b", True), (" k=v", True),
        ("k=u=v", True), ("k=", False), ("k", False), ("", False), (",", False), ("v", False), ("=v", False), ("k=v2", False), ("kk=v", False), ("K=v", False), ("k=V", False),
        ("k =v", False), ("k= v", False), ("k=v;k=v", False), ("v=k", False), ("k\n=v", False), ("k=v\n", False), ("a" * 70000 + ",k=v", True),
    ]  # fmt: skip
    settings = 'key = "k", values = ["v", "w", "u=v"]'
    for number, (state, is_kept) in enumerate(rows):
        told = {"traceState": state} if state else {}
        one_run(folder, f"trace state {number}", [("trace_state", settings)], [(span(1), None), (span(2, **told), None)], is_kept)
    one_run(folder, "trace state of no value", [("trace_state", 'key = "k", values = [""]')], [(span(1, traceState="k="), None)], True)
    one_run(folder, "trace state of no key", [("trace_state", 'key = "", values = ["v"]')], [(span(1, traceState="a=v,=v"), None)], True)
    one_run(folder, "trace state of a key with a sign", [("trace_state", 'key = "k=u", values = ["v"]')], [(span(1, traceState="k=u=v"), None)], False)


def trace_flags(folder):
    """The flags of the first and the last of three spans: the lowest bit of one of them has to be set."""
    rows = [(0, 0, False), (1, 0, True), (0, 1, True), (2, 2, False), (2, 3, True), (256, 512, False), (257, 2**32 - 2, True), (2**32 - 1, 0, True), (2**32 - 2, 2**31, False)]
    for first, last, is_kept in rows:
        spans = [span(number, **({"flags": flags} if flags else {})) for number, flags in enumerate((first, 0, last), 1)]
        one_run(folder, f"flags {first} and {last}", [("trace_flags", None)], [(one, None) for one in spans], is_kept)


def policies_together(folder):
    """An inverted match against a trace wins over policies that sample it, but not from within an `and`; one for it samples only where no policy is against it."""
    inverted = ("string_attribute", 'key = "env", values = ["prod2", "dev"], invert_match = true')
    in_and = ("and", f"and_sub_policy = [{policy('a', *ALWAYS)}, {policy('b', *inverted)}]")
    errors = ("status_code", 'status_codes = ["ERROR"]')
    rows = [
        ("an inverted match against it beside always", [inverted, ALWAYS], "dev", False),
        ("an inverted match for it beside always", [inverted, ALWAYS], "prod", True),
        ("an inverted match within an and", [in_and, ALWAYS], "dev", True),
        ("an inverted match alone", [inverted], "prod", True),
        ("an inverted match beside no error", [inverted, errors], "prod", False),
    ]
    for name, kinds, value, is_kept in rows:
        one_run(folder, name, kinds, [(span(1, attributes=[attribute("env", stringValue=value)]), None)], is_kept)


def joined(kind, *kinds):
    """A policy that is made of others."""
    tables = [policy(name, *of) for name, of in zip("abc", kinds)]
    return kind, f"{kind}_sub_policy = " + (tables[0] if kind == "not" else f"[{', '.join(tables)}]")


def policies_of_policies(folder):
    """A drop wins over any other answer, but not from within another policy; a trace of two spans with `env` as `dev`."""
    never = ("span_count", "min_spans = 9")
    against = ("string_attribute", 'key = "env", values = ["dev"], invert_match = true')
    in_favour = ("string_attribute", 'key = "env", values = ["prod"], invert_match = true')
    flagged = ("trace_flags", None)
    stated, unstated = (("trace_state", f'key = "k", values = ["{value}"]') for value in "vw")
    one, two = (("rate_limiting", f"spans_per_second = {limit}") for limit in (1, 2))
    rows = [
        ([joined("not", ALWAYS)], False), ([joined("not", never)], True), ([joined("not", ALWAYS), ALWAYS], True), ([joined("not", never), never], True),
        ([joined("not", against)], True), ([joined("not", in_favour)], False), ([joined("not", joined("not", ALWAYS))], True), ([joined("not", never), against], False),
        ([joined("not", one)], True), ([joined("not", two)], False), ([joined("and", ALWAYS, joined("not", never))], True), ([joined("not", joined("and", ALWAYS, never))], True),
        ([joined("drop", ALWAYS)], False), ([joined("drop", ALWAYS), ALWAYS], False), ([ALWAYS, joined("drop", ALWAYS)], False), ([joined("drop", never), ALWAYS], True),
        ([joined("drop", ALWAYS, never), ALWAYS], True), ([joined("drop", ALWAYS, in_favour), ALWAYS], False), ([joined("drop", against), ALWAYS], True), ([joined("drop", never)], False),
        ([in_favour], True), ([in_favour, joined("drop", never)], False), ([in_favour, joined("drop", ALWAYS)], False), ([against, joined("drop", never), ALWAYS], False),
        ([joined("and", joined("drop", ALWAYS)), ALWAYS], True), ([joined("not", joined("drop", ALWAYS))], True), ([joined("drop", joined("drop", ALWAYS)), ALWAYS], True),
        ([joined("drop", joined("not", never)), ALWAYS], False), ([joined("drop", one), ALWAYS], True), ([joined("drop", two), ALWAYS], False),
        ([flagged, never], True), ([flagged, against], False), ([joined("not", flagged)], False), ([joined("and", flagged, stated)], True), ([joined("and", flagged, unstated)], False),
        ([joined("drop", stated), flagged], False), ([joined("drop", unstated), flagged], True), ([joined("not", joined("and", stated, unstated))], True), ([in_favour, unstated], False),
    ]  # fmt: skip
    for number, (kinds, is_kept) in enumerate(rows):
        spans = [span(n, attributes=[attribute("env", stringValue="dev")], flags=1, traceState="k=v") for n in (1, 2)]
        one_run(folder, f"policies of policies {number}", kinds, [(one_span, None) for one_span in spans], is_kept)


def composite(total, *kinds, asked="abc", **percents):
    """A composite of parts named a, b and c, which are asked in this order, with percentages by their names."""
    tables = ", ".join(policy(name, *of) for name, of in zip("abc", kinds))
    order = ", ".join(f'"{name}"' for name in asked[:len(kinds)])
    shares = ", ".join(f'{{ policy = "{name}", percent = {percent} }}' for name, percent in percents.items())
    return "composite", f"max_total_spans_per_second = {total}, policy_order = [{order}], composite_sub_policy = [{tables}], rate_allocation = [{shares}]"


def composites(folder):
    """The first part that samples decides, by its share; a trace of two spans with `env` as `dev`."""
    never = ("span_count", "min_spans = 9")
    against = ("string_attribute", 'key = "env", values = ["dev"], invert_match = true')
    in_favour = ("string_attribute", 'key = "env", values = ["prod"], invert_match = true')
    one, two = (("rate_limiting", f"spans_per_second = {limit}") for limit in (1, 2))
    rows = [
        ([composite(0, ALWAYS)], False), ([composite(1, ALWAYS)], False), ([composite(2, ALWAYS)], True), ([composite(WHOLE_TOP, ALWAYS)], True), ([composite(9, never)], False),
        ([composite(3, ALWAYS, never)], False), ([composite(4, ALWAYS, never)], True), ([composite(5, ALWAYS, never, never)], False), ([composite(6, ALWAYS, never, never)], True),
        ([composite(4, ALWAYS, a=50)], True), ([composite(4, ALWAYS, a=49)], False), ([composite(200, ALWAYS, a=1)], True), ([composite(199, ALWAYS, a=1)], False), ([composite(2, ALWAYS, a=100)], True),
        ([composite(WHOLE_TOP, ALWAYS, a=100)], True), ([composite(4, never, ALWAYS, a=100)], True), ([composite(3, never, ALWAYS, a=100)], False), ([composite(100, ALWAYS, ALWAYS, a=1)], False),
        ([composite(100, never, ALWAYS, a=99, b=2)], True), ([composite(100, never, ALWAYS, a=99, b=1)], False), ([composite(1, ALWAYS), ALWAYS], True), ([composite(2, ALWAYS), against], False),
        ([composite(2, in_favour)], True), ([composite(9, against)], False), ([composite(9, against, ALWAYS)], True), ([composite(4, one, two)], True), ([composite(2, one, two)], False),
        ([composite(9, joined("drop", ALWAYS))], False), ([composite(9, joined("drop", ALWAYS), ALWAYS)], True), ([composite(9, composite(1, ALWAYS), ALWAYS)], True), ([composite(4, composite(2, ALWAYS))], True),
        ([joined("not", composite(1, ALWAYS))], True), ([joined("not", composite(2, ALWAYS))], False), ([joined("and", ALWAYS, composite(2, ALWAYS))], True), ([joined("drop", composite(2, ALWAYS)), ALWAYS], False),
        ([joined("drop", composite(1, ALWAYS)), ALWAYS], True), ([in_favour, composite(1, ALWAYS)], False),
        # The part that is asked first decides, by the share of its name, wherever it stands.
        ([composite(100, ALWAYS, ALWAYS, a=1)], False), ([composite(100, ALWAYS, ALWAYS, asked="ba", a=1)], True), ([composite(100, ALWAYS, ALWAYS, asked="ba", b=1)], False),
        ([composite(100, ALWAYS, ALWAYS, b=1)], True), ([composite(100, ALWAYS, never, asked="ba", a=1)], False), ([composite(100, ALWAYS, never, asked="ba", b=1)], True),
        ([composite(100, ALWAYS, ALWAYS, never, asked="cab", a=1)], False), ([composite(100, ALWAYS, ALWAYS, never, asked="cba", a=1)], True),
        ([composite(100, never, ALWAYS, ALWAYS, asked="acb", c=1)], False), ([composite(100, never, ALWAYS, ALWAYS, asked="acb", b=1)], True),
        ([composite(5, ALWAYS, never, never, asked="cba")], False), ([composite(6, ALWAYS, never, never, asked="cba")], True),
    ]  # fmt: skip
    for number, (kinds, is_kept) in enumerate(rows):
        spans = [(span(n, attributes=[attribute("env", stringValue="dev")]), None) for n in (1, 2)]
        one_run(folder, f"composite {number}", kinds, spans, is_kept)


def bytes_together(folder):
    """A limit of bytes beside and inside other policies: one that just holds the trace of two spans, with `env` as `dev`, and one of a byte less."""
    spans = [span(n, attributes=[attribute("env", stringValue="dev")]) for n in (1, 2)]
    enough, less = bytes_of(0, size(spans)), bytes_of(0, size(spans) - 1)
    never = ("span_count", "min_spans = 9")
    two = ("rate_limiting", "spans_per_second = 2")
    against = ("string_attribute", 'key = "env", values = ["dev"], invert_match = true')
    in_favour = ("string_attribute", 'key = "env", values = ["prod"], invert_match = true')
    rows = [
        ([enough, never], True), ([less, never], False), ([less, enough], True), ([enough, enough], True), ([less, ALWAYS], True), ([enough, against], False), ([less, in_favour], False), ([enough, in_favour], True),
        ([joined("and", enough, ALWAYS)], True), ([joined("and", less, ALWAYS)], False), ([joined("and", ALWAYS, enough)], True), ([joined("and", two, enough)], True), ([joined("and", two, less)], False),
        ([joined("and", never, enough), less], False), ([joined("and", enough, in_favour)], True), ([joined("not", enough)], False), ([joined("not", less)], True), ([joined("not", joined("and", enough, less))], True),
        ([joined("drop", enough), ALWAYS], False), ([joined("drop", less), ALWAYS], True), ([ALWAYS, joined("drop", enough)], False), ([joined("drop", ALWAYS, less), enough], True), ([joined("drop", joined("not", less)), ALWAYS], False),
        ([composite(2, enough)], True), ([composite(1, enough)], False), ([composite(9, less)], False), ([composite(9, less, enough)], True), ([composite(4, less, ALWAYS)], True), ([composite(3, enough, ALWAYS)], False),
        ([composite(9, composite(9, enough))], True), ([joined("not", composite(9, less))], True), ([composite(9, joined("and", two, enough))], True), ([two, less], True), ([composite(4, enough, never, a=50)], True),
    ]  # fmt: skip
    for number, (kinds, is_kept) in enumerate(rows):
        one_run(folder, f"bytes together {number}", kinds, [(one, None) for one in spans], is_kept)


def first_matches(folder):
    """The first policy that samples or drops ends the asking, and what was answered up to it decides; a trace of two spans with `env` as `dev`."""
    never = ("span_count", "min_spans = 9")
    against = ("string_attribute", 'key = "env", values = ["dev"], invert_match = true')
    in_favour = ("string_attribute", 'key = "env", values = ["prod"], invert_match = true')
    one = ("rate_limiting", "spans_per_second = 1")
    dropped = joined("drop", ALWAYS)
    rows = [
        ([ALWAYS], True), ([never], False), ([never, ALWAYS], True), ([one, ALWAYS], True), ([ALWAYS, against], True), ([against, ALWAYS], False), ([never, ALWAYS, against], True),
        ([ALWAYS, dropped], True), ([dropped, ALWAYS], False), ([joined("drop", never), ALWAYS, dropped], True), ([never, dropped], False), ([in_favour], True), ([in_favour, never], False),
        ([in_favour, ALWAYS, against], True), ([in_favour, against], False), ([in_favour, dropped], False), ([joined("not", never), against], True), ([joined("not", ALWAYS), against], False),
    ]  # fmt: skip
    for number, (kinds, is_kept) in enumerate(rows):
        run = Run(folder, f"first match {number}", {}, "sample_on_first_match = true\n" + policies(*kinds), lambda _, is_kept=is_kept: is_kept)
        run.receive(1, resource_spans([(span(n, attributes=[attribute("env", stringValue="dev")]), None) for n in (1, 2)]))
        run.finish()


KINDS = [
    ("always_sample", ""),
    ("latency", "threshold_ms = 0"),
    ("status_code", 'status_codes = ["ERROR"]'),
    ("string_attribute", 'key = "k", values = ["v"]'),
    ("string_attribute", "key = \"k\", values = ['^v'], enabled_regex_matching = true"),
    ("string_attribute", 'key = "k", values = ["w"], invert_match = true'),
    ("numeric_attribute", 'key = "n", min_value = 7'),
    ("boolean_attribute", 'key = "b", value = true'),
    ("span_count", "min_spans = 1"),
    ("probabilistic", "sampling_percentage = 100"),
    ("rate_limiting", "spans_per_second = 1000"),
    ("bytes_limiting", "bytes_per_second = 1000000"),
    ("trace_state", 'key = "k", values = ["v"]'),
    ("ottl_condition", 'span = ["true"]'),
    ("trace_flags", ""),
    ("and", 'and_sub_policy = [{ name = "all", type = "always_sample" }]'),
    ("not", 'not_sub_policy = { name = "many", type = "span_count", span_count = { min_spans = 9 } }'),
    ("composite", 'max_total_spans_per_second = 1000, policy_order = ["all"], composite_sub_policy = [{ name = "all", type = "always_sample" }]'),
]


def sampled_but_too_big(folder):
    """Under each kind of policy a trace that it samples, of the greatest size, and one that has a byte more: none samples that."""
    if (untold := set(policy_types()) - {kind for kind, _ in KINDS}) != {"drop"}:  # (which samples nothing)
        raise SystemExit(f"policies.py: KINDS lacks {untold - {'drop'}}, or has `drop`")
    values = [attribute("k", stringValue="v"), attribute("n", intValue="7"), attribute("b", boolValue=True)]
    for number, (kind, settings) in enumerate(KINDS):
        table = f", {kind} = {{ {settings} }}" if settings else ""
        written = f'policies = [{{ name = "it", type = "{kind}"{table} }}]\n'
        spans = [plain_span(trace, trace, attributes=values, flags=1, traceState="k=v", status={"code": 2}) for trace in (1, 2)]
        spans[1]["name"] = "n"
        maximum = size(spans[:1]) + PLAIN
        run = Run(folder, f"too big for {kind} {number}", {"maximum_trace_size_bytes": maximum}, written, lambda records: True)
        run.receive(1, plain_request([spans[0], plain_span(1, 3), spans[1], plain_span(2, 4), plain_span(2, 5)]))
        run.finish()


if __name__ == "__main__":
    for write in (latencies, times_at_the_top, status_codes, span_counts, rates, byte_rates, attributes, expressions, expressions_and_values, expressions_together, long_texts, percentages, trace_states, trace_flags, policies_together, policies_of_policies, composites, bytes_together, first_matches, sampled_but_too_big):
        write(sys.argv[1])
