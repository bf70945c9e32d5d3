#!/usr/bin/env python3
"""Writes runs of configurations in the form of the tail_sampling processor's documentation, transcribed to TOML, each on the same ten traces:
NAME.toml, NAME.script and NAME.expected, one name a line on standard output.

    tests/transcribed.py FOLDER

Which of the ten traces each keeps stands in the table, worked out by hand from the processor's rules; none of it is the program's answer. Where a
configuration of the processor has a key or a type that isn't read here, the table has it without that part.
"""
import sys

from limits import Run, attribute, plain_span

MILLISECONDS = 10**6


def text(key, value):
    """An attribute with a text."""
    return attribute(key, stringValue=value)


def of(service):
    """The attributes of a resource of this service."""
    return [text("service.name", service)]


def span(trace, number, milliseconds=0, code=0, **fields):
    """A span that takes so long; defaults are left out, as the canonical text has it."""
    times = {"endTimeUnixNano": str(milliseconds * MILLISECONDS)} if milliseconds else {}
    status = {"status": {"code": code}} if code else {}
    return plain_span(trace, number, **times, **status, **fields)


# Ten traces, each a list of spans with the attributes of their resource. Each span starts at 0.
TRACES = {
    # One span of 1 ms that says nothing more.
    1: [(span(1, 1, 1), None)],
    # Two spans of team_b, the second one an error.
    2: [(span(2, 1, 20), of("team_b")), (span(2, 2, 10, 2), of("team_b"))],
    # One span of 6000 ms with the status OK.
    3: [(span(3, 1, 6000, 1), of("team_c"))],
    # Two spans, the second one with the number 60 at key1.
    4: [(span(4, 1, 2), None), (span(4, 2, 1, attributes=[attribute("key1", intValue="60")]), None)],
    # One span with value1 at key2, of team_a.
    5: [(span(5, 1, 5, attributes=[text("key2", "value1")]), of("team_a"))],
    # One span with a truth at key4.
    6: [(span(6, 1, 5, attributes=[attribute("key4", boolValue=True)]), None)],
    # A probe of team_a.
    7: [(span(7, 1, 1, attributes=[text("http.route", "/live")]), of("team_a"))],
    # A span that was flagged as sampled, with value1 at key3 of its trace state.
    8: [(span(8, 1, 1, flags=1, traceState="other=1,key3=value1"), None)],
    # 21 spans.
    9: [(span(9, number, 3), None) for number in range(1, 22)],
    # Two spans of team_a: one of 12000 ms with 100 at key1 and value2 at key2, the other one an error.
    10: [(span(10, 1, 12000, attributes=[attribute("key1", intValue="100"), text("key2", "value2")]), of("team_a")), (span(10, 2, 1, 2), of("team_a"))],
}

EVERY = set(TRACES)

# ---- policies of the processor's documentation

ALWAYS = ("always_sample", None)
SLOW = ("latency", "threshold_ms = 5000")
RATHER_SLOW = ("latency", "threshold_ms = 5000, upper_threshold_ms = 10000")
FIFTY_TO_HUNDRED = ("numeric_attribute", 'key = "key1", min_value = 50, max_value = 100')
FROM_FIFTY = ("numeric_attribute", 'key = "key1", min_value = 50')
ERROR = ("status_code", 'status_codes = ["ERROR"]')
ERROR_OR_UNSET = ("status_code", 'status_codes = ["ERROR", "UNSET"]')
TWO_VALUES = ("string_attribute", 'key = "key2", values = ["value1", "value2"]')
MATCHING = ("string_attribute", "key = \"key2\", values = ['value1', 'val*'], enabled_regex_matching = true, cache_max_size = 10")
NO_PROBES = ("string_attribute", r"""key = "http.route", values = ['\/live', '\/ready'], enabled_regex_matching = true, invert_match = true""")
NO_HEALTH = ("string_attribute", 'key = "http.route", values = ["/live", "/ready"], invert_match = true')
LIVE = ("string_attribute", 'key = "http.route", values = ["/live", "/ready"]')
TEAM_A = ("string_attribute", 'key = "service.name", values = ["team_a"]')
OTHERS = ("string_attribute", 'key = "service.name", values = ["team_a"], invert_match = true')
SPANS = ("span_count", "min_spans = 2, max_spans = 20")
STATE = ("trace_state", 'key = "key3", values = ["value1", "value2"]')
FLAGS = ("trace_flags", None)
TRUTH = ("boolean_attribute", 'key = "key4", value = true')
NO_TRUTH = ("boolean_attribute", 'key = "key4", value = true, invert_match = true')


def service(expression, more=""):
    """Traces of services whose name has a match of a regular expression."""
    return "string_attribute", f"key = \"service.name\", values = ['{expression}'], enabled_regex_matching = true{more}"


def rate(limit):
    """At most so many spans a second."""
    return "rate_limiting", f"spans_per_second = {limit}"


def bytes_of(per_second, burst=None):
    """At most so many bytes a second, out of a bucket that is full at first."""
    return "bytes_limiting", f"bytes_per_second = {per_second}" + (f", burst_capacity = {burst}" if burst is not None else "")


def share(percent, salt=None):
    """A percentage of all traces."""
    return "probabilistic", f"sampling_percentage = {percent}" + (f', hash_salt = "{salt}"' if salt else "")


def fnv_1a(octets):
    """The 64-bit FNV-1a hash of bytes."""
    state = 0xCBF29CE484222325
    for octet in octets:
        state = (state ^ octet) * 0x100000001B3 % 2**64
    return state


def chosen(ten_thousandths, salt="default-hash-seed"):
    """The traces whose hash is among the lowest, by the published hash."""
    return {trace for trace in TRACES if fnv_1a(salt.encode() + trace.to_bytes(16, "big")) <= ten_thousandths * (2**64 - 1) // 10**6}


def policy(name, kind, settings):
    """A policy in TOML."""
    own = f", {kind} = {{ {settings} }}" if settings is not None else ""
    return f'{{ name = "{name}", type = "{kind}"{own} }}'


def made_of(kind, *parts):
    """A policy that is made of others."""
    tables = [policy(f"test-{kind}-policy-{number}", *part) for number, part in enumerate(parts, 1)]
    return kind, f"{kind}_sub_policy = " + (tables[0] if kind == "not" else f"[{', '.join(tables)}]")


def composite(total, percents, *parts, asked=None):
    """A composite whose parts are asked in this order, or else as they stand; the first ones have these percentages."""
    names = [f"test-composite-policy-{number}" for number in range(1, len(parts) + 1)]
    order = ", ".join(f'"{names[number - 1]}"' for number in asked or range(1, len(parts) + 1))
    tables = ", ".join(policy(name, *part) for name, part in zip(names, parts))
    shares = ", ".join(f'{{ policy = "{name}", percent = {percent} }}' for name, percent in zip(names, percents))
    return "composite", f"max_total_spans_per_second = {total}, policy_order = [{order}], composite_sub_policy = [{tables}], rate_allocation = [{shares}]"


AND = made_of("and", FIFTY_TO_HUNDRED, TWO_VALUES)
DROP_PROBES = made_of("drop", LIVE)
BACKWARDS = made_of("and", OTHERS, ALWAYS)

# A name, the policies, and the traces that are kept.
ROWS = [
    # Each type by itself.
    ("always", [ALWAYS], EVERY),
    ("latency", [SLOW], {3, 10}),
    ("latency up to an upper threshold", [RATHER_SLOW], {3}),
    ("latency of no time", [("latency", "threshold_ms = 0")], EVERY),
    ("numeric attribute", [FIFTY_TO_HUNDRED], {4, 10}),
    ("numeric attribute from a least value on", [("numeric_attribute", 'key = "key1", min_value = 61')], {10}),
    ("numeric attribute up to a greatest value", [("numeric_attribute", 'key = "key1", max_value = 99')], {4}),
    ("inverted numeric attribute", [("numeric_attribute", 'key = "key1", min_value = 50, max_value = 100, invert_match = true')], EVERY - {4, 10}),
    ("probabilistic", [share(10)], chosen(10**5)),
    ("probabilistic of half", [share("50.0", "own")], chosen(5 * 10**5, "own")),
    ("probabilistic of all", [share(100)], EVERY),
    ("probabilistic of none", [share(0)], set()),
    ("status code", [ERROR], {2, 10}),
    ("two status codes", [ERROR_OR_UNSET], EVERY - {3}),
    ("status code OK", [("status_code", 'status_codes = ["OK"]')], {3}),
    ("string attribute", [TWO_VALUES], {5, 10}),
    ("string attribute of a resource", [TEAM_A], {5, 7, 10}),
    ("string attribute of another kind", [("string_attribute", 'key = "key4", values = ["true"]')], set()),
    ("inverted string attribute", [NO_HEALTH], EVERY - {7}),
    # `val*` has a match in value2, too: its `va`.
    ("regular expressions", [MATCHING], {5, 10}),
    ("inverted regular expressions", [NO_PROBES], EVERY - {7}),
    ("inverted regular expressions of another key", [("string_attribute", "key = \"http.url\", values = ['health'], enabled_regex_matching = true, invert_match = true")], EVERY),
    ("regular expression of two teams", [service("team_[ab]")], {2, 5, 7, 10}),
    ("regular expression of a whole name", [service("^team_a$")], {5, 7, 10}),
    ("regular expression of a part of a name", [service("m_c")], {3}),
    ("regular expression in another case", [service("TEAM")], set()),
    ("regular expression in any case", [service("(?i)TEAM")], {2, 3, 5, 7, 10}),
    ("inverted regular expression of each team", [service("^team_.$", ", invert_match = true")], EVERY - {2, 3, 5, 7, 10}),
    ("rate limiting of 35", [rate(35)], EVERY),
    # In the order of their arrival the traces have 1, 2, 1, 2, 1, 1, 1, 1, 21 and 2 spans.
    ("rate limiting of 10", [rate(10)], EVERY - {9, 10}),
    ("rate limiting of 12", [rate(12)], EVERY - {9}),
    ("rate limiting of 3", [rate(3)], {1, 2}),
    ("rate limiting of 2", [rate(2)], {1, 3}),
    ("rate limiting of none", [rate(0)], set()),
    # In that order their spans have 102, 226, 125, 260, 165, 159, 170, 147, 2142 and 333 bytes, in all 3829.
    ("bytes limiting of a mebibyte", [bytes_of(1048576, 5242880)], EVERY),
    ("bytes limiting of a mebibyte without a burst", [bytes_of(1048576)], EVERY),
    ("bytes limiting of just all", [bytes_of(0, 3829)], EVERY),
    ("bytes limiting of one byte less", [bytes_of(1024, 3828)], EVERY - {10}),
    ("bytes limiting of 1024", [bytes_of(1024)], EVERY - {9}),
    # After the first three 147 bytes are left, and just 8 has so few.
    ("bytes limiting with a burst of 600", [bytes_of(1024, 600)], {1, 2, 3, 8}),
    ("bytes limiting of 114", [bytes_of(114)], {1, 3}),
    ("bytes limiting of none", [bytes_of(0)], set()),
    ("bytes limiting without room for a trace", [bytes_of(1048576, 101)], set()),
    ("span count", [SPANS], {2, 4, 10}),
    ("span count without a greatest number", [("span_count", "min_spans = 2")], {2, 4, 9, 10}),
    ("trace state", [STATE], {8}),
    ("trace state of another key", [("trace_state", 'key = "other", values = ["value1"]')], set()),
    ("trace flags", [FLAGS], {8}),
    ("boolean attribute", [TRUTH], {6}),
    ("boolean attribute of a false value", [("boolean_attribute", 'key = "key4", value = false')], set()),
    ("inverted boolean attribute", [NO_TRUTH], EVERY - {6}),
    # Policies of policies.
    ("and", [AND], {10}),
    ("and of an inverted attribute and all", [BACKWARDS], EVERY - {5, 7, 10}),
    ("and of a latency and an error", [made_of("and", SLOW, ERROR)], {10}),
    # Both attributes hold for 5, 7 and 10, of 1, 1 and 2 spans, and only they ask the limiter.
    ("and of a team and a limit", [made_of("and", TEAM_A, rate(3))], {5, 7}),
    ("and of a limit and a team", [made_of("and", rate(10), TEAM_A)], {5, 7}),
    # The same of their 165, 170 and 333 bytes. Behind a limit that all ask, 7 finds just room for its bytes, or one byte less.
    ("and of a team and a limit of bytes", [made_of("and", TEAM_A, bytes_of(0, 335))], {5, 7}),
    ("and of a limit of bytes and a team", [made_of("and", bytes_of(0, 1207), TEAM_A)], {5, 7}),
    ("and of a lower limit of bytes and a team", [made_of("and", bytes_of(0, 1206), TEAM_A)], {5}),
    ("and of a regular expression and an error", [made_of("and", service("^team_(a|c)"), ERROR)], {10}),
    ("not of a regular expression", [made_of("not", service("team"))], EVERY - {2, 3, 5, 7, 10}),
    ("drop of a regular expression", [made_of("drop", service("^team_[bc]$")), ALWAYS], EVERY - {2, 3}),
    ("composite of regular expressions", [composite(100, (), service("_b$"), MATCHING)], {2, 5, 10}),
    ("not", [made_of("not", ERROR)], EVERY - {2, 10}),
    ("not of an and", [made_of("not", AND)], EVERY - {10}),
    ("not of an inverted attribute", [made_of("not", NO_HEALTH)], {7}),
    ("drop alone", [DROP_PROBES], set()),
    ("drop beside all", [DROP_PROBES, ALWAYS], EVERY - {7}),
    ("drop behind all", [ALWAYS, DROP_PROBES], EVERY - {7}),
    ("drop of probes without an error", [ALWAYS, made_of("drop", LIVE, made_of("not", ERROR))], EVERY - {7}),
    ("drop of a team without an error", [ALWAYS, made_of("drop", TEAM_A, made_of("not", ERROR))], EVERY - {5, 7}),
    ("drop beside an inverted attribute", [made_of("drop", ERROR), NO_HEALTH], set()),
    # Several policies.
    ("errors or slow", [ERROR, SLOW], {2, 3, 10}),
    ("errors, slow or a number", [ERROR, RATHER_SLOW, FIFTY_TO_HUNDRED], {2, 3, 4, 10}),
    ("all but probes", [ALWAYS, NO_HEALTH], EVERY - {7}),
    ("errors but probes", [ERROR, NO_HEALTH], {2, 10}),
    ("two inverted attributes", [NO_HEALTH, NO_TRUTH], EVERY - {6, 7}),
    ("two inverted attributes and errors", [NO_HEALTH, NO_TRUTH, ERROR], {2, 10}),
    ("flags or a trace state", [FLAGS, STATE], {8}),
    ("flags, errors or a truth", [FLAGS, ERROR, TRUTH], {2, 6, 8, 10}),
    ("a tenth or errors", [share(10), ERROR], chosen(10**5) | {2, 10}),
    ("a tenth of a team, or errors", [made_of("and", TEAM_A, share(50)), ERROR], chosen(5 * 10**5) & {5, 7} | {2, 10}),
    # The list of policies in the processor's README, without its conditions in OTTL and composite.
    ("the list of policies but for all", [RATHER_SLOW, FIFTY_TO_HUNDRED, ERROR, TWO_VALUES, MATCHING, SPANS, STATE, TRUTH, AND], {2, 3, 4, 5, 6, 8, 10}),
    ("the list of policies", [ALWAYS, RATHER_SLOW, FIFTY_TO_HUNDRED, share(10), ERROR_OR_UNSET, TWO_VALUES, MATCHING, rate(35), bytes_of(1048576), NO_PROBES, SPANS, STATE, TRUTH, AND, DROP_PROBES], EVERY - {7}),
    # Its practical example: other teams keep all; of team_a's probes few are kept, of its noisy endpoint few, and what is slow or an error.
    (
        "a practical example",
        [BACKWARDS, made_of("and", TEAM_A, LIVE, share("0.1")), made_of("and", TEAM_A, LIVE, share(5)), made_of("and", TEAM_A, SLOW), made_of("and", TEAM_A, ERROR)],
        (EVERY - {5, 7, 10}) | (chosen(5 * 10**4) & {7}) | {10},
    ),
    ("a practical example that keeps the rest", [BACKWARDS, made_of("and", TEAM_A, SLOW), made_of("and", TEAM_A, made_of("not", LIVE), ALWAYS)], EVERY - {7}),
    # Its composite: a number first, then two values, then all; and the same with shares of 5, 2 and 3 spans a second.
    ("the parts of a composite", [FROM_FIFTY, TWO_VALUES, ALWAYS], EVERY),
    ("the composite", [composite(1000, (50, 25), FROM_FIFTY, TWO_VALUES, ALWAYS)], EVERY),
    ("the composite of 10 spans", [composite(10, (50, 25), FROM_FIFTY, TWO_VALUES, ALWAYS)], {1, 2, 4, 5, 10}),
    # All first, with 3 spans: 1 and 2, and no other part is asked. With the values first, 10 is one span too many beside 5.
    ("the composite of 10 spans from its last part on", [composite(10, (50, 25), FROM_FIFTY, TWO_VALUES, ALWAYS, asked=(3, 2, 1))], {1, 2}),
    ("the composite of 10 spans from its second part on", [composite(10, (50, 25), FROM_FIFTY, TWO_VALUES, ALWAYS, asked=(2, 1, 3))], {1, 2, 4, 5}),
    # Errors have 2 spans a second, and so do the others: 1 and 3 of one span each.
    ("a composite of errors and all", [composite(4, (50,), ERROR, ALWAYS)], {1, 2, 3}),
    # With all first, 2 is one span too many beside 1.
    ("a composite of all before errors", [composite(4, (50,), ERROR, ALWAYS, asked=(2, 1))], {1, 3}),
    ("errors beside a limit", [ERROR, rate(3)], {1, 2, 10}),
    ("errors beside a limit of bytes", [ERROR, bytes_of(0, 392)], {1, 2, 10}),
    ("not of a limit of bytes", [made_of("not", bytes_of(1024))], {9}),
    ("drop of what a limit of bytes lets through", [made_of("drop", bytes_of(1024)), ALWAYS], {9}),
    ("a composite of a limit of bytes and all", [composite(1000, (50, 25), bytes_of(1024), ALWAYS)], EVERY),
]

# The same with `sample_on_first_match: true`.
FIRST_ROWS = [
    # Errors ask no limiter, so 1, 3 and 5 are let through.
    ("errors before a limit", [ERROR, rate(3)], {1, 2, 3, 5, 10}),
    ("errors before a limit of bytes", [ERROR, bytes_of(0, 392)], {1, 2, 3, 5, 10}),
    ("all before an inverted attribute", [ALWAYS, NO_HEALTH], EVERY),
    ("all behind an inverted attribute", [NO_HEALTH, ALWAYS], EVERY - {7}),
    ("all before a drop", [ALWAYS, DROP_PROBES], EVERY),
    ("all behind a drop", [DROP_PROBES, ALWAYS], EVERY - {7}),
    ("errors behind an inverted attribute", [NO_HEALTH, ERROR], {2, 10}),
]

# The same with `maximum_trace_size_bytes`: a name, that maximum, the policies, and the traces that are kept.
SIZE_ROWS = [
    ("10 MiB", 10485760, [ALWAYS], EVERY),
    ("2142 bytes", 2142, [ALWAYS], EVERY),
    ("2141 bytes", 2141, [ALWAYS], EVERY - {9}),
    ("332 bytes", 332, [ERROR, SLOW], {2, 3}),
    ("0 bytes", 0, [ERROR, SLOW], {2, 3, 10}),
    # 9 and 10 ask no limiter, so that nothing keeps the others from it.
    ("332 bytes before a limit of 10", 332, [rate(10)], EVERY - {9, 10}),
    ("332 bytes before a limit of bytes", 332, [bytes_of(677)], EVERY - {9, 10}),
    ("101 bytes", 101, [ALWAYS], set()),
]


def main(folder):
    """A run of each row."""
    resource_spans = [
        dict({"resource": {"attributes": resource}} if resource else {}, scopeSpans=[{"spans": [one]}]) for spans in TRACES.values() for one, resource in spans
    ]
    rows = [("transcribed", {}, *row) for row in ROWS] + [("first match of", {"sample_on_first_match": "true"}, *row) for row in FIRST_ROWS]
    rows += [("traces of at most", {"maximum_trace_size_bytes": maximum}, name, *more) for name, maximum, *more in SIZE_ROWS]
    for what, more, name, kinds, kept in rows:
        tables = ",\n    ".join(policy(f"test-policy-{number}", *kind) for number, kind in enumerate(kinds, 1))
        settings = {"decision_wait_ms": 10000, "num_traces": 100, "decision_cache": "{ sampled_cache_size = 100000, non_sampled_cache_size = 100000 }", **more}
        run = Run(folder, f"{what} {name}", settings, f"policies = [\n    {tables},\n]\n", lambda records, kept=kept: int(records[0][2]["traceId"], 16) in kept)
        run.receive(1, resource_spans)
        run.finish()


if __name__ == "__main__":
    main(sys.argv[1])
