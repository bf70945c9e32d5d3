"""The rows of tests/import.py. What stands beside a configuration of the Collector is written by hand, by the tables of
docs/FROM_TAIL_SAMPLING.md."""


def of(name, kind, own=None, *remarks):
    """A policy of the configuration's own list, with the remarks above it."""
    return "".join(f"# line {it}\n" for it in remarks) + f'[[policies]]\nname = "{name}"\ntype = "{kind}"\n' + (f"{kind} = {{ {own} }}\n" if own else "")


def fits_nothing(name, kind, why, key="none", more=""):
    """A policy of the processor that nothing fits."""
    own = f"key = \"{key}\", values = ['[^\\s\\S]'], enabled_regex_matching = true{more}"
    return of(name, "string_attribute", own, f'6: note: policy "{name}": {kind}: {why}, so nothing fits; written as an expression that nothing fits')


UNKNOWN = "probability is no type that is known"
LIMIT = "one limit over all shards, and a trace that just reaches it is let through"
BYTES = "bytes are those of the spans' JSON, two to three times as many as of protobuf; one bucket over all shards"

# A policy in YAML, in line 6 of its file, and what it becomes.
POLICIES = [
    # Each type, with each of its settings.
    ("{name: a, type: always_sample}", of("a", "always_sample")),
    ("{name: a, type: trace_flags}", of("a", "trace_flags")),
    ("{name: a, type: latency, latency: {threshold_ms: 5000}}", of("a", "latency", "threshold_ms = 5000")),
    ("{name: a, type: latency, latency: {threshold_ms: 5000, upper_threshold_ms: 10000}}", of("a", "latency", "threshold_ms = 5000, upper_threshold_ms = 10000")),
    ("{name: a, type: latency, latency: {threshold_ms: 5000, upper_threshold_ms: 0}}", of("a", "latency", "threshold_ms = 5000")),
    ("{name: a, type: latency}", of("a", "latency", "threshold_ms = 0")),
    ("{name: a, type: numeric_attribute, numeric_attribute: {key: key1, min_value: 50, max_value: 100}}", of("a", "numeric_attribute", 'key = "key1", min_value = 50, max_value = 100')),
    ("{name: a, type: numeric_attribute, numeric_attribute: {key: key1, min_value: 7, max_value: 7}}", of("a", "numeric_attribute", 'key = "key1", min_value = 7, max_value = 7')),
    ("{name: a, type: numeric_attribute, numeric_attribute: {key: key1, min_value: 0}}", of("a", "numeric_attribute", 'key = "key1", min_value = 0')),
    ("{name: a, type: numeric_attribute, numeric_attribute: {key: key1, max_value: -7, invert_match: true}}", of("a", "numeric_attribute", 'key = "key1", max_value = -7, invert_match = true')),
    ("{name: a, type: probabilistic, probabilistic: {sampling_percentage: 10}}", of("a", "probabilistic", "sampling_percentage = 10")),
    ("{name: a, type: probabilistic, probabilistic: {sampling_percentage: 25.50, hash_salt: own}}", of("a", "probabilistic", 'hash_salt = "own", sampling_percentage = 25.5')),
    ("{name: a, type: probabilistic, probabilistic: {sampling_percentage: 0.0001, hash_salt: ''}}", of("a", "probabilistic", "sampling_percentage = 0.0001")),
    ("{name: a, type: probabilistic, probabilistic: {sampling_percentage: 1e2}}", of("a", "probabilistic", "sampling_percentage = 100")),
    ("{name: a, type: probabilistic}", of("a", "probabilistic", "sampling_percentage = 0")),
    ("{name: a, type: status_code, status_code: {status_codes: [ERROR, UNSET, OK]}}", of("a", "status_code", 'status_codes = ["ERROR", "UNSET", "OK"]')),
    ("{name: a, type: string_attribute, string_attribute: {key: key2, values: [value1, 'it''s', \"b\\nc\", 200, true]}}",
     of("a", "string_attribute", 'key = "key2", values = ["value1", "it\'s", "b\\nc", "200", "true"]')),
    ("{name: a, type: string_attribute, string_attribute: {key: key2, values: [value1, 'val*'], enabled_regex_matching: true, cache_max_size: 10}}",
     of("a", "string_attribute", 'key = "key2", values = ["value1", "val*"], enabled_regex_matching = true, cache_max_size = 10')),
    (r"{name: a, type: string_attribute, string_attribute: {key: url.path, values: ['\/health', \/metrics], enabled_regex_matching: true, invert_match: true}}",
     of("a", "string_attribute", r"""key = "url.path", values = ['\/health', '\/metrics'], enabled_regex_matching = true, invert_match = true""")),
    ("{name: a, type: boolean_attribute, boolean_attribute: {key: key4, value: true}}", of("a", "boolean_attribute", 'key = "key4", value = true')),
    ("{name: a, type: boolean_attribute, boolean_attribute: {key: key4, invert_match: true}}", of("a", "boolean_attribute", 'key = "key4", value = false, invert_match = true')),
    ("{name: a, type: span_count, span_count: {min_spans: 2, max_spans: 20}}", of("a", "span_count", "min_spans = 2, max_spans = 20")),
    ("{name: a, type: span_count, span_count: {min_spans: 2, max_spans: 2}}", of("a", "span_count", "min_spans = 2, max_spans = 2")),
    ("{name: a, type: span_count, span_count: {min_spans: 2}}", of("a", "span_count", "min_spans = 2")),
    ("{name: a, type: ottl_condition, ottl_condition: {error_mode: propagate, span: ['name == \"b\"', 'kind == 2'], spanevent: ['name == \"e\"']}}",
     of("a", "ottl_condition", """error_mode = "propagate", span = ['name == "b"', "kind == 2"], spanevent = ['name == "e"']""")),
    ("{name: a, type: ottl_condition, ottl_condition: {error_mode: ignore, span: ['true']}}", of("a", "ottl_condition", 'span = ["true"]')),
    ("{name: a, type: trace_state, trace_state: {key: key3, values: [value1, value2]}}", of("a", "trace_state", 'key = "key3", values = ["value1", "value2"]')),
    ("{name: a, type: rate_limiting, rate_limiting: {spans_per_second: 35}}", of("a", "rate_limiting", "spans_per_second = 35", f'6: differs: policy "a": rate_limiting: {LIMIT}')),
    ("{name: a, type: bytes_limiting, bytes_limiting: {bytes_per_second: 1048576, burst_capacity: 5242880}}",
     of("a", "bytes_limiting", "bytes_per_second = 1048576, burst_capacity = 5242880", f'6: differs: policy "a": bytes_limiting: {BYTES}')),
    # (no burst is twice the bytes of a second there, and 0 is none here)
    ("{name: a, type: bytes_limiting, bytes_limiting: {bytes_per_second: 10, burst_capacity: 0}}", of("a", "bytes_limiting", "bytes_per_second = 10", f'6: differs: policy "a": bytes_limiting: {BYTES}')),
    # Policies of policies.
    ("{name: a, type: and, and: {and_sub_policy: [{name: b, type: always_sample}, {name: c, type: latency, latency: {threshold_ms: 1}}]}}",
     of("a", "and") + '\n[policies.and]\nand_sub_policy = [\n    { name = "b", type = "always_sample" },\n    { name = "c", type = "latency", latency = { threshold_ms = 1 } },\n]\n'),
    ("{name: a, type: drop, drop: {drop_sub_policy: [{name: b, type: trace_flags}]}}",
     of("a", "drop") + '\n[policies.drop]\ndrop_sub_policy = [\n    { name = "b", type = "trace_flags" },\n]\n'),
    ("{name: a, type: not, not: {not_sub_policy: {name: b, type: not, not: {not_sub_policy: {name: c, type: trace_flags}}}}}",
     of("a", "not") + '\n[policies.not]\nnot_sub_policy = { name = "b", type = "not", not = { not_sub_policy = { name = "c", type = "trace_flags" } } }\n'),
    ("{name: a, type: and, and: {and_sub_policy: [{name: b, type: not, not: {not_sub_policy: {name: c, type: rate_limiting, rate_limiting: {spans_per_second: 3}}}}]}}",
     of("a", "and") + f'\n[policies.and]\nand_sub_policy = [\n    # line 6: differs: policy "c": rate_limiting: {LIMIT}\n'
     '    { name = "b", type = "not", not = { not_sub_policy = { name = "c", type = "rate_limiting", rate_limiting = { spans_per_second = 3 } } } },\n]\n'),
    ("{name: a, type: composite, composite: {max_total_spans_per_second: 1000, policy_order: [b, c], composite_sub_policy: [{name: b, type: always_sample}, {name: c, type: trace_flags}], "
     "rate_allocation: [{policy: b, percent: 50}, {policy: c, percent: 1}]}}",
     of("a", "composite") + '\n[policies.composite]\nmax_total_spans_per_second = 1000\npolicy_order = ["b", "c"]\ncomposite_sub_policy = [\n    { name = "b", type = "always_sample" },\n'
     '    { name = "c", type = "trace_flags" },\n]\nrate_allocation = [\n    { policy = "b", percent = 50 },\n    { policy = "c", percent = 1 },\n]\n'),
    # (a share of 0 is an equal one)
    ("{name: a, type: composite, composite: {max_total_spans_per_second: 7, composite_sub_policy: [{name: b, type: always_sample}], rate_allocation: [{policy: b, percent: 0}]}}",
     of("a", "composite") + '\n[policies.composite]\nmax_total_spans_per_second = 7\ncomposite_sub_policy = [\n    { name = "b", type = "always_sample" },\n]\n'),
    # The processor's code asks the parts as they stand.
    ("{name: a, type: composite, composite: {max_total_spans_per_second: 7, policy_order: [c, b], composite_sub_policy: [{name: b, type: always_sample}, {name: c, type: trace_flags}]}}",
     '# line 6: differs: policy "a": composite.policy_order: not the order of composite_sub_policy, by which the processor\'s code asks (its documentation says: by policy_order) and which is written\n'
     + of("a", "composite") + '\n[policies.composite]\nmax_total_spans_per_second = 7\npolicy_order = ["b", "c"]\ncomposite_sub_policy = [\n    { name = "b", type = "always_sample" },\n'
     '    { name = "c", type = "trace_flags" },\n]\n'),
    ("{name: a, type: composite, composite: {max_total_spans_per_second: 7, composite_sub_policy: [{name: b, type: always_sample}, {name: c, type: probability}], "
     "rate_allocation: [{policy: b, percent: 101}, {policy: c, percent: 2}]}}",
     f'# line 6: left out: policy "a": composite.composite_sub_policy: a part, so that equal shares are of fewer: policy "c": {UNKNOWN}\n'
     '# line 6: left out: policy "a": composite.rate_allocation: percent: 101 is not from 1 to 100, so 100 is written\n'
     "# line 6: note: policy \"a\": composite.rate_allocation: c is no part, so it isn't written\n"
     + of("a", "composite") + '\n[policies.composite]\nmax_total_spans_per_second = 7\ncomposite_sub_policy = [\n    { name = "b", type = "always_sample" },\n]\n'
     'rate_allocation = [\n    { policy = "b", percent = 100 },\n]\n'),
    ("{name: a, type: composite, composite: {max_total_spans_per_second: 7, policy_order: [b, c, d], composite_sub_policy: [{name: b, type: always_sample}, {name: c, type: probability}, "
     "{name: d, type: trace_flags}]}}",
     f'# line 6: left out: policy "a": composite.composite_sub_policy: a part, so that equal shares are of fewer: policy "c": {UNKNOWN}\n'
     + of("a", "composite") + '\n[policies.composite]\nmax_total_spans_per_second = 7\npolicy_order = ["b", "d"]\ncomposite_sub_policy = [\n    { name = "b", type = "always_sample" },\n'
     '    { name = "d", type = "trace_flags" },\n]\n'),
    # What can't sample anything is refused here, and taken there.
    ("{name: a, type: latency, latency: {threshold_ms: 5, upper_threshold_ms: 5}}", fits_nothing("a", "latency", "upper_threshold_ms 5 is not above threshold_ms 5")),
    ("{name: a, type: span_count, span_count: {min_spans: 3, max_spans: 2}}", fits_nothing("a", "span_count", "max_spans 2 is below min_spans 3")),
    ("{name: a, type: numeric_attribute, numeric_attribute: {key: k, min_value: 3, max_value: 2, invert_match: true}}",
     fits_nothing("a", "numeric_attribute", "max_value 2 is below min_value 3", "k", ", invert_match = true")),
    ("{name: a, type: string_attribute, string_attribute: {key: k, invert_match: true}}", fits_nothing("a", "string_attribute", "values is empty", "k", ", invert_match = true")),
    ("{name: a, type: trace_state, trace_state: {key: k, values: []}}", fits_nothing("a", "trace_state", "values is empty", "k")),
    # Numbers that are moved.
    ("{name: a, type: probabilistic, probabilistic: {sampling_percentage: 33.33335}}",
     of("a", "probabilistic", "sampling_percentage = 33.3334", '6: differs: policy "a": probabilistic.sampling_percentage: 33.33335 has more than four decimals, so 33.3334 is written')),
    ("{name: a, type: probabilistic, probabilistic: {sampling_percentage: 150}}",
     of("a", "probabilistic", "sampling_percentage = 100", '6: note: policy "a": probabilistic.sampling_percentage: 150 keeps what 100 keeps, which is written')),
    ("{name: a, type: probabilistic, probabilistic: {sampling_percentage: -1}}",
     of("a", "probabilistic", "sampling_percentage = 0", '6: note: policy "a": probabilistic.sampling_percentage: -1 keeps what 0 keeps, which is written')),
    ("{name: a, type: string_attribute, string_attribute: {key: k, values: [b, '']}}",
     of("a", "string_attribute", 'key = "k", values = ["b", ""]', '6: differs: policy "a": string_attribute.values: an empty text of a span fits here; the processor passes it over')),
    ("{name: a, type: string_attribute, string_attribute: {key: k, values: ['^/user/\\d+$$'], enabled_regex_matching: true}}",
     of("a", "string_attribute", 'key = "k", values = ["^/user/[0-9]+$"], enabled_regex_matching = true',
        '6: note: policy "a": string_attribute.values: \'^/user/\\d+$\' is written as "^/user/[0-9]+$", which means the same here')),
    # Names.
    ("{type: trace_flags}", of("policy-1", "trace_flags", None, '6: note: policy "policy-1": no name, so "policy-1" is written')),
    ("{name: a, type: drop, drop: {drop_sub_policy: [{name: b, type: trace_flags}, {name: b, type: always_sample}]}}",
     of("a", "drop") + '\n[policies.drop]\ndrop_sub_policy = [\n    { name = "b", type = "trace_flags" },\n    # line 6: note: policy "b": another policy of its list has that name, so "b-2" is written\n'
     '    { name = "b-2", type = "always_sample" },\n]\n'),
    # What isn't looked at, and what isn't known.
    ("{name: a, type: trace_flags, latency: {threshold_ms: 1}}", of("a", "trace_flags", None, '6: note: policy "a": latency: settings of another type, at which the processor doesn\'t look')),
    ("{name: a, type: trace_flags, invert: true}", of("a", "trace_flags", None, '6: left out: policy "a": invert: no such key is known')),
    ("{name: a, type: latency, latency: {threshold_ms: 1, threshold: 2}}", of("a", "latency", "threshold_ms = 1", '6: left out: policy "a": latency.threshold: no such key is known')),
]

# A policy in YAML, in line 6 of its file before another one, that is left out whole and stands in the output as a comment; and why.
LEFT_OUT = [
    ("{name: a, type: ottl_condition, ottl_condition: {error_mode: ignore}}", 'policy "a": ottl_condition.span and spanevent are empty, which the processor refuses too'),
    ("{name: a, type: ottl_condition, ottl_condition: {error_mode: never, span: ['true']}}", 'policy "a": ottl_condition.error_mode: never is none of ignore, silent, propagate'),
    ("{name: a, type: and, and: {and_sub_policy: [{name: b, type: trace_flags}, {name: c, type: probability}]}}", f'policy "a": a part of it can\'t be written: policy "c": {UNKNOWN}'),
    ("{name: a, type: drop, drop: {drop_sub_policy: [{name: b, type: trace_flags}, {name: c, type: probability}]}}", f'policy "a": a part of it can\'t be written: policy "c": {UNKNOWN}'),
    ("{name: a, type: not, not: {not_sub_policy: {name: c, type: probability}}}", f'policy "a": a part of it can\'t be written: policy "c": {UNKNOWN}'),
    ("{name: a, type: and, and: {and_sub_policy: []}}", 'policy "a": and.and_sub_policy is empty'),
    ("{name: a, type: composite, composite: {max_total_spans_per_second: 5}}", 'policy "a": composite.composite_sub_policy has nothing that can be written'),
    ("{name: a, type: probability}", 'policy "a": probability is no type that is known'),
    ("{name: a}", 'policy "a": type is missing'),
    ("{name: a, type: string_attribute, string_attribute: {values: [b]}}", 'policy "a": string_attribute.key is missing'),
    ("{name: a, type: status_code, status_code: {status_codes: [error]}}", 'policy "a": status_code.status_codes: error is none of OK, ERROR, UNSET'),
    ("{name: a, type: status_code, status_code: {status_codes: []}}", 'policy "a": status_code.status_codes is empty, which the processor refuses too'),
    ("{name: a, type: status_code, status_code: {status_codes: ERROR}}", 'policy "a": status_code.status_codes: a list is wanted'),
    ("{name: a, type: latency, latency: {threshold_ms: '${env:SLOW}'}}", 'policy "a": latency.threshold_ms: ${env:SLOW} has no value (--set NAME=VALUE)'),
    ("{name: a, type: latency, latency: {threshold_ms: 5s}}", 'policy "a": latency.threshold_ms: 5s is no number'),
    ("{name: a, type: latency, latency: {threshold_ms: 0.5}}", 'policy "a": latency.threshold_ms: 0.5 is no whole number'),
    ("{name: a, type: latency, latency: {threshold_ms: -1}}", 'policy "a": latency.threshold_ms: -1 is not from 0 to 9223372036854775807'),
    ("{name: a, type: latency, latency: {threshold_ms: 1e99}}", 'policy "a": latency.threshold_ms: 1e99 is no number'),
    ("{name: a, type: latency, latency: 5}", 'policy "a": latency: a table is wanted'),
    ("{name: a, type: boolean_attribute, boolean_attribute: {key: k, value: yes}}", 'policy "a": boolean_attribute.value: true or false is wanted'),
    ("{name: a, type: string_attribute, string_attribute: {key: k, values: ['a[b'], enabled_regex_matching: true}}", 'policy "a": string_attribute.values: "a[b" is no expression'),
]

# Settings beside one policy that keeps all, from line 5 of the file on, and what they become.
SETTINGS = [
    ("decision_wait: 10s", "decision_wait_ms = 10000\n"),
    ("decision_wait: 1m30s", "decision_wait_ms = 90000\n"),
    ("decision_wait: 500ms", "decision_wait_ms = 500\n"),
    ("decision_wait: 1.5s", "decision_wait_ms = 1500\n"),
    ("decision_wait: 1h", "decision_wait_ms = 3600000\n"),
    ("decision_wait: '2000us'", "decision_wait_ms = 2\n"),
    ("decision_wait: 2h", "# line 5: left out: decision_wait: 7200000 is not from 1 to 3600000, so 3600000 is written\ndecision_wait_ms = 3600000\n"),
    ("decision_wait: 1500us", "# line 5: differs: decision_wait: 1500us: 2 whole milliseconds are written\ndecision_wait_ms = 2\n"),
    ("decision_wait: 10", "# line 5: differs: decision_wait: 10: a number without a unit is of nanoseconds; 1 whole milliseconds are written\ndecision_wait_ms = 1\n"),
    ("decision_wait: 10s ago", "# line 5: left out: decision_wait: 10s ago is no number\n"),
    ("decision_wait: +.5s", "decision_wait_ms = 500\n"),
    ("decision_wait: soon", "# line 5: left out: decision_wait: soon is no number\n"),
    ("decision_wait: ${env:WAIT}", "# line 5: left out: decision_wait: ${env:WAIT} has no value (--set NAME=VALUE)\n"),
    ("decision_wait: ${env:WAIT:-20s}", "decision_wait_ms = 20000\n"),
    ("decision_wait_after_root_received: 2s", "decision_wait_after_root_received_ms = 2000\n"),
    ("decision_wait_after_root_received: 0s", "decision_wait_after_root_received_ms = 0\n"),
    ("num_traces: 100", "num_traces = 100\n"),
    ("num_traces: 5000000", "# line 5: left out: num_traces: 5000000 is not from 1 to 1000000, so 1000000 is written\nnum_traces = 1000000\n"),
    ("expected_new_traces_per_sec: 10", "# line 5: note: expected_new_traces_per_sec: not needed: tsc takes memory as traces come\n"),
    ("block_on_overflow: true", '# line 5: note: block_on_overflow: not needed: nothing waits for room here; a larger num_traces keeps traces from leaving, and queue_full = "retry" turns requests away\n'),
    ("drop_pending_traces_on_shutdown: true", "# line 5: note: drop_pending_traces_on_shutdown: not needed: at its close tsc decides what waits\n"),
    ("num_workers: 4", "# line 5: note: num_workers: not needed: lanes and shards say how many threads tsc has\n"),
    ("sample_on_first_match: true", "sample_on_first_match = true\n"),
    ("sample_on_first_match: false", "sample_on_first_match = false\n"),
    ("maximum_trace_size_bytes: 10485760",
     "# line 5: differs: maximum_trace_size_bytes: bytes are those of the spans' JSON, two to three times as many as of protobuf, and without the resource\nmaximum_trace_size_bytes = 10485760\n"),
    ("sampling_strategy: trace-complete\nnum_traces: 7", "num_traces = 7\n"),
    ("sampling_strategy: span-ingest", "# line 5: left out: sampling_strategy: span-ingest: tsc decides each trace once its wait is over\n"),
    ("tail_storage: file", "# line 5: left out: tail_storage: no such key is known\n"),
    ("decision_cache:\n  sampled_cache_size: 100_000\n  non_sampled_cache_size: 50000", "[decision_cache]\nsampled_cache_size = 100000\nnon_sampled_cache_size = 50000\n"),
    ("decision_cache: { sampled_cache_size: 2000000, size: 1 }",
     "# line 5: left out: decision_cache.sampled_cache_size: 2000000 is not from 0 to 1000000, so 1000000 is written\n# line 5: left out: decision_cache.size: no such key is known\n\n"
     "[decision_cache]\nsampled_cache_size = 1000000\n"),
    ("decision_cache: { sampled_cache_size: some, non_sampled_cache_size: 5 }",
     "# line 5: left out: decision_cache.sampled_cache_size: some is no number\n\n[decision_cache]\nnon_sampled_cache_size = 5\n"),
    ("num_traces: 0x10\ndecision_wait: 5s\ndecision_wait_after_root_received: 1s\nsample_on_first_match: True",
     "decision_wait_ms = 5000\ndecision_wait_after_root_received_ms = 1000\nnum_traces = 16\nsample_on_first_match = true\n"),
]

ALL = '\n[[policies]]\nname = "all"\ntype = "always_sample"\n'
KEPT = 'accept_gzip = true\naccept_protobuf = true\ndouble_values = "keep"\n'
ONE = "processors: { tail_sampling: { policies: [{ name: all, type: always_sample }] } }\n"

# A name, a Collector's configuration, what it becomes, and arguments. A name with /shop in it is of the processor tail_sampling/shop.
ADDRESSES = [
    ("an address", "receivers: { otlp: { protocols: { http: { endpoint: 0.0.0.0:4318 } } } }\nservice: { pipelines: { traces: { receivers: [otlp], processors: [tail_sampling] } } }\n" + ONE,
     'listen = "0.0.0.0:4318"\n' + KEPT + ALL),
    ("every address", "receivers: { otlp: { protocols: { http: { endpoint: ':14318' } } } }\nservice: { pipelines: { traces: { receivers: [otlp], processors: [tail_sampling] } } }\n" + ONE,
     'listen = "0.0.0.0:14318"\n' + KEPT + ALL),
    ("no address", "receivers: { otlp: { protocols: { http: } } }\nservice: { pipelines: { traces: { receivers: [otlp], processors: [tail_sampling] } } }\n" + ONE,
     'listen = "localhost:4318"\n' + KEPT + ALL),
    ("an address of the surroundings", "receivers: { otlp: { protocols: { http: { endpoint: '${env:IP}:4318' } } } }\nservice: { pipelines: { traces: { receivers: [otlp], processors: [tail_sampling] } } }\n" + ONE,
     "# line 1: note: receivers.otlp.protocols.http.endpoint: ${env:IP} has no value (--set NAME=VALUE), so it listens at 127.0.0.1:4318\n" + KEPT + ALL),
    ("receivers of other kinds", "receivers: { jaeger: { protocols: { http: { endpoint: 'a:1' } } }, otlp: { protocols: { http: { endpoint: 'b:1', traces_url_path: /x } } }, otlp/2: { protocols: { http: { endpoint: 'c:1' } } } }\n"
     "service: { pipelines: { traces: { receivers: [jaeger, otlp, otlp/2], processors: [tail_sampling] } } }\n" + ONE,
     "# line 2: note: receivers.jaeger: tsc takes OTLP over HTTP alone; a Collector before it can take that\n# line 1: note: receivers.otlp.protocols.http.traces_url_path: tsc knows /v1/traces alone\n"
     "# line 1: note: receivers.otlp/2.protocols.http.endpoint: tsc listens at one address, so c:1 isn't written\n"
     'listen = "b:1"\n' + KEPT + ALL),
    ("an address that is given", "receivers: { otlp: { protocols: { http: { endpoint: '${env:IP}:4318' } } } }\nservice: { pipelines: { traces: { receivers: [otlp], processors: [tail_sampling] } } }\n" + ONE,
     'listen = "127.0.0.7:4318"\n' + KEPT + ALL, "--set", "IP=127.0.0.7"),
    ("in no pipeline", ONE, "# line 1: note: processors.tail_sampling: it stands in no pipeline\n" + KEPT + ALL),
    ("beside a Collector", "receivers: { otlp: { protocols: { grpc: , http: { endpoint: 0.0.0.0:4318 } } } }\nexporters: { otlphttp: { endpoint: 'https://b' } }\n"
     "service: { pipelines: { traces: { receivers: [otlp], processors: [tail_sampling], exporters: [otlphttp] } } }\n" + ONE,
     '# The Collector before it has port 4318.\nlisten = "127.0.0.1:4328"\n' + KEPT + ALL, "--beside"),
    ("all that a pipeline has", """receivers:
  otlp/in:
    protocols:
      grpc:
      http:
        endpoint: 10.0.0.1:4318
        tls: { cert_file: a }
        include_metadata: true
  zipkin:
processors:
  memory_limiter:
    check_interval: 1s
    limit_mib: 1500
  batch/out:
    send_batch_size: 1024
  attributes:
  tail_sampling:
    policies: [{ name: all, type: always_sample }]
exporters:
  otlphttp/one:
    endpoint: http://backend:4318/
    encoding: json
    compression: none
    timeout: 30s
    headers: { X-Scope-OrgID: shop, Authorization: "Bearer ${env:TOKEN}", Host: b }
    retry_on_failure: { initial_interval: 5s, max_interval: 30s, max_elapsed_time: 0 }
    sending_queue: { queue_size: 5 }
  otlphttp/two:
    endpoint: http://other:4318
  otlp: { endpoint: "c:4317" }
  debug:
service:
  pipelines:
    traces:
      receivers:
      - otlp/in
      - zipkin
      processors:
      - memory_limiter
      - attributes
      - tail_sampling
      - batch/out
      exporters:
      - otlphttp/one
      - otlphttp/two
      - otlp
      - debug
    metrics: { receivers: [otlp/in], processors: [memory_limiter], exporters: [otlp] }
""", """# line 40: note: processors.attributes: it stays in a Collector before tsc
# line 4: note: receivers.otlp/in.protocols.grpc: tsc takes no gRPC; a Collector before it can
# line 7: note: receivers.otlp/in.protocols.http.tls: tsc doesn't encrypt; a proxy does that (examples/neighbours/haproxy.cfg)
# line 8: note: receivers.otlp/in.protocols.http.include_metadata: tsc has no such setting
# line 37: note: receivers.zipkin: tsc takes OTLP over HTTP alone; a Collector before it can take that
listen = "10.0.0.1:4318"
""" + KEPT + """memory_limit_mib = 1500
send_batch_size = 1024

# line 25: note: exporters.otlphttp/one.headers.Authorization: ${env:TOKEN} has no value (--set NAME=VALUE), so it isn't written
# line 25: note: exporters.otlphttp/one.headers.Host: tsc sets that itself
# line 27: note: exporters.otlphttp/one.sending_queue: queue_batches says how many batches wait
# line 45: note: exporters.otlphttp/two: tsc sends to one backend; a Collector behind it can send to several
# line 46: note: exporters.otlp: gRPC; a Collector behind tsc can send that
# line 47: note: exporters.debug: another way than OTLP over HTTP; a Collector behind tsc can send that
[export]
endpoint = "http://backend:4318/v1/traces"
timeout_ms = 30000
retry_initial_ms = 5000
retry_max_ms = 30000
retry_for_ms = 0
headers = { X-Scope-OrgID = "shop" }
""" + ALL),
    ("a backend with a path of its own, in protobuf", "exporters: { otlphttp: { traces_endpoint: 'http://b:1/otlp/traces' } }\nservice: { pipelines: { traces: { processors: [tail_sampling], exporters: [otlphttp] } } }\n" + ONE,
     KEPT + '\n# line 1: note: exporters.otlphttp.encoding: tsc sends JSON, which the backend must take\n[export]\nendpoint = "http://b:1/otlp/traces"\n' + ALL),
    ("times and sizes of the surroundings", "processors: { memory_limiter: { limit_mib: '${env:M}' }, batch: { send_batch_size: '${env:B}' }, tail_sampling: { policies: [{ name: all, type: always_sample }] } }\n"
     "exporters: { otlphttp: { endpoint: 'http://b', encoding: json, timeout: '${env:T}', retry_on_failure: { max_interval: '${env:R:-7s}', initial_interval: x } } }\n"
     "service: { pipelines: { traces: { processors: [memory_limiter, tail_sampling, batch], exporters: [otlphttp] } } }\n",
     "# line 1: note: processors.memory_limiter.limit_mib: ${env:M} has no value (--set NAME=VALUE), so it isn't written\n"
     "# line 1: note: processors.batch.send_batch_size: ${env:B} has no value (--set NAME=VALUE), so it isn't written\n" + KEPT
     + "\n# line 2: note: exporters.otlphttp.timeout: ${env:T} has no value (--set NAME=VALUE), so it isn't written\n"
     "# line 2: note: exporters.otlphttp.retry_on_failure.initial_interval: x is no number, so it isn't written\n"
     '[export]\nendpoint = "http://b:80/v1/traces"\nretry_max_ms = 7000\n' + ALL),
    ("what a backend's exporter may have", "exporters: { otlphttp: { endpoint: 'http://b', encoding: json, auth: { authenticator: a }, tls: { insecure: true }, headers: [{ name: A, value: b }, { name: C, value: d }], "
     "retry_on_failure: { enabled: false, multiplier: 2 } } }\nservice: { pipelines: { traces: { processors: [tail_sampling], exporters: [otlphttp] } } }\n" + ONE,
     KEPT + "\n# line 1: note: exporters.otlphttp.auth: tsc has no such setting; a token can be one of the headers\n"
     "# line 1: note: exporters.otlphttp.tls: tsc doesn't encrypt; name a proxy's address (stunnel, nginx) as endpoint\n"
     "# line 1: note: exporters.otlphttp.retry_on_failure.enabled: tsc always tries again; retry_for_ms says how long\n"
     "# line 1: note: exporters.otlphttp.retry_on_failure.multiplier: tsc has no such setting\n"
     '[export]\nendpoint = "http://b:80/v1/traces"\nheaders = { A = "b", C = "d" }\n' + ALL),
    ("a limit of memory in percent", "processors: { memory_limiter: { limit_percentage: 80 }, batch: , tail_sampling: { policies: [{ name: all, type: always_sample }] } }\n"
     "service: { pipelines: { traces: { processors: [memory_limiter, batch, tail_sampling] } } }\n",
     "# line 1: note: processors.memory_limiter.limit_percentage: tsc has a limit in mebibytes alone (memory_limit_mib)\n"
     "# line 2: note: processors.batch: it stays in a Collector before tsc; give it send_batch_max_size: 512\n" + KEPT + ALL),
    ("an encrypted backend", "exporters: { otlphttp: { endpoint: 'https://b' } }\nservice: { pipelines: { traces: { processors: [tail_sampling], exporters: [otlphttp] } } }\n" + ONE,
     KEPT + "\n# line 1: note: exporters.otlphttp.endpoint: https://b/v1/traces: tsc sends to http:// alone; name a proxy's address (stunnel, nginx) as endpoint of [export]; so lines are printed and not sent\n" + ALL),
    ("two processors of which one is named: tail_sampling/shop", "processors:\n  tail_sampling: { policies: [] }\n  tail_sampling/shop: { policies: [{ name: all, type: always_sample }] }\n"
     "service: { pipelines: { traces: { processors: [tail_sampling] }, traces/shop: { processors: [tail_sampling/shop] } } }\n", KEPT + ALL, "--processor", "tail_sampling/shop"),
    ("two processors of which one is in use: tail_sampling/shop", "processors:\n  tail_sampling: { policies: [] }\n  tail_sampling/shop: { policies: [{ name: all, type: always_sample }] }\n"
     "service: { pipelines: { traces/shop: { processors: [tail_sampling/shop] } } }\n", KEPT + ALL),
    ("two pipelines", "service: { pipelines: { traces: { processors: [tail_sampling] }, traces/2: { processors: [tail_sampling] } } }\n" + ONE,
     "# line 2: differs: processors.tail_sampling: it stands in 2 pipelines, each of which decides by itself there, and all are one here\n" + KEPT + ALL),
    ("an anchor", "x: &all { name: all, type: always_sample }\nprocessors: { tail_sampling: { policies: [{ <<: *all, name: more }, *all] } }\nservice: { pipelines: { traces: { processors: [tail_sampling] } } }\n",
     KEPT + '\n[[policies]]\nname = "more"\ntype = "always_sample"\n' + ALL),
    ("a policy of many lines that is left out", """service: { pipelines: { traces: { processors: [tail_sampling] } } }
processors:
  tail_sampling:
    policies:
      - name: posts
        type: probability
        # why
        probability:
          span:
            - 'name == "a"'

      # the rest
      - { name: all, type: always_sample }
""", KEPT + f"""
# line 6: left out: policy "posts": {UNKNOWN}
# name: posts
# type: probability
# # why
# probability:
#   span:
#     - 'name == "a"'
""" + ALL),
]

# A text that gives no configuration, what is said of it, and arguments.
REFUSED = [
    ("", "there is no processor tail_sampling"),
    ("- a\n", "no mapping"),
    ("processors: { batch: }\n", "there is no processor tail_sampling"),
    (ONE, "there is no processor tail_sampling/shop", "--processor", "tail_sampling/shop"),
    ("processors: { tail_sampling: , tail_sampling/shop: }\n", "more than one processor, so name one by --processor: tail_sampling, tail_sampling/shop"),
    ("processors: [tail_sampling]\n", "line 1: processors: a table is wanted"),
    ("processors:\n  tail_sampling:\n    policies: 3\n", "line 3: policies: a list is wanted"),
    ("processors:\n  tail_sampling:\n  tail_sampling:\n", "line 3: a key that is no text, or stands there twice"),
    ("a: 1\nprocessors:\n  <<: 5\n", "line 3: << brings in mappings alone"),
    ("a: [\n", "no YAML: while parsing a flow node expected the node content, but found '<stream end>' in \"<unicode string>\", line 2, column 1: ^"),
]

# Expressions of Go's syntax, and those of Rust's that mean the same.
EXPRESSIONS = [
    ("", ""), ("^team_[ab]$", "^team_[ab]$"), (r"\/health", r"\/health"), ("(?i)a|b*?", "(?i)a|b*?"), ("(?P<n>a)(?:b)", "(?P<n>a)(?:b)"), ("a{2,3}b{1,}c{4}", "a{2,3}b{1,}c{4}"),
    (r"\d\D\w\W\s\S", r"[0-9][^0-9][0-9A-Za-z_][^0-9A-Za-z_][\t\n\f\r ][^\t\n\f\r ]"), (r"\bGET\B", r"(?-u:\b)GET(?-u:\B)"), (r"[\d\w.-]", "[0-90-9A-Za-z_.\\-]"), (r"[^\D]", "[^[^0-9]]"),
    (r"\Qa.b\E+", r"a\.b+"), (r"\Q[x]", r"\[x\]"), (r"\101\0", r"\x{41}\x{0}"), (r"\x41\x{1F600}\pN\p{Greek}\PL", r"\x41\x{1F600}\pN\p{Greek}\PL"), (r"\<a\>", "<a>"),
    ("a{", r"a\{"), ("{a}", r"\{a}"), ("a{,2}", r"a\{,2}"), ("[[a]", r"[\[a]"), ("[[:alpha:]_]", "[[:alpha:]_]"), ("[]a]", "[]a]"), ("[^]a]", "[^]a]"), ("[a-z-]", "[a-z-]"),
    ("[a&&b]", r"[a\&\&b]"), ("[+--]", r"[+-\-]"), ("[--/]", r"[\--/]"), ("[~~]", r"[\~\~]"), (r"[\]\-a]", r"[\]\-a]"), (r"[a\d-]", r"[a0-9\-]"), (r"[]a\d]", r"[\]a0-9]"), (r"[^]\s]", r"[^\]\t\n\f\r ]"), (r"\\d", r"\\d"), (r"\.\*", r"\.\*"), ("日本", "日本"),
]
NO_EXPRESSIONS = ["[a", "a\\", "[", r"[a\]"]
