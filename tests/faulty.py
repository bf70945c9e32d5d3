#!/usr/bin/env python3
"""Writes configurations to a folder, and what `tsc validate` prints of each: NAME.toml and NAME.expected, and NAME.status where it isn't 0; one name a
line on standard output.

    tests/faulty.py FOLDER

The lines are worked out by hand from docs/FAULTS.md and docs/CONFIGURATION.md, the names of keys and types from the definitions (tests/tables.py): a line
for each fault, first those of keys and values in the order of those tables (the keys that there aren't first), then those of what they give, where a value with a fault counts as its key's default, and a
policy's list that isn't there as empty; and behind the faults a line for each address that can't be one, and for each path that is that of other lines.
"""
import json
import sys

from tables import policy_types, table_settings

ALL = '{ name = "all", type = "always_sample" }'
POLICIES = f"policies = [{ALL}]\n"
FOLLOWS = "; it follows from another fault"
EMPTY = f"policies: a list of policies is empty{FOLLOWS} (fault 7.1)"
NO_VALUES = f"policies: the values or status codes of a policy are an empty list{FOLLOWS} (fault 7.6)"
SAME_NAME = f"policies: two policies of one list have the same name{FOLLOWS} (fault 7.4)"
TYPES = ", ".join(policy_types())
NO_LISTENER = "listen: no address: HOST:PORT, [IPV6]:PORT or :PORT is wanted (cannot listen)"
NO_BACKEND = "export.endpoint: no address: HOST:PORT, with a port from 1 to 65535, is wanted behind http:// (cannot send)"
TABLES = ("decision_cache", "export", "ledger")
WANTED = {"Integer": "a whole number is wanted", "Text": "a text is wanted", "Choice": "a text is wanted", "LogForm": "a text is wanted", "OutputFault": "a text is wanted", "ErrorMode": "a text is wanted", "Truth": "true or false is wanted"}

NO_NAME, NO_CHARACTER = "no path, function or enumeration has this name", "no value, name or operator begins with this character"
NO_VALUE, IS_VALUE = "a literal, a path, a function or a parenthesis is wanted", "a condition is wanted, and a value stands here"
# A text that is no condition, the column of its first fault, and what is said of it.
NO_CONDITIONS = [
    ("", 1, NO_VALUE), ("kind == 1 and", 14, NO_VALUE), ("kind < ", 8, NO_VALUE),
    ("kind", 1, IS_VALUE), ("not kind", 5, IS_VALUE),
    ("nam == 1", 1, NO_NAME), ('ConvertName(name, "lower") == "a"', 1, NO_NAME), ("kind == SPAN_KIND_SERVE", 9, NO_NAME), ('spanevent.name == "a"', 1, NO_NAME),
    ("kind = 2", 6, NO_CHARACTER), ("kind == 'a'", 9, NO_CHARACTER), ('kind == 1 && name == "a"', 11, NO_CHARACTER),
    ('name == "a', 9, "the text that begins here has no closing quote"),
    ('name == "a\\qb"', 9, 'one of " \\ a b f n r t v is wanted behind a backslash'),
    ("kind == 9223372036854775808", 9, "no number of 64 bits is this one"),
    ('attributes["a"] == 0xabc', 20, "an even number of hex digits is wanted behind 0x"),
    ("attributes[name] == 1", 12, "a key in quotes or a whole number is wanted"),
    ('attributes["a" == 1', 16, "] is wanted"),
    ("IsMatch(name, name)", 15, "a regular expression in quotes is wanted"),
    ('IsMatch name, "a"', 9, "( is wanted"),
    ('HasPrefix(name "a")', 16, ", is wanted"),
    ('ConvertCase(name, "snake") == "a"', 19, '"lower" or "upper" is wanted; no other case is known here'),
    ('Concat(name, ",") == "a"', 8, "[ is wanted"),
    ('Concat(["a"], name) == "a"', 15, "a delimiter in quotes is wanted"),
    ("(kind == 1", 11, ") is wanted"),
    ("kind == 1)", 10, "the condition ends before this"),
    ('name["a"] == 1', 5, "what stands before this has no keys"),
    ("kind == 1 == true", 11, "a value is wanted, and a condition stands here"),
    ('name + "a" == "b"', 6, "a number is wanted"),
]  # fmt: skip

# A name, a text, and its lines; of a text without a fault there is none.
ROWS = [
    ("one policy", POLICIES, []),
    ("nothing", "", ["policies: missing (fault 3)", EMPTY]),
    ("comments alone", "# lanes = 65\n", ["policies: missing (fault 3)", EMPTY]),
    ("no TOML", "lanes =\n", ["not TOML; line 1, column 8 (fault 1)"]),
    ("no TOML in the third line", f"lanes = 1\nlog = \"\u00fc\"\ntick_ms = *\n{POLICIES}", ["not TOML; line 3, column 11 (fault 1)"]),
    ("no TOML behind letters of two bytes", f"lanes = 1\nlog = \"\u00fc\u00fc\" x\n{POLICIES}", ["not TOML; line 2, column 12 (fault 1)"]),
    ("a key twice", f"lanes = 1\nlanes = 2\n{POLICIES}", ["not TOML; line 2, column 1 (fault 1)"]),
    ("unknown keys", f"queue = 1\nPolicies = 2\n\"a b\" = 3\n\"\" = 4\na-b_9 = 5\n{POLICIES}", ['"": no such key (fault 2)', "Policies: no such key; `policies` is (fault 2)", '"a b": no such key (fault 2)', "a-b_9: no such key (fault 2)", "queue: no such key (fault 2)"]),
    ("keys that are nearly there", f"decision_wait = 1\nroot_wait_s = 1\nnum_trace = 1\nmax_request_bytes = 1\nqueue_capcaity = 1\noutput_max = 1\ndecision = 1\ndecisions_max = 1\nrecords = 1\nrecord_max = 1\nlans = 1\nlone = 1\n{POLICIES}", [
        "decision: no such key; `decisions` is (fault 2)",
        "decision_wait: no such key; `decision_wait_ms` is (fault 2)",
        "decisions_max: no such key; `decisions_max_mib` is (fault 2)",
        "lans: no such key; `lanes` is (fault 2)",
        "lone: no such key (fault 2)",
        "max_request_bytes: no such key; `max_request_mib` is (fault 2)",
        "num_trace: no such key; `num_traces` is (fault 2)",
        "output_max: no such key; `output_max_mib` is (fault 2)",
        "queue_capcaity: no such key; `queue_capacity` is (fault 2)",
        "record_max: no such key; `record_max_mib` is (fault 2)",
        "records: no such key; `record` is (fault 2)",
        "root_wait_s: no such key; `root_wait_ms` is (fault 2)",
    ]),
    ("keys of the Collector", f"block_on_overflow = true\ndrop_pending_traces_on_shutdown = true\nendpoint = \"a\"\nexpected_new_traces_per_sec = 1\nlimit_mib = 1\nmax_request_body_size = 1\n"
     f"num_workers = 1\nsampling_strategy = \"trace-complete\"\nexport = {{ endpoint = \"http://h:1/p\", compression = \"gzip\", retry_on_failure = {{}}, sending_queue = {{}}, timeout = 1, tls = {{}}, traces_endpoint = \"a\" }}\n{POLICIES}", [
        "block_on_overflow: no such key; leave it out: nothing waits for a decision (fault 2)",
        "drop_pending_traces_on_shutdown: no such key; leave it out: at the close each trace that waits is decided (fault 2)",
        "endpoint: no such key; `listen` is (fault 2)",
        "expected_new_traces_per_sec: no such key; leave it out: memory is taken as traces come (fault 2)",
        "limit_mib: no such key; `memory_limit_mib` is (fault 2)",
        "max_request_body_size: no such key; `max_request_mib` is (fault 2)",
        "num_workers: no such key; `lanes` and `shards` are (fault 2)",
        "sampling_strategy: no such key; leave it out: each trace is decided once its wait is over (fault 2)",
        "export.compression: no such key; leave it out: bodies are sent as they are (fault 2)",
        "export.retry_on_failure: no such key; `retry_initial_ms`, `retry_max_ms` and `retry_for_ms` are (fault 2)",
        "export.sending_queue: no such key; `queue_batches` is: how many batches wait (fault 2)",
        "export.timeout: no such key; `timeout_ms` is (fault 2)",
        "export.tls: no such key; leave it out: nothing is encrypted, which a proxy can do (fault 2)",
        "export.traces_endpoint: no such key; `endpoint` is (fault 2)",
    ]),
    *((f"listens, {number}", f"listen = \"{where}\"\n{POLICIES}", [] if taken else [NO_LISTENER]) for number, (where, taken) in enumerate((
        ("127.0.0.1:4318", True), (":4318", True), ("[::1]:0", True), ("::1:4318", True), ("a_b.c-d:65535", True), ("", False), ("4318", False), ("localhost", False), ("localhost:65536", False),
        ("localhost:http", False), ("a b:4318", False), ("[host]:4318", False), ("http://127.0.0.1:4318", False), ("unix:run.sock", False)))),
    ("other addresses", f"admin = \"/run/tsc.sock\"\nmetrics = \"unix:\"\nexport = {{ endpoint = \"http://h/v1/traces\" }}\n{POLICIES}", [
        "admin: no address: a socket's path begins with unix: (cannot listen)",
        "metrics: no address: no path stands behind unix: (cannot listen)",
        NO_BACKEND,
    ]),
    ("other addresses, otherwise", f"admin = \"unix:{'a' * 104}\"\nmetrics = \"h\"\nexport = {{ endpoint = \"http://h:0/v1/traces\" }}\n{POLICIES}", [
        "admin: no address: a socket's path has at most 103 bytes (cannot listen)",
        "metrics: no address: HOST:PORT, [IPV6]:PORT, :PORT or unix:PATH is wanted (cannot listen)",
        NO_BACKEND,
    ]),
    ("other addresses that may be one", f"admin = \"unix:{'a' * 103}\"\nmetrics = \"\"\nexport = {{ endpoint = \"http://[::1]:1/\" }}\n{POLICIES}", []),
    ("files of others", f"output = \"a\"\ndecisions = \"a\"\nrecord = \"a\"\n{POLICIES}", [
        "decisions: no file of its own: the output has it (cannot write)",
        "record: no file of its own: the output has it (cannot write)",
    ]),
    ("the file of decisions for the record", f"output = \"a\"\ndecisions = \"b\"\nrecord = \"b\"\n{POLICIES}", ["record: no file of its own: the decisions have it (cannot write)"]),
    ("files of their own", f"output = \"a\"\ndecisions = \"b\"\nrecord = \"c\"\n{POLICIES}", []),
    ("addresses behind faults", f"listen = \"x\"\nlanes = 0\n{POLICIES}", ["lanes: 0 is not from 1 to 64 (fault 5)", NO_LISTENER]),
    ("addresses of another type", f"listen = 1\nadmin = true\n{POLICIES}", ["listen: a text is wanted (fault 4)", "admin: a text is wanted (fault 4)"]),
    ("a key of two lines", f"\"a\\nb\" = 1\n{POLICIES}", ['"a\\nb": no such key (fault 2)']),
    ("two names of one setting", f"decision_wait_after_root_received_ms = -1\nroot_wait_ms = 2\nwait = 3\n{POLICIES}", [
        "wait: no such key (fault 2)",
        "decision_wait_after_root_received_ms: another name of root_wait_ms, which stands there too (fault 2)",
        "decision_wait_after_root_received_ms: -1 is not from 0 to 3600000 (fault 5)",
    ]),
    ("numbers out of range", f"shards = 0\nlanes = 65\nroot_wait_ms = -1\nqueue_capacity = 65537\ntick_ms = 60001\n{POLICIES}", [
        "root_wait_ms: -1 is not from 0 to 3600000 (fault 5)",
        "lanes: 65 is not from 1 to 64 (fault 5)",
        "shards: 0 is not from 1 to 64 (fault 5)",
        "tick_ms: 60001 is not from 1 to 60000 (fault 5)",
        "queue_capacity: 65537 is not from 1 to 65536 (fault 5)",
    ]),
    ("each top key of another type", "\n".join(f"{key} = [1]" for key in [*(it.key for it in table_settings("top_settings") if it.key != "decision_wait_after_root_received_ms"), *TABLES])
     + "\npolicies = 1\n", [
        *(f"{it.key}: {WANTED[it.kind]} (fault 4)" for it in table_settings("top_settings") if it.key != "decision_wait_after_root_received_ms"),
        *(f"{key}: a table is wanted (fault 4)" for key in TABLES),
        "policies: an array is wanted (fault 4)",
        EMPTY,
    ]),
    ("names of policies on spans, by another type and near names", f"record_policy = \"true\"\nrecordpolicy = true\nrecord_policies = true\n{POLICIES}", [
        "record_policies: no such key (fault 2)", "recordpolicy: no such key; `record_policy` is (fault 2)", "record_policy: true or false is wanted (fault 4)"]),
    ("bodies in protobuf, by another type and a near name", f"accept_protobuf = \"true\"\naccept_protobuff = true\n{POLICIES}", [
        "accept_protobuff: no such key; `accept_protobuf` is (fault 2)", "accept_protobuf: true or false is wanted (fault 4)"]),
    ("texts of two", f'queue_full = "wait"\ndouble_values = "stop"\n{POLICIES}', ['queue_full: "wait" is none of partial, retry (fault 5)',
        'double_values: "stop" is none of discard, keep (fault 5)']),
    ("texts of three", f'output_fault = ""\nlog = "stderr"\n{POLICIES}', ['log: "stderr" is none of text, json, off (fault 5)', 'output_fault: "" is none of discard, stop, retry (fault 5)']),
    ("a text of two lines", f'queue_full = "a\\nb"\n{POLICIES}', ['queue_full: "a\\nb" is none of partial, retry (fault 5)']),
    ("caches", f"decision_cache = {{ sampled_cache_size = 1000001, non_sampled_cache_size = \"1\", sampled = 1 }}\n{POLICIES}", [
        "decision_cache.sampled: no such key (fault 2)",
        "decision_cache.sampled_cache_size: 1000001 is not from 0 to 1000000 (fault 5)",
        "decision_cache.non_sampled_cache_size: a whole number is wanted (fault 4)",
    ]),
    ("where lines are sent to", f"export = {{ endpoint = \"h:1/p\", timeout_ms = 0, queue_batches = 65537, headers = {{ Host = \"secret\" }}, encoding = \"protobuf\", retry = 1 }}\n{POLICIES}", [
        "export.retry: no such key (fault 2)",
        'export.endpoint: "h:1/p" is not of the form http://HOST:PORT/PATH (fault 5)',
        "export.timeout_ms: 0 is not from 1 to 600000 (fault 5)",
        "export.queue_batches: 65537 is not from 1 to 65536 (fault 5)",
        'export.encoding: "protobuf" is none of json, proto (fault 5)',
        "export.headers: a name or a text that can't be sent, or a field that is the collector's own (fault 5)",
    ]),
    ("where requests wait", f"ledger = {{ sync = \"always\", sync_interval = 1, sync_interval_ms = 0, max_mib = 1048577 }}\n{POLICIES}", [
        "ledger.sync_interval: no such key; `sync_interval_ms` is (fault 2)",
        "ledger.path: missing (fault 3)",
        'ledger.sync: "always" is none of none, interval, request (fault 5)',
        "ledger.sync_interval_ms: 0 is not from 1 to 60000 (fault 5)",
        "ledger.max_mib: 1048577 is not from 1 to 1048576 (fault 5)",
    ]),
    ("where requests wait, by other types", f"ledger = {{ path = 1, sync = 2, sync_interval_ms = \"1\", max_mib = 0.5 }}\nledgers = {{}}\n{POLICIES}", [
        "ledgers: no such key; `ledger` is (fault 2)",
        "ledger.path: a text is wanted (fault 4)",
        "ledger.sync: a text is wanted (fault 4)",
        "ledger.sync_interval_ms: a whole number is wanted (fault 4)",
        "ledger.max_mib: a whole number is wanted (fault 4)",
    ]),
    ("fields of another type", f"export = {{ headers = {{ Host = \"h\", a = 1 }} }}\n{POLICIES}", ["export.endpoint: missing (fault 3)", "export.headers: a table of texts is wanted (fault 4)"]),
    ("no table of fields", f"export = {{ endpoint = \"http://h:1/\", headers = [\"a\"] }}\n{POLICIES}", ["export.headers: a table of texts is wanted (fault 4)"]),
    ("few traces", f"num_traces = 1\nshards = 2\n{POLICIES}", ["num_traces: fewer than shards (fault 6)"]),
    ("few traces by a default", f"num_traces = 1\nshards = 65\n{POLICIES}", ["shards: 65 is not from 1 to 64 (fault 5)"]),
    ("few traces and a fault", f"num_traces = 1\nshards = 2\nlanes = 0\n{POLICIES}", ["lanes: 0 is not from 1 to 64 (fault 5)", "num_traces: fewer than shards (fault 6)"]),
    ("an empty list", "policies = []", ["policies: a list of policies is empty: policies (fault 7.1)"]),
    ("an empty list within others", f'policies = [{ALL}, {{ name = "a", type = "not", not = {{ not_sub_policy = {{ name = "b", type = "drop", drop = {{ drop_sub_policy = [] }} }} }} }}]',
     ["policies: a list of policies is empty: policies[1].not.not_sub_policy.drop.drop_sub_policy (fault 7.1)"]),
    ("an empty list behind one that only follows", 'policies = [{ name = "a", type = "and", and = { and_sub_policy = [1] } }, { name = "b", type = "and", and = { and_sub_policy = [] } }]', [
        "policies[0].and.and_sub_policy[0]: a table is wanted (fault 4)",
        "policies: a list of policies is empty: policies[1].and.and_sub_policy (fault 7.1)",
    ]),
    ("no tables", "policies = [1, \"a\", []]", [*(f"policies[{n}]: a table is wanted (fault 4)" for n in range(3)), EMPTY]),
    ("a policy without keys", "policies = [{}]", ["policies[0].name: missing (fault 3)", "policies[0].type: missing (fault 3)"]),
    ("an unknown type", 'policies = [{ name = 1, type = "rate", rate = {} }]', ["policies[0].name: a text is wanted (fault 4)", f'policies[0].type: "rate" is none of {TYPES} (fault 5)']),
    ("settings of another type", 'policies = [{ name = "a", type = "always_sample", latency = {} }]', ["policies[0].latency: no such key (fault 2)"]),
    ("no settings", f'policies = [{ALL}, {{ name = "a", type = "latency" }}, {{ name = "b", type = "span_count", span_count = 3 }}]', [
        "policies[1].latency: missing (fault 3)", "policies[2].span_count: a table is wanted (fault 4)"]),
    ("status codes", f'policies = [{ALL}, {ALL.replace("all", "b")}, {{ name = "c", type = "status_code", status_code = {{ status_codes = ["ERR", "OK", 2, "ok"] }} }}]', [
        'policies[2].status_code.status_codes[0]: "ERR" is none of OK, ERROR, UNSET (fault 5)',
        "policies[2].status_code.status_codes[2]: a text is wanted (fault 4)",
        'policies[2].status_code.status_codes[3]: "ok" is none of OK, ERROR, UNSET (fault 5)',
    ]),
    ("no status code", 'policies = [{ name = "c", type = "status_code", status_code = { status_codes = ["ERR"] } }]', [
        'policies[0].status_code.status_codes[0]: "ERR" is none of OK, ERROR, UNSET (fault 5)', NO_VALUES]),
    ("latency", 'policies = [{ name = "a", type = "latency", latency = { upper_threshold_ms = -1, threshold = 2 } }]', [
        "policies[0].latency.threshold: no such key; `threshold_ms` is (fault 2)", "policies[0].latency.threshold_ms: missing (fault 3)", "policies[0].latency.upper_threshold_ms: -1 is below 0 (fault 5)"]),
    ("attributes", 'policies = [{ name = "a", type = "string_attribute", string_attribute = { values = [1, true], invert_match = 1 } },'
     ' { name = "b", type = "numeric_attribute", numeric_attribute = { key = 1, min_value = 0.5 } },'
     ' { name = "c", type = "boolean_attribute", boolean_attribute = { key = "k" } }]', [
        "policies[0].string_attribute.key: missing (fault 3)",
        "policies[0].string_attribute.values[0]: a text is wanted (fault 4)",
        "policies[0].string_attribute.values[1]: a text is wanted (fault 4)",
        "policies[0].string_attribute.invert_match: true or false is wanted (fault 4)",
        "policies[1].numeric_attribute.key: a text is wanted (fault 4)",
        "policies[1].numeric_attribute.min_value: a whole number is wanted (fault 4)",
        "policies[2].boolean_attribute.value: missing (fault 3)",
        NO_VALUES,
    ]),
    ("expressions", 'policies = [{ name = "a", type = "string_attribute", string_attribute = { key = "k", values = ["a.*", "(", "[b"], enabled_regex_matching = true } },'
     ' { name = "b", type = "string_attribute", string_attribute = { key = "k", values = ["((a{999}){999}){9}", "*"], enabled_regex_matching = true } }]', [
        'policies: "(" is no regular expression (fault 9)',
        'policies: "[b" is no regular expression (fault 9)',
        'policies: "*" is no regular expression (fault 9)',
        'policies: "((a{999}){999}){9}" takes more than about 1 MiB, compiled (fault 10)',
    ]),
    ("expressions beside other faults", 'lanes = 0\npolicies = [{ name = "a", type = "string_attribute", string_attribute = { key = "k", values = ["("], enabled_regex_matching = true, cache_max_size = -1 } }]', [
        "lanes: 0 is not from 1 to 64 (fault 5)",
        "policies[0].string_attribute.cache_max_size: -1 is below 0 (fault 5)",
        'policies: "(" is no regular expression (fault 9)',
    ]),
    ("expressions of refused policies", 'policies = [{ name = "a", type = "string_attribute", string_attribute = { key = "k", values = ["("], enabled_regex_matching = true } },'
     ' { name = "a", type = "always_sample" }]', ['policies: two policies of one list have the same name: "a" in policies (fault 7.4)']),
    ("percentages", "policies = [" + ", ".join(f'{{ name = "{n}", type = "probabilistic", probabilistic = {{ sampling_percentage = {text} }} }}' for n, text in enumerate(("101", "12.34567", '"1"', "50"))) + "]", [
        "policies[0].probabilistic.sampling_percentage: 101 is not from 0 to 100 with at most four decimals (fault 5)",
        "policies[1].probabilistic.sampling_percentage: 12.34567 is not from 0 to 100 with at most four decimals (fault 5)",
        "policies[2].probabilistic.sampling_percentage: a number is wanted (fault 4)",
    ]),
    ("within and", 'policies = [{ name = "a", type = "and", and = { or = 1, and_sub_policy = [1, { name = "b", type = "latency", latency = {} }, { name = "c", type = "not", not = {} }] } }]', [
        "policies[0].and.or: no such key (fault 2)",
        "policies[0].and.and_sub_policy[0]: a table is wanted (fault 4)",
        "policies[0].and.and_sub_policy[1].latency.threshold_ms: missing (fault 3)",
        "policies[0].and.and_sub_policy[2].not.not_sub_policy: missing (fault 3)",
        EMPTY,
    ]),
    ("within not and drop", f'policies = [{{ name = "a", type = "not", not = {{ not_sub_policy = {{ name = "b", type = "drop", drop = {{ drop_sub_policy = {{}} }} }} }} }},'
     f' {{ name = "b", type = "not", not = {{ not_sub_policy = [{ALL}] }} }}, {{ name = "c", type = "drop" }}]', [
        "policies[0].not.not_sub_policy.drop.drop_sub_policy: an array is wanted (fault 4)",
        "policies[1].not.not_sub_policy: a table is wanted (fault 4)",
        "policies[2].drop: missing (fault 3)",
        EMPTY,
    ]),
    ("within composite", 'policies = [{ name = "a", type = "composite", composite = { total = 1, policy_order = ["x", 1], rate_allocation = [{ policy = "x", percent = 0 }, 1, { policy = "x", percent = 3 }],'
     ' composite_sub_policy = [{ name = "x", type = "always_sample" }] } }]', [
        "policies[0].composite.total: no such key (fault 2)",
        "policies[0].composite.max_total_spans_per_second: missing (fault 3)",
        "policies[0].composite.policy_order[1]: a text is wanted (fault 4)",
        "policies[0].composite.rate_allocation[0]: a table of policy, a text, and percent, from 1 to 100, is wanted (fault 5)",
        "policies[0].composite.rate_allocation[1]: a table of policy, a text, and percent, from 1 to 100, is wanted (fault 4)",
        "policies[0].composite.policy_order: not the names of composite_sub_policy, each once (fault 5)",
    ]),
    ("an order that only follows", 'policies = [{ name = "a", type = "composite", composite = { max_total_spans_per_second = 1, policy_order = ["x", 1, "z", "u"], composite_sub_policy = ['
     '{ name = "x", type = "always_sample" }, { name = "y", type = "always_sample" }, { type = "always_sample" }, 3] } }]', [
        "policies[0].composite.policy_order[1]: a text is wanted (fault 4)",
        f"policies[0].composite.policy_order: not the names of composite_sub_policy, each once{FOLLOWS} (fault 5)",
        "policies[0].composite.composite_sub_policy[2].name: missing (fault 3)",
        "policies[0].composite.composite_sub_policy[3]: a table is wanted (fault 4)",
    ]),
    ("an order that is another one, beside a part without a name", 'policies = [{ name = "a", type = "composite", composite = { max_total_spans_per_second = 1, policy_order = ["y", "z"], composite_sub_policy = ['
     '{ name = "x", type = "always_sample" }, { type = "always_sample" }] } }]', [
        "policies[0].composite.policy_order: not the names of composite_sub_policy, each once (fault 5)",
        "policies[0].composite.composite_sub_policy[1].name: missing (fault 3)",
    ]),
    ("orders that name a part twice, leave one out, or name no part", 'policies = [' + ", ".join(f'{{ name = "{name}", type = "composite", composite = {{ max_total_spans_per_second = 1, policy_order = {order}, composite_sub_policy = ['
     '{ name = "x", type = "always_sample" }, { name = "y", type = "always_sample" }] } }' for name, order in (("a", '["y", "y"]'), ("b", '["y"]'), ("c", '["y", "z"]'), ("d", '["y", "x"]'))) + "]", [
        "policies[0].composite.policy_order: not the names of composite_sub_policy, each once (fault 5)",
        "policies[1].composite.policy_order: not the names of composite_sub_policy, each once (fault 5)",
        "policies[2].composite.policy_order: not the names of composite_sub_policy, each once (fault 5)",
    ]),
    ("an order that names a part twice, beside a part without a name", 'policies = [{ name = "a", type = "composite", composite = { max_total_spans_per_second = 1, policy_order = ["x", "x"], composite_sub_policy = ['
     '{ name = "x", type = "always_sample" }, { type = "always_sample" }] } }]', [
        "policies[0].composite.policy_order: not the names of composite_sub_policy, each once (fault 5)",
        "policies[0].composite.composite_sub_policy[1].name: missing (fault 3)",
    ]),
    ("two of one name", f"lanes = 0\npolicies = [{ALL}, {ALL}]", ["lanes: 0 is not from 1 to 64 (fault 5)", 'policies: two policies of one list have the same name: "all" in policies (fault 7.4)']),
    ("two of one name within others", f'policies = [{ALL}, {{ name = "b", type = "composite", composite = {{ max_total_spans_per_second = 1, composite_sub_policy = ['
     f'{{ name = "c", type = "and", and = {{ and_sub_policy = [{ALL}, {{ name = "d\\u000a", type = "trace_flags" }}, {{ name = "e", type = "trace_flags" }}, {{ name = "d\\n", type = "always_sample" }}] }} }}] }} }}]', [
        'policies: two policies of one list have the same name: "d\\n" in policies[1].composite.composite_sub_policy[0].and.and_sub_policy (fault 7.4)']),
    ("two of one name, of which one has no type", f'policies = [{ALL}, {{ name = "all", type = "rate" }}]', [
        f'policies[1].type: "rate" is none of {TYPES} (fault 5)', 'policies: two policies of one list have the same name: "all" in policies (fault 7.4)']),
    ("two of an empty name", 'policies = [{ name = "", type = "trace_flags" }, { name = "", type = "always_sample" }]', ['policies: two policies of one list have the same name: "" in policies (fault 7.4)']),
    ("two without a name", 'policies = [{ type = "trace_flags" }, { name = 1, type = "always_sample" }]', ["policies[0].name: missing (fault 3)", "policies[1].name: a text is wanted (fault 4)", SAME_NAME]),
    ("one without a name, and one of an empty name", 'policies = [{ type = "trace_flags" }, { name = "", type = "always_sample" }]', ["policies[0].name: missing (fault 3)", SAME_NAME]),
    ("two without a name before two of one name", f'policies = [{{ type = "trace_flags" }}, {{ type = "trace_flags" }}, {ALL}, {ALL}]', [
        "policies[0].name: missing (fault 3)", "policies[1].name: missing (fault 3)", 'policies: two policies of one list have the same name: "all" in policies (fault 7.4)']),
    ("nothing between bounds", 'policies = [{ name = "a", type = "span_count", span_count = { min_spans = 3, max_spans = 2 } }]', [
        "policies: the bounds of a policy leave nothing between them: policies[0].span_count (fault 7.5)"]),
    ("nothing between bounds of a latency", f'policies = [{ALL}, {{ name = "a", type = "latency", latency = {{ threshold_ms = 3, upper_threshold_ms = 4 }} }}, {{ name = "b", type = "latency", latency = {{ threshold_ms = 3, upper_threshold_ms = 3 }} }}]', [
        "policies: the bounds of a policy leave nothing between them: policies[2].latency (fault 7.5)"]),
    ("nothing between bounds of a number", 'policies = [{ name = "a", type = "not", not = { not_sub_policy = { name = "b", type = "numeric_attribute", numeric_attribute = { key = "k", min_value = -1, max_value = -2 } } } }]', [
        "policies: the bounds of a policy leave nothing between them: policies[0].not.not_sub_policy.numeric_attribute (fault 7.5)"]),
    ("no values", f'policies = [{ALL}, {{ name = "a", type = "string_attribute", string_attribute = {{ key = "k", values = [] }} }}]', [
        "policies: the values or status codes of a policy are an empty list: policies[1].string_attribute.values (fault 7.6)"]),
    ("no status codes and no states", 'policies = [{ name = "a", type = "drop", drop = { drop_sub_policy = [{ name = "b", type = "status_code", status_code = { status_codes = [] } }, { name = "c", type = "trace_state", trace_state = { key = "k", values = [] } }] } }]', [
        "policies: the values or status codes of a policy are an empty list: policies[0].drop.drop_sub_policy[0].status_code.status_codes (fault 7.6)"]),
    ("no states behind values that only follow", 'policies = [{ name = "b", type = "status_code", status_code = {} }, { name = "c", type = "trace_state", trace_state = { key = "k", values = [] } }]', [
        "policies[0].status_code.status_codes: missing (fault 3)",
        "policies: the values or status codes of a policy are an empty list: policies[1].trace_state.values (fault 7.6)"]),
    ("no condition at all", 'policies = [{ name = "a", type = "ottl_condition", ottl_condition = { span = [] } }]', [
        "policies: the values or status codes of a policy are an empty list: policies[0].ottl_condition.span (fault 7.6)"]),
    ("conditions that are none", """policies = [{ name = "a", type = "ottl_condition", ottl_condition = { error_mode = "all", span = ['kind = 2', 'kind', 'true'], spanevent = ['nam == 1'] } }]""", [
        'policies[0].ottl_condition.error_mode: "all" is none of ignore, silent, propagate (fault 5)',
        'policies[0].ottl_condition.span[0]: "kind = 2" is no condition: column 6: no value, name or operator begins with this character (fault 9)',
        'policies[0].ottl_condition.span[1]: "kind" is no condition: column 1: a condition is wanted, and a value stands here (fault 9)',
        'policies[0].ottl_condition.spanevent[0]: "nam == 1" is no condition: column 1: no path, function or enumeration has this name (fault 9)']),
    *((f"refused condition {number}", f'policies = [{{ name = "a", type = "ottl_condition", ottl_condition = {{ span = [{json.dumps(condition)}] }} }}]',
       [f"policies[0].ottl_condition.span[0]: {json.dumps(condition)} is no condition: column {column}: {why} (fault 9)"]) for number, (condition, column, why) in enumerate(NO_CONDITIONS)),
    ("a pattern in a condition", """policies = [{ name = "a", type = "ottl_condition", ottl_condition = { span = ['IsMatch(name, "(")'] } }]""", [
        'policies[0].ottl_condition.span[0]: "IsMatch(name, \\"(\\")": what IsMatch takes is no regular expression (fault 9)']),
    ("65 policies", "policies = [" + ", ".join(f'{{ name = "{n}", type = "always_sample" }}' for n in range(65)) + "]", ["policies: there are more than 64 policies (fault 7.3)"]),
    ("nine deep", "policies = [" + '{ name = "a", type = "not", not = { not_sub_policy = ' * 8 + ALL + " } }" * 8 + "]", ["policies: policies are nested deeper than 8 (fault 7.2)"]),
]


def main(folder):
    """Writes all."""
    for name, text, lines in ROWS:
        name = f"validated, {name}"
        print(name)
        with open(f"{folder}/{name}.toml", "w") as file:
            file.write(text)
        with open(f"{folder}/{name}.expected", "w") as file:
            file.write("".join(f"{line}\n" for line in lines) or "ok\n")
        if lines:
            with open(f"{folder}/{name}.status", "w") as file:
                file.write("3\n")


if __name__ == "__main__":
    main(sys.argv[1])
