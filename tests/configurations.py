#!/usr/bin/env python3
"""Writes configurations to a folder, taken and refused, each with an empty script: NAME.toml, NAME.script and NAME.expected, and NAME.status where
it isn't 0; one name a line on standard output.

    tests/configurations.py FOLDER

The fault of each stands in the tables, by its number in docs/FAULTS.md, and the bounds of whole numbers in the definition (tests/settings.py); the
settings that each type of policy has are those of its table (tests/tables.py). None of it is the program's answer. Of two faults the one with the
lower number is told.
"""
import sys

from settings import top_numbers
from tables import policy_settings

NOT_TOML, UNKNOWN_KEY, MISSING_KEY, WRONG_TYPE, OUT_OF_RANGE, TOO_FEW_TRACES = "123456"
NOT_AN_EXPRESSION, EXPRESSION_TOO_BIG = "9", "10"
EMPTY_LIST, TOO_DEEP, TOO_MANY, SAME_NAME, CROSSED_BOUNDS, NO_VALUES = (f"7.{number}" for number in range(1, 7))
TAKEN = None
ALL = '{ name = "all", type = "always_sample" }'
WHOLE_TOP = 2**63 - 1
REPORT = "received 0\nhanded 0\n" + "".join(f"dropped {reason} 0\n" for reason in range(1, 8))

FAULTS = [
    ("", MISSING_KEY),
    ("lanes =", NOT_TOML),
    ("polices = []", UNKNOWN_KEY),
    ("policies = []", EMPTY_LIST),
    ("policies = [1]", WRONG_TYPE),
    ("num_traces = 0", MISSING_KEY),
    ("num_traces = 1\nshards = 2\npolicies = []", TOO_FEW_TRACES),
    ("lanes = 65\npolicies = []", OUT_OF_RANGE),
    ("decision_cache = 1\npolicies = []", WRONG_TYPE),
    ("decision_cache = { sampled = 1 }\npolicies = []", UNKNOWN_KEY),
    ("decision_cache = { sampled_cache_size = 1000001 }\npolicies = []", OUT_OF_RANGE),
    ("decision_cache = { non_sampled_cache_size = -1 }\npolicies = []", OUT_OF_RANGE),
    ('policies = [{ name = "a", type = "always_sample", status_code = 1 }]', UNKNOWN_KEY),
    ('policies = [{ name = "a", type = "none", status_code = 1 }]', OUT_OF_RANGE),
    (f'policies = [{{ name = "a", type = "not", and = {{ and_sub_policy = [{ALL}] }} }}]', UNKNOWN_KEY),
    ('policies = [{ name = "a", type = "drop" }]', MISSING_KEY),
    ('policies = [{ name = "a", type = "trace_state" }]', MISSING_KEY),
    ('policies = [{ name = "a", type = "ottl_condition" }]', MISSING_KEY),
    ('policies = [{ name = "a", type = "trace_flags" }]', TAKEN),
    ('policies = [{ name = "a", type = "trace_flags", trace_flags = {} }]', UNKNOWN_KEY),
    ('policies = [{ name = "a", type = "status_code", status_code = { status_codes = ["error"] } }]', OUT_OF_RANGE),
]

# Lines before one policy.
LINES = [
    ("root_wait_ms = 0.5", WRONG_TYPE),
    ("root_wait = 0", UNKNOWN_KEY),
    ("maximum_trace_size_bytes = 1.5", WRONG_TYPE),
    ("maximum_trace_size = 0", UNKNOWN_KEY),
    ("decision_wait_after_root_received_ms = 0.5", WRONG_TYPE),
    ("decision_wait_after_root_received = 0", UNKNOWN_KEY),
    ("decision_wait_after_root_received_ms = 5\nroot_wait_ms = 5", UNKNOWN_KEY),
    ("decision_wait_after_root_received_ms = 0\nroot_wait_ms = 0", UNKNOWN_KEY),
    ("root_wait_ms = true\ndecision_wait_after_root_received_ms = -1", UNKNOWN_KEY),
    ('listen = ""', TAKEN),
    ('listen = "[::1]:0"', TAKEN),
    ("listen = 4318", WRONG_TYPE),
    ('listen = ["127.0.0.1:4318"]', WRONG_TYPE),
    ('listen = "a"\nlisten = "a"', NOT_TOML),
    ('admin = "127.0.0.1:4319"', TAKEN),
    ('admin = ""', TAKEN),
    ("admin = 4319", WRONG_TYPE),
    ("admin = true", WRONG_TYPE),
    ('admins = "127.0.0.1:4319"', UNKNOWN_KEY),
    ('metrics = "127.0.0.1:9464"', TAKEN),
    ('metrics = "unix:/run/tsc/metrics.sock"', TAKEN),
    ('metrics = ""', TAKEN),
    ("metrics = 9464", WRONG_TYPE),
    ("metrics = true", WRONG_TYPE),
    ('metric = "127.0.0.1:9464"', UNKNOWN_KEY),
    ('output = ""', TAKEN),
    ('output = "kept.jsonl"', TAKEN),
    ("output = 1", WRONG_TYPE),
    ('output = ["kept.jsonl"]', WRONG_TYPE),
    ('outputs = "kept.jsonl"', UNKNOWN_KEY),
    ("output_max_mib = 0.5", WRONG_TYPE),
    ('output_max_mib = "256"', WRONG_TYPE),
    ("output_max = 256", UNKNOWN_KEY),
    ("output_keep = 0.5", WRONG_TYPE),
    ("output_keep = true", WRONG_TYPE),
    ('decisions = ""', TAKEN),
    ('decisions = "decided.jsonl"', TAKEN),
    ("decisions = 1", WRONG_TYPE),
    ('decisions = ["decided.jsonl"]', WRONG_TYPE),
    ('decision = "decided.jsonl"', UNKNOWN_KEY),
    ("decisions_max_mib = 0.5", WRONG_TYPE),
    ('decisions_max_mib = "128"', WRONG_TYPE),
    ("decisions_max = 128", UNKNOWN_KEY),
    ('record = ""', TAKEN),
    ('record = "came.txt"', TAKEN),
    ("record = 1", WRONG_TYPE),
    ('record = ["came.txt"]', WRONG_TYPE),
    ('records = "came.txt"', UNKNOWN_KEY),
    ("record_max_mib = 0.5", WRONG_TYPE),
    ('record_max_mib = "128"', WRONG_TYPE),
    ("record_max = 128", UNKNOWN_KEY),
    ("record_policy = true", TAKEN),
    ("record_policy = false", TAKEN),
    ("record_policy = 1", WRONG_TYPE),
    ('record_policy = "true"', WRONG_TYPE),
    ("recordpolicy = true", UNKNOWN_KEY),
    ("accept_gzip = true", TAKEN),
    ("accept_gzip = false", TAKEN),
    ("accept_gzip = 1", WRONG_TYPE),
    ('accept_gzip = "gzip"', WRONG_TYPE),
    ("accept_gzip = [true]", WRONG_TYPE),
    ("accept_protobuf = true", TAKEN),
    ("accept_protobuf = false", TAKEN),
    ("accept_protobuf = 1", WRONG_TYPE),
    ('accept_protobuf = "proto"', WRONG_TYPE),
    ("accept_proto = true", UNKNOWN_KEY),
    ("sample_on_first_match = true", TAKEN),
    ("sample_on_first_match = false", TAKEN),
    ("sample_on_first_match = 1", WRONG_TYPE),
    ('sample_on_first_match = "true"', WRONG_TYPE),
    ("sample_on_first = true", UNKNOWN_KEY),
    ('queue_full = "partial"', TAKEN),
    ('queue_full = "retry"', TAKEN),
    ('queue_full = "Retry"', OUT_OF_RANGE),
    ('queue_full = "retry "', OUT_OF_RANGE),
    ('queue_full = "stop"', OUT_OF_RANGE),
    ('queue_full = ""', OUT_OF_RANGE),
    ("queue_full = true", WRONG_TYPE),
    ('queue_full = ["retry"]', WRONG_TYPE),
    ('log = "text"', TAKEN),
    ('log = "json"', TAKEN),
    ('log = "off"', TAKEN),
    ('log = "Text"', OUT_OF_RANGE),
    ('log = ""', OUT_OF_RANGE),
    ("log = false", WRONG_TYPE),
    ('output_fault = "discard"', TAKEN),
    ('output_fault = "stop"', TAKEN),
    ('output_fault = "retry"', TAKEN),
    ('output_fault = "Retry"', OUT_OF_RANGE),
    ('output_fault = "partial"', OUT_OF_RANGE),
    ('output_fault = ""', OUT_OF_RANGE),
    ("output_fault = 1", WRONG_TYPE),
    ('double_values = "discard"', TAKEN),
    ('double_values = "keep"', TAKEN),
    ('double_values = "Keep"', OUT_OF_RANGE),
    ('double_values = "stop"', OUT_OF_RANGE),
    ('double_values = ""', OUT_OF_RANGE),
    ("double_values = true", WRONG_TYPE),
    ('double_value = "keep"', UNKNOWN_KEY),
    ("close_at_end_of_input = true", TAKEN),
    ("close_at_end_of_input = false", TAKEN),
    ('close_at_end_of_input = "true"', WRONG_TYPE),
    ("close_at_end_of_input = 0", WRONG_TYPE),
    ("close_at_end = true", UNKNOWN_KEY),
    ('export = { endpoint = "http://127.0.0.1:4338/v1/traces" }', TAKEN),
    ('export = { endpoint = "http://h/" }', TAKEN),
    ('export = { endpoint = "http:///v1/traces" }', OUT_OF_RANGE),
    ('export = { endpoint = "http://127.0.0.1:4338" }', OUT_OF_RANGE),
    ('export = { endpoint = "https://127.0.0.1:4338/v1/traces" }', OUT_OF_RANGE),
    ('export = { endpoint = "http://" }', OUT_OF_RANGE),
    ("export = { endpoint = 4338 }", WRONG_TYPE),
    ("export = { timeout_ms = 1 }", MISSING_KEY),
    ("export = 1", WRONG_TYPE),
    ('export = { endpoint = "http://h/", timeout_ms = 0 }', OUT_OF_RANGE),
    ('export = { endpoint = "http://h/", timeout_ms = 1 }', TAKEN),
    ('export = { endpoint = "http://h/", timeout_ms = 600000 }', TAKEN),
    ('export = { endpoint = "http://h/", timeout_ms = 600001 }', OUT_OF_RANGE),
    ('export = { endpoint = "http://h/", retry_initial_ms = 0 }', OUT_OF_RANGE),
    ('export = { endpoint = "http://h/", retry_initial_ms = 3600001 }', OUT_OF_RANGE),
    ('export = { endpoint = "http://h/", retry_max_ms = 0 }', OUT_OF_RANGE),
    ('export = { endpoint = "http://h/", retry_max_ms = 3600001 }', OUT_OF_RANGE),
    ('export = { endpoint = "http://h/", retry_for_ms = 0 }', TAKEN),
    ('export = { endpoint = "http://h/", retry_for_ms = -1 }', OUT_OF_RANGE),
    ('export = { endpoint = "http://h/", retry_for_ms = 86400001 }', OUT_OF_RANGE),
    ('export = { endpoint = "http://h/", close_wait_ms = 0 }', TAKEN),
    ('export = { endpoint = "http://h/", close_wait_ms = 3600001 }', OUT_OF_RANGE),
    ('export = { endpoint = "http://h/", queue_batches = 0 }', OUT_OF_RANGE),
    ('export = { endpoint = "http://h/", queue_batches = 1 }', TAKEN),
    ('export = { endpoint = "http://h/", queue_batches = 65536 }', TAKEN),
    ('export = { endpoint = "http://h/", queue_batches = 65537 }', OUT_OF_RANGE),
    ('export = { endpoint = "http://h/", queue_batches = "256" }', WRONG_TYPE),
    ('export = { endpoint = "http://h/", lines = true }', TAKEN),
    ('export = { endpoint = "http://h/", lines = "true" }', WRONG_TYPE),
    ('export = { endpoint = "http://h/", lines = 1 }', WRONG_TYPE),
    ('export = { endpoint = "http://h/", encoding = "json" }', TAKEN),
    ('export = { endpoint = "http://h/", encoding = "proto" }', TAKEN),
    ('export = { endpoint = "http://h/", encoding = "Proto" }', OUT_OF_RANGE),
    ('export = { endpoint = "http://h/", encoding = "protobuf" }', OUT_OF_RANGE),
    ('export = { endpoint = "http://h/", encoding = "" }', OUT_OF_RANGE),
    ('export = { endpoint = "http://h/", encoding = true }', WRONG_TYPE),
    ('encoding = "json"', UNKNOWN_KEY),
    ('export = { endpoint = "http://h/", headers = {} }', TAKEN),
    ('export = { endpoint = "http://h/", headers = { Authorization = "Bearer a.b-c" } }', TAKEN),
    ('export = { endpoint = "http://h/", headers = { X-Scope-OrgID = "tenant-1", x-y = "" } }', TAKEN),
    ('export = { endpoint = "http://h/", headers = { "a b" = "c" } }', OUT_OF_RANGE),
    ('export = { endpoint = "http://h/", headers = { "" = "c" } }', OUT_OF_RANGE),
    ('export = { endpoint = "http://h/", headers = { "a:" = "c" } }', OUT_OF_RANGE),
    ('export = { endpoint = "http://h/", headers = { a = "b\\r\\nc: d" } }', OUT_OF_RANGE),
    ('export = { endpoint = "http://h/", headers = { a = "b\\u0000" } }', OUT_OF_RANGE),
    ('export = { endpoint = "http://h/", headers = { a = " b" } }', OUT_OF_RANGE),
    ('export = { endpoint = "http://h/", headers = { a = "b\\t" } }', OUT_OF_RANGE),
    ('export = { endpoint = "http://h/", headers = { a = "b c" } }', TAKEN),
    ('export = { endpoint = "http://h/", headers = { host = "h" } }', OUT_OF_RANGE),
    ('export = { endpoint = "http://h/", headers = { Content-Type = "text/plain" } }', OUT_OF_RANGE),
    ('export = { endpoint = "http://h/", headers = { CONTENT-LENGTH = "1" } }', OUT_OF_RANGE),
    ('export = { endpoint = "http://h/", headers = { content-encoding = "gzip" } }', OUT_OF_RANGE),
    ('export = { endpoint = "http://h/", headers = { Transfer-Encoding = "chunked" } }', OUT_OF_RANGE),
    ('export = { endpoint = "http://h/", headers = { connection = "close" } }', OUT_OF_RANGE),
    ('export = { endpoint = "http://h/", headers = { expect = "100-continue" } }', OUT_OF_RANGE),
    ('export = { endpoint = "http://h/", headers = { upgrade = "h2c" } }', OUT_OF_RANGE),
    ('export = { endpoint = "http://h/", headers = { a = 1 } }', WRONG_TYPE),
    ('export = { endpoint = "http://h/", headers = { a = ["b"] } }', WRONG_TYPE),
    ('export = { endpoint = "http://h/", headers = [] }', WRONG_TYPE),
    ('export = { endpoint = "http://h/", headers = "a: b" }', WRONG_TYPE),
    ('export = { endpoint = "http://h/", retries = 3 }', UNKNOWN_KEY),
    ('ledger = { path = "" }', TAKEN),
    ('ledger = { path = "waiting" }', TAKEN),
    ('ledger = { path = "waiting", sync = "interval", sync_interval_ms = 100, max_mib = 64 }', TAKEN),
    ("ledger = { path = 1 }", WRONG_TYPE),
    ('ledger = { path = ["waiting"] }', WRONG_TYPE),
    ("ledger = {}", MISSING_KEY),
    ('ledger = { sync = "request" }', MISSING_KEY),
    ('ledger = "waiting"', WRONG_TYPE),
    ("ledger = true", WRONG_TYPE),
    ('ledger = { path = "waiting", sync = "none" }', TAKEN),
    ('ledger = { path = "waiting", sync = "request" }', TAKEN),
    ('ledger = { path = "waiting", sync = "Request" }', OUT_OF_RANGE),
    ('ledger = { path = "waiting", sync = "always" }', OUT_OF_RANGE),
    ('ledger = { path = "waiting", sync = "" }', OUT_OF_RANGE),
    ('ledger = { path = "waiting", sync = true }', WRONG_TYPE),
    ('ledger = { path = "waiting", sync_interval_ms = 0 }', OUT_OF_RANGE),
    ('ledger = { path = "waiting", sync_interval_ms = 1 }', TAKEN),
    ('ledger = { path = "waiting", sync_interval_ms = 60000 }', TAKEN),
    ('ledger = { path = "waiting", sync_interval_ms = 60001 }', OUT_OF_RANGE),
    ('ledger = { path = "waiting", sync_interval_ms = "1000" }', WRONG_TYPE),
    ('ledger = { path = "waiting", max_mib = 0 }', OUT_OF_RANGE),
    ('ledger = { path = "waiting", max_mib = 1 }', TAKEN),
    ('ledger = { path = "waiting", max_mib = 1048576 }', TAKEN),
    ('ledger = { path = "waiting", max_mib = 1048577 }', OUT_OF_RANGE),
    ('ledger = { path = "waiting", max_mib = 0.5 }', WRONG_TYPE),
    ('ledger = { path = "waiting", segments = 3 }', UNKNOWN_KEY),
    ('ledgers = { path = "waiting" }', UNKNOWN_KEY),
    ('sync = "none"', UNKNOWN_KEY),
    ("max_mib = 64", UNKNOWN_KEY),
]

def matching(expression):
    """A policy on a regular expression, with a name of its own, inside an `and`."""
    own = f'{{ name = "of {expression}", type = "string_attribute", string_attribute = {{ key = "k", enabled_regex_matching = true, values = ["{expression}"] }} }}'
    return f'{{ name = "and {expression}", type = "and", and = {{ and_sub_policy = [{own}] }} }}, '


# For each fault a line and the beginning of a list of policies that has it, by rising numbers.
FAULTY = [
    ("lanes =\n", "", NOT_TOML),
    ("polices = []\n", "", UNKNOWN_KEY),
    ("", '{ type = "always_sample" }, ', MISSING_KEY),
    ("tick_ms = true\n", "", WRONG_TYPE),
    ("queue_capacity = 0\n", "", OUT_OF_RANGE),
    ("num_traces = 1\nshards = 2\n", "", TOO_FEW_TRACES),
    ("", f"{ALL}, ", SAME_NAME),
    ("", matching("("), NOT_AN_EXPRESSION),
    ("", matching("((a{999}){999}){9}"), EXPRESSION_TOO_BIG),
]

# Settings of a policy of each type.
SETTINGS = {
    "latency": [
        ("threshold_ms = 0", TAKEN),
        (f"threshold_ms = {WHOLE_TOP}", TAKEN),
        (f"threshold_ms = {WHOLE_TOP + 1}", NOT_TOML),
        ("threshold_ms = -1", OUT_OF_RANGE),
        ("threshold_ms = 1.0", WRONG_TYPE),
        ('threshold_ms = "1"', WRONG_TYPE),
        ("", MISSING_KEY),
        ("upper_threshold_ms = 1", MISSING_KEY),
        ("threshold_ms = 1, threshold_ms = 2", NOT_TOML),
        (f"threshold_ms = 1, upper_threshold_ms = {WHOLE_TOP}", TAKEN),
        ("threshold_ms = 1, upper_threshold_ms = -1", OUT_OF_RANGE),
        ("threshold_ms = 1, upper_threshold_ms = true", WRONG_TYPE),
        ("threshold_ms = 2, upper_threshold_ms = 1", CROSSED_BOUNDS),
        ("threshold_ms = 1, upper_threshold_ms = 1", CROSSED_BOUNDS),
        ("threshold_ms = 1, upper_threshold_ms = 2", TAKEN),
        ("threshold_ms = 500, upper_threshold_ms = 0", TAKEN),
        ("threshold_ms = 0, upper_threshold_ms = 1", TAKEN),
        ("threshold = 1", UNKNOWN_KEY),
    ],
    "status_code": [
        ('status_codes = ["OK", "ERROR", "UNSET"]', TAKEN),
        ("status_codes = []", NO_VALUES),
        ('status_codes = "OK"', WRONG_TYPE),
        ("status_codes = [2]", WRONG_TYPE),
        ('status_codes = ["Ok"]', OUT_OF_RANGE),
        ("", MISSING_KEY),
    ],
    "string_attribute": [
        ('key = "k", values = ["v"]', TAKEN),
        ('key = "k", values = ["v"], invert_match = true', TAKEN),
        ('key = "k", values = []', NO_VALUES),
        ('key = "k", values = [1]', WRONG_TYPE),
        ('key = 1, values = ["v"]', WRONG_TYPE),
        ('values = ["v"]', MISSING_KEY),
        ('key = "k"', MISSING_KEY),
        ('key = "k", values = ["v"], invert_match = 1', WRONG_TYPE),
        ('key = "k", values = ["v"], enabled_regex_matching = true', TAKEN),
        ('key = "k", values = ["^a{2,3}$", "b|c"], enabled_regex_matching = true, cache_max_size = 1000', TAKEN),
        ('key = "k", values = ["("], enabled_regex_matching = false, cache_max_size = 0', TAKEN),
        ('key = "k", values = ["("]', TAKEN),
        ('key = "k", values = ["a", "("], enabled_regex_matching = true', NOT_AN_EXPRESSION),
        ('key = "k", values = ["(?=a)"], enabled_regex_matching = true', NOT_AN_EXPRESSION),
        ('key = "k", values = ["((a{999}){999}){9}"], enabled_regex_matching = true', EXPRESSION_TOO_BIG),
        ('key = "k", values = ["((a{999}){999}){9}", "("], enabled_regex_matching = true', NOT_AN_EXPRESSION),
        ('key = "k", values = [], enabled_regex_matching = true', NO_VALUES),
        ('key = "k", values = ["("], enabled_regex_matching = 1', WRONG_TYPE),
        ('key = "k", values = ["v"], cache_max_size = -1', OUT_OF_RANGE),
        ('key = "k", values = ["v"], cache_max_size = true', WRONG_TYPE),
    ],
    "numeric_attribute": [
        ('key = "k"', TAKEN),
        (f'key = "k", min_value = {-WHOLE_TOP - 1}, max_value = {WHOLE_TOP}', TAKEN),
        ('key = "k", min_value = 2, max_value = 1', CROSSED_BOUNDS),
        ('key = "k", min_value = 1, max_value = 1, invert_match = false', TAKEN),
        ('key = "k", min_value = -1, max_value = -1', TAKEN),
        ('key = "k", min_value = 0.5', WRONG_TYPE),
        ('key = "k", max_value = "1"', WRONG_TYPE),
        ("min_value = 1", MISSING_KEY),
    ],
    "boolean_attribute": [
        ('key = "k", value = true', TAKEN),
        ('key = "k", value = false, invert_match = true', TAKEN),
        ('key = "k", value = 1', WRONG_TYPE),
        ('key = "k"', MISSING_KEY),
        ("value = true", MISSING_KEY),
    ],
    "span_count": [
        ("min_spans = 0", TAKEN),
        ("min_spans = 3, max_spans = 3", TAKEN),
        ("min_spans = 3, max_spans = 2", CROSSED_BOUNDS),
        ("min_spans = 3, max_spans = 0", TAKEN),
        ("min_spans = -1", OUT_OF_RANGE),
        ("max_spans = 2", MISSING_KEY),
        ("min_spans = 1, max_spans = []", WRONG_TYPE),
    ],
    "rate_limiting": [
        ("spans_per_second = 0", TAKEN),
        (f"spans_per_second = {WHOLE_TOP}", TAKEN),
        ("spans_per_second = -1", OUT_OF_RANGE),
        ("", MISSING_KEY),
        ("spans_per_second = 1, burst = 2", UNKNOWN_KEY),
    ],
    "bytes_limiting": [
        ("bytes_per_second = 0", TAKEN),
        (f"bytes_per_second = {WHOLE_TOP}", TAKEN),
        (f"bytes_per_second = 1, burst_capacity = {WHOLE_TOP}", TAKEN),
        ("bytes_per_second = 1, burst_capacity = 0", TAKEN),
        ("bytes_per_second = -1", OUT_OF_RANGE),
        ("bytes_per_second = 1, burst_capacity = -1", OUT_OF_RANGE),
        ("bytes_per_second = 1, burst_capacity = 1.5", WRONG_TYPE),
        ("burst_capacity = 1", MISSING_KEY),
        ("bytes_per_second = 1, spans_per_second = 2", UNKNOWN_KEY),
    ],
    "probabilistic": [
        *((f"sampling_percentage = {value}", TAKEN) for value in ("0", "100", "12.5", "0.0001", "99.9999", "100.0", "-0.0", "1e1", "33.33330")),
        *((f"sampling_percentage = {value}", OUT_OF_RANGE) for value in ("-1", "101", "12.34567", "0.00005", "100.0001", "-0.0001", "1e300", "nan", "inf", "-inf")),
        *((f"sampling_percentage = {value}", WRONG_TYPE) for value in ('"12.5"', "true", "[1]")),
        ("", MISSING_KEY),
        ('hash_salt = "own"', MISSING_KEY),
        ('hash_salt = "own", sampling_percentage = 10', TAKEN),
        ('hash_salt = "", sampling_percentage = 10', TAKEN),
        ("hash_salt = 1, sampling_percentage = 10", WRONG_TYPE),
        ("sampling_percentage = 10, mode = 1", UNKNOWN_KEY),
    ],
    "ottl_condition": [
        ("", NO_VALUES),
        ("span = []", NO_VALUES),
        ("span = [], spanevent = []", NO_VALUES),
        ("span = ['kind == 2']", TAKEN),
        ("spanevent = ['name == \"a\"']", TAKEN),
        ("error_mode = 'propagate', span = ['kind == 2', 'true'], spanevent = ['span.kind == 2']", TAKEN),
        ("error_mode = 'Ignore', span = ['true']", OUT_OF_RANGE),
        ("error_mode = 1, span = ['true']", WRONG_TYPE),
        ("span = 'true'", WRONG_TYPE),
        ("span = [1]", WRONG_TYPE),
        ("span = ['kind']", NOT_AN_EXPRESSION),
        ("span = ['kind == 2', '']", NOT_AN_EXPRESSION),
        ("spanevent = ['kind == 2']", NOT_AN_EXPRESSION),
        ("span = ['IsMatch(name, \"(\")']", NOT_AN_EXPRESSION),
        ("span = ['IsMatch(name, \"^a\")']", TAKEN),
        ("span = ['true'], conditions = ['true']", UNKNOWN_KEY),
    ],
    "trace_state": [
        ('key = "k", values = ["v"]', TAKEN),
        ('key = "", values = ["", "v"]', TAKEN),
        ('key = "k", values = []', NO_VALUES),
        ('key = "k", values = "v"', WRONG_TYPE),
        ('key = "k", values = [1]', WRONG_TYPE),
        ('key = 1, values = ["v"]', WRONG_TYPE),
        ('key = "k"', MISSING_KEY),
        ('values = ["v"]', MISSING_KEY),
        ('key = "k", values = ["v"], invert_match = true', UNKNOWN_KEY),
    ],
    "and": [
        ("and_sub_policy = []", EMPTY_LIST),
        ("", MISSING_KEY),
        ("and_sub_policy = {}", WRONG_TYPE),
        ("and_sub_policy = [1]", WRONG_TYPE),
        ('and_sub_policy = [{ name = "b", type = "always_sample" }]', TAKEN),
        (f"and_sub_policy = [{ALL}, {ALL}]", SAME_NAME),
        ('and_sub_policy = [{ name = "b", type = "latency", latency = { threshold = 1 } }]', UNKNOWN_KEY),
        ('and_sub_policy = [{ name = "b" }]', MISSING_KEY),
        ('and_sub_policy = [{ type = "nothing", nothing = 1 }]', MISSING_KEY),
        ('and_sub_policy = [{ name = "b", type = "nothing", nothing = 1 }]', OUT_OF_RANGE),
        ("sub_policies = []", UNKNOWN_KEY),
    ],
    "not": [
        (f"not_sub_policy = {ALL}", TAKEN),
        ("", MISSING_KEY),
        ("not_sub_policy = {}", MISSING_KEY),
        ("not_sub_policy = []", WRONG_TYPE),
        (f"not_sub_policy = [{ALL}]", WRONG_TYPE),
        ('not_sub_policy = "all"', WRONG_TYPE),
        ('not_sub_policy = { name = "b", type = "latency", latency = { threshold = 1 } }', UNKNOWN_KEY),
        ('not_sub_policy = { name = "b", type = "span_count", span_count = { min_spans = 2, max_spans = 1 } }', CROSSED_BOUNDS),
        ('not_sub_policy = { name = "b", type = "nothing" }', OUT_OF_RANGE),
        ("and_sub_policy = []", UNKNOWN_KEY),
    ],
    "drop": [
        ("drop_sub_policy = []", EMPTY_LIST),
        ("", MISSING_KEY),
        ("drop_sub_policy = {}", WRONG_TYPE),
        (f"drop_sub_policy = {ALL}", WRONG_TYPE),
        ("drop_sub_policy = [1]", WRONG_TYPE),
        (f"drop_sub_policy = [{ALL}]", TAKEN),
        (f"drop_sub_policy = [{ALL}, {ALL}]", SAME_NAME),
        ('drop_sub_policy = [{ name = "b", type = "not", not = { not_sub_policy = 1 } }]', WRONG_TYPE),
        ("not_sub_policy = []", UNKNOWN_KEY),
    ],
    "composite": [
        (f"max_total_spans_per_second = 0, composite_sub_policy = [{ALL}]", TAKEN),
        (f"max_total_spans_per_second = {WHOLE_TOP}, composite_sub_policy = [{ALL}]", TAKEN),
        (f"max_total_spans_per_second = -1, composite_sub_policy = [{ALL}]", OUT_OF_RANGE),
        (f'max_total_spans_per_second = "1", composite_sub_policy = [{ALL}]', WRONG_TYPE),
        (f"composite_sub_policy = [{ALL}]", MISSING_KEY),
        ("max_total_spans_per_second = 1", MISSING_KEY),
        *((f"max_total_spans_per_second = 1, composite_sub_policy = {parts}", fault) for parts, fault in (
            ("[]", EMPTY_LIST), ("{}", WRONG_TYPE), ("[1]", WRONG_TYPE), (ALL, WRONG_TYPE), (f"[{ALL}, {ALL}]", SAME_NAME), ('[{ name = "", type = "always_sample" }]', TAKEN),
            ('[{ name = "b", type = "latency", latency = { threshold = 1 } }]', UNKNOWN_KEY))),
        *((f"max_total_spans_per_second = 1, composite_sub_policy = [{ALL}], {more}", fault) for more, fault in (
            ('policy_order = ["all"]', TAKEN), ('policy_order = ["other"]', OUT_OF_RANGE), ("policy_order = []", OUT_OF_RANGE), ('policy_order = ["all", "all"]', OUT_OF_RANGE),
            ("policy_order = [1]", WRONG_TYPE), ('policy_order = "all"', WRONG_TYPE), ("rate_allocation = []", TAKEN), ("rate_allocation = {}", WRONG_TYPE), ("rate_allocation = [1]", WRONG_TYPE),
            ("and_sub_policy = []", UNKNOWN_KEY), ("max_total = 1", UNKNOWN_KEY))),
        *((f"max_total_spans_per_second = 1, composite_sub_policy = [{ALL}], rate_allocation = [{{ {share} }}]", fault) for share, fault in (
            ('policy = "all", percent = 1', TAKEN), ('policy = "all", percent = 100', TAKEN), ('policy = "other", percent = 1', TAKEN), ('policy = "all", percent = 0', OUT_OF_RANGE),
            ('policy = "all", percent = 101', OUT_OF_RANGE), ('policy = "all", percent = 1.0', WRONG_TYPE), ('policy = "all"', MISSING_KEY), ("percent = 1", MISSING_KEY),
            ("policy = 1, percent = 1", WRONG_TYPE), ('policy = "all", percent = 1, share = 1', UNKNOWN_KEY))),
        *((f'max_total_spans_per_second = 1, policy_order = {order}, composite_sub_policy = [{{ name = "b", type = "always_sample" }}, {{ name = "a", type = "always_sample" }}]', fault) for order, fault in (
            ('["b", "a"]', TAKEN), ('["a", "b"]', TAKEN), ('["a", "a"]', OUT_OF_RANGE), ('["b", "a", "b"]', OUT_OF_RANGE), ('["a"]', OUT_OF_RANGE), ('["a", "c"]', OUT_OF_RANGE), ('["a", "b", "c"]', OUT_OF_RANGE),
            ("[]", OUT_OF_RANGE))),
        # Where two parts have one name, an order that is theirs is no fault of its own.
        (f'max_total_spans_per_second = 1, policy_order = ["all", "all"], composite_sub_policy = [{ALL}, {ALL}]', SAME_NAME),
    ],
}


def write(folder, name, text, fault):
    """A configuration, and the number of its fault, if it has one."""
    print(name)
    with open(f"{folder}/{name}.toml", "w") as file:
        file.write(text)
    open(f"{folder}/{name}.script", "w").close()
    with open(f"{folder}/{name}.expected", "w") as file:
        file.write(f"tsc: configuration refused: {fault}\n" if fault else REPORT)
    if fault:
        with open(f"{folder}/{name}.status", "w") as file:
            file.write("3\n")


def numbered(folder, what, rows):
    """Configurations by their numbers."""
    for number, (text, fault) in enumerate(rows, 1):
        write(folder, f"{what} {number}", text, fault)


def at_the_bounds():
    """Lines with each key of whole numbers at its bounds and beyond, of another type, and twice."""
    for key, (_, least, greatest) in top_numbers().items():
        yield from ((f"{key} = {value}", TAKEN) for value in (least, greatest))
        yield from ((f"{key} = {value}", OUT_OF_RANGE) for value in dict.fromkeys((least - 1, greatest + 1, -1)))
        yield from ((f"{key} = {value}", WRONG_TYPE) for value in ("1.0", '"1"'))
        yield f"{key} = 1\n{key} = 1", NOT_TOML


# Of each kind of value one that is taken, and such as aren't.
KINDS = {
    "Integer": ("0", [("1.0", WRONG_TYPE), ('"1"', WRONG_TYPE), ("[1]", WRONG_TYPE), ("true", WRONG_TYPE)]),
    "Whole": ("1", [("1.0", WRONG_TYPE), ('"1"', WRONG_TYPE), ("[1]", WRONG_TYPE), ("true", WRONG_TYPE)]),
    "Truth": ("true", [("1", WRONG_TYPE), ('"true"', WRONG_TYPE), ("[true]", WRONG_TYPE)]),
    "Text": ('"a"', [("1", WRONG_TYPE), ('["a"]', WRONG_TYPE), ("true", WRONG_TYPE)]),
    "Percentage": ("50", [("101", OUT_OF_RANGE), ("-1", OUT_OF_RANGE), ("0.00001", OUT_OF_RANGE), ('"1"', WRONG_TYPE), ("[1]", WRONG_TYPE)]),
    "ErrorMode": ('"silent"', [("1", WRONG_TYPE), ('["silent"]', WRONG_TYPE), ('"Silent"', OUT_OF_RANGE), ('""', OUT_OF_RANGE)]),
    "Array": ('["OK"]', [("1", WRONG_TYPE), ('"OK"', WRONG_TYPE), ("[1]", WRONG_TYPE), ("{}", WRONG_TYPE)]),
}  # fmt: skip


def by_table(settings):
    """Settings of a type by its table: the required ones, all, each required one left out, each of another type or out of range, and one more."""
    values = {it.key: '["true"]' if it.key in ("span", "spanevent") else KINDS[it.kind][0] for it in settings}
    required = [it.key for it in settings if it.is_required]
    needed = required or [key for key in values if key == "span"]  # (one condition is wanted, on spans or on events)

    def written(keys, /, **other):
        return ", ".join(f"{key} = {value}" for key, value in ({key: values[key] for key in keys} | other).items())

    yield written(needed), TAKEN
    yield written(values), TAKEN
    yield from ((written(other for other in required if other != key), MISSING_KEY) for key in required)
    for it in settings:
        yield from ((written(needed, **{it.key: value}), fault) for value, fault in KINDS[it.kind][1])
        if it.kind == "Integer":
            yield from ((written(required, **{it.key: value}), TAKEN) for value in (it.least, it.greatest))
            yield written(required, **{it.key: it.least - 1}), OUT_OF_RANGE
            yield written(required, **{it.key: it.greatest + 1}), NOT_TOML if it.greatest == WHOLE_TOP else OUT_OF_RANGE
        yield written(needed, **{f"{it.key}_": 1}), UNKNOWN_KEY


def of_two_faults():
    """Each two of the faults together: the one of lower number is told."""
    for place, (line, policy, fault) in enumerate(FAULTY):
        yield f"{line}policies = [{policy}{ALL}]", fault
        for other_line, other_policy, _ in FAULTY[place + 1 :]:
            yield f"{line}{other_line}policies = [{policy}{other_policy}{ALL}]", fault


def nested(levels, inner):
    """A policy within so many `and`s."""
    for _ in range(levels):
        inner = f'{{ name = "a", type = "and", and = {{ and_sub_policy = [{inner}] }} }}'
    return inner


def status_policies(count, named, codes):
    """Policies on so many status codes; those after the first `named` have one name."""
    settings = "status_codes = [" + ", ".join(['"ERROR"'] * codes) + "]"
    return ", ".join(f'{{ name = "{min(n, named)}", type = "status_code", status_code = {{ {settings} }} }}' for n in range(count))


def composite(parts):
    """A composite of these parts; each counts as three policies, and as two levels."""
    return f'{{ name = "c", type = "composite", composite = {{ max_total_spans_per_second = 1, composite_sub_policy = [{parts}] }} }}'


def lists():
    """Lists of policies at their limits, at the top and within `and`s, and faults deep inside."""
    rows = [(0, 0, 1, EMPTY_LIST), (1, 1, 1, TAKEN), (64, 64, 2, TAKEN), (65, 64, 1, TOO_MANY), (65, 0, 0, TOO_MANY), (2, 0, 0, SAME_NAME), (2, 2, 0, NO_VALUES)]
    yield from ((status_policies(count, named, codes), fault) for count, named, codes, fault in rows)
    rows = [(63, 63, 1, TAKEN), (64, 64, 1, TOO_MANY), (2, 0, 0, SAME_NAME)]
    yield from ((nested(1, status_policies(count, named, codes)), fault) for count, named, codes, fault in rows)
    yield from ((nested(levels, ALL), fault) for levels, fault in ((0, TAKEN), (7, TAKEN), (8, TOO_DEEP)))
    yield from ((nested(levels + 1, ""), EMPTY_LIST) for levels in (0, 1, 8, 20))
    yield nested(3, status_policies(1, 1, 0)), NO_VALUES
    yield nested(6, f'{{ name = "n", type = "not", not = {{ not_sub_policy = {ALL} }} }}'), TAKEN
    yield nested(7, f'{{ name = "n", type = "not", not = {{ not_sub_policy = {ALL} }} }}'), TOO_DEEP
    yield from ((composite(status_policies(count, count, 1)), fault) for count, fault in ((21, TAKEN), (22, TOO_MANY)))
    yield from ((nested(levels, composite(ALL)), fault) for levels, fault in ((5, TAKEN), (6, TOO_DEEP)))
    yield nested(3, '{ name = "a", type = "span_count", span_count = { min_spans = 2, max_spans = 1 } }'), CROSSED_BOUNDS


def first_matches():
    """Lists of policies of which the first match decides: it counts as one more policy and one more level."""
    rows = [(0, 0, 1, EMPTY_LIST), (63, 63, 1, TAKEN), (64, 64, 1, TOO_MANY), (2, 0, 1, SAME_NAME), (1, 1, 0, NO_VALUES)]
    yield from ((status_policies(count, named, codes), fault) for count, named, codes, fault in rows)
    yield from ((nested(levels, ALL), fault) for levels, fault in ((6, TAKEN), (7, TOO_DEEP)))


def percentages():
    """Every 997th number of ten-thousandths of a percent, 64 in a list of policies; each is taken."""
    texts = [f"{count // 10**4}.{count % 10**4:04}" for count in range(0, 10**6 + 1, 997)]
    for start in range(0, len(texts), 64):
        some = enumerate(texts[start : start + 64])
        yield ", ".join(f'{{ name = "{n}", type = "probabilistic", probabilistic = {{ sampling_percentage = {text} }} }}' for n, text in some), TAKEN


def main(folder):
    """Writes all."""
    numbered(folder, "configuration", FAULTS)
    numbered(folder, "line of a configuration", [(f"{line}\npolicies = [{ALL}]", fault) for line, fault in [*at_the_bounds(), *LINES]])
    numbered(folder, "two faults", of_two_faults())
    for kind, rows in SETTINGS.items():
        texts = [(f'policies = [{{ name = "a", type = "{kind}", {kind} = {{ {settings} }} }}]', fault) for settings, fault in rows]
        numbered(folder, f"settings of {kind}", texts)
    for kind, settings in policy_settings().items():
        if settings and kind != "composite":
            texts = [(f'policies = [{{ name = "a", type = "{kind}", {kind} = {{ {inner} }} }}]', fault) for inner, fault in by_table(settings)]
            numbered(folder, f"table of {kind}", texts)
    numbered(folder, "first match", [(f"sample_on_first_match = true\npolicies = [{inner}]", fault) for inner, fault in first_matches()])
    numbered(folder, "list of policies", [(f"policies = [{inner}]", fault) for inner, fault in [*lists(), *percentages()]])


if __name__ == "__main__":
    main(sys.argv[1])
