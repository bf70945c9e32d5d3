"""Configurations as vendors' pages have them, as they are known: the processor's settings in YAML, and the same transcribed by hand."""

VENDORS = [
    ("errors, slow ones and a tenth", """    decision_wait: 10s
    num_traces: 100
    expected_new_traces_per_sec: 10
    policies:
      [
          { name: errors-policy, type: status_code, status_code: {status_codes: [ERROR]} },
          { name: latency-policy, type: latency, latency: {threshold_ms: 5000} },
          { name: randomized-policy, type: probabilistic, probabilistic: {sampling_percentage: 10} },
      ]
""", """decision_wait_ms = 10000
num_traces = 100
policies = [
    { name = "errors-policy", type = "status_code", status_code = { status_codes = ["ERROR"] } },
    { name = "latency-policy", type = "latency", latency = { threshold_ms = 5000 } },
    { name = "randomized-policy", type = "probabilistic", probabilistic = { sampling_percentage = 10 } },
]
"""),
    ("no health checks, and a share of a service", r"""    decision_wait: 10s
    num_traces: 50000
    policies:
      - name: drop-health-checks
        type: string_attribute
        string_attribute:
          key: http.route
          values:
            - \/health.*
            - /metrics
            - '^/ready$$'
          enabled_regex_matching: true
          invert_match: true
      - name: a third of checkout
        type: and
        and:
          and_sub_policy:
            - name: service
              type: string_attribute
              string_attribute:
                key: service.name
                values:
                  - checkout
            - name: share
              type: probabilistic
              probabilistic:
                sampling_percentage: 35
""", r"""decision_wait_ms = 10000
num_traces = 50000
policies = [
    { name = "a", type = "string_attribute", string_attribute = { key = "http.route", values = ['\/health.*', "/metrics", "^/ready$"], enabled_regex_matching = true, invert_match = true } },
    { name = "b", type = "and", and = { and_sub_policy = [
        { name = "c", type = "string_attribute", string_attribute = { key = "service.name", values = ["checkout"] } },
        { name = "d", type = "probabilistic", probabilistic = { sampling_percentage = 35 } },
    ] } },
]
"""),
    ("shares of a total", """    decision_wait: 5s
    policies:
      - name: composite-policy
        type: composite
        composite:
          max_total_spans_per_second: 40
          policy_order: [errors, slow, rest]
          composite_sub_policy:
            - name: errors
              type: status_code
              status_code: { status_codes: [ERROR] }
            - name: slow
              type: latency
              latency: { threshold_ms: 1000 }
            - name: rest
              type: always_sample
          rate_allocation:
            - policy: errors
              percent: 50
            - policy: slow
              percent: 20
""", """decision_wait_ms = 5000
policies = [{ name = "composite-policy", type = "composite", composite = { max_total_spans_per_second = 40, composite_sub_policy = [
    { name = "errors", type = "status_code", status_code = { status_codes = ["ERROR"] } },
    { name = "slow", type = "latency", latency = { threshold_ms = 1000 } },
    { name = "rest", type = "always_sample" },
], rate_allocation = [{ policy = "errors", percent = 50 }, { policy = "slow", percent = 20 }] } }]
"""),
    ("answers of servers that failed, a window of latency, and large traces", """    decision_wait: 30s
    policies:
      - name: http-5xx
        type: numeric_attribute
        numeric_attribute: { key: http.status_code, min_value: 500, max_value: 599 }
      - name: window
        type: latency
        latency: { threshold_ms: 300, upper_threshold_ms: 5000 }
      - name: large
        type: span_count
        span_count: { min_spans: 4 }
""", """decision_wait_ms = 30000
policies = [
    { name = "http-5xx", type = "numeric_attribute", numeric_attribute = { key = "http.status_code", min_value = 500, max_value = 599 } },
    { name = "window", type = "latency", latency = { threshold_ms = 300, upper_threshold_ms = 5000 } },
    { name = "large", type = "span_count", span_count = { min_spans = 4 } },
]
"""),
    ("a drop, and a salted share of what is no probe", r"""    decision_wait: 10s
    decision_cache:
      sampled_cache_size: 1000
      non_sampled_cache_size: 1000
    policies:
      - name: drop-batch
        type: drop
        drop:
          drop_sub_policy:
            - { name: job, type: string_attribute, string_attribute: { key: service.name, values: [batch-job] } }
            - { name: fine, type: not, not: { not_sub_policy: { name: failed, type: status_code, status_code: { status_codes: [ERROR] } } } }
      - name: no-probes
        type: and
        and:
          and_sub_policy:
            - { name: routes, type: string_attribute, string_attribute: { key: http.route, values: ['^/(health|ready)\w*'], enabled_regex_matching: true, invert_match: true } }
            - { name: share, type: probabilistic, probabilistic: { hash_salt: own-salt, sampling_percentage: 25.5 } }
      - { name: errors, type: status_code, status_code: { status_codes: [ERROR] } }
""", r"""decision_wait_ms = 10000
decision_cache = { sampled_cache_size = 1000, non_sampled_cache_size = 1000 }
policies = [
    { name = "drop-batch", type = "drop", drop = { drop_sub_policy = [
        { name = "job", type = "string_attribute", string_attribute = { key = "service.name", values = ["batch-job"] } },
        { name = "fine", type = "not", not = { not_sub_policy = { name = "failed", type = "status_code", status_code = { status_codes = ["ERROR"] } } } },
    ] } },
    { name = "no-probes", type = "and", and = { and_sub_policy = [
        { name = "routes", type = "string_attribute", string_attribute = { key = "http.route", values = ['^/(health|ready)\w*'], enabled_regex_matching = true, invert_match = true } },
        { name = "share", type = "probabilistic", probabilistic = { hash_salt = "own-salt", sampling_percentage = 25.5 } },
    ] } },
    { name = "errors", type = "status_code", status_code = { status_codes = ["ERROR"] } },
]
"""),
    ("an inverted attribute alone", """    decision_wait: 10s
    policies:
      - name: not-internal
        type: string_attribute
        string_attribute: { key: http.route, values: [/health, /healthz, /metrics], invert_match: true }
""", """decision_wait_ms = 10000
policies = [{ name = "not-internal", type = "string_attribute", string_attribute = { key = "http.route", values = ["/health", "/healthz", "/metrics"], invert_match = true } }]
"""),
    ("the first match, a trace state and a not", """    decision_wait: 10s
    decision_wait_after_root_received: 500ms
    sample_on_first_match: true
    policies:
      - { name: gold, type: trace_state, trace_state: { key: tier, values: [gold, platinum] } }
      - name: quick
        type: not
        not:
          not_sub_policy: { name: slow, type: latency, latency: { threshold_ms: 100 } }
      - { name: some, type: rate_limiting, rate_limiting: { spans_per_second: 12 } }
""", """decision_wait_ms = 10000
root_wait_ms = 500
sample_on_first_match = true
policies = [
    { name = "gold", type = "trace_state", trace_state = { key = "tier", values = ["gold", "platinum"] } },
    { name = "quick", type = "not", not = { not_sub_policy = { name = "slow", type = "latency", latency = { threshold_ms = 100 } } } },
    { name = "some", type = "rate_limiting", rate_limiting = { spans_per_second = 12 } },
]
"""),
    ("a condition in OTTL, beside a tenth", """    decision_wait: 10s
    policies:
      - name: failed-posts
        type: ottl_condition
        ottl_condition:
          error_mode: ignore
          span:
            - attributes["http.status_code"] >= 500 and attributes["http.method"] == "POST"
      - { name: tenth, type: probabilistic, probabilistic: { sampling_percentage: 10 } }
""", """decision_wait_ms = 10000
policies = [
    { name = "failed-posts", type = "ottl_condition", ottl_condition = { span = ['attributes["http.status_code"] >= 500 and attributes["http.method"] == "POST"'] } },
    { name = "tenth", type = "probabilistic", probabilistic = { sampling_percentage = 10 } },
]
"""),
]
