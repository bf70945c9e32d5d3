"""Prometheus over a collector's numbers, its alerts, the dashboard for Grafana, and questions to its lines by jq."""

import collections
import json
import os
import re
import subprocess
import time
import urllib.parse
import urllib.request

from running import RECIPES, SETTINGS, Failure, Neighbour, body_of, free_port, want
from collector import post



def promtool(here, *words):
    """Runs promtool in the folder of the recipes, and gives what it said."""
    environment = {**os.environ, "LD_LIBRARY_PATH": here.libraries}
    told = subprocess.run([f"{here.packages}/usr/bin/promtool", *words], env=environment, cwd=RECIPES, capture_output=True, text=True)
    if told.returncode:
        raise Failure(f"promtool {words[0]} {words[1]}: {told.stdout}{told.stderr}"[-400:])
    return told.stdout + told.stderr


def alerts_are_sound(here):
    """promtool has nothing to say of the rules and the configuration, and each alert's test passes."""
    rules = promtool(here, "check", "rules", "alerts.yml")
    alerts = set(re.findall(r"alert: (\w+)", (RECIPES / "alerts.yml").read_text("utf-8")))
    want("rules that promtool found", re.search(r"(\d+) rules found", rules)[1], str(len(alerts)))
    tested = (RECIPES / "alerts_test.yml").read_text("utf-8")
    want("alerts with a test that they are told", set(re.findall(r"alertname: (\w+)\n", tested)), alerts)
    promtool(here, "check", "config", "prometheus.yml")
    promtool(here, "test", "rules", "alerts_test.yml")


def asked_of(prometheus, expression):
    """What Prometheus answers to a query."""
    with urllib.request.urlopen(f"http://127.0.0.1:{prometheus.port}/api/v1/query?" + urllib.parse.urlencode({"query": expression}), timeout=10) as answer:
        return json.load(answer)["data"]["result"]


def queries_of(dashboard):
    """Each query of a dashboard, as Grafana asks it for all instances."""
    texts = [it["expr"] for panel in dashboard["panels"] for it in panel["targets"]]
    return [it.replace("$__rate_interval", "4s").replace("$instance", ".*").replace("[5m]", "[4s]") for it in texts]


def prometheus_and_the_dashboard(here):
    """Prometheus reads a running collector by the recipe; each query of the dashboard has an answer, and its numbers are the report's."""
    second = free_port()
    collector = here.start(f'admin = "127.0.0.1:{second}"\n' + SETTINGS)
    text = (RECIPES / "prometheus.yml").read_text("utf-8")
    want("the target of the recipe", text.count("127.0.0.1:4319"), 1)
    recipe = here.folder / "prometheus.yml"
    recipe.write_text(text.replace("127.0.0.1:4319", f"127.0.0.1:{second}").replace("15s", "1s").replace("  - alerts.yml", f"  - {RECIPES}/alerts.yml"), "utf-8")
    port = free_port()
    words = [f"{here.packages}/usr/bin/prometheus", f"--config.file={recipe}", f"--storage.tsdb.path={here.folder}/data", f"--web.listen-address=127.0.0.1:{port}"]
    prometheus = Neighbour(here, words, port)
    for first in range(0, 10000, 100):
        spans = [{"traceId": f"{at:032x}", "spanId": f"{at:016x}"} for at in range(first + 1, first + 101)]
        want("the answer", collector.ask(post(body_of(spans)))[0], 200)
    for _ in range(60):
        read = [it["value"][1] for it in asked_of(prometheus, "tsc_spans_received_total")]
        if read == ["10000"]:
            break
        time.sleep(0.5)
    want("what Prometheus has", read, ["10000"])
    time.sleep(4)  # (so that rates have two readings)
    dashboard = json.loads((RECIPES / "grafana.json").read_text("utf-8"))
    for expression in queries_of(dashboard):
        want(f"an answer to {expression}", bool(asked_of(prometheus, expression)), True)
    with urllib.request.urlopen(f"http://127.0.0.1:{second}/metrics", timeout=10) as answer:
        told = answer.read()
    environment = {**os.environ, "LD_LIBRARY_PATH": here.libraries}
    subprocess.run([f"{here.packages}/usr/bin/promtool", "check", "metrics"], input=told, env=environment, check=True, capture_output=True)
    families = set(re.findall(r"^# TYPE (\w+) ", told.decode(), re.M))
    asked = set(re.findall(r"\btsc_\w+", json.dumps(dashboard))) | set(re.findall(r"\btsc_\w+", (RECIPES / "alerts.yml").read_text("utf-8")))
    want("names in the recipes that the collector doesn't have", asked - families, set())
    prometheus.end()
    subprocess.run(["curl", "-sf", "-X", "POST", "-o", os.devnull, f"http://127.0.0.1:{second}/close"], check=True)
    want("the report", collector.end()[1][:2], [10000, 10000])


def questions_by_jq(here):
    """Each command of jq.txt runs over the lines of 10,000 spans, and answers what a plain program counts."""
    collector = here.start(SETTINGS)
    counts = collections.Counter()
    for first in range(0, 10000, 100):
        spans = []
        for at in range(first + 1, first + 101):
            name, code = f"GET /{at % 7}", 2 if at % 20 == 0 else 1
            counts[name] += 1
            counts["errors"] += code == 2
            spans.append({
                "traceId": f"{at // 2 + 1:032x}", "spanId": f"{at:016x}", "name": name, "status": {"code": code}, "startTimeUnixNano": str(10**18),
                "endTimeUnixNano": str(10**18 + at * 10**6), "attributes": [{"key": "http.route", "value": {"stringValue": f"/{at % 3}"}}],
            })
        body = json.dumps({"resourceSpans": [{"resource": {"attributes": [{"key": "service.name", "value": {"stringValue": "shop"}}]}, "scopeSpans": [{"spans": spans}]}]})
        want("the answer", collector.ask(post(body.encode()))[0], 200)
    collector.close()
    commands = [it for it in (RECIPES / "jq.txt").read_text("utf-8").split("\n") if it and not it.startswith("#")]
    want("commands", len(commands), 6)
    answers = []
    for it in commands:
        asked = it.replace("traces.jsonl", collector.printed).replace("5b8efff798038103d269b633813fc60c", f"{2:032x}")
        told = subprocess.run(["bash", "-c", asked], capture_output=True, text=True)
        want(f"what is wrong with {it}", (told.returncode, told.stderr), (0, ""))
        answers.append(told.stdout.split("\n")[:-1])
    names, traces, of_one, errors, slowest, values = answers
    want("names", sorted((int(it.split(None, 1)[0]), it.split(None, 1)[1]) for it in names), sorted((n, it) for it, n in counts.items() if it != "errors"))
    want("traces", len(traces), 5001)
    want("the spans of one trace", [json.loads(it)["spanId"] for it in of_one], [f"{at:016x}" for at in (2, 3)])
    want("errors", [it.split() for it in errors], [[str(counts["errors"]), "shop"]])
    # jq's numbers are floats, so nanoseconds since 1970 are exact to a quarter of a microsecond.
    want("the slowest", [round(float(it.split("\t")[0]), 2) for it in slowest], [float(10000 - at) for at in range(10)])
    want("values", sorted(it.split() for it in values), [["3333", "/0"], ["3333", "/2"], ["3334", "/1"]])


def another_configuration_over_kept_lines(here):
    """Each command of docs/operating/RUN.md that replays kept lines by another configuration keeps the traces with an error, of 2,000 that were kept."""
    collector, failed = here.start(SETTINGS), 0
    for first in range(0, 2000, 100):
        spans = []
        for at in range(first + 1, first + 101):
            times = {"startTimeUnixNano": str(1764000000000000000 + at * 10**8), "endTimeUnixNano": str(1764000000000000000 + at * 10**8 + 1)}
            spans += [{"traceId": f"{at:032x}", "spanId": f"{2 * at + it:016x}", **times, "status": {"code": 2 if at % 7 == 0 and it else 1}} for it in (0, 1)]
            failed += 2 * (at % 7 == 0)
        want("the answer", collector.ask(post(body_of(spans)))[0], 200)
    collector.close()
    page = (RECIPES.parent.parent / "docs" / "operating" / "RUN.md").read_text("utf-8")
    commands = re.findall(r"(?m)^    (awk .* \| tsc replay new\.toml) > would\.txt$", page)
    want("commands", len(commands), 2)
    (here.folder / "new.toml").write_text('policies = [{ name = "errors", type = "status_code", status_code = { status_codes = ["ERROR"] } }]\n', "utf-8")
    for it in commands:
        asked = it.replace("kept.jsonl", collector.printed).replace("tsc replay", f"{here.program} replay")
        told = subprocess.run(["bash", "-c", asked], cwd=here.folder, capture_output=True, text=True, check=True).stdout.splitlines()
        want("the report", told[-9:], ["received 4000", f"handed {failed}", *(f"dropped {reason} {4000 - failed if reason == 5 else 0}" for reason in range(1, 8))])


CHECKS = [alerts_are_sound, prometheus_and_the_dashboard, questions_by_jq, another_configuration_over_kept_lines]
