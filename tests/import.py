#!/usr/bin/env python3
"""Tries packaging/import/tsc-import, which makes a configuration of a Collector's.

    tests/import.py PROGRAM [WORD]      (all checks, or those with WORD in their name)

Of each row of the table the output must be the text that stands there, written by hand from the tables of docs/FROM_TAIL_SAMPLING.md, and on standard error the same remarks.
Then configurations are written as YAML, as the processor has them: the example of its documentation, eight of vendors' pages, and each of
tests/transcribed.py. What is made of them must print, in a replay, what the transcribed configuration prints. It needs Debian's python3-yaml; the last
line is 'N passed, M failed'."""
import contextlib
import io
import json
import random
import re
import subprocess
import sys
import tempfile
import tomllib
from pathlib import Path

import yaml

sys.dont_write_bytecode = True
TOP = Path(__file__).resolve().parent.parent
sys.path[1:1] = [str(TOP / "packaging/import")]
import transcribed  # noqa: E402
from processor_policies import KINDS  # noqa: E402
from regular_expressions import expression  # noqa: E402
from import_rows import ADDRESSES, EXPRESSIONS, LEFT_OUT, NO_EXPRESSIONS, POLICIES, REFUSED, SETTINGS  # noqa: E402
from import_vendors import VENDORS  # noqa: E402
from tables import policy_settings, policy_types  # noqa: E402

IMPORTER = TOP / "packaging/import/tsc-import"
HEAD = '''# Made by tsc-import of the processor {} in c.yaml. A comment with a line's number tells what differs there or is left out;
# what differs in corners stands in docs/FROM_TAIL_SAMPLING.md of tsc.
'''
KEPT = 'accept_gzip = true\naccept_protobuf = true\ndouble_values = "keep"\n'
AROUND = '''receivers: { otlp: { protocols: { http: { endpoint: "127.0.0.1:4318" } } } }
service: { pipelines: { traces: { receivers: [otlp], processors: [tail_sampling], exporters: [] } } }
processors:
  tail_sampling:
'''
LISTENS = HEAD.format("tail_sampling") + 'listen = "127.0.0.1:4318"\n' + KEPT + "\n"
ALL = '\n[[policies]]\nname = "all"\ntype = "always_sample"\n'


class Failure(Exception):
    """A check that failed."""


def want(what, found, wanted):
    """Fails where two values differ."""
    if found != wanted:
        raise Failure(f"{what}: {found!r} and not {wanted!r}")


def run(folder, program, text, *more):
    """Imports a configuration: the status, the output, and what was said."""
    (folder / "c.yaml").write_text(text, "utf-8")
    done = subprocess.run([sys.executable, IMPORTER, "--program", program, *more, "c.yaml"], cwd=folder, capture_output=True, text=True)
    return done.returncode, done.stdout, done.stderr


def becomes(folder, program, text, toml, *more):
    """The output is this text, standard error has its remarks, the status is 1 just where something is left out; and `tsc validate` takes it."""
    status, output, said = run(folder, program, text, *more)
    want("the output", output, toml)
    remarks = [it.strip()[len("# line "):] for it in toml.splitlines() if it.strip().startswith("# line ")]
    by_line = lambda lines: sorted(lines, key=lambda it: (int(it.split(":")[0]), it))
    want("standard error", by_line(it.removeprefix("c.yaml:") for it in said.splitlines()), by_line(remarks))
    want("the status", status, int(any(": left out: " in it for it in remarks)))


def prints(folder, program, toml, script):
    """What a replay prints."""
    (folder / "replayed.toml").write_text(toml, "utf-8")
    done = subprocess.run([program, "replay", "replayed.toml"], cwd=folder, input=script, capture_output=True, text=True, timeout=120)
    want("the status of the replay", (done.returncode, done.stderr), (0, ""))
    return done.stdout


def processor(settings):
    """A Collector's configuration with such a processor, in which a dollar is written twice."""
    text = yaml.safe_dump({"tail_sampling": settings}, sort_keys=False).replace("$", "$$")
    return AROUND[: AROUND.index("  tail_sampling:")] + "".join(f"  {it}\n" for it in text.splitlines())


def as_documented(folder, program):
    """The example of the processor's documentation becomes what examples/neighbours/tail_sampling.toml has, beside a Collector."""
    text = (TOP / "tests/documented.yaml").read_text("utf-8")
    status, output, said = run(folder, program, text, "--beside")
    want("the status", status, 0)
    want("what is left out", [it for it in said.splitlines() if ": left out: " in it], [])
    want("the configuration", tomllib.loads(output), tomllib.loads((TOP / "examples/neighbours/tail_sampling.toml").read_text("utf-8")))


def traces(seed):
    """A script of 400 random traces with what the configurations of vendors' pages ask for."""
    chance, lines, moment = random.Random(seed), [], 0
    text, whole = (lambda key, value: {"key": key, "value": {"stringValue": value}}), (lambda key, value: {"key": key, "value": {"intValue": str(value)}})
    for trace in range(1, 401):
        moment += chance.randint(1, 200)
        resource = {"attributes": [text("service.name", chance.choice(["checkout", "frontend", "cart", "batch-job"])), text("deployment.environment", chance.choice(["production", "test"]))]}
        for number in range(1, chance.randint(1, 5) + 1):
            took = chance.choice([1, 40, 90, 300, 700, 1200, 5000, 6000, 12000])
            span = {
                "traceId": f"{chance.getrandbits(128) | 1:032x}" if number == 1 else span["traceId"], "spanId": f"{trace * 100 + number:016x}",
                "startTimeUnixNano": "1000000", "endTimeUnixNano": str(1000000 + took * 10**6), "status": {"code": chance.choice([0, 0, 0, 0, 1, 1, 2])},
                "attributes": [whole("http.status_code", chance.choice([200, 200, 200, 204, 404, 499, 500, 503, 599, 600])), text("http.method", chance.choice(["GET", "POST"]))],
            }
            if chance.random() < 0.7:
                span["attributes"].append(text("http.route", chance.choice(["/health", "/healthz", "/api/cart", "/metrics", "/api/pay", "/ready"])))
            if chance.random() < 0.2:
                span["traceState"] = chance.choice(["tier=gold", "tier=silver,other=1", "other=gold"])
            body = {"resourceSpans": [{"resource": resource, "scopeSpans": [{"spans": [span]}]}]}
            lines.append(f"recv 1 {moment} {json.dumps(body)}")
        if trace % 5 == 0:
            lines.append(f"tick {moment}")
    return "\n".join([*lines, "close", ""])


def as_transcribed_from_vendors(folder, program, text, toml):
    """A vendor's configuration keeps of 400 random traces what the transcribed one keeps."""
    status, output, _ = run(folder, program, AROUND + text)
    want("the status", status, 0)
    script = traces(1)
    printed, wanted = (prints(folder, program, it, script) for it in (output, KEPT + toml))
    want("what is printed is the same", printed == wanted, True)
    numbers = dict(it.rsplit(" ", 1) for it in wanted.splitlines()[-9:])
    want("it keeps some and drops some", int(numbers["handed"]) > 0 < int(numbers["dropped 5"]), True)


def as_in_transcribed(folder, program, name, settings):
    """A configuration of tests/transcribed.py prints what must come out there."""
    status, output, said = run(folder, program, processor(settings))
    want("the status", (status, [it for it in said.splitlines() if ": left out: " in it]), (0, []))
    want("what is printed", prints(folder, program, output, (folder / f"{name}.script").read_text("utf-8")), (folder / f"{name}.expected").read_text("utf-8"))


def of_transcribed(folder):
    """Of each row of tests/transcribed.py the name of its run, and the processor's settings."""
    with contextlib.redirect_stdout(io.StringIO()) as names:
        transcribed.main(str(folder))
    rows = [({}, *row) for row in transcribed.ROWS] + [({"sample_on_first_match": True}, *row) for row in transcribed.FIRST_ROWS]
    rows += [({"maximum_trace_size_bytes": maximum}, *row) for row in transcribed.SIZE_ROWS for maximum in row[1:2]]
    caches = {"sampled_cache_size": 100000, "non_sampled_cache_size": 100000}
    for name, (more, *row) in zip(names.getvalue().splitlines(), rows, strict=True):
        kinds = row[-2]
        policies = [tomllib.loads("policy = " + transcribed.policy(f"test-policy-{number}", *kind))["policy"] for number, kind in enumerate(kinds, 1)]
        yield name, {"decision_wait": "10s", "num_traces": 100, "decision_cache": caches, **more, "policies": policies}


def is_refused(folder, program, text, said, *more):
    """There is no output, and the status is 2."""
    want("status, output and what is said", run(folder, program, text, *more), (2, "", f"tsc-import: c.yaml: {said}\n"))


def refused_by_the_program(folder, program):
    """What `tsc validate` refuses is printed, and told."""
    status, output, said = run(folder, program, AROUND + "    policies: []\n")
    want("status and output", (status, output), (3, LISTENS + "# line 5: left out: there are no policies\n"))
    want("what is said", said.splitlines()[0], "c.yaml:5: left out: there are no policies")
    want("what is said of the result", "tsc-import: tsc validate: policies: missing (fault 3)" in said.splitlines(), True)


def not_checked(folder, program):
    """Where the program isn't tsc the result is printed without a check."""
    status, output, said = run(folder, "/bin/true", AROUND + "    policies: [{ name: all, type: always_sample }]\n")
    want("status, output and what is said", (status, output, said), (0, LISTENS + ALL[1:], "tsc-import: the result isn't checked, since tsc isn't found (--program)\n"))


def options_of_the_page(*_):
    """The page has each option that `--help` has."""
    told = subprocess.run([sys.executable, IMPORTER, "--help"], capture_output=True, text=True, check=True).stdout
    page = (TOP / "docs/FROM_TAIL_SAMPLING.md").read_text("utf-8")
    want("the options", sorted(re.findall(r"^\| `(--\w+)", page, re.M)), sorted(set(re.findall(r"^  (--\w+)", told, re.M))))


def each_type_and_setting(*_):
    """The types that are brought over are those of the definitions, and a row of the table has each of their settings."""
    want("the types", sorted(KINDS), sorted(policy_types()))
    settings = {(kind, it.key) for kind, found in policy_settings().items() for it in found}
    rows_of = {kind: "".join(toml for text, toml in POLICIES if f"type: {kind}" in text) for kind in policy_types()}
    want("settings in no row", sorted(it for it in settings if f"{it[1]} = " not in rows_of[it[0]]), [])


def expressions(*_):
    """Each expression becomes the one beside it."""
    for text, wanted in EXPRESSIONS:
        want(text, expression(text), wanted)
    for text in NO_EXPRESSIONS:
        try:
            raise Failure(f"{text} becomes {expression(text)}")
        except (ValueError, IndexError):
            pass


def rows(folder):
    """Each check: its name, the function, and what it takes."""
    for number, (text, toml) in enumerate(POLICIES, 1):
        yield f"policy {number}", becomes, (AROUND + f"    policies:\n    - {text}\n", LISTENS + toml)
    for text, why in LEFT_OUT:
        others = AROUND + f"    policies:\n    - {text}\n    - {{name: all, type: always_sample}}\n"
        yield f"left out: {why}", becomes, (others, LISTENS + f"# line 6: left out: {why}\n# {text}\n" + ALL)
    for number, (text, toml) in enumerate(SETTINGS, 1):
        lines = "".join(f"    {it}\n" for it in text.splitlines())
        yield f"setting {number}", becomes, (AROUND + lines + "    policies: [{ name: all, type: always_sample }]\n", LISTENS + toml + ALL)
    for name, text, toml, *more in ADDRESSES:
        yield name, becomes, (text, HEAD.format("tail_sampling" if "/shop" not in name else "tail_sampling/shop") + toml, *more)
    for text, said, *more in REFUSED:
        yield f"refused: {said}", is_refused, (text, said, *more)
    yield "what the program refuses", refused_by_the_program, ()
    yield "no program", not_checked, ()
    yield "expressions", expressions, ()
    yield "options of the page", options_of_the_page, ()
    yield "each type and setting", each_type_and_setting, ()
    yield "the documented example", as_documented, ()
    for name, text, toml in VENDORS:
        yield f"vendors: {name}", as_transcribed_from_vendors, (text, toml)
    for name, settings in of_transcribed(folder):
        yield name, as_in_transcribed, (name, settings)


def main():
    """Runs each check."""
    program, passed, failed = str(Path(sys.argv[1]).resolve()), 0, 0
    with tempfile.TemporaryDirectory() as folder:
        for name, check, given in rows(Path(folder)):
            if not all(word in name for word in sys.argv[2:]):
                continue
            try:
                check(Path(folder), program, *given)
                passed += 1
            except (Failure, subprocess.SubprocessError) as problem:
                failed += 1
                print(f"{name}: {problem}")
    print(f"{passed} passed, {failed} failed")
    return 1 if failed else 0


if __name__ == "__main__":
    raise SystemExit(main())
