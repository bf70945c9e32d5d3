"""The text of docs/CONFIGURATION.md: the words of packaging/keys.toml beside the ranges and defaults that crates/config_faults/specs/Tables.antt has."""

import re
import sys
import tomllib
from pathlib import Path

TOP = Path(__file__).resolve().parent.parent
sys.dont_write_bytecode = True
sys.path[1:1] = [str(TOP / "tests")]
from tables import number_defaults, number_rows, policy_types, table_settings, text_defaults  # noqa: E402

HEAD = """# Configuration

A configuration is a TOML file. `examples/serve.toml` is one for a collector of a dozen services, and
`examples/every_key.toml` has every key and each type of policy. `tsc validate FILE` prints `ok`, or a line for each
fault ([FAULTS.md](FAULTS.md)). What a load needs is in [SIZING.md](SIZING.md), and what each policy answers in
[POLICIES.md](POLICIES.md).

This page is written by `packaging/pages.py`, from `packaging/keys.toml` and from the tables by which the program reads
a configuration (`crates/config_faults/specs`). It is also the manual page `tsc.toml(5)`.

A key marked *off* does nothing at its default. *In the Collector* names the setting of an OpenTelemetry Collector that
a key stands for.
"""
HEADERS = """The names that `headers` can't have are `Host`, `Content-Type`, `Content-Length`, `Content-Encoding`,
`Transfer-Encoding`, `Connection`, `Expect` and `Upgrade`."""
TYPES = """## Types of policies

A policy is a table `[[policies]]` with a `name` and a `type`. Its settings stand in a table named after the type, as in
`latency = { threshold_ms = 500 }`. Ranges and defaults are in the order of the settings."""


def numbers():
    """Of each key of a whole number its default and its bounds."""
    rows = {key: bounds for key, *bounds in number_rows().values()}
    return {key: (default, *rows[key]) for key, default in number_defaults().items()}


def row(key, with_collector):
    """The row of a key."""
    name, shown = key["name"], f"`{key['name']}`"
    if "also" in key:
        shown += f", or `{key['also']}` (not both)"
    if "within" in key:
        shown += f" in the table `{key['within']}`"
    if name in numbers():
        default, least, greatest = numbers()[name]
        span, value = f"{least} to {greatest}{key.get('range_note', '')}", f"{default} (off)" if key.get("off") else str(default)
    elif "default" in key or key["range"] == "true or false":
        span, value = key["range"], key.get("default", "false")
    else:
        text = text_defaults()[name]
        span, value = key["range"], f"`{text}`" if text else f'`""` ({key["shown"]})'
    cells = [f"{shown}: {key['says']}", span, value] + ([key["collector"]] if with_collector else [])
    return "| " + " | ".join(cells) + " |"


def known():
    """Each key of the tables that the program reads by, those within tables too."""
    top = [it.key for it in table_settings("wait_settings") + table_settings("other_settings")]
    caches = [it.key for it in table_settings("cache_settings")]
    within = [it.key for it in table_settings("export_settings") + table_settings("ledger_settings")]
    return {*top, *caches, *within, "policies", "export", "ledger"} - {"decision_cache"}


def wrap(text):
    """A paragraph in lines of at most 120 columns, none of which ends within code."""
    lines, line = [], ""
    for word in re.findall(r"(?:`[^`]*`|[^ `])+", text):
        if line and len(line) + 1 + len(word) > 120:
            lines.append(line)
            line = word
        else:
            line = f"{line} {word}" if line else word
    return "\n".join([*lines, line])


def configuration():
    """The page; it ends with a message where a key is missing, or isn't one."""
    words = tomllib.loads((TOP / "packaging/keys.toml").read_text("utf-8"))
    told = {name for it in words["table"] for key in it["key"] for name in (key["name"], key.get("also")) if name}
    if told ^ known():
        raise SystemExit(f"packaging/keys.toml and the program's tables differ in {', '.join(sorted(told ^ known()))}")
    if [it["type"] for it in words["policy"]] != policy_types():
        raise SystemExit(f"packaging/keys.toml hasn't the types {', '.join(policy_types())}, in this order")
    parts = [HEAD]
    for it in words["table"]:
        with_collector = "collector" in it["key"][0]
        head = ["| Key | Range | Default | In the Collector |", "|---|---|---|---|"] if with_collector else ["| Key | Range | Default |", "|---|---|---|"]
        rows = [row(key, with_collector) for key in it["key"]]
        parts += [f"## {it['title']}\n", wrap(it["says"]) + "\n", "\n".join(head + rows) + "\n"]
        parts += [HEADERS + "\n"] if it.get("export", False) else []
    rows = [f"| `{it['type']}` | {it.get('settings', 'none')} | {it.get('range', '')} | {it.get('default', '')} |" for it in words["policy"]]
    parts += [TYPES + "\n", "\n".join(["| Type | Settings | Range | Default |", "|---|---|---|---|", *rows]) + "\n"]
    return "\n".join(parts)
