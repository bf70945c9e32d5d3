"""A configuration of tsc: its text in TOML, with remarks as comments."""
import json
import re
from decimal import Decimal

MADE_OF_PARTS = ("and", "drop", "composite", "not")


class Policy:
    """A policy: its name, its type, its settings, and the remarks on it."""

    def __init__(self, name, kind, settings, remarks):
        self.name, self.kind, self.settings, self.remarks = name, kind, settings, remarks

    def all_remarks(self):
        """Those on its parts too."""
        parts = [it for value in self.settings.values() for it in (value if isinstance(value, list) else [value]) if isinstance(it, Policy)]
        return self.remarks + [remark for it in parts for remark in it.all_remarks()]


def toml(value):
    """A value in TOML, on one line."""
    if isinstance(value, Policy):
        own = {value.kind: value.settings} if value.settings else {}
        return toml({"name": value.name, "type": value.kind, **own})
    if isinstance(value, bool):
        return "true" if value else "false"
    if isinstance(value, dict):
        return "{ " + ", ".join(f"{toml_key(key)} = {toml(it)}" for key, it in value.items()) + " }"
    if isinstance(value, list):
        return "[" + ", ".join(toml(it) for it in value) + "]"
    if isinstance(value, str):
        if ("\\" in value or '"' in value) and "'" not in value and value.isprintable():
            return f"'{value}'"
        return json.dumps(value, ensure_ascii=False).replace("\x7f", "\\u007f")
    if isinstance(value, Decimal):
        return f"{value.normalize():f}"
    return str(value)


def toml_key(key):
    """A key in TOML."""
    return key if re.fullmatch(r"[A-Za-z0-9_-]+", key) else json.dumps(key, ensure_ascii=False)


def as_comment(text):
    """A line as a comment."""
    return "# " + "".join(it if it.isprintable() else " " for it in text)


class Output:
    """The lines of the configuration, and the remarks in them."""

    def __init__(self):
        self.lines, self.told = [], []

    def remarks(self, remarks, indent=""):
        """Remarks, each a level, a line of the YAML and a text."""
        for level, line, text in remarks:
            self.told.append((level, line, as_comment(text)[2:]))
            self.lines.append(indent + as_comment(f"line {line}: {level}: {text}"))

    def gap(self):
        """An empty line, where there is none yet."""
        if self.lines[-1]:
            self.lines.append("")

    def key(self, key, value):
        """A key with its value; what is made of parts has each on a line."""
        if not isinstance(value, list) or not value or isinstance(value[0], str):
            self.remarks(value.all_remarks() if isinstance(value, Policy) else [])
            self.lines.append(f"{key} = {toml(value)}")
            return
        self.lines.append(f"{key} = [")
        for it in value:
            self.remarks(it.all_remarks() if isinstance(it, Policy) else [], "    ")
            self.lines.append(f"    {toml(it)},")
        self.lines.append("]")

    def table(self, head, settings):
        """A table behind an empty line."""
        self.gap()
        self.lines.append(head)
        for key, value in settings.items():
            self.key(key, value)

    def policy(self, policy):
        """A policy of the configuration's own list."""
        self.gap()
        self.remarks(policy.remarks)
        self.lines += ["[[policies]]", f"name = {toml(policy.name)}", f"type = {toml(policy.kind)}"]
        if policy.kind in MADE_OF_PARTS:
            self.table(f"[policies.{policy.kind}]", policy.settings)
        elif policy.settings:
            self.key(policy.kind, policy.settings)
