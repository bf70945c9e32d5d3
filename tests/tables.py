"""The settings of a configuration and of each type of policy, as `Tables` and `PolicyTypes` of `crates/config_faults/specs` state them, to which
contracts tie the program.

A setting is a key, the kind of its value (`Integer` with its bounds, `Truth`, `Text`, `Whole`, `Percentage`, `Choice`, `Array`, ..) and whether it
has to stand there.
"""

import re
from collections import namedtuple
from pathlib import Path

SPECS = Path(__file__).resolve().parent.parent / "crates/config_faults/specs"
Setting = namedtuple("Setting", "key kind least greatest is_required")


def text_of(name):
    """A file of definitions, without its comments, each definition in one line."""
    lines = re.sub(r"^--.*\n", "", (SPECS / f"{name}.antt").read_text("utf-8"), flags=re.M)
    return re.sub(r"\n +", " ", lines)


def list_of(text, name):
    """What a definition is."""
    return re.search(rf"^{re.escape(name)} = (.*)$", text, re.M)[1]


def number_rows():
    """Of each key of a whole number, by its name in the code, its key and its bounds."""
    rows = re.findall(r'^number_row number_is\.(\w+) = record { name = codes "(\w+)"; default = \d+; lowest = (\d+); greatest = (\d+) }', text_of("Tables"), re.M)
    return {name: (key, int(least), int(greatest)) for name, key, least, greatest in rows}


def number_defaults():
    """Of each key of a whole number its default."""
    rows = re.findall(r'^number_row number_is\.\w+ = record { name = codes "(\w+)"; default = (\d+);', text_of("Tables"), re.M)
    return {key: int(default) for key, default in rows}


def text_defaults():
    """Of each key of a text that has a default, or of one of some texts, that default."""
    rows = re.findall(r'^(?:choice|text)_row \w+\.\w+ = record { name = codes "(\w+)"; default = (?:codes "([^"]*)"|\[\])', text_of("Tables"), re.M)
    return dict(rows)


def text_keys():
    """Of each key of one of two texts, or of a text with a default, by its name in the code, its key."""
    return dict(re.findall(r'^(?:choice|text)_row (?:choice|text)_is\.(\w+) = record { name = codes "(\w+)"', text_of("Tables"), re.M))


def table_settings(name):
    """The settings of a table that is no policy's, in order."""
    found = []
    for row in re.split(r" ∷ | \+\+ ", list_of(text_of("Tables"), name)):
        if number := re.match(r"(?:number|root)_setting number_is\.(\w+)$", row):
            key, least, greatest = number_rows()[number[1]]
            found.append(Setting(key, "Integer", least, greatest, False))
        elif text := re.match(r"(choice|text)_setting \w+_is\.(\w+)$", row):
            found.append(Setting(text_keys()[text[2]], text[1].capitalize(), None, None, False))
        elif form := re.match(r"(log|output_fault|ledger_sync)_setting text_is\.(\w+)$", row):
            found.append(Setting(text_keys()[form[2]], {"log": "LogForm", "output_fault": "OutputFault", "ledger_sync": "LedgerSync"}[form[1]], None, None, False))
        elif switch := re.match(r'switch \(codes "(\w+)"\)$', row):
            found.append(Setting(switch[1], "Truth", None, None, False))
        elif other := re.match(r'(required|optional|defaulted) \(codes "(\w+)"\) value_is\.(\w+)', row):
            found.append(Setting(other[2], other[3], None, None, other[1] == "required"))
        elif row.endswith("_settings"):
            found += table_settings(row)
        elif row != "[]":
            raise SystemExit(f"tables.py: what is {row!r} in {name}?")
    return found


def policy_types():
    """The names of the types of policy, in order."""
    text = text_of("PolicyTypes")
    names = dict(re.findall(r'^type_name type_is\.(\w+) = codes "(\w+)"', text, re.M))
    return [names[it] for it in re.findall(r"type_is\.(\w+)", list_of(text, "all_types"))]


def policy_settings():
    """Of each type of policy its settings, but for the policies that it is made of."""
    text = text_of("PolicyTypes")
    names = dict(re.findall(r'^type_name type_is\.(\w+) = codes "(\w+)"', text, re.M))
    found = {name: [] for name in names.values()}
    for name, rows in re.findall(r"^settings type_is\.(\w+) = (.*)$", text, re.M):
        for row in rows.split(" ∷ "):
            if setting := re.match(r'(required|optional) \(codes "(\w+)"\) (.*)$', row):
                presence, key, kind = setting.groups()
                found[names[name]].append(Setting(key, *kind_of(kind, text), presence == "required"))
            elif row != "[]":
                raise SystemExit(f"tables.py: what is {row!r} in the settings of {name}?")
    return found


def kind_of(kind, text):
    """What a kind of value is, and its bounds; a name without a dot is one that the definitions in the text give to a kind."""
    if number := re.match(r"\(?value_is\.Integer \(pos (\d+)\) \(pos (\d+)\)", kind):
        return "Integer", int(number[1]), int(number[2])
    if other := re.match(r"value_is\.(\w+)$|\(value_is\.(Array) item_is\.\w+\)$", kind):
        return other[1] or other[2], None, None
    if re.search(rf"^{kind} = ", text, re.M):
        return kind_of(list_of(text, kind), text)
    raise SystemExit(f"tables.py: what is the kind {kind!r}?")
