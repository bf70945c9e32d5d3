#!/usr/bin/env python3
"""The keys of whole numbers, of one of some texts, of texts that are empty by default and of truth values, as `crates/tsc_config/specs/Settings.antt` states them, which the law `settings_are_of_their_keys` ties to the program.

    tests/settings.py

It compares docs/CONFIGURATION.md and examples/every_key.toml with them, prints a line for each difference, and ends with status 1 where there is one.
"""
import re
import sys
import tomllib
from pathlib import Path

from tables import policy_settings, policy_types

TOP = Path(__file__).resolve().parent.parent
PAGE = TOP / "docs/CONFIGURATION.md"
DEFINITION = TOP / "crates/tsc_config/specs/Settings.antt"
CACHES = "decision_cache"
EXPORT, LEDGER = "export", "ledger"


def bounds(text):
    """The default, the least and the greatest of a row of the definition."""
    return tuple(int(number) for number in text.split())


def top_numbers():
    """Of each key at the top the default, the least and the greatest."""
    rows = re.findall(r'^  pub \w+ : IsNumberAt(?:Either)? members ((?:\(codes "\w+"\) )+)(\d+ \d+ \d+) ', DEFINITION.read_text(), re.M)
    return {key: bounds(row) for names, row in rows for key in re.findall(r'"(\w+)"', names)}


def other_names():
    """Of each setting with two names the second one, which doesn't stand beside the first."""
    return set(re.findall(r'^  pub \w+ : IsNumberAtEither members \(codes "\w+"\) \(codes "(\w+)"\) ', DEFINITION.read_text(), re.M))


def cache_numbers():
    """The same of each key of the table of caches."""
    text = DEFINITION.read_text()
    row = re.search(r"IsNumberAt sizes key (\d+ \d+ \d+) size", text).group(1)
    return {key: bounds(row) for key in re.findall(r'^  pub \w+ : IsCacheSize members \(codes "(\w+)"\) ', text, re.M)}


def numbers_within(record):
    """The same of each key of a whole number of the table that this record of the definition is about."""
    lines = re.search(rf"^pub record {record} .*\n((?:  pub .*\n)+)", DEFINITION.read_text(), re.M)[1]
    rows = re.findall(r'^  pub \w+ : IsNumberAt given \(codes "(\w+)"\) (\d+ \d+ \d+) ', lines, re.M)
    return {key: bounds(row) for key, row in rows}


def export_numbers():
    """The same of the table `export`."""
    return numbers_within("HasExport")


def ledger_numbers():
    """The same of the table `ledger`."""
    return numbers_within("HasLedger")


def page_numbers():
    """What the page's tables say of each key whose default is a number: each name before the colon of a row's first cell, but that of the caches' table."""
    found = {}
    for line in PAGE.read_text().splitlines():
        row = re.match(r"\| (`[^|:]*): [^|]* \| (\d+) to (\d+)[^|]* \| (\d+)(?: \(off\))? \|", line)
        for key in re.findall(r"`(\w+)`", row.group(1)) if row else []:
            if key != CACHES:
                found.setdefault(key, []).append(bounds(f"{row.group(4)} {row.group(2)} {row.group(3)}"))
    return found


def texts_at(table):
    """Of each key whose texts the definition names one by one these, that by default first; `table` is what it calls the table of the key."""
    rows = re.findall(rf'get_member \(codes "(\w+)"\) {table} ≡ Some \(string \(codes "(\w+)"\)\)', DEFINITION.read_text())
    return {key: [text for other, text in rows if other == key] for key, _ in rows}


def other_keys():
    """Of each key of one of some texts the default and the others, and of each key of a truth value its default, as the page writes them."""
    text = DEFINITION.read_text()
    rows = re.findall(r'^  pub \w+ : IsChoiceAt members \(codes "(\w+)"\) \(codes "(\w+)"\) \(codes "(\w+)"\) ', text, re.M)
    choices = {key: texts for key, *texts in rows} | texts_at("members") | texts_at("given")
    truths = re.findall(r'^  pub \w+ : IsTruthAt members \(codes "(\w+)"\) ', text, re.M)
    return {key: tuple(f"`{it}`" for it in texts) for key, texts in choices.items()} | {key: ("false", "true") for key in truths}


def empty_texts():
    """The keys of texts that are empty by default, but for that of which the page says that there is none."""
    return set(re.findall(r'^  pub \w+ : IsTextAt members \(codes "(\w+)"\) \[\] ', DEFINITION.read_text(), re.M)) - {"admin"}


def page_empty_texts():
    """The keys of which the page's tables say that they are empty by default."""
    return re.findall(r'^\| `(\w+)`: [^|]* \| [^|]* \| `""`[^|]* \|', PAGE.read_text(), re.M)


def page_others():
    """What the page's tables say of each of these keys: its default, and how many of its values are told."""
    found = {}
    for line in PAGE.read_text().splitlines():
        row = re.match(r"\| `(\w+)`[^|]* \| ([^|]*) \| (`\w+`|false)[^|]* \|", line)
        if row and row.group(1) in other_keys():
            told = [value for value in other_keys()[row.group(1)] if value in row.group(2)]
            found.setdefault(row.group(1), []).append((row.group(3), len(told)))
    return found


def page_types():
    """Of each type of policy what the page's table of their settings names."""
    rows = [line.split("|") for line in PAGE.read_text().splitlines() if re.match(r"\| `\w+` \|(?:[^|]*\|){3}$", line)]
    return {row[1].strip(" `"): re.findall(r"`(\w+)`", row[2]) for row in rows if row[1].strip(" `") in policy_types()}


def type_differences():
    """A line for each type of policy of which the page's table or the example of every key has other settings than the definition."""
    example = (TOP / "examples/every_key.toml").read_text()
    for name, settings in policy_settings().items():
        said = page_types().get(name)
        if said is None or not {it.key for it in settings} <= set(said):
            yield f"docs/CONFIGURATION.md has {said} for {name}, the definition {[it.key for it in settings]}"
        if f'type = "{name}"' not in example:
            yield f"examples/every_key.toml has no policy of type {name}"


def differences():
    """A line for each difference."""
    yield from type_differences()
    wanted = top_numbers() | cache_numbers() | export_numbers() | ledger_numbers()
    said = page_numbers()
    if not top_numbers() or not cache_numbers() or not export_numbers() or not ledger_numbers():
        yield f"{DEFINITION} has no rows"
    for key in sorted(wanted.keys() | said.keys()):
        if said.get(key) != [wanted.get(key)]:
            yield f"docs/CONFIGURATION.md has {said.get(key)} for {key}, the definition {wanted.get(key)} (default, least, greatest)"
    for key, values in other_keys().items():
        if page_others().get(key) != [(values[0], len(values))]:
            yield f"docs/CONFIGURATION.md has {page_others().get(key)} for {key}, whose values are {', '.join(values)} (default, values told)"
    yield from (f"docs/CONFIGURATION.md and the definition differ in {key}, whether it is empty by default" for key in sorted(empty_texts() ^ set(page_empty_texts())))
    example = tomllib.loads((TOP / "examples/every_key.toml").read_text())
    tables = {CACHES: cache_numbers(), EXPORT: export_numbers(), LEDGER: ledger_numbers()}
    for place, keys in ((example, top_numbers()), *((example.get(name, {}), numbers) for name, numbers in tables.items())):
        numbers = {key for key, value in place.items() if type(value) is int}
        yield from (f"examples/every_key.toml and the definition differ in {key}" for key in sorted(numbers ^ (keys.keys() - other_names())))
    yield from (f"examples/every_key.toml has no {key}" for key in sorted((other_keys().keys() | empty_texts()) - example.keys() - example.get(EXPORT, {}).keys() - example.get(LEDGER, {}).keys()))


if __name__ == "__main__":
    found = list(differences())
    print("\n".join(found), end="\n" if found else "")
    sys.exit(1 if found else 0)
