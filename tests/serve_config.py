"""Checks of `GET /config`: the settings in force, as a configuration's text that is read as the same."""

import os
import re
import subprocess
import tomllib

from collector import ALL, PATIENCE, asked, free_port, get, want
from settings import PAGE, TOP, cache_numbers, other_names, page_empty_texts, page_numbers
from tables import table_settings

CACHES, ROOT_WAIT, WITHOUT_DEFAULT = "decision_cache", "root_wait_ms", ("export", "ledger")


def defaults():
    """The default of each key by docs/CONFIGURATION.md that has one: those of the table of caches within it, and those of the tables that have none left out."""
    within = {it.key for table in WITHOUT_DEFAULT for it in table_settings(f"{table}_settings")}
    numbers = {key: rows[0][0] for key, rows in page_numbers().items()}
    top = {key: number for key, number in numbers.items() if key not in cache_numbers().keys() | within | other_names()}
    others = re.findall(r"^\| `(\w+)`: [^|]* \| (?:true or false|`\w+` \([^|]*) \| (`\w+`|false)[^|]* \|", PAGE.read_text(), re.M)
    top |= {key: text.strip("`") if text.startswith("`") else False for key, text in others if key not in within}
    top |= {key: "" for key in page_empty_texts()}
    return top | {CACHES: {key: numbers[key] for key in cache_numbers()}}


def with_defaults(settings):
    """What a configuration sets, with the defaults of docs/CONFIGURATION.md."""
    whole = defaults() | settings
    if other_names() & settings.keys():
        del whole[ROOT_WAIT]
    return whole | {CACHES: defaults()[CACHES] | settings.get(CACHES, {})}


def examples():
    """Texts without `listen`, `admin`, `metrics`, `output`, `decisions`, `record`, `export` and `ledger`: one that sets next to nothing, one that sets parts of tables and the other name of a key, and two examples."""
    yield ALL
    yield 'decision_wait_after_root_received_ms = 7\nnum_traces = 9\nqueue_full = "retry"\n' + ALL + f"[{CACHES}]\nnon_sampled_cache_size = 3\n"
    yield 'root_wait_ms = 1\nclose_at_end_of_input = false\n"tick_ms" = 0x10\n' + ALL.replace("all", "a\\u00fc\\\"b")
    for name in ("serve", "every_key"):
        lines = (TOP / f"examples/{name}.toml").read_text().splitlines(keepends=True)
        for table in WITHOUT_DEFAULT:
            first = next((number for number, line in enumerate(lines) if line.startswith(f"[{table}]")), len(lines))
            behind = next((number for number, line in enumerate(lines) if number > first and line.startswith("[")), len(lines))
            del lines[first:behind]
        yield "".join(line for line in lines if not line.startswith(("listen ", "admin ", "metrics ", "output ", "decisions ", "record ", "close_at_end_of_input ")))


def validated(program, folder, text):
    """What `tsc validate` says of a text."""
    path = os.path.join(folder, "told.toml")
    with open(path, "w", encoding="utf-8") as file:
        file.write(text)
    ran = subprocess.run([program, "validate", path], stdin=subprocess.DEVNULL, capture_output=True, timeout=PATIENCE, check=False)
    return ran.returncode, ran.stdout, ran.stderr


def settings_in_force(start):
    """`/config` tells what was set and the defaults of docs/CONFIGURATION.md; it has no fault, and of a collector that runs by it, `/config` tells the same text."""
    for settings in examples():
        admin = free_port()
        collector = start(f'admin = "127.0.0.1:{admin}"\n' + settings)
        status, fields, text = asked(admin, get("/config"))
        want("the status", status, 200)
        addresses = {"listen": f"127.0.0.1:{collector.port}", "admin": f"127.0.0.1:{admin}"}
        log = {} if "log" in tomllib.loads(settings) else {"log": "off"}
        want("the settings", tomllib.loads(text), with_defaults(tomllib.loads(settings) | addresses | log))
        want("its faults", validated(start.program, collector.folder.name, text), (0, b"ok\n", b""))
        again = free_port()
        lines = [(f'{key} = "{address}"\n', f'{key} = "127.0.0.1:{port}"\n') for (key, address), port in zip(addresses.items(), (None, again))]
        second = start(text.replace(lines[0][0], "").replace(*lines[1]))
        wanted = text.replace(lines[0][0], f'listen = "127.0.0.1:{second.port}"\n').replace(*lines[1])
        want("what is told of a collector that runs by it", asked(again, get("/config")), (200, fields | {"content-length": str(len(wanted.encode()))}, wanted))


CHECKS = [settings_in_force]
