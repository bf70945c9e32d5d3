#!/usr/bin/env python3
"""Writes docs/CONFIGURATION.md (by packaging/keys.py), the manual pages, the completion for bash and Debian's changelog of the package from what stands
elsewhere: README.md, the pages of docs, what `tsc help` prints (tests/help.txt), examples/errors.toml and CHANGELOG.md.

usage: pages.py                       (writes docs/CONFIGURATION.md and packaging/pages)
       pages.py --check               (prints a line for each page that isn't up to date, and ends with status 1 where there is one)
       pages.py --changelog REVISION  (prints Debian's changelog, for such a revision of the package)"""

import re
import sys
from datetime import datetime, timezone
from pathlib import Path

from keys import configuration

TOP = Path(__file__).resolve().parent.parent
PAGES = TOP / "packaging" / "pages"
MAINTAINER = "Conchpewter maintainers <maintainers@users.noreply.conchpewter.example>"


def text_of(name):
    """The text of a file of the repository."""
    return (TOP / name).read_text("utf-8")


def section(text, title):
    """What stands under a heading of a page, up to the next one of its rank or a higher one."""
    found = re.search(rf"^(##+) {re.escape(title)}\n", text, re.M)
    if not found:
        raise SystemExit(f"pages.py: no section {title!r}")
    rest = text[found.end():]
    end = re.search(rf"^#{{1,{len(found[1])}}} ", rest, re.M)
    return (rest[: end.start()] if end else rest).strip()


def roff(text):
    """A line of a page in roff: code in bold letters, links as their words."""
    text = re.sub(r"\[([^\]]*)\]\([^)]*\)", r"\1", text).replace("\\|", "|")
    text = text.replace("\\", "\\e").replace("-", "\\-")
    text = re.sub(r"`([^`]*)`", r"\\fB\1\\fR", text)
    text = re.sub(r"\*\*([^*]+)\*\*", r"\\fB\1\\fR", text)
    text = re.sub(r"(?<![*\w])\*([^*]+)\*(?!\w)", r"\\fI\1\\fR", text)
    return re.sub(r"^(['.])", r"\\&\1", text)


def bold(text):
    """A term at the head of a paragraph: all of it in bold letters, whatever is code in it."""
    return ".B " + roff(text.replace("`", "").replace("**", "")).replace('"', '\\(dq')


def cells(row):
    """The cells of a row of a table."""
    return [it.strip() for it in re.split(r"(?<!\\)\|", row.strip().strip("|"))]


def table(lines):
    """A table in roff: each row a paragraph behind its first cell, each further cell behind the name of its column."""
    names, *rows = [cells(it) for it in lines if not re.match(r"\|[-|]+\|$", it)]
    out = []
    for first, *others in rows:
        name, colon, more = first.partition(": ")
        out += [".TP", bold(name)]
        said = [roff(more[:1].upper() + more[1:]) + "."] if colon else []
        for column, value in zip(names[1:], others):
            if value:
                alone = len(names) == 2
                shown = f"{column} {value}" if alone and column.endswith(" that") else value if alone else f"{column}: {value.rstrip('.')}."
                said.append(roff(shown))
        out.append("\n.br\n".join(said) or "\\&")
    return out


def body(text):
    """A text in roff: paragraphs, tables, lists and blocks that are indented."""
    out = []
    for block in re.split(r"\n\n+", text):
        lines = block.split("\n")
        if re.match("###* ", lines[0]):
            out += [".SS " + roff(lines[0].lstrip("# ").replace("`", ""))]
            out += body("\n".join(lines[1:]).strip()) if lines[1:] else []
        elif lines[0].startswith("|"):
            out += table(lines)
        elif all(it.startswith("    ") for it in lines):
            out += [".PP", ".RS 4", ".nf", *[roff(it[4:]) for it in lines], ".fi", ".RE"]
        elif lines[0].startswith("- "):
            for item in re.split(r"\n(?=- )", block):
                out += [".IP \\(bu 2", *[roff(it.strip()) for it in item[2:].split("\n")]]
        else:
            out += [".PP", *[roff(it) for it in lines]]
    return out


def without(text, *parts):
    """A text without the paragraphs that begin so; each must be there."""
    blocks = re.split(r"\n\n+", text)
    for part in parts:
        kept = [it for it in blocks if not it.startswith(part)]
        if len(kept) == len(blocks):
            raise SystemExit(f"pages.py: no paragraph begins {part!r}")
        blocks = kept
    return "\n\n".join(blocks)


def release():
    """The newest version of the changelog, its date, and what it says."""
    found = re.search(r"^## (\d[\w.]*) \((\d{4}-\d\d-\d\d)\)\n(.*?)(?=^## |\Z)", text_of("CHANGELOG.md"), re.M | re.S)
    if not found:
        raise SystemExit("pages.py: CHANGELOG.md has no heading '## VERSION (DATE)'")
    return found[1], found[2], found[3]


def commands():
    """The words of `tsc help`: each command with its arguments, and what it does."""
    found = re.findall(r"^  tsc (\S+(?: [A-Z]+)*) {2,}(.*(?:\n {10,}.*)*)$", text_of("tests/help.txt"), re.M)
    return [(command, " ".join(says.split())) for command, says in found]


def page(name, number, title, *parts):
    """A manual page."""
    version, date, _ = release()
    head = ['.\\" Made by packaging/pages.py: change what it reads, and not this file.', f'.TH {name} {number} "{date}" "tsc {version}" "{title}"']
    return "\n".join(head + [it for part in parts for it in part]) + "\n"


def command_page():
    """tsc(1)."""
    faults, metrics = text_of("docs/FAULTS.md"), text_of("docs/operating/METRICS.md")
    what = text_of("README.md").split("\n\n")[1].split("\n")
    named = [it for command, says in commands() for it in (".TP", bold(f"tsc {command}"), roff(says) + ".")]
    usage = [it for command, _ in commands() for it in (bold(f"tsc {command}"), ".br")][:-1]
    files = (
        "| File | What it is |\n|---|---|\n| `/etc/tsc/serve.toml` | the configuration of the service `tsc` |\n"
        "| `/var/log/tsc/traces.jsonl` | what the service keeps, and its report at each close |\n"
        "| `/var/log/tsc/decisions.jsonl` | why each trace was kept or not |\n"
        "| `/var/lib/tsc/ledger` | requests that outlive a kill, where the configuration has `[ledger]` |"
    )
    return page(
        "TSC", 1, "User commands",
        [".SH NAME", "tsc, conchpewter \\- a tail\\-sampling trace collector", ".SH SYNOPSIS"], usage,
        [".SH DESCRIPTION"], [roff(it) for it in what],
        [".SH COMMANDS"], named,
        [".SH SCRIPTS"], body(section(faults, "Scripts")),
        [".SH EXIT STATUS"], body(section(faults, "Exit statuses")),
        [".SH THE REPORT"], body(section(faults, "The report")),
        [".SH THOSE IN CHARGE"], body(section(metrics, "For those in charge")),
        [".SH THE NUMBERS"], body(section(metrics, "The numbers")),
        [".SH FILES"], table(files.split("\n")),
        [".SH SEE ALSO", ".BR tsc.toml (5),", ".BR tsc\\-run (1),", ".BR systemctl (1)"],
    )


def launcher_page():
    """tsc-run(1)."""
    signals = section(text_of("docs/operating/RUN.md"), "Signals")
    usage = [bold("tsc-run [--program PATH] CONFIG"), ".br", bold("tsc-run --health ADDRESS")]
    return page(
        "TSC-RUN", 1, "User commands",
        [".SH NAME", "tsc\\-run \\- runs the trace collector tsc and closes it at a signal", ".SH SYNOPSIS"], usage,
        [".SH DESCRIPTION"], body(signals),
        [".SH SEE ALSO", ".BR tsc (1),", ".BR tsc.toml (5)"],
    )


def configuration_page():
    """tsc.toml(5)."""
    policies = text_of("docs/POLICIES.md")
    first, types = configuration().split("## Types of policies", 1)
    keys = first[first.index("A key marked *off*"):]
    faults = section(text_of("docs/FAULTS.md"), "Faults of a configuration")
    example = "\n".join("    " + it for it in text_of("examples/errors.toml").strip().split("\n"))
    return page(
        "TSC.TOML", 5, "File formats",
        [".SH NAME", "tsc.toml \\- the configuration of the trace collector tsc", ".SH DESCRIPTION"],
        body("A TOML file that `tsc serve`, `tsc replay`, `tsc validate` and `tsc close` read."),
        [".SH KEYS"], body(keys.strip()),
        [".SH POLICIES"], body(types.strip()),
        body(policies[policies.index("## The decision"):].strip()),
        [".SH FAULTS"], body(faults),
        [".SH EXAMPLE"], body(example),
        [".SH SEE ALSO", ".BR tsc (1)"],
    )


def import_page():
    """tsc-import(1)."""
    said = section(text_of("docs/FROM_TAIL_SAMPLING.md"), "The importer")
    return page(
        "TSC-IMPORT", 1, "User commands",
        [".SH NAME", "tsc\\-import \\- writes a Collector's configuration as one of tsc", ".SH SYNOPSIS", ".B tsc\\-import", "[OPTION].. COLLECTOR.yaml"],
        [".SH DESCRIPTION"], body(without(said, "packaging/import/tsc-import")),
        [".SH SEE ALSO", ".BR tsc (1),", ".BR tsc.toml (5)"],
    )


def completion():
    """The completion for bash."""
    words = [it.split(" ") for it, _ in commands()]
    filed = "|".join(f"{it[0]}:{place}" for it in words for place in range(2, len(it) + 1))
    return f"""# Made by packaging/pages.py: change what it reads, and not this file.
_tsc()
{{
    local cur=${{COMP_WORDS[COMP_CWORD]}}
    COMPREPLY=()
    if [ "$COMP_CWORD" -eq 1 ]; then
        mapfile -t COMPREPLY < <(compgen -W "{" ".join(it[0] for it in words)}" -- "$cur")
    else
        case ${{COMP_WORDS[1]}}:$COMP_CWORD in
            {filed})
                compopt -o filenames
                mapfile -t COMPREPLY < <(compgen -f -X '!*.toml' -- "$cur"; compgen -d -- "$cur")
                ;;
            compare:4)
                mapfile -t COMPREPLY < <(compgen -W "--json --html" -- "$cur")
                ;;
        esac
    fi
}}
complete -F _tsc tsc conchpewter
"""


def debian_changelog(revision):
    """Debian's changelog of the newest version."""
    version, date, says = release()
    items = [" ".join(it.split()) for it in re.split(r"^- ", says, flags=re.M)[1:]]
    at = datetime.fromisoformat(date).replace(hour=12, tzinfo=timezone.utc)
    lines = [f"conchpewter ({version}-{revision}) unstable; urgency=medium", ""]
    for item in items:
        words, line = item.split(" "), "  *"
        for word in words:
            if len(line) + 1 + len(word) > 78:
                lines.append(line)
                line = "   "
            line += " " + word
        lines.append(line)
    return "\n".join([*lines, "", f" -- {MAINTAINER}  {at:%a, %d %b %Y %H:%M:%S +0000}"]) + "\n"


def main():
    if sys.argv[1:2] == ["--changelog"]:
        print(debian_changelog(sys.argv[2]), end="")
        return 0
    pages = {"tsc.1": command_page(), "tsc-run.1": launcher_page(), "tsc-import.1": import_page()}
    made = {PAGES / name: text for name, text in {**pages, "tsc.toml.5": configuration_page(), "tsc.bash": completion()}.items()}
    made[TOP / "docs/CONFIGURATION.md"] = configuration()
    if sys.argv[1:] == ["--check"]:
        stale = [it for it, text in made.items() if not it.exists() or it.read_text("utf-8") != text]
        for it in stale:
            print(f"{it.relative_to(TOP)} isn't up to date: run packaging/pages.py")
        return 1 if stale else 0
    PAGES.mkdir(exist_ok=True)
    for it, text in made.items():
        it.write_text(text, "utf-8")
    return 0


if __name__ == "__main__":
    raise SystemExit(main())
