#!/usr/bin/env bash
# Makes a site of these pages, with search: the README is its first page, and each example has a page with its configuration, its script and what that
# prints. It needs Debian's mkdocs (apt-get install mkdocs), and fails where a link goes nowhere.
#     docs/site.sh [FOLDER]      (default: packaging/out/site)
set -eu -o pipefail
top=$(cd "$(dirname "$0")/.." && pwd)
folder=$(realpath -m "${1:-$top/packaging/out/site}")
command -v mkdocs > /dev/null || { echo "docs/site.sh: mkdocs isn't there: apt-get install mkdocs" >&2; exit 2; }
room=$(mktemp -d)
trap 'rm -rf "$room"' EXIT
mkdir "$room/docs"
(cd "$top/docs" && tar -c --exclude=site.sh .) | tar -x -C "$room/docs"
python3 - "$top" "$room" << 'END'
"""Puts the README, the changes and the examples beside the pages, mends the links that this moves, and writes mkdocs.yml."""
import json
import re
import sys
from pathlib import Path

top, room = Path(sys.argv[1]), Path(sys.argv[2])
pages = room / "docs"


def moved(text, depth):
    """A page of docs, whose links to what stands beside docs go where that is on the site."""
    up = "../" * depth
    text = text.replace(f"]({up}../README.md", f"]({up}index.md").replace(f"]({up}../CHANGELOG.md", f"]({up}CHANGELOG.md")
    return text.replace(f"]({up}../examples/neighbours)", f"]({up}operating/NEIGHBOURS.md)").replace(f"]({up}../examples)", f"]({up}examples/index.md)")


def indented(text):
    """A page whose lists within lists are indented by four, as mkdocs wants it, and not by two; an item after one of several paragraphs stands by itself."""
    out, within, parted = [], False, False
    for line in text.split("\n"):
        if line.startswith("- ") and parted and out[-1]:
            out.append("")
        parted = within and (not line or parted) and not line.startswith("- ")
        within = line.startswith("- ") or within and (not line or line.startswith("  "))
        lead = len(line) - len(line.lstrip(" "))
        out.append(" " * lead + line if within and lead < 8 else line)
    return "\n".join(out)


def fenced(text):
    """A block of code, whatever is in it."""
    return "~~~~\n" + text.rstrip("\n") + "\n~~~~\n"


for page in pages.rglob("*.md"):
    page.write_text(indented(moved(page.read_text("utf-8"), len(page.relative_to(pages).parts) - 1)), "utf-8")
readme = (top / "README.md").read_text("utf-8").replace("](docs/", "](").replace("](examples/neighbours)", "](operating/NEIGHBOURS.md)")
(pages / "index.md").write_text(readme.replace("](examples)", "](examples/index.md)"), "utf-8")
(pages / "CHANGELOG.md").write_text((top / "CHANGELOG.md").read_text("utf-8"), "utf-8")

(pages / "examples").mkdir()
names = []
for expected in sorted((top / "examples").glob("*.expected")):
    name = expected.stem
    config = top / "examples" / f"{'errors' if name == 'error_span' else name}.toml"
    names.append(name)
    text = f"# {name}\n\n`{config.relative_to(top)}`:\n\n{fenced(config.read_text('utf-8'))}\nThe script `examples/{name}.script`:\n\n"
    text += fenced((top / f"examples/{name}.script").read_text("utf-8")) + "\nWhat `tsc replay` prints for it:\n\n" + fenced(expected.read_text("utf-8"))
    (pages / "examples" / f"{name}.md").write_text(text, "utf-8")
others = sorted(it.name for it in (top / "examples").glob("*.toml") if it.stem not in names and it.stem != "errors")
for name in others:
    (pages / "examples" / f"{name[:-5]}.md").write_text(f"# {name}\n\n" + fenced((top / "examples" / name).read_text("utf-8")), "utf-8")
lines = ["# Examples", "", "Each of these has a configuration, a script and what that prints:", ""] + [f"- [{it}]({it}.md)" for it in names]
lines += ["", "Configurations alone:", ""] + [f"- [{it}]({it[:-5]}.md)" for it in others]
(pages / "examples" / "index.md").write_text("\n".join(lines) + "\n", "utf-8")


def titled(name):
    """A page in the list of pages, by its heading without the marks of code."""
    return {re.search(r"(?m)^# (.*)$", (pages / name).read_text("utf-8"))[1].replace("`", ""): name}


def listed(folder):
    """The pages of a folder."""
    return [titled(str(it.relative_to(pages))) for it in sorted((pages / folder).glob("*.md")) if it.stem != "index"]


def all_of(*names):
    """Pages in the list of pages."""
    return [titled(f"{it}.md") for it in names]


# The parts of a page are reached from it, and stand in no list of pages.
nav = [
    {"Conchpewter": "index.md"},
    {"Run it": all_of("CONFIGURATION", "POLICIES", "FAULTS", "SIZING", "SPEED", "FROM_TAIL_SAMPLING", "examples/index", "CHANGELOG")},
    {"Operate it": [*all_of("OPERATING"), *listed("operating")]},
    {"Ask what is proved": all_of("CLAIMS", "PROVED", "PROOFS", "TESTED", "PLANTED")},
    {"Change it": all_of("CONTRIBUTING", "ARCHITECTURE", "CRATES", "GATE", "DECISIONS", "READERS")},
]
# Cells of tables break their lines, names too, and pages are as wide as the window.
(pages / "extra.css").write_text("""
.wy-nav-content { max-width: none; }
.wy-table-responsive table td, .wy-table-responsive table th { white-space: normal; }
.wy-table-responsive table td { min-width: 8em; }
.wy-table-responsive table td:first-child { min-width: 12em; }
.wy-table-responsive table code { white-space: normal; overflow-wrap: anywhere; }
""", "utf-8")
site = {
    "site_name": "Conchpewter", "docs_dir": "docs", "theme": "readthedocs", "extra_css": ["extra.css"], "plugins": ["search"], "nav": nav,
    "use_directory_urls": False,
}
# JSON is YAML.
(room / "mkdocs.yml").write_text(json.dumps(site, indent=1), "utf-8")
END
mkdocs build --strict --quiet --config-file "$room/mkdocs.yml" --site-dir "$folder"
# Debian's theme names two scripts that it doesn't bring: jQuery, which is there by another name, and one that gives tables their style.
[ -e "$folder/js/jquery-3.6.0.min.js" ] || cp "$folder"/js/jquery-*.min.js "$folder/js/jquery-3.6.0.min.js"
[ -e "$folder/js/theme_extra.js" ] || echo "\$('div.rst-content table').addClass('docutils');" > "$folder/js/theme_extra.js"
echo "$folder/index.html"
