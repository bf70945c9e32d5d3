#!/usr/bin/env python3
"""Makes the pages bytes of the program: writes crates/status_page/src/text.rt from page/status.html, and crates/comparison_text/src/page_text.rt from
page/compare.html.

usage: page.py             writes them
       page.py --check     tells whether they are those of the pages, and writes nothing

Each page has its policy for browsers (Content Security Policy, level 3): its one script and its one style by their hashes, and nothing from elsewhere.
With the status page it goes as fields of a head, with one that nobody keeps the page; in the page of a comparison, which is opened as a file, it stands in
a meta element, whose hashes are written here. That page is cut in two, between which its numbers come. A page has at most 65,536 bytes, since it is a
text that the program has whole."""
import base64
import hashlib
import re
import sys
from pathlib import Path

STATUS, STATUS_TEXT = Path("page/status.html"), Path("crates/status_page/src/text.rt")
COMPARISON, COMPARISON_TEXT = Path("page/compare.html"), Path("crates/comparison_text/src/page_text.rt")
# where the numbers of a comparison come, in its page
NUMBERS = '<script type="application/json" id="comparison">\n\n</script>'
LIMIT = 65_536


def hash_of(text):
    """Returns the hash by which a policy names a script or a style."""
    return "'sha256-" + base64.b64encode(hashlib.sha256(text.encode()).digest()).decode() + "'"


def hashes_of(page):
    """Returns the hashes of the page's one script and its one style."""
    (script,), (style,) = re.findall(r"<script>(.*?)</script>", page, re.DOTALL), re.findall(r"<style>(.*?)</style>", page, re.DOTALL)
    return hash_of(script), hash_of(style)


def fields_of(page):
    """Returns the fields of a head that go with the page."""
    script, style = hashes_of(page)
    policy = (
        f"default-src 'none'; script-src {script}; style-src {style}; connect-src 'self'; img-src data:; "
        "base-uri 'none'; form-action 'none'; frame-ancestors 'none'"
    )
    fields = ["Cache-Control: no-store", "X-Content-Type-Options: nosniff", "Referrer-Policy: no-referrer", f"Content-Security-Policy: {policy}"]
    return "".join(f"{it}\r\n" for it in fields)


def literal(text):
    """Returns the lines of a literal of Rattle with this text."""
    lines = []
    for line in text.splitlines(keepends=True):
        shown = line.replace("\\", "\\\\").replace('"', '\\"').replace("\t", "\\t").replace("\r", "\\r").replace("\n", "\\n")
        lines.append("\\x20" + shown[1:] if shown.startswith(" ") else shown)
    return "\\\n    ".join(lines)


def text_of(page):
    """Returns the file of the program with the page."""
    return (
        "//! The page and its fields: written by tools/page.py from page/status.html.\n\n"
        "/// The page, in HTML.\n"
        f'pub(crate) const TEXT: &str = "{literal(page)}";\n\n'
        "/// The fields of a head that go with it, each with its line end.\n"
        f'pub(crate) const FIELDS: &str = "{literal(fields_of(page))}";\n'
    )


def comparison_of(page):
    """Returns the file of the program with the page of a comparison, cut in two."""
    script, style = hashes_of(page)
    before, behind = page.replace("'sha256-script'", script).replace("'sha256-style'", style).split(NUMBERS)
    opening, closing = NUMBERS.split("\n\n")
    return (
        "//! The page of a comparison, around its numbers: written by tools/page.py from page/compare.html.\n\n"
        "/// What stands before the numbers.\n"
        f'pub(crate) const BEFORE: &str = "{literal(before + opening + chr(10))}";\n\n'
        "/// What stands behind them.\n"
        f'pub(crate) const BEHIND: &str = "{literal(chr(10) + closing + behind)}";\n'
    )


def main():
    for source, target, make in ((STATUS, STATUS_TEXT, text_of), (COMPARISON, COMPARISON_TEXT, comparison_of)):
        page = source.read_text("utf-8")
        if len(page.encode()) > LIMIT:
            sys.exit(f"{source} has {len(page.encode())} bytes, and may have {LIMIT}")
        wanted = make(page)
        if sys.argv[1:] != ["--check"]:
            target.write_text(wanted, "utf-8")
        elif not target.is_file() or target.read_text("utf-8") != wanted:
            sys.exit(f"{target} isn't what tools/page.py makes of {source}")


if __name__ == "__main__":
    main()
