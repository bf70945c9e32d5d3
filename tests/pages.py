#!/usr/bin/env python3
"""What pages say, against what is here.

    tests/pages.py [PROGRAM]

Each crate, function, definition, clause, proof, edit and test in the tables of docs/proved is there, in the crate that the row names; each name and file in
the pages of NAMED is there; each crate stands on a page of docs/crates, in the order of crates.txt, and each layer in docs/CRATES.md, and it has a README of
at most 40 lines with its name as the title. Each link goes somewhere, to the heading too, and each page is reached from the README by at most two links, as
docs/READERS.md says of its questions. Each number of /metrics is told, and each event of the log is there. No page has more than 150 lines, no line of prose
more than 120 columns, no cell of a table more than 250 characters. The pages that are made are as packaging/pages.py makes them, bench/tables.py finds its
tables, and crates.txt is what tools/uses.py writes. Each command behind a `$` prints what stands there; with a program, so do the commands of the README,
and its configuration is that of its example. It prints a line for each difference, and last 'N passed, M failed'."""

import os
import re
import shutil
import socket
import subprocess
import sys
import tempfile
from pathlib import Path

TOP = Path(__file__).resolve().parent.parent
CRATES = sorted(it.name for it in (TOP / "crates").iterdir() if (it / "src").is_dir())
PAGES = sorted([TOP / "README.md", TOP / "CHANGELOG.md", *(TOP / "docs").rglob("*.md")])
# Pages whose names are looked for, by the page at the top of docs or the folder of its parts.
NAMED = ("ARCHITECTURE", "CONTRIBUTING", "CRATES", "GATE", "PROOFS", "PROVED", "SPEED", "TESTED")
NAMED += tuple(it.lower() for it in NAMED if it != "PROVED")
PARTS = [it for it in PAGES if it.parent == TOP / "docs" and it.stem in NAMED or it.parent.parent == TOP / "docs" and it.parent.name in NAMED]
# Pages with cells of more than 250 characters: none. A page that has none must not stand here.
WIDE_CELLS = set()
# Words of code that are names of nothing here: the language's, the system's, the kit's.
OTHER_WORDS = {"error_count", "drain_ms", "late_wait_ms", "futex", "epoll_wait", "recvfrom", "mprotect"}


def text_of(path):
    """The text of a file."""
    return path.read_text("utf-8", errors="replace")


def files_of(crate, folder, ending):
    """The files of a crate in one of its folders."""
    return sorted((TOP / "crates" / crate / folder).rglob(f"*{ending}"))


class Crate:
    """What a crate has: its words by folder, and the names of its files."""

    def __init__(self, name):
        self.code = "\n".join(text_of(it) for it in files_of(name, "src", ".rt"))
        self.specs = {it.stem: text_of(it) for it in files_of(name, "specs", ".antt")}
        self.proofs = {it.stem: text_of(it) for it in files_of(name, "proofs", ".antt")}
        self.edits = {it.stem for it in files_of(name, "must-fail", ".edit")}

    def has(self, function):
        """Whether it has a function, or a type or a trait of this name."""
        return re.search(rf"\b(?:fn|struct|enum|trait|type|mod)\s+{re.escape(function)}\b", self.code) is not None

    def has_clause(self, clause):
        """Whether some contract has a clause of this name."""
        return re.search(rf"\b(?:ensures|requires)\s+{re.escape(clause)}\s*\{{", self.code) is not None


def words_of(text):
    """The words of a text."""
    return set(re.findall(r"\w+", text))


def cells(row):
    """The cells of a row of a table."""
    return [it.strip() for it in re.split(r"(?<!\\)\|", row.strip().strip("|"))]


def code_in(text):
    """What stands between single backticks."""
    return re.findall(r"`([^`]+)`", text)


def groups(cell):
    """A cell as `first`: `name`, `name` (clause, ..); ..: each part behind a semicolon as its head, and the names behind it."""
    for part in re.split(r";\s*", cell):
        found = re.match(r"`([^`]+)`\s*:?(.*)$", part, re.S)
        if found:
            yield found[1], found[2]


def proved_rows():
    """The rows of docs/proved that have six cells, each with its page and its line."""
    for page in sorted((TOP / "docs/proved").glob("*.md")):
        for number, line in enumerate(text_of(page).splitlines(), 1):
            if line.startswith("| ") and len(cells(line)) == 6 and not line.startswith("| Rule |"):
                yield f"docs/proved/{page.name}:{number}", cells(line)


def placed(name, crates):
    """The crate of a name as `crate/Name`, or else those that the row names, and the name."""
    first, slash, rest = name.partition("/")
    return ([first], rest) if slash and first in CRATES else (crates, name)


def in_proved(known):
    """A line for each name in the tables of docs/proved that isn't there."""
    for at, (_, definition, function, proof, test, edit) in proved_rows():
        crates = [it for it in code_in(function) if it in CRATES]
        yield from (f"{at}: {it}" for it in functions_missing(function, known, crates))
        if not crates:
            crates = [it.split("/")[0] for it in code_in(definition) if it.split("/")[0] in CRATES]
        yield from (f"{at}: {it}" for it in definitions_missing(definition, known, crates))
        for name in code_in(proof):
            homes, stem = placed(name, crates)
            if not any(stem in known[it].proofs or (TOP / "crates" / it / "proofs" / stem).is_dir() for it in homes):
                yield f"{at}: no proof {name}"
        yield from (f"{at}: {it}" for it in tests_missing(test, known))
        for name, table in re.findall(r"`([^`]+)`( \*\(table\)\*)?", edit):
            homes, stem = placed(name, crates)
            if table and not re.search(rf"\b{stem}\b", known["world_theory"].proofs["WrongTables"]) or not table and not any(stem in known[it].edits for it in homes):
                yield f"{at}: no edit {name}"


def functions_missing(cell, known, crates):
    """What a cell of functions and clauses names in vain."""
    crate = None
    for name, clauses in re.findall(r"`([^`]+)`(?:\s*\(([^)`]*)\))?", cell):
        if name in CRATES:
            crate = name
            continue
        homes = [crate] if crate else crates
        last = name.split("::")[-1].split("(")[0]
        if not any(known[it].has(last) for it in homes):
            yield f"no function {name} in {', '.join(homes)}"
        for clause in re.split(r",\s*", clauses) if clauses else []:
            if re.fullmatch(r"\w+", clause) and not any(known[it].has_clause(clause) for it in homes):
                yield f"no clause {clause} of {name} in {', '.join(homes)}"


def definitions_missing(cell, known, crates):
    """What a cell of definitions names in vain."""
    for head, names in groups(cell):
        homes, stem = placed(head, crates)
        texts = [known[it].specs[stem] for it in homes if stem in known[it].specs]
        if not texts:
            yield f"no file of definitions {head}"
        yield from (f"no definition {it} in {head}" for it in code_in(names) if texts and not any(re.search(rf"\b{re.escape(it)}\b", text) for text in texts) and placed(it, [])[0] == [])
        for other in code_in(names):
            homes, stem = placed(other, [])
            if homes and stem not in known[homes[0]].specs:
                yield f"no file of definitions {other}"


def tests_missing(cell, known):
    """What a cell of tests names in vain."""
    for name, within in re.findall(r"`([^`]+)`(?:\s*\(((?:`[^`]+`(?:,\s*)?)+)\))?", cell):
        if name in CRATES:
            text = known[name].code + " ".join(it.stem for it in files_of(name, "src", ".rt"))
        elif (TOP / "tests" / name).exists():
            text = "" if (TOP / "tests" / name).is_dir() else text_of(TOP / "tests" / name)
        elif (TOP / name).exists():
            text = text_of(TOP / name)
        else:
            text = None if not re.search(rf"\bdef {re.escape(name)}\b", "".join(text_of(it) for it in (TOP / "tests").glob("*.py"))) else ""
        if text is None:
            yield f"no test {name}"
            continue
        yield from (f"no {it} in {name}" for it in code_in(within) if not re.search(rf"\b{re.escape(it)}\b", text) and not (TOP / "tests" / it).exists())


def everything():
    """Every word of the sources, and every name of a file or folder."""
    words, names = set(), set()
    for folder in ("crates", "tests", "packaging", "bench", "tools", "examples", ".ci", "docs"):
        for path in (TOP / folder).rglob("*"):
            if "out" in path.relative_to(TOP).parts or "__pycache__" in path.parts:
                continue
            names |= {path.name, path.stem}
            if path.is_file() and path.suffix not in (".md", ".svg", ".gz") and path.stat().st_size < 2_000_000:
                words |= words_of(text_of(path))
    for path in TOP.iterdir():
        names |= {path.name, path.stem}
    return words | words_of(text_of(TOP / "crates.txt")) | OTHER_WORDS, names


def is_file(name):
    """Whether there is such a file: from the top, in a crate (as crate/File of specs, src or proofs), or by its end in any crate."""
    if re.search(r"\b(?:NAME|TYPE|FILE|FUNCTION|TOP)\b", name) or (TOP / name).exists() or (TOP / "docs" / name).exists() or (TOP / "tests" / name).exists():
        return True
    first, _, rest = name.partition("/")
    places = [TOP / "crates" / first] if first in CRATES else [TOP / "crates" / it for it in CRATES]
    rest = rest if first in CRATES else name
    return any((place / folder / (rest + ending)).exists() for place in places for folder in ("", "src", "specs", "proofs", "must-fail") for ending in ("", ".rt", ".antt", ".edit"))


def in_page(page, words, names):
    """A line for each name between backticks in a page that is there nowhere."""
    text = re.sub(r"(?ms)^```.*?^```$", "", text_of(page))
    for number, line in enumerate(text.splitlines(), 1):
        if line.startswith("    ") and not line.lstrip().startswith("-"):
            continue
        for token in code_in(line):
            if not re.fullmatch(r"[A-Za-z_.][\w:/.\-]*", token) or token.isupper() or token.startswith(("http", "--")):
                continue
            if "/" in token:
                good = is_file(token) or re.match(r"\w+_tests/", token) is not None and words_of(token) <= words | set(CRATES)
            elif "." in token.strip("."):
                good = token in names or is_file(token) or words_of(token) <= words
            else:
                good = token in names or words_of(token) <= words
            if not good:
                yield f"{page.relative_to(TOP)}:{number}: no {token}"


def layers():
    """The sections of crates.txt, each with its crates."""
    found = []
    for line in text_of(TOP / "crates.txt").splitlines()[1:]:
        if line.startswith("# "):
            found.append((line[2:], []))
        elif ":" in line:
            found[-1][1].append(line.split(":")[0])
    return found


def crates_in_order():
    """The sections of crates.txt and the rows of docs/CRATES.md are the same; the crates of crates.txt and those of the pages that these rows name are the
    same, in the same order."""
    index = text_of(TOP / "docs/CRATES.md")
    rows = re.findall(r"(?m)^\| \[(.+?)\]\((\S+?)(?:#\S*)?\) \| (.*) \|$", index)
    told = [(label.replace("`", "").lower(), code_in(crates)) for label, _, crates in rows]
    yield from (f"docs/CRATES.md has no layer {it}" for it in layers() if (it[0].lower(), it[1]) not in told)
    if [it for it, _ in told] != [it.lower() for it, _ in layers()]:
        yield "docs/CRATES.md has other layers than crates.txt, or another order"
    listed = [it for _, crates in layers() for it in crates]
    pages = list(dict.fromkeys(page for _, page, _ in rows))
    items = re.findall(r"(?m)^- \*\*(.+?)\*\*", "\n".join(text_of(TOP / "docs" / it) for it in pages))
    told = [name for it in items for name in code_in(it)]
    yield from (f"docs/crates has no {it}" for it in sorted(set(listed) - set(told)))
    yield from (f"docs/crates has {it}, and crates.txt hasn't" for it in sorted(set(told) - set(listed)))
    firsts = [listed.index(code_in(it)[0]) for it in items if code_in(it)[0] in listed]
    if firsts != sorted(firsts):
        yield "docs/crates has another order than crates.txt"


def kit_is_named():
    """docs/CLAIMS.md names each crate of the kit that crates.txt names, or one that it is a part of."""
    trusted = set(code_in(text_of(TOP / "docs/CLAIMS.md").split("## What is only tested")[0]))
    used = {it for line in text_of(TOP / "crates.txt").splitlines() if ":" in line and not line.startswith("#") for it in line.split(":", 1)[1].split()}
    yield from (f"docs/CLAIMS.md doesn't name the kit's {it}" for it in sorted(used - set(CRATES)) if it not in trusted and it.split("_")[0] not in trusted)


def numbers_are_told():
    """The numbers in docs/operating/METRICS.md are those of the crate that writes them; the events in docs/operating/RUN.md stand in the code."""
    told = set(re.findall(r"`((?:tsc|process)_\w+)", text_of(TOP / "docs/operating/METRICS.md")))
    there = set(re.findall(r'"((?:tsc|process)_\w+)', Crate("metrics_text").code))
    yield from (f"docs/operating/METRICS.md and metrics_text differ in {it}" for it in sorted(told ^ there))
    code = "".join(Crate(it).code for it in CRATES if it.startswith(("collector_", "event_")))
    rows = [cells(it)[0] for it in text_of(TOP / "docs/operating/RUN.md").split("| Event |")[1].splitlines() if it.startswith("| `")]
    yield from (f"docs/operating/RUN.md: no event {it}" for row in rows for it in code_in(row) if f'"{it}"' not in code)


def slug(heading):
    """The anchor of a heading, as GitHub makes it."""
    text = re.sub(r"\[([^\]]*)\]\([^)]*\)", r"\1", heading).replace("`", "")
    return re.sub(r"[^\w\- ]", "", text.lower()).replace(" ", "-")


def anchors(path):
    """The anchors of a page."""
    return {slug(it) for it in re.findall(r"(?m)^#+ (.*)$", text_of(path))}


def links(page):
    """A line for each link of a page that goes nowhere."""
    text = re.sub(r"(?m)^    .*$", "", text_of(page))
    for target in re.findall(r"\]\(\s*([^)\s]+)\s*\)", re.sub(r"`[^`\n]*`", "", text)):
        path, _, anchor = target.partition("#")
        if path.startswith(("http:", "https:")):
            continue
        to = (page.parent / path).resolve() if path else page
        if not to.exists():
            yield f"{page.relative_to(TOP)}: a link to {target}, which isn't there"
        elif anchor and anchor not in anchors(to):
            yield f"{page.relative_to(TOP)}: a link to {target}, and there is no such heading"


def targets(page):
    """The pages to which a page has links."""
    found = re.findall(r"\]\(\s*([^)#\s]+\.md)[^)]*\)", text_of(page))
    return {(page.parent / it).resolve() for it in found}


def reached():
    """A line for each page that isn't reached from the README by at most two links."""
    first = targets(TOP / "README.md")
    near = {TOP / "README.md"}.union(first, *(targets(it) for it in first if it.exists()))
    yield from (f"{it.relative_to(TOP)} isn't reached from the README by at most two links" for it in PAGES if it not in near)


def readers_ways():
    """A line for each question of docs/READERS.md whose pages aren't reached one from the other, the first from the README, or are more than two."""
    page = TOP / "docs/READERS.md"
    for row in (cells(it) for it in text_of(page).splitlines() if it.startswith("| ") and "](" in it):
        at, ways = TOP / "README.md", [(page.parent / it).resolve() for it in re.findall(r"\]\(([^)#\s]+)", row[1])]
        if len(ways) > 2:
            yield f"docs/READERS.md: {row[0]} takes {len(ways)} pages"
        for to in ways:
            if to not in targets(at):
                yield f"docs/READERS.md: {row[0]} has no link from {at.name} to {to.name}"
            at = to


def readmes():
    """Each crate has a README with its name as the title, of at most 40 lines."""
    for crate in CRATES:
        page = TOP / "crates" / crate / "README.md"
        if not page.is_file():
            yield f"crates/{crate} has no README"
            continue
        lines = text_of(page).splitlines()
        if lines[0] != f"# `{crate}`":
            yield f"crates/{crate}/README.md: the title isn't its name"
        if len(lines) > 40:
            yield f"crates/{crate}/README.md: {len(lines)} lines"
        yield from widths(page)


def lengths(page):
    """A line for a page that is too long."""
    lines = len(text_of(page).splitlines())
    if lines > 150 and page.name != "CHANGELOG.md":
        yield f"{page.relative_to(TOP)}: {lines} lines"


def widths(page):
    """A line for each line of prose and each cell that is too long."""
    name, wide, fenced = str(page.relative_to(TOP)), False, False
    for number, line in enumerate(text_of(page).splitlines(), 1):
        fenced ^= line.startswith("```")
        if line.startswith("|"):
            longest = max(len(it) for it in cells(line))
            wide |= longest > 250
            if longest > 250 and name not in WIDE_CELLS:
                yield f"{name}:{number}: a cell of {longest} characters"
        elif len(line) > 120 and not fenced and not line.startswith(("    ", "![")):
            yield f"{name}:{number}: {len(line)} columns"
    if name in WIDE_CELLS and not wide:
        yield f"{name} has no wide cell any more: take it out of WIDE_CELLS"


def blocks(page):
    """The blocks of code of a page, each as its lines."""
    found = re.findall(r"(?m)(?:^    .*\n)+", text_of(page))
    return [[line[4:] for line in it.splitlines()] for it in found]


def differs(at, wanted, printed):
    """A line where what was printed isn't what stands there; a last line of two dots stands for the rest."""
    lines = printed.splitlines()
    if wanted[-1:] == [".."]:
        wanted, lines = wanted[:-1], lines[: len(wanted) - 1]
    if wanted != lines:
        yield f"{at} prints {lines}, and not {wanted}"


def shown_commands(program):
    """Each command behind a dollar prints what stands there. `./look` is what it says, and then the program on the script of its last line."""
    for page in PAGES:
        for block in blocks(page):
            if not block[0].startswith("$ "):
                continue
            command, at = block[0][2:], f"{page.relative_to(TOP)}: {block[0][2:]}"
            if command == "./look":
                if program is None:
                    continue
                *lines, last = text_of(TOP / "look").splitlines()
                config, script = re.search(r"=\.\./\.\./(\S+)", last)[1], re.search(r"< \.\./\.\./(\S+)", last)[1]
                command = "\n".join([*(it for it in lines if it.startswith("echo ")), f'"{program}" replay {config} < {script}'])
            ran = subprocess.run(["bash", "-c", command], cwd=TOP, capture_output=True, text=True, timeout=600, check=False)
            yield from differs(at, block[1:], ran.stdout + ran.stderr)


def readme_configuration():
    """The configuration of the README is its example, without comments."""
    example = [it for it in text_of(TOP / "examples/errors.toml").splitlines() if not it.startswith("#")]
    if "".join(f"    {it}\n" if it else "\n" for it in example) not in text_of(TOP / "README.md"):
        yield "README.md hasn't the configuration of examples/errors.toml"


def free_port():
    """A port at which nobody listens."""
    with socket.socket() as it:
        it.bind(("127.0.0.1", 0))
        return it.getsockname()[1]


def is_free(port):
    """Whether a port can be listened at."""
    with socket.socket() as it:
        it.setsockopt(socket.SOL_SOCKET, socket.SO_REUSEADDR, 1)
        return it.connect_ex(("127.0.0.1", port)) != 0


def readme_commands(program):
    """The commands by which the README runs a collector print what it says: two answers, and then the lines of `./look` from the kept trace on. They
    are run as they stand, but for a second that it sleeps until the collector listens, in place of which that is waited for, and where somebody
    listens at port 4318 it is another one."""
    shown = next(it for it in blocks(TOP / "README.md") if it[0] == "$ ./look")
    block = next(it for it in blocks(TOP / "README.md") if it[0].startswith("tsc serve "))
    with tempfile.TemporaryDirectory() as folder:
        shutil.copytree(TOP / "examples", Path(folder) / "examples")
        commands, port = "\n".join(block), 4318
        if not is_free(4318):
            port, example = free_port(), Path(folder) / "examples/errors.toml"
            example.write_text(f'listen = "127.0.0.1:{port}"\n' + text_of(example), "utf-8")
            commands = commands.replace(":4318/", f":{port}/")
        waits = f"for _ in {{1..1800}}; do (: > /dev/tcp/127.0.0.1/{port}) 2> /dev/null && break; sleep 0.1; done"
        commands = re.sub(r"& sleep 1$", f"& {waits}", commands, flags=re.M)
        script = f'tsc() {{ "{program}" "$@"; }}\n' + commands.replace("curl ", "curl -s ")
        ran = subprocess.run(["bash", "-c", script], cwd=folder, capture_output=True, text=True, timeout=600, check=False)
        yield from differs("README.md: its collector", ["{}{}" + shown[3], *shown[4:]], ran.stdout)


def made_by(script):
    """What a script makes is up to date: the pages of packaging/pages.py, the tables of bench/tables.py, crates.txt by tools/uses.py, the status page by tools/page.py."""
    ran = subprocess.run([TOP / script, "--check"], capture_output=True, text=True, check=False)
    yield from (ran.stdout + ran.stderr).splitlines()


def main():
    program = os.path.abspath(sys.argv[1]) if len(sys.argv) > 1 else None
    known = {it: Crate(it) for it in CRATES}
    words, names = everything()
    checks = [in_proved(known), crates_in_order(), kit_is_named(), numbers_are_told(), readme_configuration(), shown_commands(program), reached(), readers_ways(), readmes()]
    checks += [made_by(it) for it in ("packaging/pages.py", "bench/tables.py", "tools/uses.py", "tools/page.py")]
    checks += [in_page(it, words, names) for it in PARTS]
    checks += [check(it) for it in PAGES for check in (links, lengths, widths)]
    checks += [readme_commands(program)] if program else []
    passed = failed = 0
    for it in checks:
        found = list(it)
        print("\n".join(found), end="\n" if found else "")
        passed, failed = passed + (not found), failed + bool(found)
    print(f"{passed} passed, {failed} failed")
    return 1 if failed else 0


if __name__ == "__main__":
    sys.exit(main())
