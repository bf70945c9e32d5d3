#!/usr/bin/env python3
"""Writes crates.txt from uses.txt: of each crate what it uses, with all that comes with it.

    tools/uses.py             writes crates.txt
    tools/uses.py --check     says where both differ, or where uses.txt and the files of a crate do; the status is 1 then

A line of uses.txt is `NAME: USE .. | USE ..`, in sections as in crates.txt. In front of the bar stands what goes on to the lines of those above, behind it
what goes into the crate's own line alone. Each name is one that a file of its src, specs or proofs names, but for those with a plus (`+hex`): no file names
them, and the line has them all the same. A name that is no folder of crates is the kit's: such a line says what of the kit comes with it, and isn't written.

A line of crates.txt has what its crate uses, each with what goes on from it. Words that it has already keep their places, since what was proved, and the
record of the edits, stand by the line as it is. A new word is put behind the use by which it comes."""
import re
import sys
from pathlib import Path

TOP = Path(__file__).resolve().parent.parent
HEAD = "# name: what it stands on, lowest first in each section and over all"


def rows_of(text):
    """The lines of such a file, each as what stands in front of the colon (a name, and how it is built) and behind it, or as a comment with None."""
    return [(line, None) if line.startswith("#") else tuple(line.split(":", 1)) for line in text.splitlines() if line]


def by_name(text):
    """What stands behind the colon, by the names of such a file."""
    return {head.split()[0]: rest for head, rest in rows_of(text) if rest is not None}


class Uses:
    """What a line of uses.txt says: all names in their order, those that go on, and those that no file names."""

    def __init__(self, text):
        on, _, inside = text.partition("|")
        self.all = [it.lstrip("+") for it in [*on.split(), *inside.split()]]
        self.on = [it.lstrip("+") for it in on.split()]
        self.unnamed = {it[1:] for it in text.split() if it.startswith("+")}


def with_those_below(names, uses, found=()):
    """These names in their order, each followed by what goes on from it, behind those that were found before."""
    found = list(found)
    for name in names:
        if name not in found:
            found = with_those_below(uses[name].on if name in uses else [], uses, [*found, name])
    return found


def in_places(words, before):
    """The words of a line: those that it had before in their places, each new one behind its neighbour."""
    line = [it for it in before if it in words]
    for at, word in enumerate(words):
        if word not in line:
            line.insert(line.index(words[at - 1]) + 1 if at else 0, word)
    return line


def is_ours(name):
    """Whether it is a crate of the repository, and not the kit's."""
    return (TOP / "crates" / name / "src").is_dir()


def written(rows, uses, before):
    """The text of crates.txt. A section of the kit's crates alone isn't written."""
    lines, section = [HEAD], []
    for head, rest in rows:
        name = head.split()[0]
        if rest is None:
            section = [head]
        elif is_ours(name):
            lines += [*section, " ".join([f"{head}:", *in_places(with_those_below(uses[name].all, uses), before.get(name, []))])]
            section = []
    return "\n".join(lines) + "\n"


def named_by(name, known):
    """Those of the known crates that the files of a crate name, outside of comments and of modules of the same name."""
    found, modules = set(), set()
    for path in (it for part in ("src", "specs", "proofs") for it in (TOP / "crates" / name / part).rglob("*")):
        text = path.read_text("utf-8") if path.suffix in (".rt", ".antt") else ""
        text = re.sub(r"//.*" if path.suffix == ".rt" else r"(?m)(?:^|\s)--.*", "", text)
        found.update(re.findall(r"\bRattle\.(\w+)", text))
        if path.suffix == ".rt":
            found.update(re.findall(r"\b(\w+)::", text), re.findall(r"\buse (\w+)(?:;| as\b)", text))
            modules.update(re.findall(r"(?m)^\s*(?:pub )?mod (\w+)", text))
    return (found - modules) & known - {name}


def differences(uses, now, wanted):
    """A line for each difference: of the two files, and of uses.txt and what the crates' files name."""
    before, after = ({name: rest.split() for name, rest in by_name(it).items()} for it in (now, wanted))
    yield from (f"{it} has a line in {'crates.txt' if it in before else 'uses.txt'} alone" for it in sorted(set(before) ^ set(after)))
    for name in sorted(set(before) & set(after)):
        yield from (f"crates.txt: {name} has {it}, and uses.txt gives it none" for it in before[name] if it not in after[name])
        yield from (f"crates.txt: {name} hasn't {it}" for it in after[name] if it not in before[name])
    if now != wanted:
        yield "crates.txt isn't what tools/uses.py writes from uses.txt"
    known = {it.name for it in (TOP / "crates").iterdir()} | set(uses) | {it for one in uses.values() for it in one.all}
    for name in filter(is_ours, uses):
        named, told = named_by(name, known), set(uses[name].all)
        yield from (f"uses.txt: {name} hasn't {it}, which its files name" for it in sorted(named - told | named & uses[name].unnamed))
        yield from (f"uses.txt: {name} has {it}, which no file of it names" for it in sorted(told - named - uses[name].unnamed))


def main():
    text, now = ((TOP / it).read_text("utf-8") for it in ("uses.txt", "crates.txt"))
    uses = {name: Uses(rest) for name, rest in by_name(text).items()}
    wanted = written(rows_of(text), uses, {name: rest.split() for name, rest in by_name(now).items()})
    if "--check" in sys.argv[1:]:
        found = list(differences(uses, now, wanted))
        print("\n".join(found), end="\n" if found else "")
        return 1 if found else 0
    (TOP / "crates.txt").write_text(wanted, "utf-8")
    return 0


if __name__ == "__main__":
    sys.exit(main())
