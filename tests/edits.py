#!/usr/bin/env python3
"""Tries the must-fail edits crates/NAME/must-fail/*.edit over the work that `tools/prove.py` kept, and keeps a record of what passed.

usage: edits.py [--jobs N] [--alone] [--minutes M] [--changed | NAME ..]     tries the edits of the named crates; of those whose record is stale; of all
       edits.py --stale                                        tells which crates' record is stale, and tries nothing
       edits.py --share K/N                                    prints the edits of the K-th of N shares, which cost about the same

The prover must refuse each edit, as under `rt ci`. An edit that cannot be applied, that is not refused, or whose text the prover cannot
read fails, and so do the edits of a crate that isn't proved as it stands. No source is written: each check is made in a room (tools/kept.py).

The edits of a crate that touch different functions are tried in one check of those functions: a function is proved from the contracts of
what it calls, so what is said of one doesn't depend on another's body (`rt plant` tries its bodies so). Each must be refused by a goal of its
own function; one of which that isn't plain is tried by itself, at last on the whole crate. --alone tries each alone, on the whole crate.
--jobs N makes N checks side by side, and a check takes 1 to 4 GB. With --minutes M no check is begun after M minutes: crates with edits that are left
then are told, count neither as passed nor as failed, and keep their lines of the record. It prints a line an edit and one a check, with its processor seconds.

The record, tests/edits.passed, has a line for each crate all of whose edits were refused: its name, a sum over its files, those of the crates
below it and the kit's logic, the number of its edits, and the processor seconds of the tries. --stale compares the sums with the files that
are there. The last line is 'N passed, M failed': of edits, or of crates."""
import argparse
import collections
import os
import re
import sys
import time
from concurrent.futures import ThreadPoolExecutor, as_completed
from pathlib import Path

sys.path.insert(0, str(Path(__file__).resolve().parent.parent / "tools"))
from kept import crates_below, proof_of, room_of, run, sum_of  # noqa: E402

RECORD = "tests/edits.passed"
PARTS = ("src", "specs", "proofs", "must-fail")
PIECE = 6  # so many edits of a crate at most are in one share
Function = collections.namedtuple("Function", "file name first last")
Edit = collections.namedtuple("Edit", "name pairs functions")
HEAD = re.compile(r"( *)(?:pub(?:\([^)]*\))? )?(?:const |unsafe )*fn (\w+)")
# A function with an open goal of its own. (Of one that only calls such a function the line says that alone.)
REFUSED = re.compile(r"fn (\S+): (?:not proved|no proof: expected )")
# What antt says where it couldn't read a text, and not that a statement is false.
UNREAD = r"is not in scope|has no field|is no name|operand is missing|expected the end|cannot continue"
NAMED = r"(?:\./)?proofs/.*(?:has no field|is not in scope|has no `|was not admitted)"  # a proof file names what the edit took away


def read_record():
    """Returns the record: for each crate its sum, the number of its edits, and the processor seconds of the tries."""
    rows = Path(RECORD).read_text("utf-8").split("\n") if os.path.isfile(RECORD) else []
    return {it.split()[0]: it.split()[1:] for it in rows if it and not it.startswith("#")}


def write_record(record):
    head = "# crate, sum of its files, those below it and the kit's logic, edits refused, processor seconds: written by tests/edits.py\n"
    Path(RECORD).write_text(head + "".join(f"{name} {' '.join(record[name])}\n" for name in sorted(record)), "utf-8")


class OutOfTime(Exception):
    """No further check is to be begun."""


def edits_in(crate):
    folder = f"crates/{crate}/must-fail"
    return sorted(it for it in os.listdir(folder) if not it.endswith(".md")) if os.path.isdir(folder) else []


def stale_crates(below):
    """Returns the crates with edits whose line of the record isn't that of the files, and the record's crates that have no edits."""
    wanted = {it: [sum_of(it, below[it], PARTS), str(len(edits_in(it)))] for it in below if edits_in(it)}
    record = read_record()
    return [it for it in {**wanted, **record} if record.get(it, [])[:2] != wanted.get(it)]


def function_at(file, text, at):
    """Returns the function of a laid out text that holds the place, or None: it ends at a brace as deep as its head."""
    lines, line = text.split("\n"), text.count("\n", 0, at)
    for first in range(line, -1, -1):
        head = HEAD.match(lines[first])
        if head:
            last = next((it for it in range(first, len(lines)) if lines[it].startswith(head[1] + "}")), -1)
            while lines[first - 1].lstrip().startswith("#["):  # (the prover counts a function's attributes with it)
                first -= 1
            return Function(file, head[2], first + 1, last + 1) if line <= last else None
    return None


def read_edit(folder, name):
    """Returns the edit, or why it cannot be applied. Its functions are None where it changes a text outside of any."""
    file, old, pairs, functions, texts = "", None, [], set(), {}
    for line in Path(f"{folder}/must-fail/{name}").read_text("utf-8").split("\n"):
        if line.startswith("file: "):
            file = line[len("file: ") :].strip()
        elif line.startswith("old: "):
            old = line[len("old: ") :]
        elif line.startswith("new:"):
            if not old or not re.match("(?:src|specs|proofs)/", file) or not os.path.isfile(f"{folder}/{os.path.normpath(file)}"):
                return "a 'new:' line stands before any 'file:' or 'old:' line, or there is no such file below src/, specs/ or proofs/"
            text = texts.setdefault(file, Path(f"{folder}/{file}").read_text("utf-8"))
            if text.count(old) != 1:
                return f"an 'old:' text is in {file} {text.count(old)} times, and not once"
            functions |= set() if old.startswith("use ") else {function_at(file, text, text.index(old))}
            pairs.append((file, old, re.sub(r"\A ", "", line[len("new:") :])))
            texts[file], old = text.replace(old, pairs[-1][2]), None
    return Edit(name, pairs, None if None in functions else functions) if pairs else "it has no 'old:' and 'new:' pair"


def rounds_of(edits, is_alone):
    """Returns the edits in groups, where no two of a group meet: each that changes a text outside of functions stands by itself."""

    def meet(one, other):
        texts = [(a, b) for _, a, _ in one.pairs for _, _, b in other.pairs] + [(a, b) for _, _, b in one.pairs for _, a, _ in other.pairs]
        return not one.functions or not other.functions or one.functions & other.functions or any(a in b for a, b in texts)

    rounds = []
    for edit in edits:
        fits = [it for it in rounds if not is_alone and not any(meet(edit, other) for other in it)]
        fits[0].append(edit) if fits else rounds.append([edit])
    return rounds


def check(crate, below, edits, only=()):
    """Checks the crate, or these functions of it, with the edits, and returns the status, what was said, and the processor seconds."""
    room = room_of(crate, below)
    with room:
        for file, old, new in [(f"{room.name}/crates/{crate}/{it[0]}", *it[1:]) for edit in edits for it in edit.pairs]:
            text = Path(file).read_text("utf-8")
            os.remove(file)  # (a hard link: the source itself stays)
            Path(file).write_text(text.replace(old, new), "utf-8")
        words = ["rt", "check", "--jobs", "1", *[word for it in only for word in ("--only", it)]]
        status, said, seconds, memory = run(room, crate, words)
    tried = " ".join(it.name.removesuffix(".edit") for it in edits) or "as it stands"
    print(f"check {crate}: {seconds:.1f} s, {memory} MB: {tried}", flush=True)
    return status, said, seconds


def unread(line, files):
    """Returns whether the line says that a text of src/ or specs/, or an edited file, cannot be read."""
    at = re.match(r"(?:\./)?(\S+?):\d+:\d+: error(?:\[[\w-]+\])?: (?:(`[^`]*`): )?(.*)", line)
    is_there = at and (at[1] in files or at[1].startswith(("src/", "specs/")))
    return is_there and (not at[2] or re.search(UNREAD, re.sub(r"`[^`]*`", "", at[3])))


def named(function, crate, names):
    """Returns the prover's names of the function and its closures, in parts: more than one function's where a file has several of one name."""
    module = [crate, *[it for it in re.sub(r"^src/|\.rt$", "", function.file).split("/") if it not in ("lib", "main", "mod")]]
    names = [it.split("::") for it in names]
    return [it for it in names if it[: len(module)] == module and function.name in it[len(module) :]]


def goal_of(function, others, crate, lines):
    """Returns an open goal in this function's lines, its proof's files, or those of its cycle of calls, or None."""
    names = named(function, crate, [it[1] for it in map(REFUSED.match, lines) if it])
    folders = [f"proofs/{'/'.join([*it[1:-1], cycle + it[-1]])}/" for it in names for cycle in ("", "+")]
    folders = folders if [it.name for it in others].count(function.name) == 1 else []
    folders += [f"proofs/{function.file[len('src/'):-len('.rt')]}/+"] if [it.file for it in others].count(function.file) == 1 else []
    for line in lines if names else []:
        at = re.match(r"(?:note: )?(?:\./)?(\S+?):(\d+):\d+: (?:error|it is not proved)", line)
        is_own = at and at[1] == function.file and function.first <= int(at[2]) <= function.last
        if is_own or at and at[1].startswith(tuple(folders)) and not re.match(NAMED, line):
            return line
    return None


def judge(edits, crate, status, said):
    """Returns, for each edit of one check, whether it passed and why, or None where it has to be tried with fewer."""
    lines, files = said.split("\n"), {file for it in edits for file, _, _ in it.pairs}
    bad = next((it for it in lines if unread(it, files)), None)
    is_judged = status == 1 and re.search(r"(?m)^(?:logic=not-proved|only=\d+ proved=\d+)$", said)
    if len(edits) > 1:
        others = [it for edit in edits for it in edit.functions]
        goals = [[goal_of(it, others, crate, lines) for it in edit.functions] for edit in edits]
        return [(True, f"refused: {it[0]}") if is_judged and not bad and all(it) else None for it in goals]
    if bad or "Run the lower steps again" in said:
        return [(False, f"BAD EDIT: the prover cannot read it, so no contract was tried: {bad or 'a library is stale'}")]
    if not is_judged:
        return [(False, "NOT REFUSED: it is still proved with it" if status == 0 else f"BAD EDIT: it did not reach the prover: {said[-300:]}")]
    told = [it for it in lines if re.match(r"(note: )?\S+:\d+:\d+:", it) and (": error" in it or it.startswith("note: "))]
    first = next((it for it in told if not re.match(NAMED, it)), "")
    return [(True, f"refused: {first}" if first or not told else f"refused (only a proof file names what went, which says little): {told[0]}")]


def try_round(edits, crate, below, names, is_alone):
    """Tries edits in one check, and returns what is said of each (None: it has to be tried by itself) and the processor seconds."""
    only = [[it for it in named(one, crate, names) if it[-1] == one.name] for edit in edits for one in edit.functions or ()]
    only = sorted({"::".join(it) for each in only for it in each}) if all(only) and not is_alone else []
    *found, seconds = check(crate, below, edits, only)
    results = judge(edits, crate, *found)
    if only and len(edits) == 1 and not results[0][0]:
        *found, more = check(crate, below, edits)
        results, seconds = judge(edits, crate, *found), seconds + more
    return results, seconds


def try_crate(crate, below, is_alone, checks, end):
    """Tries a crate's edits in this pool, and returns its name, what is said of each edit, the processor seconds, and whether there was time for all."""
    found = {it: read_edit(f"crates/{crate}", it) for it in edits_in(crate)}
    tried = [(name, (False, f"BAD EDIT: {why}")) for name, why in found.items() if isinstance(why, str)]
    said, spent = proof_of(crate, below), [0]
    if not said:
        _, said, spent[0] = checks.submit(check, crate, below, []).result()
    if not re.search(r"(?m)^logic=proved", said):
        return crate, [(it, (False, "BAD CRATE: it is not proved as it stands")) for it in found], spent[0], True
    names, alone = re.findall(r"(?m)^fn (\S+): proved$", said), []

    def results_of(rounds):
        """Tries these groups of edits, and yields what is said of each; fails where the time is over."""

        def begun(edits):
            if time.monotonic() > end:
                raise OutOfTime
            return try_round(edits, crate, below, names, is_alone)

        for edits, (results, more) in zip(rounds, checks.map(begun, rounds)):
            spent[0] += more
            yield from zip(edits, results)

    try:
        for edit, result in results_of(rounds_of([it for it in found.values() if isinstance(it, Edit)], is_alone)):
            tried += [(edit.name, result)] if result else []
            alone += [] if result else [edit]
        tried += [(edit.name, result) for edit, result in results_of([[it] for it in alone])]
    except OutOfTime:
        return crate, tried, spent[0], False
    return crate, tried, spent[0], True


def try_all(crates, below, jobs, is_alone, end):
    """Tries the crates' edits until the time is over, notes the crates of which all are refused, and returns how many edits passed and failed."""
    passed = failed = 0
    with ThreadPoolExecutor(jobs) as checks, ThreadPoolExecutor(len(crates) or 1) as pool:
        for each in as_completed([pool.submit(try_crate, it, below[it], is_alone, checks, end) for it in crates]):
            crate, tried, seconds, is_whole = each.result()
            for name, (is_well, why) in tried:
                passed, failed = passed + is_well, failed + (not is_well)
                print(f"{crate}/{name}: {why[:240]}", flush=True)
            if not is_whole:
                print(f"{crate}: the time was over when {len(tried)} of its {len(edits_in(crate))} edits were tried", flush=True)
                continue
            record = read_record()
            record.pop(crate, None)
            if all(it[0] for _, it in tried):
                record[crate] = [sum_of(crate, below[crate], PARTS), str(len(tried)), f"{seconds:.0f}"]
            write_record(record)
    return passed, failed


def share(words, below):
    """Returns the edits of a share, each as its file: those of a crate in pieces of at most six, the dearest piece by the record first, each put into
    the share that is the cheapest so far."""
    at, _, number = words.partition("/")
    record, shares, pieces = read_record(), [[0, []] for _ in range(int(number))], []
    for crate in filter(edits_in, below):
        found = [f"crates/{crate}/must-fail/{it}" for it in edits_in(crate)]
        each = int(record[crate][2]) / len(found) if crate in record else 60
        pieces += [(each * len(found[it : it + PIECE]), found[it : it + PIECE]) for it in range(0, len(found), PIECE)]
    for cost, piece in sorted(pieces, key=lambda it: (-it[0], it[1])):
        least = min(shares, key=lambda it: it[0])
        least[0] += cost
        least[1] += piece
    return shares[int(at) % len(shares)][1]


def main():
    words = argparse.ArgumentParser(usage=__doc__.split("\n\n")[1].replace("usage: ", ""))
    words.add_argument("--alone", action="store_true")
    words.add_argument("--changed", action="store_true")
    words.add_argument("--stale", action="store_true")
    words.add_argument("--share")
    words.add_argument("--jobs", type=int, default=1)
    words.add_argument("--minutes", type=float, default=float("inf"))
    words.add_argument("names", nargs="*")
    words = words.parse_args()
    below = crates_below()
    if words.share:
        print(*share(words.share, below))
        return 0
    stale = stale_crates(below) if words.stale or words.changed else []
    if words.stale:
        print("".join(f"{RECORD}: {it}'s line is stale: run tests/edits.py {it}\n" for it in stale), end="")
        passed, failed = sum(bool(edits_in(it)) for it in below if it not in stale), len(stale)
    else:
        wanted = [it for it in below if it in (words.names or (stale if words.changed else below)) and edits_in(it)]
        write_record({name: it for name, it in read_record().items() if name in below and edits_in(name)})
        passed, failed = try_all(sorted(wanted, key=lambda it: -len(below[it])), below, words.jobs, words.alone, time.monotonic() + 60 * words.minutes)
    print(f"{passed} passed, {failed} failed")
    return 1 if failed or not passed and not words.changed else 0


if __name__ == "__main__":
    raise SystemExit(main())
