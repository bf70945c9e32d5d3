"""Folders in which a crate is checked over the work that earlier checks kept in crates/NAME/out/.

`rt` locks the folder of a crate and those of the crates below it for as long as it runs. A room is a folder below the crate's out/ that holds the crate
and those below it by hard links, with folders of its own, so that nothing waits: the prover replaces its files and never writes into one."""
import hashlib
import os
import re
import shutil
import subprocess
import tempfile
from pathlib import Path


def crates_below():
    """Returns the repository's crates, each with those of them that it stands on, directly or not."""
    rows = [it.partition("#")[0].partition(":") for it in Path("crates.txt").read_text("utf-8").split("\n")]
    uses = {head.split()[0]: below.split() for head, _, below in rows if head.strip()}
    below = lambda name: {it for dep in uses[name] if dep in uses for it in [dep, *below(dep)]}
    return {it: below(it) for it in uses}


def sum_of(crate, below, parts=("src", "specs", "proofs")):
    """Returns a sum over the kit's logic, the lines of crates.txt, the crate's files in these parts, and those of the crates below it that are proved."""
    kit = subprocess.run(["rt", "version"], capture_output=True, text=True, check=True).stdout.split()[-1]  # (the logic's sum)
    rows = [it for it in Path("crates.txt").read_text("utf-8").split("\n") if re.split("[: ]", it)[0] in {*below, crate}]
    found = hashlib.sha256("\n".join([kit, *sorted(rows)]).encode())
    for name in [*sorted(below), crate]:
        of = parts if name == crate else ("src", "specs", "proofs")
        for file in sorted(it for part in of for it in Path(f"crates/{name}/{part}").rglob("*") if it.is_file()):
            found.update(f"{file} {hashlib.sha256(file.read_bytes()).hexdigest()}\n".encode())
    return found.hexdigest()[:32]


def proof_of(crate, below):
    """Returns what the prover said when the crate was proved as it stands now, or None where it wasn't."""
    stamp, log = Path(f"crates/{crate}/out/proved"), Path(f"crates/{crate}/out/check.log")
    is_there = stamp.is_file() and log.is_file() and stamp.read_text("utf-8") == sum_of(crate, below)
    return log.read_text("utf-8", "replace") if is_there else None


def room_of(crate, below):
    """Makes a room for the crate, and returns it as a folder that goes with its context."""
    os.makedirs(f"crates/{crate}/out", exist_ok=True)
    room = tempfile.TemporaryDirectory(prefix="room-", dir=f"crates/{crate}/out", ignore_cleanup_errors=True)
    for name in [*below, crate]:
        left_out = shutil.ignore_patterns("must-fail", "room-*", "check.log", "proved", *["incremental"] * (name != crate))
        shutil.copytree(f"crates/{name}", f"{room.name}/crates/{name}", copy_function=os.link, ignore=left_out)
    rows = Path("crates.txt").read_text("utf-8").split("\n")
    Path(f"{room.name}/crates.txt").write_text("".join(f"{it}\n" for it in rows if re.split("[: ]", it)[0] in {*below, crate}), "utf-8")
    shutil.copy("HANDLES", room.name)
    return room


def run(room, crate, words):
    """Runs a command in the crate's folder of a room, and returns its status, what it said, its processor seconds and its memory in MiB."""
    with tempfile.TemporaryFile("w+", errors="replace") as out:
        ran = subprocess.Popen(words, cwd=f"{room.name}/crates/{crate}", stdin=subprocess.DEVNULL, stdout=out, stderr=out)
        _, status, took = os.wait4(ran.pid, 0)
        ran.returncode = os.waitstatus_to_exitcode(status)
        out.seek(0)
        return ran.returncode, out.read(), took.ru_utime + took.ru_stime, took.ru_maxrss >> 10


def keep(room, crate, proved, said):
    """Puts what a check in the room kept in place of what the crate had, with what it said, and the sum of what was proved, if it was."""
    for name in ("proved", "check.log"):  # (another clone may have the same file, by `adopt.py`)
        Path(f"crates/{crate}/out/{name}").unlink(missing_ok=True)
    for part in ("incremental", "rlib"):
        made, to = f"{room.name}/crates/{crate}/out/{part}", f"crates/{crate}/out/{part}"
        if os.path.isdir(made):
            shutil.rmtree(to, ignore_errors=True)
            os.rename(made, to)
    Path(f"crates/{crate}/out/check.log").write_text(said, "utf-8")
    if proved:
        Path(f"crates/{crate}/out/proved").write_text(proved, "utf-8")
