#!/usr/bin/env python3
"""Marks what a run of `rt ci` has proved in its tree so that tools/adopt.py can take it over, while the run goes on or once it has ended.

usage: gate_proofs.py TREE LOG      (TREE: a copy of the repository in which `rt ci` runs; LOG: what that said)

Of each crate of which LOG says that it is proved: crates/NAME/out/check.log (what the prover said), out/proved (the sum of what was proved), and the
stamp of its library, without which `rt check` would make that again. Of a crate that an earlier run had proved LOG has no more than that: the names of
its functions are those of its library, and a program without one is not marked. It prints how many crates it marked."""
import importlib.machinery
import importlib.util
import json
import os
import re
import sys
from pathlib import Path

from kept import crates_below, sum_of


def rt_library():
    """Returns the module of `rt` that knows a library's stamp."""
    loader = importlib.machinery.SourceFileLoader("rt_command", "/usr/local/bin/rt")
    module = importlib.util.module_from_spec(importlib.util.spec_from_loader("rt_command", loader))
    loader.exec_module(module)
    return module.rtlib


def said_of(log):
    """Returns what the prover said of each crate that the log calls proved."""
    found = {}
    for part in log.split("\n== ")[1:] if not log.startswith("== ") else ("\n" + log).split("\n== ")[1:]:
        name, _, said = part.partition("\n")
        if re.search(rf"^rt: {name} proved$", said, re.MULTILINE):
            found[name] = said
    return found


def kept_in(log):
    """Returns the crates that the log says an earlier run had proved."""
    return re.findall(r"^rt: (\S+) is kept:", log, re.MULTILINE)


def said_by_library(name):
    """Returns what the prover says of a proved crate, as far as its library tells: that it is proved, and its functions. None where it has no library."""
    code = Path(f"crates/{name}/out/rlib/{name}.rlib/toolchain/mir.json")
    if not code.is_file():
        return None
    functions = [it for it, _ in json.loads(code.read_text("utf-8")) if "+decl" not in it and "Destruct++" not in it]
    return "".join(f"fn {it}: proved\n" for it in functions) + "logic=proved (rt ci kept it)\n"


def mark_library(library, tree, name):
    """Writes the stamp of a crate's library, where there is one."""
    rlib, folder = Path(f"crates/{name}/out/rlib"), str(tree / f"crates/{name}")
    if rlib.is_dir():
        (rlib / "stamp").write_text(library.Crate(folder, library.root_above(folder), {}).stamp(), "utf-8")


def main():
    tree, log = Path(sys.argv[1]).resolve(), Path(sys.argv[2]).read_text("utf-8", "replace")
    library = rt_library()
    os.chdir(tree)
    below, marked = crates_below(), 0
    kept = {name: said_by_library(name) for name in kept_in(log)}
    for name, said in {**kept, **said_of(log)}.items():
        out = Path(f"crates/{name}/out")
        if name not in below or not out.is_dir() or not said:
            continue
        (out / "check.log").write_text(said, "utf-8")
        (out / "proved").write_text(sum_of(name, below[name]), "utf-8")
        mark_library(library, tree, name)
        marked += 1
    print(f"{marked} crates")


if __name__ == "__main__":
    main()
