#!/usr/bin/env python3
"""Checks a crate past libraries that are not proved yet: check_past.py CRATE [words of rattle check, as --only PATH].

Each library below that `rt ci` or `scripts/prove.py` kept on this machine, of the same texts, is taken. The others are passed as source: their
functions that CRATE calls are checked with it, past open goals, which are printed. So all crates of a large change can be mended side by
side, and not one after another. It is no verdict: that is `rt ci`'s. What was checked is kept in out/past of the crate.
"""
import os
import pathlib
import shutil
import subprocess
import sys

import prove
from prove import KIT, TOP


def is_ours(crate):
    return os.path.dirname(crate.folder) == f"{TOP}/crates"


def lend(rt, crates):
    """Gives each library that was kept, and returns the names of all that stand."""
    if not hasattr(rt, "Kept"):
        checkout = prove.Checkout()
        return {it.name for it in checkout.crates if not it.is_program and checkout.lend(it)}
    kept, standing = rt.Kept(crates), set()
    for crate in sorted(crates, key=lambda it: len(it.below())):
        if crate.is_program or any(it.name not in standing for it in crate.below() if is_ours(it)):
            continue
        made, stamp = f"{crate.folder}/out/rlib", crate.stamp()
        have = pathlib.Path(made, "stamp")
        if not (have.is_file() and have.read_text() == stamp and os.path.isdir(f"{made}/{crate.name}.rlib")):
            key = kept.key(crate)
            if not os.path.isdir(kept.place(crate, False, key)):
                continue
            shutil.rmtree(made, ignore_errors=True)
            os.makedirs(f"{crate.folder}/out", exist_ok=True)
            if not kept.give(crate, False, key):
                continue
            have.write_text(stamp)
        kept.is_built(crate)
        standing.add(crate.name)
    return standing


def command(crate, standing, words):
    """The check of a crate, with what does not stand as source."""
    below = [it for it in crate.below() if is_ours(it)]
    source = [it for it in below if it.name not in standing]
    of_kit = {"core", *crate.of_kit, *(name for it in source for name in it.of_kit)}
    built = [word for name in sorted(of_kit) for word in ("--extern", f"{name}={KIT}/rlibs/{name}.rlib")]
    for it in below:
        if it.name in standing:
            built += ["--extern", f"{it.name}={it.rlib}", "-L", f"dependency={os.path.dirname(it.rlib)}"]
        else:
            uses = dict.fromkeys(["core", *it.of_kit, *(use.name for use in it.deps)])
            built += ["--lib", f"{it.name}:{','.join(uses)}={it.folder}/src/lib.rt"]
    print("as source:", *(it.name for it in source), flush=True)
    return [
        f"{KIT}/bin/rattle", "check", "--crate-name", crate.name, "src/main.rt" if crate.is_program else "src/lib.rt",
        *built, "-L", f"dependency={KIT}/rlibs", "--antt-project", f"{KIT}/rattle/logic/antt-project.json",
        "--logic-built", f"{KIT}/logic_built", "--links", f"{crate.name}=", "--incremental", "out/past",
        "--allow-holes", "--progress", *words,
    ]


def main():
    os.chdir(TOP)
    rt = prove.rt_as_module()
    crates = {it.name: it for it in rt.rtlib.crates_below(TOP) if is_ours(it)}
    if len(sys.argv) < 2 or sys.argv[1] not in crates:
        sys.exit(__doc__)
    crate = crates[sys.argv[1]]
    standing = lend(rt, [it for it in crate.below() if is_ours(it)])
    os.makedirs(f"{crate.folder}/out/past", exist_ok=True)
    sys.exit(subprocess.run(command(crate, standing, sys.argv[2:]), cwd=crate.folder, check=False).returncode)


if __name__ == "__main__":
    main()
