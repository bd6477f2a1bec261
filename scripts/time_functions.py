#!/usr/bin/env python3
"""Tells which functions of a crate are expensive to prove: time_functions.py CRATE [PATH ..]

The crate is checked with one job, from nothing or, with names of functions (`module::Type::method`), these again over what the last run
left. A check writes a file for each step of a function's proof, one after another, so the processor seconds between two files are those of
the second. They are told by function and by kind of file: `Proof` is the search for goals, `Answers` those by hand, `Lts`, `Tie` and
`Layout` what is made of the body. Libraries that are not kept on this machine are passed as source, as `check_past.py` does, and their
functions are counted too. It is no verdict.
"""
import bisect
import collections
import os
import re
import shutil
import subprocess
import sys
import threading
import time

import check_past
import prove
from prove import TOP

TICK = os.sysconf("SC_CLK_TCK")
# What a check of a function is made anew for.
ANEW = re.compile(r"\.(Proof|Answers|Goals)(\.decls)?\.oantt$")
SHOWN = 40


class Clock:
    """The processor seconds of a process, at moments while it runs."""

    def __init__(self, process):
        self.moments, self.seconds = [], []
        self.watch = threading.Thread(target=self.read, args=(process,))
        self.watch.start()

    def read(self, process):
        while process.poll() is None:
            try:
                with open(f"/proc/{process.pid}/stat", encoding="utf-8") as it:
                    fields = it.read().rsplit(")", 1)[1].split()
            except OSError:
                break
            self.moments.append(time.time())
            self.seconds.append((int(fields[11]) + int(fields[12])) / TICK)
            time.sleep(0.05)

    def at(self, moment):
        here = min(bisect.bisect_left(self.moments, moment), len(self.moments) - 1)
        return self.seconds[here]


def files_in(folder):
    return [os.path.join(at, name) for at, _, names in os.walk(folder) for name in names]


def clear(folder, paths):
    """Removes what is to be checked anew: everything, or the search and the answers of these functions."""
    if not paths:
        shutil.rmtree(folder, ignore_errors=True)
    names = [f".{it.replace('::', '.')}." for it in paths]
    for file in files_in(folder):
        if ANEW.search(file) and any(it in os.path.basename(file) for it in names):
            os.remove(file)
    os.makedirs(folder, exist_ok=True)


def tell(folder, begun, clock):
    """Prints the seconds of each function, the most expensive first."""
    written = sorted((os.lstat(it).st_mtime, os.path.basename(it)) for it in files_in(folder))
    functions, before = collections.defaultdict(collections.Counter), 0.0
    for moment, name in written:
        if moment < begun or not name.endswith(".oantt"):
            continue
        now = clock.at(moment)
        parts = re.sub(r"(\.decls)?\.oantt$", "", name).removeprefix("Rattle-").split(".")
        functions[".".join(parts[:-1])][parts[-1]] += now - before
        before = now
    for function, kinds in sorted(functions.items(), key=lambda it: -it[1].total())[:SHOWN]:
        most = ", ".join(f"{kind} {spent:.1f}" for kind, spent in kinds.most_common(5) if spent > 0.1)
        print(f"{kinds.total():6.1f}  {function}  ({most})")


def main():
    os.chdir(TOP)
    rt = prove.rt_as_module()
    crates = {it.name: it for it in rt.rtlib.crates_below(TOP) if check_past.is_ours(it)}
    if len(sys.argv) < 2 or sys.argv[1] not in crates:
        sys.exit(__doc__)
    crate, paths = crates[sys.argv[1]], sys.argv[2:]
    standing = check_past.lend(rt, [it for it in crate.below() if check_past.is_ours(it)])
    folder = f"{crate.folder}/out/past"
    clear(folder, paths)
    only = [word for it in paths for word in ("--only", it)]
    begun = time.time()
    with subprocess.Popen(check_past.command(crate, standing, ["--jobs", "1", *only]), cwd=crate.folder) as process:
        clock = Clock(process)
        clock.watch.join()
    print(f"{clock.seconds[-1]:.1f} processor seconds, {time.time() - begun:.1f} seconds")
    tell(folder, begun, clock)
    return process.returncode


if __name__ == "__main__":
    sys.exit(main())
