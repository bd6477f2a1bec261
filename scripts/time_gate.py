#!/usr/bin/env python3
"""Tells what a run of the gate costs: time_gate.py watch PID FILE | time_gate.py show FILE

`watch` follows a running `rt ci` by its number until it ends, and twice a second writes to the file what each process that it started has used so
far. `show` prints the processor seconds by kind and by crate: of proofs, of proofs with tests, of what edits begin with, of edits, of the last look at
what they began with, and of all else. A process that starts and ends between two looks is counted in the total alone. Nothing but `/proc/PID/stat`
and the words of a process are read: what is read from its output would be lost to `rt ci`. `show` works while `watch` runs.
"""
import collections
import json
import os
import re
import sys
import time

TICK = os.sysconf("SC_CLK_TCK")
LOOK = 0.5
KINDS = ["proof", "tests", "beginning", "edit", "sound", "else"]


def used(pid):
    """The process that started this one, its processor seconds with those of what it waited for, and when it began."""
    with open(f"/proc/{pid}/stat", encoding="utf-8") as it:
        fields = it.read().rsplit(")", 1)[1].split()
    return int(fields[1]), sum(map(int, fields[11:15])) / TICK, int(fields[19])


def look(pid, jobs):
    """Notes what each process has used that this one started."""
    for name in filter(str.isdigit, os.listdir("/proc")):
        try:
            parent, seconds, began = used(name)
            if parent != pid:
                continue
            with open(f"/proc/{name}/cmdline", encoding="utf-8") as it:
                words = it.read().split("\0")
            job = jobs.setdefault(f"{name} {began}", {"words": words, "folder": "", "seconds": 0})
            # (a process that has just been started still has the words of `rt`)
            job["words"] = words if any(words) else job["words"]
            job["folder"] = os.readlink(f"/proc/{name}/cwd")
            job["seconds"] = max(job["seconds"], seconds)
        except (OSError, IndexError):
            pass


def watch(pid, file):
    jobs = {}
    while True:
        try:
            total = used(pid)[1]
        except OSError:
            return
        look(pid, jobs)
        with open(f"{file}.part", "w", encoding="utf-8") as it:
            json.dump({"total": total, "jobs": list(jobs.values())}, it)
        os.replace(f"{file}.part", file)
        time.sleep(LOOK)


def after(words, flag):
    return next((words[at + 1] for at in range(len(words) - 1) if words[at] == flag), "")


def kind_of(words, folder, begun):
    """What a job is, by its words and where it runs; `begun` has the folders with which edits began."""
    over = after(words, "--incremental")
    if "check" in words[:2] and not over:
        return "edit" if "/rt-edit-" in folder else "proof"
    if re.search(r"/rt-edits-[^/]*/seed$", over):
        kind = "sound" if over in begun else "beginning"
        begun.add(over)
        return kind
    if re.search(r"/rt-edits-[^/]*/\d+$", over):
        return "edit"
    if "build" in words[:2]:
        return "tests" if "--test" in words else "proof"
    return "else"


def show(file):
    with open(file, encoding="utf-8") as it:
        found = json.load(it)
    begun, kinds, crates = set(), collections.Counter(), collections.defaultdict(collections.Counter)
    for job in found["jobs"]:
        kind, crate = kind_of(job["words"], job["folder"], begun), after(job["words"], "--crate-name")
        kinds[kind] += job["seconds"]
        crates[crate or "-"][kind] += job["seconds"]
        crates[crate or "-"][f"{kind}s"] += 1
    print(f"{found['total'] / 60:.1f} processor minutes that have ended, {sum(kinds.values()) / 60:.1f} seen")
    print(", ".join(f"{it} {kinds[it] / 60:.1f}" for it in KINDS))
    for crate, of in sorted(crates.items(), key=lambda it: -sum(it[1][kind] for kind in KINDS)):
        parts = [f"{kind} {of[kind]:.0f}" + (f" in {of[kind + 's']}" if of[f"{kind}s"] > 1 else "") for kind in KINDS if of[f"{kind}s"]]
        print(f"{sum(of[kind] for kind in KINDS):6.0f} s {crate}: {', '.join(parts)}")


def main():
    if sys.argv[1:2] == ["watch"] and len(sys.argv) == 4:
        watch(int(sys.argv[2]), sys.argv[3])
    elif sys.argv[1:2] == ["show"] and len(sys.argv) == 3:
        show(sys.argv[2])
    else:
        sys.exit(__doc__)


if __name__ == "__main__":
    main()
