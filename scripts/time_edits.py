#!/usr/bin/env python3
"""Times each must-fail edit of crates, and tells which clause refuses it: time_edits.py [CRATE ..]

With no names all crates are tried, one check after another. Each edit is applied and checked by rt's own code, over what a check of
the crate as it stands left, as `rt ci` does, in copies among the temporary files: nothing in the checkout changes. That check begins
with what `rt check` kept, where that is there. The libraries below have to be built by now: `rt check` in the crate's folder does it.

For each edit are told the processor seconds and the seconds of its check, whether it is refused, and the goals that stay open: the
function, the clause, and the goal's own name in brackets. Then follow, for each crate, the seconds of its own check and of all edits,
the edits that fall by the same clause of the same function, of which one may be enough, and those that take more than twice the
crate's median, which may want a cheaper form. The status is 1 where an edit is not refused, or a crate could not be tried.
"""
import importlib.machinery
import importlib.util
import os
import re
import resource
import shutil
import statistics
import sys
import time
from pathlib import Path

TOP = Path(__file__).resolve().parent.parent
UNPROVED = re.compile(r"(?:fn|impl|struct|enum|trait|mod|const) (\S+): (?!proved$).*")
# A goal at a line of the source, and one that the answer in a function's own proof does not fit.
OPEN = re.compile(r"(?:note: )?(src/\S+\.rt):(\d+):\d+: (?:error: )?it is not proved .*?\(`([^`]+)`\)")
UNFIT = re.compile(r"(?:note: )?(?:\./)?proofs/(\S+)/\w+\.antt:\d+:\d+: error: `([^`]*)`: (.*)")
NAME_GONE = re.compile(r"has no field|is not in scope|has no `|was not admitted")
FUNCTION = re.compile(r"\s*(?:pub(?:\(crate\))? )?(?:const )?fn (\w+)")
CLAUSE = re.compile(r"clause-(\S+)$")
SHOWN = 3


def kit():
    """The code of `rt`, as a module."""
    loader = importlib.machinery.SourceFileLoader("rt", shutil.which("rt") or sys.exit("there is no rt here"))
    made = importlib.util.module_from_spec(importlib.util.spec_from_loader("rt", loader))
    sys.modules["rt"] = made
    loader.exec_module(made)
    return made


class Clock:
    """Processor seconds of the commands that were waited for, and seconds."""

    def __init__(self):
        self.begun = self.now()

    def now(self):
        used = resource.getrusage(resource.RUSAGE_CHILDREN)
        return used.ru_utime + used.ru_stime, time.monotonic()

    def spent(self):
        return tuple(now - begun for now, begun in zip(self.now(), self.begun))


class Goal:
    """A goal that stays open, by its function and its own name."""

    def __init__(self, function, name):
        self.function, self.name = function, name

    @property
    def clause(self):
        """What the goal is of: a clause of the function by its name, its only one, or what a call requires."""
        named = CLAUSE.search(self.name)
        if named:
            return named[1]
        return "ensures" if self.name.startswith("returns") else self.name

    def __str__(self):
        same = self.clause == self.name
        return f"{self.function}: {self.clause}{'' if same else f' ({self.name})'}"


def function_at(file, number):
    """The name of the function that has this line of a source."""
    lines = Path(file).read_text(encoding="utf-8").splitlines()[:number]
    return next((found[1] for found in map(FUNCTION.match, reversed(lines)) if found), Path(file).stem)


def full_name(functions, file, name):
    """The function of this name in this source, or else the first so called, as the check names it."""
    module = file.removeprefix("src/").removesuffix(".rt").replace("/", "::")
    same = [it for it in functions if it.split("::")[-1] == name]
    return next((it for it in same if it.startswith(f"{module}::")), (same or [name])[0])


def goals_in(crate, said):
    """The goals that a check left open, in its order, each once."""
    found, lines = {}, said.splitlines()
    functions = [it[1].removeprefix(f"{crate.name}::") for it in map(UNPROVED.match, lines) if it]
    for line in lines:
        left, unfit = OPEN.match(line), UNFIT.match(line)
        if left:
            function, goal = full_name(functions, left[1], function_at(f"{crate.folder}/{left[1]}", int(left[2]))), left[3]
        elif unfit and not NAME_GONE.search(unfit[3]):
            function, goal = unfit[1].replace("/", "::"), unfit[2]
        else:
            continue
        found.setdefault((function, goal), Goal(function, goal))
    return [*found.values()] or [Goal(it, "its proof") for it in functions]


class Edit:
    """What the try of an edit came to."""

    def __init__(self, rt, crate, path, seed):
        self.name, said, check = Path(path).stem, [], rt.checked

        def checked(*given):
            ran = check(*given)
            said.append(ran.stdout)
            return ran

        over, rt.checked = f"{seed}/over", checked
        try:
            rt.linked(f"{seed}/seed", over)
            clock = Clock()
            self.kind, self.text = rt.must_fail(crate, path, ["--jobs", "1"], over)
            self.processor, self.seconds = clock.spent()
        finally:
            rt.checked = check
            shutil.rmtree(over, ignore_errors=True)
        self.goals = goals_in(crate, said[-1]) if said else []
        self.is_refused = self.kind in (rt.REFUSED, rt.AT_LIMIT)

    def __str__(self):
        times = f"{self.name}: {self.processor:.1f} of processor, {self.seconds:.1f} s"
        if not self.is_refused or not self.goals:
            return f"{times}: {self.text.partition(': ')[2]}"
        more = len(self.goals) - SHOWN
        goals = "; ".join(map(str, self.goals[:SHOWN])) + (f"; and {more} more" if more > 0 else "")
        return f"{times}: {self.kind} by {goals}"


def same_clause(edits):
    """The edits of which the first open goal is of the same clause of the same function, where they are several."""
    groups = {}
    for edit in edits:
        if edit.is_refused and edit.goals:
            groups.setdefault((edit.goals[0].function, edit.goals[0].clause), []).append(edit.name)
    return {goal: names for goal, names in groups.items() if len(names) > 1}


def tell_all(crate, own, edits):
    """What the edits of a crate came to together."""
    median = statistics.median(it.processor for it in edits)
    print(f"{crate.name}: its own check {own:.1f} of processor, {len(edits)} edits {sum(it.processor for it in edits):.1f}, median {median:.1f}")
    for (function, clause), names in same_clause(edits).items():
        print(f"{crate.name}: by one clause, {function}: {clause}: {', '.join(names)}")
    for edit in edits:
        if edit.processor > 2 * median:
            print(f"{crate.name}: dear, {edit.processor / median:.1f} times the median: {edit.name}")


def tried(rt, crate):
    """Tries the edits of a crate, and says whether all are refused."""
    paths, bad = rt.edits_of(crate)
    if not paths:
        return not bad
    lacking = [it.name for it in crate.below() if not it.is_built()]
    if lacking:
        print(f"{crate.name}: not tried, since {lacking[0]} is not built: run rt check in the crate's folder first")
        return False
    kept, clock = f"{crate.folder}/out/incremental", Clock()
    seed = rt.seeded(crate, ["--jobs", "1"], kept if os.path.isdir(kept) else None)
    if not seed:
        print(f"{crate.name}: not tried, since the crate itself is not proved")
        return False
    own, edits = clock.spent()[0], []
    for path in paths:
        edits.append(Edit(rt, crate, path, seed))
        print(f"{crate.name}/{edits[-1]}", flush=True)
    shutil.rmtree(seed, ignore_errors=True)
    tell_all(crate, own, edits)
    return not bad and all(it.is_refused for it in edits)


def main(names):
    os.chdir(TOP)
    sys.dont_write_bytecode = True
    rt = kit()
    # (so that each check ends where this command ends)
    rt.rtlib.guarded()
    crates = {it.name: it for it in rt.rtlib.crates_below(str(TOP))}
    unknown = [it for it in names if it not in crates]
    if unknown:
        sys.exit(f"there is no crate {unknown[0]}")
    with rt.ending():
        well = [tried(rt, crates[it]) for it in names or crates]
    sys.exit(0 if all(well) else 1)


if __name__ == "__main__":
    main(sys.argv[1:])
