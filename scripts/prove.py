#!/usr/bin/env python3
"""Proves single crates as `rt ci` does, and keeps what passed: prove.py [lend | proof | tests | edits | all] NAME..   (at the top)

NAME+ is NAME with all above it, and `every` is every crate. `proof` proves a crate and what it stands on, `tests` its tests too, `edits` tries its
must-fail edits, `all` does the three. `lend` gives this checkout the libraries that were kept, so that `rt check` does not prove them anew.

What passed is kept under the checksum of the crate's files and of all below it, in the folder that KEPT_CRATES names (/tmp/kept_crates), for every
checkout on this machine. A build of the kit whose `rt ci NAME` does so needs no such script. It is no verdict: that is a plain `rt ci`'s.
"""
import copy
import hashlib
import importlib.machinery
import importlib.util
import os
import shutil
import subprocess
import sys
import tempfile
import time

KEPT = os.environ.get("KEPT_CRATES", "/tmp/kept_crates")
TOP = os.path.dirname(os.path.dirname(os.path.realpath(__file__)))
KIT = os.path.dirname(subprocess.run(["rt", "doc"], capture_output=True, text=True, check=True).stdout.strip())


def remembered(stamp):
    """A crate's stamp, which goes down to all crates below it, once."""
    found = {}

    def stamp_of(crate):
        if crate.folder not in found:
            found[crate.folder] = stamp(crate)
        return found[crate.folder]

    return stamp_of


def rt_as_module():
    """The kit's own code of `rt`, whose crates are proved as `rt ci` proves them."""
    sys.path.insert(0, f"{KIT}/bin")
    loader = importlib.machinery.SourceFileLoader("rt_as_module", f"{KIT}/bin/rt")
    rt = importlib.util.module_from_spec(importlib.util.spec_from_loader("rt_as_module", loader))
    loader.exec_module(rt)
    rt.rtlib.stop, rt.Crate.cuts_libraries, rt.Crate.allowed, rt.rtlib.Crate = rt.stop, True, rt.handles_of(TOP), rt.Crate
    rt.rtlib.Crate.stamp = remembered(rt.rtlib.Crate.stamp)
    rt.rtlib.guarded()
    return rt


class Checkout:
    def __init__(self):
        self.rt, self.keys, self.standing, self.failed = rt_as_module(), {}, set(), []
        crates = [it for it in self.rt.rtlib.crates_below(TOP) if it.folder.startswith(f"{TOP}/crates/")]
        self.crates = sorted(crates, key=lambda it: len(it.below()))
        self.ours = {it.name for it in self.crates}

    def below(self, crate):
        return [it.name for it in crate.below() if it.name in self.ours]

    def key(self, crate, edits=False):
        """The checksum of what the crate is proved from, and with `edits` of its wrong bodies too."""
        if crate.name not in self.keys:
            files = sorted(self.rt.rtlib.files_of(crate.folder))
            below = [self.key(it) for it in crate.deps if it.name in self.ours]
            texts = [(it.removeprefix(crate.folder), open(it, "rb").read()) for it in files]
            self.keys[crate.name] = hashlib.sha256(repr((crate.name, crate.of_kit, below, texts)).encode()).hexdigest()[:24]
        if not edits:
            return f"{crate.name}-{self.keys[crate.name]}"
        texts = [(os.path.basename(it), open(it, "rb").read()) for it in self.rt.edits_of(crate)[0]]
        return f"{crate.name}-{hashlib.sha256(repr((self.keys[crate.name], texts)).encode()).hexdigest()[:24]}.edits"

    def lend(self, crate):
        """Puts the kept library into this checkout, if there is one, and says whether it stands."""
        kept, made = f"{KEPT}/{self.key(crate)}", f"{crate.folder}/out/rlib"
        if not os.path.isdir(kept) or any(it not in self.standing for it in self.below(crate)):
            return False
        mark = f"{made}/kept"
        if not (os.path.isfile(mark) and open(mark, encoding="utf-8").read() == kept):
            shutil.rmtree(made, ignore_errors=True)
            shutil.copytree(kept, made, symlinks=True)
            self.stamp(crate, kept)
        self.standing.add(crate.name)
        return True

    def stamp(self, crate, kept):
        made = f"{crate.folder}/out/rlib"
        for name, text in (("kept", kept), ("stamp", crate.stamp())):
            with open(f"{made}/{name}", "w", encoding="utf-8") as file:
                file.write(text)

    def keep(self, crate):
        kept = f"{KEPT}/{self.key(crate)}"
        if not os.path.isdir(kept):
            part = tempfile.mkdtemp(dir=KEPT)
            shutil.copytree(f"{crate.folder}/out/rlib/{crate.name}.rlib", f"{part}/{crate.name}.rlib", symlinks=True)
            os.rename(part, kept)
        self.stamp(crate, kept)

    def tell(self, what, is_well, since, said=""):
        print(f"{what}: {'passed' if is_well else 'FAILED'}, {time.time() - since:.0f} s", flush=True)
        if not is_well:
            self.failed.append(what)
            print(said, flush=True)

    def said_by(self, crate, jobs, tests):
        crate = copy.copy(crate)
        with tempfile.TemporaryFile("a+", errors="replace") as crate.out:
            try:
                os.makedirs(f"{crate.folder}/out", exist_ok=True)
                status = crate.ci(["--jobs", str(jobs)], tests)
            except SystemExit:
                status = 2
            crate.out.seek(0)
            return status == 0, crate.out.read()

    def runs(self, crate, tests):
        made = f"{crate.folder}/out/{crate.name}{'_tests' if tests else ''}"
        return all(self.rt.run(crate, tests, it) for it in self.rt.BACKENDS.values() if os.path.isfile(made + it))

    def proof(self, crate, given, jobs):
        if not all(given.get((it, "proof"), it in self.standing) for it in self.below(crate)):
            return False
        since = time.time()
        is_well, said = self.said_by(crate, jobs, False)
        if is_well and crate.is_program:
            is_well = self.runs(crate, False)
        elif is_well:
            self.keep(crate)
        self.tell(crate.name, is_well, since, said)
        return is_well

    def tests(self, crate, given, jobs):
        if not given.get((crate.name, "proof"), True):
            return False
        since = time.time()
        is_well, said = self.said_by(crate, jobs, True)
        is_well = is_well and self.runs(crate, True)
        self.tell(f"tests of {crate.name}", is_well, since, said)
        if is_well:
            open(f"{KEPT}/{self.key(crate)}.tests", "w", encoding="utf-8").close()
        return is_well

    def edits(self, crate, given, _jobs):
        if not given.get((crate.name, "proof"), True):
            return False
        since, (good, bad) = time.time(), self.rt.edits_of(crate)
        tried = self.rt.must_fail_all(crate, good, ["--jobs", "1"])
        is_well = not bad and all(refused for refused, _ in tried)
        self.tell(f"edits of {crate.name}", is_well, since, "\n".join(text for refused, text in tried if not refused))
        if is_well:
            open(f"{KEPT}/{self.key(crate, True)}", "w", encoding="utf-8").close()
        return is_well

    def has(self, crate, what):
        if what == "proof":
            return crate.name in self.standing
        if what == "tests":
            return not crate.has_tests() or os.path.isfile(f"{KEPT}/{self.key(crate)}.tests")
        return not self.rt.edits_of(crate)[0] or os.path.isfile(f"{KEPT}/{self.key(crate, True)}")

    def tasks(self, wanted, kinds):
        """What is still to be done, each with what it waits for."""
        below = {it for crate in self.crates if crate.name in wanted for it in self.below(crate)}
        found = {}
        for crate in self.crates:
            own = kinds if crate.name in wanted else ["proof"] * (crate.name in below)
            for kind in own:
                if not self.has(crate, kind):
                    waits = [(it, "proof") for it in (*self.below(crate), crate.name) if (it, "proof") in found]
                    call = lambda given, jobs, it=crate, do=getattr(self, kind): do(it, given, jobs)
                    found[crate.name, kind] = (waits, crate.count(rb"\n"), self.rt.need(crate), call)
        return found


def main():
    kinds = {"proof": ["proof"], "tests": ["proof", "tests"], "edits": ["proof", "edits"], "all": ["proof", "tests", "edits"], "lend": []}
    if len(sys.argv) < 2 or sys.argv[1] not in kinds or (sys.argv[1] != "lend" and len(sys.argv) < 3):
        sys.exit(__doc__)
    os.chdir(TOP)
    os.makedirs(KEPT, exist_ok=True)
    checkout = Checkout()
    for crate in checkout.crates:
        if not crate.is_program:
            checkout.lend(crate)
    wanted = set()
    for name in sys.argv[2:]:
        one = name.removesuffix("+")
        if name != "every" and one not in checkout.ours:
            sys.exit(f"{one} is no crate of crates.txt")
        above = {it.name for it in checkout.crates if one in checkout.below(it)} if name.endswith("+") else set()
        wanted |= checkout.ours if name == "every" else {one} | above
    checkout.rt.in_lanes(checkout.tasks(wanted, kinds[sys.argv[1]]))
    print(f"{len(checkout.standing)} libraries were kept; failed: {' '.join(checkout.failed) or 'none'}")
    sys.exit(1 if checkout.failed else 0)


if __name__ == "__main__":
    main()
