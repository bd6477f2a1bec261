#!/usr/bin/env python3
"""Tries the wrong bodies that stand beside the gate: wrong_bodies.py [CRATE ..]

Each scripts/wrong_bodies/CRATE/NAME.edit is a wrong body that the prover of CRATE must refuse, written as those of its must-fail folder. In
a clone of what is committed here they are put into that folder, all other must-fail folders are left out, and `rt ci CRATE ..` is run. What
an earlier run on this machine proved or tried is not done again. With no names all crates of scripts/wrong_bodies are taken. The status is
that of `rt ci`.
"""
import pathlib
import shutil
import subprocess
import sys
import tempfile

TOP = pathlib.Path(__file__).resolve().parent.parent
BESIDE = TOP / "scripts" / "wrong_bodies"


def main(names):
    crates = sorted(it.name for it in BESIDE.iterdir())
    lacking = [it for it in names if it not in crates]
    if lacking:
        sys.exit(f"no wrong body of {lacking[0]} stands beside the gate")
    tried = names or crates
    with tempfile.TemporaryDirectory(prefix="wrong-bodies-") as folder:
        clone = pathlib.Path(folder, "clone")
        subprocess.run(["git", "clone", "--quiet", TOP, clone], check=True)
        for own in clone.glob("crates/*/must-fail"):
            shutil.rmtree(own)
        for name in tried:
            shutil.copytree(BESIDE / name, clone / "crates" / name / "must-fail")
        return subprocess.run(["rt", "ci", *tried], cwd=clone).returncode


if __name__ == "__main__":
    sys.exit(main(sys.argv[1:]))
