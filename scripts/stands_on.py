#!/usr/bin/env python3
"""Compares the layers of docs/ARCHITECTURE.md with the code.

Usage: scripts/stands_on.py            prints what differs, with status 1
       scripts/stands_on.py --write    writes what stands on what anew
(at the top of a checkout)

A crate stands on the crates that `use` names in its code, and where that names none, on those that its definitions
name. A box of the picture stands on the boxes that crates.txt names for its crates, and each has to be a lower one.
The picture's rows are `| 4  Slots: .. | on 5 6 |`, and the table's `| 4 | crate | what it does | what it stands on |`.
Crates of examples and tests are in no box, and nothing in a box stands on them.
"""
import glob
import re
import sys

PAGE = "docs/ARCHITECTURE.md"
BOX = re.compile(r"^( *\| (\d)  .*\| on )([\d ]*?)( *\|)$")
ROW = re.compile(r"^(\| (\d) \| `(\w+)` \| .* \| )([^|]*)( \|)$")


def read(path):
    with open(path, encoding="utf-8") as file:
        return file.read()


def named_in(pattern, use, names):
    """Those of some names that lines of files name in an import."""
    found = set()
    for path in glob.glob(pattern, recursive=True):
        found |= set(re.findall(use, read(path), re.M)) & names
    return found


def stands_on(crate, known):
    """The crates, ours and ported ones, on which a crate stands by its imports, the highest first."""
    names = set(known) - {crate, "thiserror"}
    found = named_in(f"crates/{crate}/src/**/*.rt", r"^ *(?:pub )?use (\w+)::", names)
    found = found or named_in(f"crates/{crate}/specs/**/*.antt", r"^ *(?:pub )?use Rattle\.(\w+)\.", names)
    return sorted(found, key=known.index, reverse=True)


def crates():
    """Each crate with those that crates.txt names for it, and all names from the lowest up, ported ones first."""
    of = {line.split(":")[0]: line.split(":")[1].split() for line in read("crates.txt").splitlines() if ":" in line}
    ported = sorted({name for names in of.values() for name in names} - set(of))
    return of, ported + list(of)


def main():
    of, known = crates()
    lines = read(PAGE).split("\n")
    box_of = {row.group(3): row.group(2) for row in map(ROW.match, lines) if row}
    new, faults = [], []
    for line in lines:
        row, box = ROW.match(line), BOX.match(line)
        if row and row.group(3) in of:
            line = row.group(1) + ", ".join(f"`{name}`" for name in stands_on(row.group(3), known)) + row.group(5)
        elif box:
            below = {box_of.get(name) for crate, at in box_of.items() if at == box.group(2) for name in of[crate] if name in of}
            faults += [f"box {box.group(2)} stands on {other or 'a crate in no box'}"
                       for other in below - {box.group(2)} if not other or other < box.group(2)]
            on = " ".join(sorted(name for name in below if name and name != box.group(2)))
            line = box.group(1) + on.ljust(len(box.group(3) + box.group(4)) - 1) + "|"
        new.append(line)
    faults += [f"{crate} is no crate" for crate in box_of if crate not in of]
    if "--write" in sys.argv:
        with open(PAGE, "w", encoding="utf-8") as file:
            file.write("\n".join(new))
    else:
        faults += [f"{old}\n  is by the code\n{now}" for old, now in zip(lines, new) if old != now]
    outside = [crate for crate in of if crate not in box_of and f"`{crate}`" not in "\n".join(lines)]
    faults += [f"{crate} is not on the page" for crate in outside]
    print("\n".join(faults) or "the layers are those of the code")
    sys.exit(1 if faults else 0)


if __name__ == "__main__":
    main()
