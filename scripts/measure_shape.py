#!/usr/bin/env python3
"""Measures the shape of the repository: how long its definitions are, and what is longer than it should be.

Usage: scripts/measure_shape.py (at the top of a checkout)

Prints the lines that a reader has to believe of the headline's claims and of all, by `trusted_path.py`: of them those
of WebAssembly and of the pool; each function whose body has more than 40 lines; each signature with more than eight
parameters; how many lines of clauses have more than 160 characters (with -v also where); each crate that has more than
1,500 lines of code or 100 functions.
"""
import glob
import re
import sys

import trusted_path

WASM = ["wasm_types", "wasm_spec"]
POOL = ["memory_blocks", "pool_core", "slot_words", "retired_tags", "affinity_index", "decommit_batch", "slot_pools", "pool_model",
        "memory_slots", "memory_counts", "table_slots", "instance_slots", "pool_host"]


def lines_of(path):
    with open(path, encoding="utf-8") as file:
        return file.read().split("\n")


def print_believed():
    """The lines of definitions and of types that claims reach: of all crates, of WebAssembly and of the pool."""
    checkout = trusted_path.Checkout()
    paths = {letter: checkout.path(roots) for letter, _, roots in trusted_path.CLAIMS}
    for letters in (trusted_path.HEADLINE, "".join(paths)):
        items = set().union(*(paths[letter] for letter in letters))
        for name, crates in (("all", None), ("WebAssembly", WASM), ("the pool", POOL)):
            files, specs, types = trusted_path.counts({item for item in items if not crates or item.source.crate in crates})
            print(f"to believe for {letters}, {name}: {specs:,} lines of definitions, {types:,} of types, in {files} files")


def clause_lines(lines):
    """The numbers of the lines on which a clause stands, its later lines among them."""
    depth, found = 0, []
    for number, line in enumerate(lines, 1):
        begins = re.match(r" *(requires|ensures|invariant|ghost)\b", line) and not line.strip().startswith("ghost use")
        if begins or depth > 0:
            found.append(number)
            depth = (0 if begins else depth) + line.count("{") - line.count("}")
    return found


def functions(path):
    """Of each function: its name, its line, its parameters, and the lines of its body."""
    lines = lines_of(path)
    found = []
    for number, line in enumerate(lines):
        head = re.match(r"( *)(?:pub(?:\(crate\))? )?(?:const )?fn (\w+)", line)
        if not head:
            continue
        indent = head.group(1)
        end = next((k for k in range(number, len(lines)) if lines[k] == indent + "}"), number)
        if any(lines[k].rstrip().endswith(";") and lines[k].startswith(indent) and not lines[k].startswith(indent + " ") for k in range(number, min(number + 1, end))):
            continue
        text = "\n".join([line[head.end() :], *lines[number + 1 : end + 1]])
        signature = text.split("(", 1)[1]
        depth, parameters, angle = 1, "", 0
        for letter in signature:
            depth += letter in "([" 
            depth -= letter in ")]"
            if depth == 0:
                break
            parameters += letter
        flat = re.sub(r"<[^<>]*>", "", re.sub(r"<[^<>]*>", "", parameters))
        while re.search(r"\([^()]*\)|\[[^\[\]]*\]", flat):
            flat = re.sub(r"\([^()]*\)|\[[^\[\]]*\]", "", flat)
        count = len([part for part in flat.split(",") if part.strip() and part.strip() not in ("self", "&self", "&mut self", "mut self")])
        body = next((k for k in range(number, end + 1) if lines[k] == indent + "{" or lines[k].rstrip().endswith("{") and not re.search(r"(requires|ensures)", lines[k])), end)
        found.append((head.group(2), number + 1, count, max(0, end - body - 1)))
    return found


def main():
    print_believed()
    wide = {}
    for path in sorted(glob.glob("crates/*/src/**/*.rt", recursive=True)):
        for name, line, parameters, body in functions(path):
            if body > 40:
                print(f"{path}:{line}: the body of {name} has {body} lines")
            if parameters > 8:
                print(f"{path}:{line}: {name} has {parameters} parameters")
        lines = lines_of(path)
        long = [number for number in clause_lines(lines) if len(lines[number - 1]) > 160]
        if long:
            wide[path] = long
    print(f"lines of clauses of more than 160 characters: {sum(map(len, wide.values()))} in {len(wide)} files")
    if "-v" in sys.argv:
        for path, numbers in wide.items():
            print(f"  {path}: {numbers}")
    for crate in sorted(glob.glob("crates/*")):
        paths = glob.glob(f"{crate}/src/**/*.rt", recursive=True)
        size = sum(len(lines_of(path)) - 1 for path in paths)
        count = sum(len(functions(path)) for path in paths)
        if size > 1500 or count > 100:
            print(f"{crate}: {size} lines, {count} functions")


if __name__ == "__main__":
    main()
