#!/usr/bin/env python3
"""Checks the pages: the names that they cite are there, and lines and sentences are short.

Usage: scripts/check_pages.py (at the top of a checkout). Prints what is at fault, with status 1.

A name is what stands between backticks and is an identifier or a path. It has to occur in the code, in a definition, in
a script or as the name of a file. A path `CRATE::NAME` or `CRATE::laws::NAME` has to be a function of that crate, and
the names behind it in the same cell of README's table of claims a function or a clause there. No line of a page has
more than 120 characters, tables and code apart. No sentence of README and PROOFS has more than 25 words.
"""
import glob
import os
import re
import sys

SHORT = ["README.md", "docs/PROOFS.md"]
PAGES = SHORT + [f"docs/{it}.md" for it in ("ARCHITECTURE", "DEFINITIONS", "EMBEDDING", "GLOSSARY", "CONTRIBUTING")]
# Words of other tools, and names that stand for any other.
FOREIGN = set("""madvise setsid nice autogroup PID utime stime cutime cstime has_tests _tests _examples my_program NAMELemmas
what_the_body_does""".split())
MOST_LINE, MOST_WORDS = 120, 25


def read(path):
    with open(path, encoding="utf-8") as file:
        return file.read()


def prose(text):
    """The lines of a page without its code."""
    lines, code = [], False
    for number, line in enumerate(text.split("\n"), 1):
        fence = line.lstrip().startswith("```")
        code ^= fence
        if not (fence or code or re.match(r"    \S", line) and not lines_on(lines)):
            lines.append((number, line))
        else:
            lines.append((number, ""))
    return lines


def lines_on(lines):
    """Whether the line before is one of a paragraph or of a list, which an indented line goes on with."""
    return bool(lines) and bool(lines[-1][1].strip())


def sentences(lines):
    """The sentences of a page, each with the number of the line on which its paragraph, item or cell begins."""
    parts, first, text = [], 0, ""
    for number, line in lines + [(0, "")]:
        begins = re.match(r"\s*(?:[-*>]|\d+\.)\s+|\s*[|#]|\s*$", line)
        if begins and text:
            parts.append((first, text))
            text = ""
        if line.startswith("|"):
            parts += [(number, cell) for cell in line.strip("|").split("|")]
        elif line.strip() and not line.startswith("#"):
            first, text = (first, f"{text} {line.strip()}") if text else (number, line[begins.end():] if begins else line.strip())
    for number, part in parts:
        plain = re.sub(r"`[^`]*`", "Name", part)
        for sentence in re.split(r"(?<=[.!?:;])\s+(?=[A-Z\"(*])", plain):
            yield number, sentence.strip()


def known_names():
    """All identifiers of code, definitions, proofs and scripts, and the names of files and crates."""
    paths = [it for end in ("rt", "antt", "edit") for it in glob.glob(f"crates/**/*.{end}", recursive=True)]
    names = set(FOREIGN)
    for path in paths + glob.glob("scripts/*.py") + ["crates.txt", "HANDLES"]:
        names.update(re.findall(r"\w+", read(path)))
    for path in glob.glob("**/*", recursive=True):
        names.update(re.findall(r"\w+", os.path.basename(path)))
    return names


def cited(lines):
    """The names between backticks, by line: identifiers with an underscore or a capital, and paths."""
    for number, line in lines:
        for text in re.findall(r"`([^`]+)`", line):
            if re.fullmatch(r"[\w:.]+(?:\(\))?", text) and re.search(r"[A-Z_:]", text):
                yield number, text.removesuffix("()")


def has_function(crate, name):
    return any(re.search(rf"\bfn {name}\b|\b(?:struct|enum|trait) {name}\b", read(it)) for it in glob.glob(f"crates/{crate}/src/*.rt"))


def path_faults(text):
    """What a path of a crate, a type or a law does not lead to."""
    crate, *rest = text.split("::")
    if not rest or not os.path.isdir(f"crates/{crate}"):
        return []
    return [it for it in rest if it != "laws" and not has_function(crate, it)]


def claim_faults(line):
    """The names of a row of claims that are no path, no function of the crate named first, and no clause of the function there."""
    if not re.search(r"`\w+::", line):
        return []
    names = re.findall(r"`([\w:]+)`", line.split("|")[2])
    crate, function = names[0].split("::")[0], names[0].split("::")[-1]
    source = "\n".join(read(it) for it in glob.glob(f"crates/{crate}/src/*.rt"))
    contract = re.search(rf"\bfn {function}\b.*?\n\{{\n?", source, re.S)
    clauses = re.findall(r"ensures (\w+) \{", contract.group(0)) if contract else []
    return [it for it in names[1:] if (path_faults(it) if "::" in it else it not in clauses and not has_function(crate, it))]


def main():
    known, faults = known_names(), []
    for page in PAGES:
        text = read(page)
        lines = prose(text)
        faults += [f"{page}:{n}: {len(it)} characters" for n, it in lines if len(it) > MOST_LINE and not it.startswith("|")]
        for number, name in cited(lines):
            absent = [it for it in re.findall(r"\w+", name) if it not in known] or path_faults(name)
            faults += [f"{page}:{number}: there is no {it} (`{name}`)" for it in absent]
        if page in SHORT:
            faults += [f"{page}:{n}: {len(it.split())} words: {it}" for n, it in sentences(lines) if len(it.split()) > MOST_WORDS]
    for number, line in enumerate(read("README.md").split("\n"), 1):
        if line.startswith("| ") and "`" in line:
            faults += [f"README.md:{number}: there is no {it}" for it in claim_faults(line)]
    print("\n".join(faults) or "names are there, lines and sentences are short")
    sys.exit(bool(faults))


if __name__ == "__main__":
    main()
