#!/usr/bin/env python3
"""Lists what a reader has to believe of a claim: the definitions and types that its contract reaches by name.

Usage: scripts/trusted_path.py [-v] [LETTER ..]    what each claim reaches, or each of these; with -v also where it stands
       scripts/trusted_path.py --write             writes the tables of docs/DEFINITIONS.md anew
       scripts/trusted_path.py --check             status 1 where these tables are not those of the code
(at the top of a checkout)

A claim begins at contracts of public functions, laws among them. From each the script follows every name of a
definition in `specs/` and of a type, trait or constant in `src/`, and of what these name in turn. Of a parameter it
follows the type only where a clause speaks of that parameter. Names of std, of mathlib and of the ported crates are
not followed, nor what a type keeps true of itself: a claim holds of each value that there can be. The script can count
a definition too many, where a field has its name; it misses none that is named.

Lines are those of definitions, without imports, comments and blank lines.
"""
import glob
import os
import re
import sys
import textwrap

CLAIMS = [
    ("S", "a run delivers what is due, with its status", ["host_run::serve"]),
    ("L", "a call's line is its own; one answer is due",
     ["host_run::laws::same_line", "host_run::laws::same_bytes", "host_run::laws::one_answer_is_due"]),
    ("F", "a reused slot shows a fresh instance", ["pool_model::laws::shadow", "pool_model::laws::two_worlds"]),
    ("T", "what a tenant sees is by its own events alone", ["tenant_share::laws::own_full"]),
    ("H", "no slot has two holders, at any moment", ["slot_words::laws::passes_share_the_words"]),
    ("B", "bytes are decoded, checked and run as defined",
     ["wasm_decode::decode", "wasm_validate::validate", "wasm_machine::run"]),
    ("A", "a call on slots is answered as if it were alone", ["pool_host::Host::send"]),
    ("P", "a call in slices ends as one made whole",
     ["host_calls::laws::slices_end_as_the_call", "pool_host::Host::begin", "pool_host::Paused::resume",
      "pool_host::Paused::cancel"]),
    ("R", "a retired module is called no more",
     ["pool_host::Host::retire", "host_calls::laws::a_retired_module_is_never_called_again"]),
]

HEADLINE = "SLFTH"
PAGE = "docs/DEFINITIONS.md"
HEAD = re.compile(r"\s*(?:(?:pub|abbrev|unfoldable|opaque)\s+)+(?:record\s+|data\s+)?(\S+)")


class Item:
    """A definition, or a type of the code with what it shows: where it stands, its lines, and the words that it uses."""

    def __init__(self, source, name, kind, line, around=()):
        self.source, self.name, self.kind, self.line = source, name, kind, line
        self.count, self.text, self.reached = 0, list(around), None

    def add(self, line):
        self.count += 1
        self.text.append(line)


class Source:
    """A file: its lines without comments, its items by name, and the module and name behind each name that it imports."""

    def __init__(self, path):
        self.path, self.crate = path, path.split("/")[1]
        self.items, self.imports, self.modules = {}, {}, {}
        with open(path, encoding="utf-8") as file:
            self.lines = [bare(line) for line in file.read().split("\n")]
        text = "\n".join(self.lines)
        for module, names in re.findall(r"^ *(?:ghost |pub )?use ([^;{\s]+?)(?:\.|::)\{([^}]*)\}", text, re.M):
            for name in filter(None, (part.strip() for part in names.split(","))):
                first, _, other = name.partition(" as ")
                self.imports[other or first] = (module, first)
        for module, other in re.findall(r"^ *(?:ghost |pub )?use ([^;{\s]+)(?: as (\w+))?;?$", text, re.M):
            parts = re.split(r"\.|::", module)
            self.modules[other or parts[-1]] = module
            if "::" in module:
                self.imports[other or parts[-1]] = ("::".join(parts[:-1]), parts[-1])


def bare(line):
    """A line without its comment."""
    return line.rstrip() if '"' in line else re.sub(r"(^|\s)(--|//).*", "", line).rstrip()


def read_definitions(source):
    """The items of a file of definitions. Parameters of the module around one are words of it, and no line."""
    current, depth, around = None, 0, []
    for number, line in enumerate(source.lines, 1):
        if not line.strip():
            continue
        indent = len(line) - len(line.lstrip())
        head = HEAD.match(line)
        if re.match(r"\s*(pub )?(use|mod|module)\b", line):
            current = None
            around = [(deep, text) for deep, text in around if deep < indent]
            around += [(indent, line)] if "module" in line.split() else []
        elif head and (current is None or indent <= depth):
            around = [(deep, text) for deep, text in around if deep < indent]
            current, depth = Item(source, head.group(1), "specs", number, [text for _, text in around]), indent
            source.items[current.name] = current
            current.add(line)
        elif current:
            current.add(line)
            case = re.match(r"\s+(\w+) :", line)
            if case and re.match(r"\s*(pub )?data\b", current.text[-current.count]):
                source.items.setdefault(case.group(1), current)


def is_shown(kind, line):
    """Whether a line of a type says what contracts see of it. What it keeps true of itself they do not see."""
    if kind == "model":
        return re.match(r" *ghost (Value|view) =", line)
    return not re.match(r" *(#\[|ghost use )", line) and (kind == "trait" or not re.match(r" *ghost ", line))


def read_types(source):
    """The items of a file of code: structs, enums, traits and constants, and what a type shows."""
    for number, line in enumerate(source.lines):
        head = re.match(r"(?:pub(?:\([^)]*\))? )?(struct|enum|trait|const|type) (\w+)", line)
        shows = re.match(r"impl(?:<.*?>)? Model for (\w+)", line)
        if not head and not shows:
            continue
        name = head.group(2) if head else shows.group(1)
        item = source.items.setdefault(name, Item(source, name, "types", number + 1))
        end = next((k for k in range(number, len(source.lines)) if source.lines[k].endswith((";", "}"))
                    and (k == number or not source.lines[k].startswith(" "))), number)
        kind = head.group(1) if head else "model"
        for text in filter(str.strip, source.lines[number : end + 1]):
            if is_shown(kind, text):
                item.add(re.sub(r"^    \w+", "", text) if kind == "enum" else text)


class Checkout:
    """All files of all crates, and how a name in one leads to an item of another."""

    def __init__(self):
        self.specs, self.types, self.code = {}, {}, {}
        for path in sorted(glob.glob("crates/*/specs/**/*.antt", recursive=True)):
            source = Source(path)
            read_definitions(source)
            self.specs[(source.crate, os.path.splitext(path.split("/specs/")[1])[0].replace("/", "."))] = source
        for path in sorted(glob.glob("crates/*/src/**/*.rt", recursive=True)):
            source = Source(path)
            read_types(source)
            self.code.setdefault(source.crate, []).append(source)
            for name, item in source.items.items():
                self.types.setdefault((source.crate, name), item)

    def imported(self, source, module, name):
        """The item that an import of a name names, or none where it is of std or of a ported crate."""
        first = re.split(r"\.|::", module)[0]
        if first != "Rattle":
            crate = source.crate if first == "crate" else first
            return self.types.get((crate, name)) or self.passed_on(crate, name)
        _, crate, place, *parts = module.split(".")
        if crate not in self.code or place != "specs" or not parts:
            return None
        if parts[0] in ("declared", "contracts"):
            names = parts[::-1] if parts[-1] == "TheVariants" else [name, *parts[::-1]]
            return next((item for each in names if (item := self.types.get((crate, each)))), None)
        target = self.specs.get((crate, ".".join(parts)))
        return self.named(target, name) if target else None

    def passed_on(self, crate, name):
        """The type of another crate that a crate passes on, or none."""
        for source in self.code.get(crate, []):
            module, first = source.imports.get(name, (crate, name))
            if source.path.endswith("/lib.rt") and module.split("::")[0] not in (crate, "crate"):
                return self.types.get((module.split("::")[0], first))
        return None

    def named(self, source, word):
        """The item that a word of a file names, or none."""
        first, _, rest = word.partition(".")
        for name in (word, first):
            if name in source.items:
                return source.items[name]
            if name in source.imports:
                return self.imported(source, *source.imports[name])
        if first in source.modules and rest:
            return self.imported(source, source.modules[first], rest.split(".")[0])
        return self.types.get((source.crate, first)) if source.path.endswith(".rt") else None

    def reached(self, source, text):
        """The items that some lines of a file name; an operator also by `do`."""
        words = {part for line in text for part in re.split(r"[\s(){}\[\],;:\"«»&<>!*]+", line)}
        words |= {word.rstrip("'") for word in words}
        for name in (*source.items, *source.imports):
            if "◌" in name and any(word in (name.strip("◌"), "do") for word in words):
                words.add(name)
        return {item for word in words if word and (item := self.named(source, word))}

    def contract(self, root):
        """The file of a function, and its clauses with the types of which they speak."""
        crate, *owner, name = root.split("::")
        owner = [part for part in owner if part[0].isupper()]
        for source in self.code[crate]:
            for number, line in enumerate(source.lines):
                if not re.match(rf"^ *(?:pub )?fn {name}\b", line):
                    continue
                around = next((text for text in reversed(source.lines[:number]) if text.startswith("impl")), "")
                if owner and line.startswith(" ") and re.search(rf"\b{owner[0]}\b", around):
                    return source, contract_lines(source.lines, number, around)
                if not owner and not line.startswith(" "):
                    return source, contract_lines(source.lines, number, "")
        sys.exit(f"{root}: there is no such function")

    def path(self, roots):
        """All items that contracts reach."""
        waiting = [item for root in roots for item in self.reached(*self.contract(root))]
        seen = set()
        while waiting:
            item = waiting.pop()
            if item not in seen:
                seen.add(item)
                if item.reached is None:
                    item.reached = self.reached(item.source, item.text)
                waiting += item.reached - seen
        return {item for item in seen if item.count}


def contract_lines(lines, number, around):
    """The clauses of a function, and the types of the parameters, of the result and of `self` that they name."""
    indent = re.match(" *", lines[number]).group()
    end = next(k for k in range(number, len(lines)) if lines[k] in (indent + "{", indent + "{}"))
    first = next((k for k in range(number, end) if re.match(r" *(requires|ensures)\b", lines[k])), end)
    head, clauses = around + "\n" + "\n".join(lines[number:first]), lines[first:end]
    kinds = re.findall(r"(\w+): ([^,\n]+)", head) + [("result", kind) for kind in re.findall(r"-> (.*)", head)]
    kinds += [("self", around)]
    return clauses + [kind for name, kind in kinds if re.search(rf"\b{name}\b", "\n".join(clauses))]


def counts(items):
    """How many files, lines of definitions and lines of types these items are."""
    lines = {kind: sum(item.count for item in items if item.kind == kind) for kind in ("specs", "types")}
    return len({item.source.path for item in items}), lines["specs"], lines["types"]


def crates_in_order():
    """The crates from the lowest to the highest."""
    with open("crates.txt", encoding="utf-8") as file:
        return [line.split(":")[0] for line in file if ":" in line]


def shown(roots):
    """The functions in which a claim is stated, each crate named once."""
    names = [roots[0], *(root.split("::")[-1] for root in roots[1:])]
    return ", ".join(f"`{name}`" for name in names)


def claim_table(paths):
    """One row for each claim, one for those of the headline, and one for all."""
    rows = ["| | claim | stated by | files | definitions | types |", "|---|---|---|---|---|---|"]
    for letter, claim, roots in CLAIMS:
        files, specs, types = counts(paths[letter])
        rows.append(f"| {letter} | {claim} | {shown(roots)} | {files} | {specs:,} | {types:,} |")
    for letters in (HEADLINE, "".join(paths)):
        files, specs, types = counts(set().union(*(paths[letter] for letter in letters)))
        rows.append(f"| {letters} | these together | | {files} | {specs:,} | {types:,} |")
    return rows


def believed(paths):
    """The files that claims reach, by crate, each with the lines that they reach of it and their letters."""
    reached = {}
    for letter, items in paths.items():
        for item in items:
            lines, letters = reached.setdefault(item.source, ({}, []))
            lines[item] = item.count
            letters += [letter] if letter not in letters else []
    rows = []
    for crate in crates_in_order():
        files = sorted((os.path.basename(source.path), sum(found[0].values()), "".join(found[1]))
                       for source, found in reached.items() if source.crate == crate)
        if files:
            names = ", ".join(f"`{name}`\0{lines}\0{letters}" for name, lines, letters in files)
            rows += wrapped(f"- `{crate}`, {sum(lines for _, lines, _ in files):,} lines: {names}")
    return rows


def not_believed(checkout, paths):
    """The files of definitions that no claim reaches, by crate."""
    reached = {item.source for items in paths.values() for item in items}
    rows = []
    for crate in crates_in_order():
        rest = [source for source in checkout.specs.values() if source.crate == crate and source.items and source not in reached]
        if rest:
            lines = sum(item.count for source in rest for item in set(source.items.values()))
            names = ", ".join(f"`{os.path.basename(source.path)}`" for source in rest)
            rows += wrapped(f"- `{crate}`, {lines:,} lines: {names}")
    return rows


def wrapped(text):
    """The lines of an item of a list. A zero is a space at which no line ends."""
    lines = textwrap.wrap(text, 120, subsequent_indent="  ", break_on_hyphens=False, break_long_words=False)
    return [line.replace("\0", " ") for line in lines]


def with_tables(page, tables):
    """The page with what stands between the two marks of each table written anew."""
    for name, rows in tables.items():
        begin, end = f"<!-- {name} -->\n", f"<!-- end of {name} -->"
        if page.count(begin) != 1 or page.count(end) != 1:
            sys.exit(f"{PAGE}: the marks of the table {name} do not stand there once each")
        before, rest = page.split(begin)
        page = before + begin + "\n".join(rows) + "\n" + end + rest.split(end)[1]
    return page


def main():
    words = sys.argv[1:]
    checkout = Checkout()
    paths = {letter: checkout.path(roots) for letter, _, roots in CLAIMS}
    if "--write" in words or "--check" in words:
        with open(PAGE, encoding="utf-8") as file:
            page = file.read()
        new = with_tables(page, {"claims": claim_table(paths), "to believe": believed(paths),
                                 "only carries proofs": not_believed(checkout, paths)})
        if "--write" in words:
            with open(PAGE, "w", encoding="utf-8") as file:
                file.write(new)
        sys.exit(0 if "--write" in words or new == page else f"{PAGE}: its tables are old: scripts/trusted_path.py --write")
    for letter, claim, roots in CLAIMS:
        if letter not in words and set(words) - {"-v"}:
            continue
        files, specs, types = counts(paths[letter])
        print(f"{letter}: {claim} ({shown(roots)}): {specs:,} lines of definitions and {types:,} of types, in {files} files")
        if "-v" in words:
            for source in sorted({item.source for item in paths[letter]}, key=lambda source: source.path):
                items = sorted((item for item in paths[letter] if item.source is source), key=lambda item: item.line)
                print(f"  {source.path}: {sum(item.count for item in items)} lines: "
                      + ", ".join(f"{item.name} at {item.line}" for item in items))


if __name__ == "__main__":
    main()
