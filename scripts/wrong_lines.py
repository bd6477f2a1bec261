#!/usr/bin/env python3
"""Changes lines of the definitions, each in a copy of its own, and says which example or law refuses each.

Usage: wrong_lines.py [--write-by] [CRATE | CRATE/NAME ..]

With no names all wrong lines are tried: the files scripts/wrong_lines/CRATE/NAME.line, which hold, one line each,

    file: PATH          the file of definitions, from the top of the repository
    old: TEXT           stands once in it
    new: TEXT           the wrong line; nothing for a line that goes (in both \\n is a line break)
    check: CRATE WHAT.. the files of examples or lemmas in CRATE/proofs (as TypingExamples) or its functions (as laws::shadow)
                        of which one is to refuse it; there may be several such lines
    by: NAME            the example that is false where the line stands, or the law
    types: CRATE..      the crates of which the types alone stand there, without their functions
    because: TEXT       what the line says wrongly, in plain words

and further pairs of old and new, each for what the earlier ones made. Each is tried in a scratch copy of the repository that
holds the definitions, the examples that `check:` names and what these cite, and nothing else: the laws and functions of the
changed crate are not proved first, unless examples need its types, or `check:` names a function; then the crates that it calls stand there too. The same copy with no line
changed must pass. One check begins with up to 24 lines of the same `check:` that have a `by:`. Each has under a mark of its own
the file that it changes, and of the files that cite this what its example needs, so that none sees another. Where an example is
not computed by `refl` this stands there without the change too, and must pass. A line that is not refused there by its example
is tried once more, alone and over all files, and that counts. The status is 1 where a line passes, is refused by what `check:` does not name, or is a BAD LINE: one
that cannot be applied or read, or that takes away a name. Such a line shows nothing of the definitions.

A line is refused *in substance* by the example that `by:` names, or, where it names none, by one whose proof is `refl`: both of its
sides are computed, and differ. Where only other proofs fail it is refused *in form alone*, since their statements may still be true:
an example is missing, or `by:`. That is no refusal. With `--write-by` a line without `by:` that is refused in substance gets it.
"""
import re
import shutil
import subprocess
import sys
import tempfile
from pathlib import Path

from example_parts import Source

TOP = Path(__file__).resolve().parent.parent
LINES = TOP / "scripts" / "wrong_lines"
CITED = re.compile(r"\bRattle\.(\w+)\.(specs|proofs)((?:\.[^\s.{,;()]+)+)")
ERROR = re.compile(r"(?:note: )?(?:\./)?((?:specs|proofs|src)/\S+?):(\d+):\d+: error: (.*)")
MERGED = re.compile(r"\bRattle\.definitions\.(specs|proofs)\.(?:line\d+__)?(\w+?)__")
MARK = re.compile(r"(?<=/)(line\d+)__")
USE = re.compile(r"^use [^;]*;\n", re.M)
GHOST_USE = re.compile(r"^ghost use [^;]*;\n", re.M)
GHOST_FIELD = re.compile(r"^ *ghost \w+: \{", re.M)
USED = re.compile(r"^use (\w+)::(\w*)", re.M)
# a type, or a constant that is a number
TYPE = re.compile(r"^(?:(?:///|#\[).*\n)*(?:(?:pub(?:\(crate\))? )?(?:struct|enum) [^{;]*\{\n(?:.*\n)*?\}|pub const \w+: \w+ = [\d_]+;)\n", re.M)
# what is derived of a type and needs its functions
NO_TYPE = re.compile(r"^#\[derive\(Drop\)\]\n|^ *#\[error\(.*\)\]\n|, Error(?=\)\])", re.M)
# how many lines are tried at once
BATCH = 24
NAME_GONE = re.compile(r"is not in scope|has no field|has no `|is no name|was not admitted|was rejected|is not a field|unknown field")
# the one crate of all definitions and examples that need no code
ONE = "definitions"
EMPTY_SOURCE = "//! Definitions and examples.\n#![tactic(auto)]\n"


class BadLine(Exception):
    """The line cannot be applied or read."""


class WrongLine:
    def __init__(self, path):
        self.name = f"{path.parent.name}/{path.stem}"
        self.file, self.because, self.by, self.types, self.pairs, self.checks, old = None, "", None, (), [], [], None
        self.path, self.refused_by = path, None
        for line in path.read_text(encoding="utf-8").splitlines():
            key, _, text = line.partition(":")
            text = text.removeprefix(" ")
            if key == "file":
                self.file = text.strip()
            elif key == "old":
                old = text.replace("\\n", "\n")
            elif key == "new":
                self.pairs.append((old, text.replace("\\n", "\n")))
            elif key == "check":
                crate, *what = text.split()
                self.checks.append((crate, tuple(what)))
            elif key == "by":
                self.by = text.strip()
            elif key == "types":
                self.types = tuple(text.split())
            elif key == "because":
                self.because = text
            elif line.strip():
                raise BadLine(f"it has a line that is not read: {line}")
        if not (self.file and self.pairs and self.checks and self.because):
            raise BadLine("it lacks one of file, old, new, check and because")

    @property
    def crate(self):
        return Path(self.file).parts[1]

    def file_of_example(self):
        """The file that `check:` names in which the example of `by:` stands: None where there is none."""
        files = [TOP / "crates" / crate / "proofs" / f"{name}.antt" for crate, what in self.checks for name in what]
        stands = re.compile(rf"^(?:pub |abbrev )*{re.escape(self.by or ':')} :", re.M)
        return next((it for it in files if it.is_file() and stands.search(it.read_text(encoding="utf-8"))), None)

    def is_computed(self):
        """Whether the proof of the example is `refl`."""
        return re.search(rf"^ *{re.escape(self.by)} = refl$", self.file_of_example().read_text(encoding="utf-8"), re.M) is not None

    def write_by(self):
        """Writes the example that refused the line into its file, above the reason."""
        text = self.path.read_text(encoding="utf-8")
        self.path.write_text(re.sub(r"^because:", f"by: {self.refused_by}\nbecause:", text, count=1, flags=re.M), encoding="utf-8")

    def changed(self):
        """The file's text with the line changed."""
        place = TOP / self.file
        if not self.file.startswith("crates/") or "/specs/" not in self.file or not place.is_file():
            raise BadLine(f"there is no file of definitions {self.file}")
        text = place.read_text(encoding="utf-8")
        for old, new in self.pairs:
            if not old or text.count(old) != 1:
                raise BadLine(f"an old text stands {text.count(old) if old else 0} times in {self.file}, and not once: {old}")
            text = text.replace(old, new)
        return text


def is_examples(file):
    return "proofs" in file.relative_to(TOP).parts


def crates_below():
    """Each crate of crates.txt, with the libraries that it uses, lowest first."""
    rows = [line.partition("#")[0].strip() for line in (TOP / "crates.txt").read_text().splitlines()]
    return {row.split(":")[0].split()[0]: row.split(":")[1].split() for row in rows if row}


def module_file(crate, part, names):
    """The file of a module that is cited by these names, of which the last ones may be items: None where it is generated."""
    for count in range(len(names), 0, -1):
        file = TOP / "crates" / crate / part / Path(*names[:count]).with_suffix(".antt")
        if file.is_file():
            return file
    return None


class Part:
    """What a check needs of the repository: files by crate, the crates whose sources it needs, and the functions to be checked."""

    def __init__(self, checks, typed=()):
        self.crates, self.files, self.whole, self.functions = crates_below(), {}, set(), {}
        # what each file cites
        self.cites = {}
        # the crates of which types alone are taken, each with the sources that have them
        self.typed = {crate: set() for crate in typed}
        for crate, what in checks:
            if crate not in self.crates:
                raise BadLine(f"there is no crate {crate}")
            self.files.setdefault(crate, set())
            for name in what:
                self.name(crate, name)
        merged = [it for it in self.files if self.is_merged(it)]
        used = {below for it in [*merged, *self.whole] for below in self.below(it)}
        self.tops = [*([ONE] if merged else []), *(it for it in self.files if it not in merged and it not in used)]

    def name(self, crate, name):
        file = TOP / "crates" / crate / "proofs" / f"{name}.antt"
        if file.is_file():
            self.add(crate, file)
        elif "::" in name:
            self.functions.setdefault(crate, []).append(name)
            self.take_whole(crate)
        else:
            raise BadLine(f"{crate} has no proofs/{name}.antt")

    def below(self, crate):
        return {it for name in self.crates[crate] if name in self.crates for it in {name, *self.below(name)}}

    def take_whole(self, crate):
        if crate in self.whole:
            return
        self.whole.add(crate)
        self.files.setdefault(crate, set())
        for name in self.crates[crate]:
            if name in self.crates:
                self.take_whole(name) if self.has_types(name) or self.is_called(crate, name) else self.files.setdefault(name, set())
        for part in ("src", "specs", "proofs"):
            for file in sorted((TOP / "crates" / crate / part).rglob("*")):
                if file.is_file():
                    self.add(crate, file)

    def take_types(self, crate, name):
        """The types of a source, and what they use: of this crate types alone, of others all."""
        file = TOP / "crates" / crate / "src" / f"{name}.rt"
        if file in self.typed[crate]:
            return
        self.typed[crate].add(file)
        text = self.types_in(file)
        self.take_cited(text, file)
        for used, module in USED.findall(text):
            if used == "crate":
                self.take_types(crate, module)
            elif used in self.crates:
                self.take_whole(used)

    def has_types(self, crate):
        return any(re.search(r"^\s*(pub )?(struct|enum)\b", it.read_text(encoding="utf-8"), re.M) for it in (TOP / "crates" / crate / "src").rglob("*.rt"))

    def files_of_types(self, crate):
        """The crate's sources but for its laws."""
        return [it for it in sorted((TOP / "crates" / crate / "src").glob("*.rt")) if it.stem not in ("lib", "laws")]

    def has_types_alone(self, crate):
        """Whether the crate's sources but for its laws are types without a function, which can stand in the one crate."""
        return self.has_types(crate) and not any(re.search(r"\bfn\b", it.read_text(encoding="utf-8")) for it in self.files_of_types(crate))

    def is_called(self, crate, name):
        """Whether the crate's sources name an item of that other crate."""
        return any(re.search(rf"^\s*(pub )?use {name}::", it.read_text(encoding="utf-8"), re.M) for it in (TOP / "crates" / crate / "src").rglob("*.rt"))

    def add(self, crate, file):
        """The file, and all that it cites."""
        if file in self.files.setdefault(crate, set()):
            return
        self.files[crate].add(file)
        self.take_cited(file.read_text(encoding="utf-8"), file)

    def take_cited(self, text, file):
        """All that the text of a file cites."""
        for cited, part, names in CITED.findall(text):
            if cited not in self.crates:
                continue
            found = module_file(cited, part, names.split(".")[1:])
            if found:
                self.cites.setdefault(file, set()).add(found)
                self.add(cited, found)
            elif part == "specs" and names.split(".")[1] == "declared" and self.has_types_alone(cited):
                self.files.setdefault(cited, set())
                self.typed[cited] = set(self.files_of_types(cited))
            elif part == "specs" and names.split(".")[1] == "declared" and cited in self.typed:
                self.files.setdefault(cited, set())
                self.take_types(cited, names.split(".")[2])
            elif part == "specs" and names.split(".")[1] in ("declared", "contracts"):
                self.take_whole(cited)

    def is_merged(self, crate):
        """Whether what is taken of the crate stands in the one crate of definitions and examples: nothing that is taken whole uses it."""
        return crate in self.files and crate not in self.whole and not any(crate in self.below(it) for it in self.whole)

    def place_of(self, room, file, mark=()):
        """Where a file of the repository stands in the scratch copy, under a mark or none."""
        inside = file.relative_to(TOP)
        _, crate, part, *names = inside.parts
        return room / "crates" / ONE / part / "__".join([*mark, crate, *names]) if self.is_merged(crate) else room / inside

    def text_of(self, text, mark=(), marked=()):
        """The text, in which the modules of merged crates have the names that they have there, some of them under a mark."""
        return CITED.sub(lambda it: self.name_in_one(it, mark, marked) if self.is_merged(it[1]) else it[0], text)

    def name_in_one(self, cited, mark, marked):
        """The name that a module of a merged crate has in the one crate. Types have no mark."""
        crate, part, names = cited.groups()
        if names.startswith(".declared."):
            return f"Rattle.{ONE}.specs.declared.{crate}_{names.removeprefix('.declared.')}"
        is_marked = module_file(crate, part, names.split(".")[1:]) in marked
        return f"Rattle.{ONE}.{part}.{'__'.join([*(mark if is_marked else ()), crate, names[1:]])}"

    def citing(self, file):
        """The file, and the merged files that cite it, some through others."""
        merged = {it for crate in filter(self.is_merged, self.files) for it in self.files[crate]}
        found = {file}
        while more := {it for it in merged - found if self.cites.get(it, set()) & found}:
            found |= more
        return found

    def cited(self, module):
        """The file of a module, where it is one of this repository."""
        _, crate, *names = module.split(".")
        return module_file(crate, names[0], names[1:]) if crate in self.crates and names else None

    def needed(self, line):
        """The changed file as it stands, and what cites it: of files of examples what the line's own example needs. None where that cites no such file."""
        reached, wanted = self.citing(TOP / line.file), {line.file_of_example(): {line.by}}
        while wanted.keys() <= reached:
            texts, more = {}, dict(wanted)
            for file, names in wanted.items():
                text = file.read_text(encoding="utf-8")
                source = Source(text)
                if is_examples(file):
                    source.keep(names)
                for module, items in source.cut(lambda it: self.cited(it) in reached).items():
                    more[self.cited(module)] = more.get(self.cited(module), set()) | items
                texts[file] = source.text() if is_examples(file) else text
            if more == wanted:
                return texts if TOP / line.file in texts else None
            wanted = more
        return None

    def write_copy(self, room, texts, mark):
        """These texts of files, under a mark."""
        for file, text in texts.items():
            self.place_of(room, file, (mark,)).write_text(self.text_of(text, (mark,), texts), encoding="utf-8")

    def write(self, room):
        """Writes this part of the repository, as it stands."""
        room.mkdir(parents=True)
        own = [crate for crate in self.crates if crate in self.files and not self.is_merged(crate)]
        rows = [f"{crate}: {' '.join(it for it in self.crates[crate] if it not in self.crates or it in own)}" for crate in own]
        below = {it for crate in self.files if self.is_merged(crate) for it in self.crates[crate] if it not in self.crates or it in own}
        (room / "crates.txt").write_text("\n".join([*rows, f"{ONE}: {' '.join(sorted(below))}"]) + "\n")
        shutil.copy(TOP / "HANDLES", room)
        for crate in self.files:
            for file in self.files[crate]:
                place = self.place_of(room, file)
                place.parent.mkdir(parents=True, exist_ok=True)
                place.write_text(self.text_of(file.read_text(encoding="utf-8")), encoding="utf-8")
        for crate in [ONE, *(it for it in own if it not in self.whole)]:
            self.write_frame(room / "crates" / crate)
        for crate in filter(self.is_merged, sorted(self.typed)):
            self.write_types(room / "crates" / ONE / "src", crate)

    def types_in(self, file):
        """The source's types, and what they use. Nothing lets one go or tells of it, so no `Drop` and no `Error` is written for them."""
        text = NO_TYPE.sub("", file.read_text(encoding="utf-8"))
        types = "\n".join(TYPE.findall(text))
        uses = [it for it in USE.findall(text) if any(re.search(rf"\b{name}\b", types) for name in re.findall(r"(\w+)\s*(?=[,;}])", it))]
        ghosts = GHOST_USE.findall(text) if GHOST_FIELD.search(types) else []
        return "\n".join([text.partition("\n")[0] + "\n" + "".join(ghosts + uses), types])

    def write_types(self, folder, crate):
        """The types of a merged crate, in modules of the one crate."""
        for file in sorted(self.typed[crate]):
            name = f"{crate}_{file.stem}"
            text = file.read_text(encoding="utf-8") if self.has_types_alone(crate) else self.types_in(file)
            text = re.sub(r"^use crate::", f"use crate::{crate}_", self.text_of(text), flags=re.M)
            (folder / f"{name}.rt").write_text(text, encoding="utf-8")
            with open(folder / "lib.rt", "a", encoding="utf-8") as it:
                it.write(f"\npub mod {name};\n")

    def write_frame(self, folder):
        """An empty source, and the lists of the modules that are there."""
        (folder / "src").mkdir(parents=True, exist_ok=True)
        (folder / "src" / "lib.rt").write_text(EMPTY_SOURCE)
        self.write_lists(folder)

    def write_lists(self, folder):
        for part in ("specs", "proofs"):
            if (folder / part).is_dir():
                rows = sorted(f"pub mod {it.stem}" for it in (folder / part).glob("*.antt") if it.stem != "Lib")
                (folder / part / "Lib.antt").write_text("\n".join(rows) + "\n", encoding="utf-8")

    def check(self, room):
        """The status of the checks, and what they wrote, for each crate that no other of them uses."""
        said = []
        for crate in self.tops:
            for only in self.functions.get(crate, [None]):
                words = ["rt", "check", *(["--only", only] if only else [])]
                ran = subprocess.run(words, cwd=room / "crates" / crate, stdin=subprocess.DEVNULL, stdout=subprocess.PIPE, stderr=subprocess.STDOUT, text=True, errors="replace")
                said.append((ran.returncode, ran.stdout))
        return max(status for status, _ in said), "\n".join(text for _, text in said)


def origin(place):
    """The crate of a file of the scratch copy, where its name tells it, and the names of the file below specs/ or proofs/."""
    names = place.removesuffix(".antt").split("/")[1:]
    crate, *rest = re.sub(r"^line\d+__", "", names[-1]).split("__")
    return (crate, rest) if rest else (None, names)


def is_named(place, checks):
    """Whether an error stands in a file, or in the proof of a function, that `check:` names."""
    crate, path = origin(place)
    for named, what in checks:
        for name in what:
            parts = name.split("::" if "::" in name else "/")
            if crate in (None, named) and path[: len(parts)] == parts:
                return True
    return False


def is_by(line, message):
    """Whether an error is that of the example which is to refuse the line, if one is named."""
    return line.by is None or message.startswith(f"`{line.by}`")


def example_of(message):
    """The name of the example whose proof an error is about, or none."""
    found = re.match(r"`([^`]+)`: ", message)
    return found[1] if found else None


def is_computed(error):
    """Whether an error is about an example whose proof is `refl`, so that what it states is false."""
    crate, path = origin(error[0])
    name = example_of(error[2])
    if not (crate and name):
        return False
    file = TOP / "crates" / crate / "proofs" / Path(*path).with_suffix(".antt")
    return file.is_file() and re.search(rf"^ *{re.escape(name)} = refl$", file.read_text(encoding="utf-8"), re.M) is not None


def told(error):
    """An error in one line, with the repository's own names."""
    place, at, message = error
    crate, path = origin(place)
    file = f"{crate}/{place.split('/')[0]}/{'/'.join(path)}.antt" if crate else place
    at = "" if MARK.search(place) else f":{at}"
    return f"{file}{at}: {MERGED.sub(lambda it: f'Rattle.{it[2]}.{it[1]}.', message)[:160]}"


def judged(line, status, said):
    """What a check of the wrong line came to, and whether that is well."""
    errors = [found.groups() for found in map(ERROR.match, said.splitlines()) if found]
    unread = [it for it in errors if not it[0].startswith("proofs/")]
    if unread:
        return False, f"BAD LINE, it does not compile: {told(unread[0])}"
    if status == 0:
        return False, f"PASSES: {line.because}"
    errors = [it for it in errors if not NAME_GONE.search(re.sub(r"^`[^`]*`: ", "", it[2]))] or errors
    errors.sort(key=lambda it: (not is_named(it[0], line.checks), not is_by(line, it[2]), not is_computed(it)))
    if not errors:
        return False, f"NO VERDICT, the check ended with status {status}: {said.strip().splitlines()[-1][:160] if said.strip() else 'nothing'}"
    if NAME_GONE.search(errors[0][2]):
        return False, f"BAD LINE, a name is gone: {told(errors[0])}"
    if not is_named(errors[0][0], line.checks):
        return False, f"REFUSED ELSEWHERE, which may show only that a proof no longer fits: {told(errors[0])}"
    if not is_by(line, errors[0][2]):
        return False, f"NOT REFUSED BY {line.by}, and elsewhere a proof may no longer fit: {told(errors[0])}"
    if line.by is None and not is_computed(errors[0]):
        return False, f"REFUSED IN FORM ALONE, an example or `by:` is missing: {told(errors[0])}"
    line.refused_by = example_of(errors[0][2])
    return True, f"refused in substance by {told(errors[0])}"


class Scratch:
    """A scratch copy of the part of the repository that lines with the same `check:` want, which passes as it stands."""

    def __init__(self, room, checks, typed):
        self.room, self.part = room, Part(checks, typed)
        self.part.write(room)
        status, said = self.part.check(room)
        if status:
            raise SystemExit(f"what lines are checked by does not pass as it stands:\n{said}")

    def place(self, line):
        """Where the file of a line stands."""
        if TOP / line.file not in self.part.files.get(line.crate, ()):
            raise BadLine(f"nothing that `check:` names cites {line.file}")
        return self.part.place_of(self.room, TOP / line.file)

    def tried(self, line):
        """What a line comes to that is tried alone."""
        text, place = line.changed(), self.place(line)
        stood = place.read_text(encoding="utf-8")
        place.write_text(self.part.text_of(text), encoding="utf-8")
        try:
            return judged(line, *self.part.check(self.room))
        finally:
            place.write_text(stood, encoding="utf-8")

    def refused_together(self, lines):
        """What refuses each of these lines by name, each in its own copy, where something does."""
        parts = {it: self.part.needed(it) for it in lines if it.file_of_example() and it.crate in self.part.files and self.part.is_merged(it.crate)}
        tried = [it for it in parts if parts[it]]
        marks = {f"line{at}": it for at, it in enumerate(tried)}
        # under these the same stands as it is, where nothing is computed
        unchanged = {f"line{len(marks) + at}": it for at, it in enumerate(it for it in tried if not it.is_computed())}
        folder = self.room / "crates" / ONE
        try:
            for mark, line in [*marks.items(), *unchanged.items()]:
                changed = {TOP / line.file: line.changed()} if mark in marks else {}
                self.part.write_copy(self.room, parts[line] | changed, mark)
            self.part.write_lists(folder)
            status, said = self.part.check(self.room) if marks else (0, "")
        finally:
            for it in folder.glob("*/line*__*"):
                it.unlink()
            self.part.write_lists(folder)
        own = {mark: [] for mark in [*marks, *unchanged]}
        for text in said.splitlines():
            found = MARK.search(text.partition(": ")[0])
            own.get(found[1] if found else None, []).append(text)
        unfit = {line for mark, line in unchanged.items() if any(map(ERROR.match, own[mark]))}
        verdicts = {line.name: judged(line, status, "\n".join(own[mark])) for mark, line in marks.items() if own[mark] and line not in unfit}
        return {name: verdict for name, verdict in verdicts.items() if verdict[0]}


def read(file):
    """A line that can be applied, or why it cannot."""
    try:
        line = WrongLine(file)
        line.changed()
        return line
    except BadLine as why:
        return why


def tried_in_turn(scratch, lines):
    """Each line with what it comes to."""
    for at in range(0, len(lines), BATCH):
        batch = lines[at : at + BATCH]
        try:
            together = scratch.refused_together(batch)
        except BadLine:
            together = {}
        for line in batch:
            try:
                yield line, together.get(line.name) or scratch.tried(line)
            except BadLine as why:
                yield line, (False, f"BAD LINE: {why}")


def chosen(names):
    files = sorted(LINES.glob("*/*.line"))
    found = [it for it in files if not names or it.parent.name in names or f"{it.parent.name}/{it.stem}" in names]
    if not found:
        sys.exit(__doc__)
    return found


def main(words):
    writes, names = "--write-by" in words, [it for it in words if it != "--write-by"]
    well, groups, files = 0, {}, chosen(names)
    for file in files:
        line = read(file)
        if isinstance(line, BadLine):
            print(f"{file.parent.name}/{file.stem}: BAD LINE: {line}", flush=True)
        else:
            groups.setdefault((tuple(line.checks), line.types), []).append(line)
    with tempfile.TemporaryDirectory(prefix="wrong-lines-") as room:
        for at, ((checks, typed), lines) in enumerate(groups.items()):
            for line, (is_well, what) in tried_in_turn(Scratch(Path(room) / f"part{at}", checks, typed), lines):
                well += is_well
                if writes and is_well and line.by is None and line.refused_by:
                    line.write_by()
                print(f"{line.name}: {what}", flush=True)
    print(f"{well} of {len(files)} wrong lines are refused by the examples and laws that are to refuse them")
    sys.exit(0 if well == len(files) else 1)


if __name__ == "__main__":
    main(sys.argv[1:])
