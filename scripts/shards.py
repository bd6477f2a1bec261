#!/usr/bin/env python3
"""Splits a request file into parts that may run anywhere, and merges their reports into the whole file's, byte for byte.

    shards.py split FILE COUNT FOLDER [--by call|module|tenant]
    shards.py merge FILE FOLDER [--summary] > REPORT

`split` makes FOLDER with 0.requests, 1.requests and so on, and says how many calls each has. Each part is run so, with the same
--pages, --elements, --depth and --frame for all, and, where the file names tenants, with the same numbers of slots as well:

    poolhost run OPTIONS < FOLDER/0.requests > FOLDER/0.report; echo $? > FOLDER/0.status

`merge` writes the report of the whole file, or its six lines with --summary. Where the parts are by module it also takes the
summaries of parts that were run with --summary.

Why that is right: what a call's line tells depends on the limits, the file's profile, the bytes of its module, whether a line
before it retires this module, and on the call's own words. So each call goes to one part alone. A part keeps what its calls'
lines depend on, in the file's order: the profile line, the module and retire lines of their modules, and all lines of tenants.
A line that a part has not stands there as an empty one, so that `line N: REASON` counts as in the whole file. --by says which
calls stay together: none, those of a module, or those of a tenant.

The status of `split` is 0, or 1 where the file can't be read or the folder is there already. That of `merge` is the whole run's:
0, or 2 with the first refused line of all parts; or what a part ended with (3, 4, 5), with nothing written. It is 1 where file,
parts and reports don't belong together: what was written is of no use then. Wrong words end either with 2.

A file that `poolhost` refuses for its size alone, or for too many modules or calls, is taken where no part has too many.
"""
import argparse
import collections
import contextlib
import hashlib
import itertools
import json
import pathlib
import sys

CALLS = (b"call", b"send")
OF_MODULES = (b"module", b"retire")
LABELS = [b"modules ok", b"modules refused", b"calls ok", b"calls trap", b"calls fuel", b"calls refused"]
PLAN = "plan.json"
# All files of the parts are open at once.
MOST_PARTS = 500


class Mismatch(Exception):
    """Why file, parts and reports don't belong together."""


def directive(line):
    """Which directive a line is, and the name behind it; neither of a comment and of a line without words."""
    if line.startswith(b"#"):
        return b"", b""
    kind, _, rest = line.strip(b" ").partition(b" ")
    return kind, rest.lstrip(b" ").partition(b" ")[0]


class Plan:
    """Which parts of a file have each of its lines."""

    def __init__(self, path, count, by):
        self.path, self.count, self.by = path, count, by
        self.part_of = self.spread(collections.Counter(group for *_, group in self.grouped() if group is not None))
        self.parts_of = self.parts_of_modules()

    def grouped(self):
        """Each line with its directive, the name behind it and, if it is a call line, the group that stays together."""
        calls, tenant = 0, b""
        with open(self.path, "rb") as file:
            for line in file:
                line, group = line.rstrip(b"\n"), None
                kind, name = directive(line)
                if kind == b"for":
                    tenant = name
                elif kind in CALLS and name:
                    group = {"call": calls % self.count, "module": name, "tenant": tenant}[self.by]
                    calls += 1
                yield line, kind, name, group

    def spread(self, sizes):
        """A part for each group of calls: the largest first, each to the part that has the fewest calls by then."""
        calls, part_of = [0] * self.count, {}
        for group, size in sizes.most_common():
            part_of[group] = calls.index(min(calls))
            calls[part_of[group]] += size
        return part_of

    def parts_of_modules(self):
        """The parts of each module, by its name: those of its calls, or the next in turn where it has none."""
        parts_of, turns = {}, itertools.cycle(range(self.count))
        for _, kind, name, group in self.grouped():
            if group is not None:
                parts_of.setdefault(name, set()).add(self.part_of[group])
            elif kind in OF_MODULES and name:
                parts_of.setdefault(name, set())
        for parts in parts_of.values():
            parts.update(parts or {next(turns)})
        return parts_of

    def lines(self):
        """Each line with its directive, the name behind it, and the parts that have it."""
        everywhere = set(range(self.count))
        for line, kind, name, group in self.grouped():
            if group is not None:
                yield line, kind, name, {self.part_of[group]}
            else:
                yield line, kind, name, self.parts_of[name] if kind in OF_MODULES and name else everywhere


def digest(path):
    digest = hashlib.sha256()
    with open(path, "rb") as file:
        for line in file:
            digest.update(line)
    return digest.hexdigest()


def split(path, count, folder, by):
    plan = Plan(path, count, by)
    folder.mkdir(parents=True)
    (folder / PLAN).write_text(json.dumps({"count": count, "by": by, "sha256": digest(path)}) + "\n")
    calls = [0] * count
    with contextlib.ExitStack() as opened:
        files = [opened.enter_context(open(folder / f"{it}.requests", "wb")) for it in range(count)]
        for line, kind, _, parts in plan.lines():
            for it, file in enumerate(files):
                file.write((line if it in parts else b"") + b"\n")
                calls[it] += it in parts and kind in CALLS
    for it in range(count):
        print(f"{folder / f'{it}.requests'}: {calls[it]} calls")


def plan_of(path, folder):
    """How a file was split into the parts of a folder."""
    said = json.loads((folder / PLAN).read_text())
    if said["sha256"] != digest(path):
        raise Mismatch(f"{folder} has the parts of another file than {path}")
    return Plan(path, said["count"], said["by"])


class Reports:
    """The reports of parts, whose lines are taken one after another."""

    def __init__(self, paths):
        self.paths = paths
        self.files = [open(path, "rb") for path in paths]
        self.calls = [0] * len(paths)

    def answer(self, part, head):
        """What stands behind the head of the next line of a part."""
        line = self.files[part].readline()
        if not line.startswith(head) or not line.endswith(b"\n"):
            raise Mismatch(f"{self.paths[part]}: a line that begins {head.decode('latin-1')!r} is missing")
        return line[len(head) : -1]

    def answer_of_call(self, part):
        self.calls[part] += 1
        return self.answer(part, b"%d " % self.calls[part])

    def answer_of_all(self, parts, head):
        """What stands behind the head of the next line of these parts, which all have the same."""
        answers = {self.answer(part, head) for part in parts}
        if len(answers) > 1:
            raise Mismatch(f"the parts answer {head.decode('latin-1')}as {answers}: were they run with the same limits?")
        return answers.pop()

    def end(self):
        for path, file in zip(self.paths, self.files):
            if file.readline():
                raise Mismatch(f"{path}: there are lines to spare")
            file.close()


def answers(plan, reports):
    """Each line of the whole file's report: its directive, its head and its answer."""
    calls = 0
    for _, kind, name, parts in plan.lines():
        if kind in CALLS:
            calls += 1
            yield kind, b"%d " % calls, reports.answer_of_call(min(parts))
        elif kind in OF_MODULES:
            head = b"%s %s " % (kind, name)
            yield kind, head, reports.answer_of_all(parts, head)
    reports.end()


def counted(plan, reports):
    """The summary of the whole file, by the lines of its report."""
    counts = collections.Counter()
    for kind, _, answer in answers(plan, reports):
        if kind != b"retire":
            counts[(b"modules " if kind == b"module" else b"calls ") + answer.split(b" ")[0]] += 1
    return counts


def added(plan, texts):
    """The summary of the whole file, by those of its parts."""
    if plan.by != "module":
        raise Mismatch(f"a module is in several parts by {plan.by}, so summaries can't be added: run them without --summary")
    counts = collections.Counter()
    for text in texts:
        rows = [it.rpartition(b" ") for it in text.splitlines()]
        if [label for label, _, _ in rows] != LABELS:
            raise Mismatch("some parts were run with --summary, and others without")
        counts.update({label: int(number) for label, _, number in rows})
    return counts


def is_summary(path):
    with open(path, "rb") as file:
        return file.read(11) == b"modules ok "


def text_of(plan, paths, summary):
    """The text of the whole file's report, or of its summary, in pieces."""
    if not summary:
        yield from (head + answer + b"\n" for _, head, answer in answers(plan, Reports(paths)))
    else:
        are_added = any(map(is_summary, paths))
        counts = added(plan, [it.read_bytes() for it in paths]) if are_added else counted(plan, Reports(paths))
        yield from (b"%s %d\n" % (label, counts[label]) for label in LABELS)


def status_of(path):
    text = path.read_text().strip()
    if not text.isdigit():
        raise Mismatch(f"{path}: no status stands there")
    return int(text)


def line_of_refusal(text):
    """The number of the line that a refusal names, or 0 where it names none."""
    return int(text[5:].split(b":")[0]) if text.startswith(b"line ") else 0


def merge(path, folder, summary):
    plan = plan_of(path, folder)
    paths = [folder / f"{it}.report" for it in range(plan.count)]
    statuses = [status_of(it.with_suffix(".status")) for it in paths]
    failed = [it for it in statuses if it not in (0, 2)]
    if failed:
        print(f"the parts ended with {statuses}", file=sys.stderr)
        return failed[0]
    if 2 in statuses:
        refusals = [path.read_bytes() for path, status in zip(paths, statuses) if status == 2]
        sys.stdout.buffer.write(min(refusals, key=line_of_refusal))
        return 2
    for piece in text_of(plan, paths, summary):
        sys.stdout.buffer.write(piece)
    return 0


def number_of_parts(word):
    if not word.isdigit() or not 1 <= int(word) <= MOST_PARTS:
        raise argparse.ArgumentTypeError(f"a number from 1 to {MOST_PARTS}, and not {word}")
    return int(word)


def words_of_command():
    parser = argparse.ArgumentParser(description=__doc__.split("\n")[0])
    commands = parser.add_subparsers(dest="command", required=True)
    splits = commands.add_parser("split", help="writes the parts of FILE into a new FOLDER")
    splits.add_argument("file", type=pathlib.Path, metavar="FILE")
    splits.add_argument("count", type=number_of_parts, metavar="COUNT")
    splits.add_argument("folder", type=pathlib.Path, metavar="FOLDER")
    splits.add_argument("--by", choices=["call", "module", "tenant"], default="call", help="which calls stay together")
    merges = commands.add_parser("merge", help="writes the report of FILE, by those of its parts")
    merges.add_argument("file", type=pathlib.Path, metavar="FILE")
    merges.add_argument("folder", type=pathlib.Path, metavar="FOLDER")
    merges.add_argument("--summary", action="store_true", help="the six lines of a summary")
    return parser.parse_args()


def main():
    words = words_of_command()
    try:
        if words.command == "split":
            split(words.file, words.count, words.folder, words.by)
        else:
            sys.exit(merge(words.file, words.folder, words.summary))
    except OSError as why:
        sys.exit(f"{why.filename}: {why.strerror}")
    except Mismatch as why:
        sys.exit(str(why))


if __name__ == "__main__":
    main()
