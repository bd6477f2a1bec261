#!/usr/bin/env python3
"""Runs random request files whole and in parts, and compares: files_in_parts.py PROGRAM [--files N] [--seed S]

Each file is run whole with one worker and with several, and split by shards.py into 1 to 8 parts by call, by module or by
tenant. Each part is run with numbers of workers of its own, and of slots too where the file names no tenants. The merged report
and the merged summary must be those of the whole run, byte for byte, and so must the status. Parts by module are run with
--summary as well, and their summaries added. Where GNU parallel is installed it runs the parts of each tenth file.

The files are of all profiles, with modules that are refused for each reason, calls that end in each way, sends, tenants, retire
lines, comments and empty lines; one in four has a line that is refused, or two. A file follows from S and its number alone.
Prints how much was run. The status is 1 at the first difference, and the file and its parts are kept then. Takes some minutes.
"""
import argparse
import collections
import pathlib
import random
import shutil
import subprocess
import sys
import tempfile

SHARDS = pathlib.Path(__file__).resolve().with_name("shards.py")
HEADER = bytes.fromhex("0061736d01000000")
# No tenant wants more than two slots of a kind, the lane has one, and tenant 0 one at least.
MOST_TENANTS = 5
SLOTS = 2 * MOST_TENANTS + 2
I32, I64, F32 = b"\x7f", b"\x7e", b"\x7d"
ARGUMENTS = {I32: ["i32:0", "i32:1", "i32:2", "i32:40", "i32:-1", "i32:65533", "i32:4294967295"], I64: ["i64:0", "i64:-1", "i64:7", "i64:-9223372036854775808"]}


def vector(*items):
    return bytes([len(items)]) + b"".join(items)


def section(number, contents):
    return bytes([number, len(contents)]) + contents


def code_section(code, own=b"\x00"):
    """The code of one function, with its own locals."""
    body = own + bytes.fromhex(code) + b"\x0b"
    return section(10, vector(bytes([len(body)]) + body))


def function(parameters, results, code, before=b"", behind=b"", own=b"\x00"):
    """A module of one function, exported as f, with what stands between its types and its exports, and behind its code."""
    types = section(1, vector(b"\x60" + vector(*parameters) + vector(*results)))
    return HEADER + types + section(3, vector(b"\x00")) + before + section(7, vector(b"\x01f\x00\x00")) + code_section(code, own) + behind


def memory(pages):
    return section(5, vector(bytes([0, pages])))


# Its function calls by a table what takes nothing. The table has the function itself, and then none.
BY_TABLE = (
    HEADER
    + section(1, vector(b"\x60\x01\x7f\x00", b"\x60\x00\x00"))
    + section(3, vector(b"\x00"))
    + section(4, vector(b"\x70\x00\x02"))
    + section(7, vector(b"\x01f\x00\x00"))
    + section(9, vector(b"\x00\x41\x00\x0b\x01\x00"))
    + code_section("20 00 11 01 00")
)
# Its function answers the bytes that it is sent, 100 of them at most.
ECHO = (
    HEADER
    + section(1, vector(b"\x60\x00\x01\x7f", b"\x60\x03\x7f\x7f\x7f\x01\x7f", b"\x60\x02\x7f\x7f\x01\x7f"))
    + section(2, vector(b"\x04host\x04read\x00\x01", b"\x04host\x05write\x00\x02"))
    + section(3, vector(b"\x00"))
    + memory(1)
    + section(7, vector(b"\x01f\x00\x02"))
    + code_section("41 00 41 00 41 00 41 e4 00 10 00 10 01")
)
# Each kind of module: the types of its function's parameters, and its bytes.
MODULES = {
    "adds": ([I32, I32], function([I32, I32], [I32], "20 00 20 01 6a")),
    "divides": ([I64, I64], function([I64, I64], [I64], "20 00 20 01 7f")),
    "counts": ([], function([], [I32], "41 00 41 00 28 02 00 41 01 6a 36 02 00 41 00 28 02 00", memory(1))),
    "spins": ([I32], function([I32], [], "03 40 20 00 41 01 6b 22 00 0d 00 0b")),
    "calls itself": ([I32], function([I32], [], "20 00 04 40 20 00 41 01 6b 10 00 0b")),
    "calls by a table": ([I32], BY_TABLE),
    "loads": ([I32], function([I32], [I32], "20 00 28 02 00", memory(1))),
    "traps": ([], function([], [], "00")),
    "extends": ([I32], function([I32], [I32], "20 00 c0")),
    "fills": ([I32, I32], function([I32, I32], [], "41 00 20 00 20 01 fc 0b 00", memory(2))),
    "answers": ([], ECHO),
    "malformed": ([], HEADER + b"\x01"),
    "unsupported": ([], function([F32], [], "01")),
    "invalid": ([], function([], [], "20 00")),
    "many pages": ([], function([], [], "01", memory(40))),
    "many locals": ([I64], function([I64], [], "01", own=b"\x01\x1e\x7f")),
    "segment": ([], function([], [], "01", memory(1), section(11, vector(b"\x00\x41\xff\xff\x03\x0b\x02ab")))),
}
# The last six are refused in every profile.
WEIGHTS = [4] * (len(MODULES) - 6) + [1] * 6
NAMES = ["a", "b", "m", "A", "f", "ok", "#", "#1", "i32:1", "1", "module", "call", "~!@$%^&*()", "n" * 64, "-", "x", "y", "z"]
# Lines that are refused, of a module and a tenant of the file.
WRONG = ["speak", "call", "module q", "call nobody f 1", "call {module} f x", "call {module} f 1 i32:", "send {module} f 1 0"]
WRONG += ["module {module} 00", "module q 0", "module q zz", "profile 2", "retire nobody", "for nobody", "tenant q 1 1 1 1025"]
WRONG += ["tenant q 1024 1 1 0", "tenant {tenant} 1 1 1 0", "call {module} f 1 \x07", "\xff", "module " + 65 * "n" + " 00"]


class File:
    """A random request file, line by line."""

    def __init__(self, chance):
        self.chance, self.profile = chance, chance.randint(1, 5)
        self.modules, self.retired, self.tenants = {}, set(), []
        self.lines = [f"profile {self.profile}"] * (self.profile > 1 or chance.random() < 0.5)
        makers = [self.module] * 3 + [self.call] * 12 + [self.nothing] + [self.send] * 4 * (self.profile >= 3)
        makers += [self.turn] * 3 * (self.profile >= 4) + [self.retire] * (self.profile == 5)
        self.module()
        for _ in range(chance.randint(0, 80)):
            chance.choice(makers)()
        if chance.random() < 0.25:
            for _ in range(chance.randint(1, 2)):
                self.lines.insert(chance.randint(0, len(self.lines)), self.wrong())

    def module(self):
        free = [it for it in NAMES if it not in self.modules]
        if free:
            name, kind = self.chance.choice(free), self.chance.choices(list(MODULES), WEIGHTS)[0]
            self.modules[name] = kind
            self.lines.append(f"module {name} {MODULES[kind][1].hex()}")

    def call_words(self):
        """A module, an export and a fuel, and arguments, which mostly are those of its function."""
        name = self.chance.choice(list(self.modules))
        types = MODULES[self.modules[name]][0]
        if self.chance.random() < 0.1:
            types = self.chance.choices([I32, I64], k=self.chance.randint(0, 3))
        export = self.chance.choices("fg", [19, 1])[0]
        arguments = "".join(" " + self.chance.choice(ARGUMENTS[it]) for it in types)
        return f"{name} {export} {self.chance.choice([0, 3, 5, 20, 300, 3000])}", arguments

    def call(self):
        self.lines.append("call " + "".join(self.call_words()))

    def send(self):
        first, arguments = self.call_words()
        self.lines.append(f"send {first} {self.chance.choice(['-', '00', '61206C696e65', 'ab' * 150])}{arguments}")

    def turn(self):
        """The calls of another tenant follow, and it may be a new one."""
        if len(self.tenants) < MOST_TENANTS and self.chance.random() < 0.5:
            self.tenants.append(f"t{len(self.tenants)}")
            self.lines.append(f"tenant {self.tenants[-1]} {self.chance.randint(1, 2)} {self.chance.randint(1, 2)} 1 {self.chance.randint(0, 1)}")
        if self.tenants:
            self.lines.append(f"for {self.chance.choice(self.tenants)}")

    def retire(self):
        left = [it for it in self.modules if it not in self.retired]
        if left:
            name = self.chance.choice(left)
            self.retired.add(name)
            self.lines.append(f"retire {name}")

    def nothing(self):
        self.lines.append(self.chance.choice(["", "  ", "# a comment", "#call a f 1", "#\x01\xff"]))

    def wrong(self):
        tenant = self.chance.choice(self.tenants or ["nobody"])
        return self.chance.choice(WRONG).format(module=self.chance.choice(list(self.modules)), tenant=tenant)

    def names_tenants(self):
        return any(it.startswith("tenant ") for it in self.lines)

    def spaced(self, line):
        """A line, now and then with more spaces than it needs."""
        if line.startswith("#"):
            return line
        return self.chance.choice([""] * 8 + [" "]) + line.replace(" ", self.chance.choice([" "] * 8 + ["  "]))

    def text(self):
        ending = "\n" * (self.chance.random() < 0.8)
        return ("\n".join(map(self.spaced, self.lines)) + ending).encode("latin-1")


def limits(chance):
    """The options that a report depends on."""
    words = ["--pages", chance.choice([2, 32, 48]), "--elements", chance.choice([1, 1024])]
    return [str(it) for it in words + ["--depth", chance.choice([3, 128]), "--frame", chance.choice([8, 1024])]]


def others(chance, workers, has_tenants):
    """The options that a report doesn't depend on, except that the tenants have to have their slots."""
    slots = lambda: SLOTS if has_tenants else chance.randint(2, 8)
    words = ["--workers", workers, "--instances", slots(), "--memories", slots(), "--tables", slots()]
    words += ["--warm", MOST_TENANTS if has_tenants else chance.randint(0, 4), "--batch", chance.randint(1, 4)]
    return [str(it) for it in words + ["--slice", chance.choice([0, 1, 7, 100])]]


class Difference(Exception):
    """What differs between a whole run and parts."""


def ran(words, given=None):
    """The status of a command, and what it wrote."""
    done = subprocess.run([str(it) for it in words], stdin=given, stdout=subprocess.PIPE, check=False)
    return done.returncode, done.stdout


class Trial:
    """One file, run whole and in parts in a folder of its own."""

    def __init__(self, program, folder, chance, with_parallel):
        file = File(chance)
        self.program, self.folder, self.chance, self.with_parallel = program, folder, chance, with_parallel
        self.profile, self.has_tenants, self.limits = file.profile, file.names_tenants(), limits(chance)
        self.by, self.count = chance.choice(["call", "module", "tenant"]), chance.randint(1, 8)
        self.requests, self.parts = folder / "whole.requests", folder / "parts"
        self.requests.write_bytes(file.text())

    def run(self, path, workers, summary=False):
        words = [self.program, "run", *self.limits, *others(self.chance, workers, self.has_tenants), *["--summary"] * summary]
        with open(path, "rb") as given:
            return ran(words, given)

    def run_parts(self, summary=False):
        """Runs the parts, and keeps what each wrote and how it ended."""
        for path in self.parts.glob("*.requests"):
            status, text = self.run(path, self.chance.randint(1, 5), summary)
            path.with_suffix(".report").write_bytes(text)
            path.with_suffix(".status").write_text(f"{status}\n")

    def run_parallel(self):
        """The same by GNU parallel."""
        words = " ".join([str(self.program), "run", *self.limits, *others(self.chance, 2, self.has_tenants)])
        command = words + " < {} > {.}.report; echo $? > {.}.status"
        ran(["parallel", "--will-cite", command, ":::", *self.parts.glob("*.requests")])

    def compare(self, what, one, other):
        if one != other:
            lines = zip(one[1].splitlines() + [b"its end"], other[1].splitlines() + [b"its end"])
            raise Difference(f"{what}: statuses {one[0]} and {other[0]}, first lines {next(((a, b) for a, b in lines if a != b), None)}")

    def merged(self, summary=False):
        return ran([sys.executable, SHARDS, "merge", self.requests, self.parts, *["--summary"] * summary])

    def check(self):
        """Compares the whole run with the parts; the status and the report of the whole run."""
        whole, summary = self.run(self.requests, 1), self.run(self.requests, 1, summary=True)
        self.compare("one worker and several", whole, self.run(self.requests, self.chance.randint(2, 5)))
        subprocess.run([sys.executable, SHARDS, "split", self.requests, str(self.count), self.parts, "--by", self.by], stdout=subprocess.DEVNULL, check=True)
        self.run_parallel() if self.with_parallel else self.run_parts()
        self.compare("whole and in parts", whole, self.merged())
        self.compare("summaries, whole and in parts", summary, self.merged(summary=True))
        if self.by == "module":
            self.run_parts(summary=True)
            self.compare("summaries, whole and added", summary, self.merged(summary=True))
        return whole


def count(counts, trial, whole):
    """Counts a file that was run: what it is, and how its lines were answered."""
    status, text = whole
    counts["parts"] += trial.count
    counts["files by GNU parallel"] += trial.with_parallel
    counts["files with tenants"] += trial.has_tenants
    counts[f"files of profile {trial.profile}"] += 1
    counts[f"files by {trial.by}"] += 1
    if status == 2:
        counts["refused: " + text.decode().split(": ")[1].strip()] += 1
    for words in map(str.split, text.decode().splitlines() if status == 0 else []):
        kind = words[0] if words[0] in ("module", "retire") else "call"
        rest = words[2:] if kind != "call" else words[1:]
        why = rest[1:] if rest[0] in ("trap", "refused") else []
        counts[" ".join([f"{kind}:", rest[0], *why])] += 1
        counts["call: with the bytes that it answered"] += words[-1].startswith("out:")


def main():
    parser = argparse.ArgumentParser(description=__doc__.split("\n")[0])
    parser.add_argument("program", type=pathlib.Path, metavar="PROGRAM")
    parser.add_argument("--files", type=int, default=100)
    parser.add_argument("--seed", type=int, default=1)
    words = parser.parse_args()
    counts, has_parallel = collections.Counter(), shutil.which("parallel") is not None
    for number in range(words.files):
        folder = pathlib.Path(tempfile.mkdtemp(prefix="files_in_parts-"))
        chance = random.Random(f"{words.seed} {number}")
        trial = Trial(words.program.resolve(), folder, chance, has_parallel and number % 10 == 0)
        try:
            count(counts, trial, trial.check())
        except Difference as what:
            sys.exit(f"file {number} of seed {words.seed}, in {folder}: {what}")
        shutil.rmtree(folder)
    print(f"{words.files} files are the same whole and in parts")
    for name, times in sorted(counts.items()):
        print(f"{times:7} {name}")


if __name__ == "__main__":
    main()
