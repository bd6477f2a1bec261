#!/usr/bin/env python3
"""Measures a built program: measure_speed.py [--rounds N] PROGRAM [start | calls | slices | reading | loading | images ..]

`start`: a run of the first example, beside `wasm-interp`, and what fifteen tenants add. `calls`: a call on wide pools. `slices`: the same in slices of
one turn, beside whole calls. `reading`: host instructions of a byte or a line, by callgrind. `loading`: MB of modules a second, beside
`wasm-validate`, which reads binaries where the program reads hex. `images`: a call that dirties all of its memory, by what is in its image.
Without names all are measured. Times are processor seconds of the program and of the system for it, the least and the median of the rounds,
each the difference of a long run and a short one. Memory is the most that GNU `time` tells. Let nothing else run.
"""
import argparse
import os
import pathlib
import shutil
import statistics
import subprocess
import sys
import tempfile

from hostile_files import ADDITION, BUMP, HEADER, number, sends, section, with_code, with_exports
from time_loops import run_on

TOP = pathlib.Path(__file__).parent.parent
SLOTS = [4, 64, 1024]
CALLS = 100_000
TURNED = 1_000
SLICED = 40_000


class Bench:
    """A program, a folder for files, and how often each run is made."""

    def __init__(self, program, folder, rounds):
        self.program, self.folder, self.rounds = program, folder, rounds

    def file(self, text):
        path = f"{self.folder}/given"
        pathlib.Path(path).write_bytes(text if isinstance(text, bytes) else text.encode())
        return path

    def words(self, options):
        return [self.program, "run", *options]

    def seconds(self, words, path):
        """The least seconds of a run and the median."""
        found = [run_on(words, path)[0] for _ in range(self.rounds)]
        return min(found), statistics.median(found)

    def each(self, make, sizes, options=()):
        """The seconds that each of so many more costs, least and median."""
        less, more = (self.seconds(self.words(options), self.file(make(size))) for size in sizes)
        return [(b - a) / (sizes[1] - sizes[0]) for a, b in zip(less, more)]

    def instructions(self, text, options=()):
        """The host's instructions of a run."""
        path = self.file(text)
        words = ["valgrind", "--tool=callgrind", "--callgrind-out-file=/dev/null", *self.words(options)]
        with open(path, "rb") as given:
            said = subprocess.run(words, stdin=given, stdout=subprocess.DEVNULL, stderr=subprocess.PIPE, check=True).stderr.decode()
        return int(said.rsplit("Collected : ", 1)[1].split()[0])

    def instructions_each(self, make, sizes, options=()):
        less, more = (self.instructions(make(size), options) for size in sizes)
        return (more - less) / (sizes[1] - sizes[0])

    def memory(self, words, path):
        """The most MiB that a run has, or nothing where GNU `time` is not there."""
        if not shutil.which("time"):
            return 0
        with open(path, "rb") as given:
            told = subprocess.run([shutil.which("time"), "-f", "%M", *words], stdin=given, stdout=subprocess.DEVNULL, stderr=subprocess.PIPE, check=True)
        return int(told.stderr.split()[-1]) / 1024


def pools(slots):
    return f"--instances {slots} --memories {slots} --tables {slots} --pages 1 --elements 8".split()


def start(bench):
    first = TOP.joinpath("examples/add.requests").read_text()
    tenants = "profile 4\n" + first + "".join(f"tenant t{k} 1 1 1 0\n" for k in range(15))
    options = "--workers 2 --instances 40 --memories 40 --tables 40".split()
    runs = {"first example": (first, []), "without tenants, 40 slots": (first, options), "with fifteen tenants": (tenants, options)}
    for what, (text, given) in runs.items():
        path = bench.file(text)
        least, median = bench.seconds(bench.words(given), path)
        print(f"{what}: {least * 1e3:.2f} ms, median {median * 1e3:.2f}, {bench.memory(bench.words(given), path):.1f} MiB, "
              f"{bench.instructions(text, given):,} instructions")
    if shutil.which("wasm-interp"):
        binary = bench.file(bytes.fromhex(ADDITION))
        words = [shutil.which("wasm-interp"), binary, "--run-all-exports"]
        least, median = bench.seconds(words, binary)
        print(f"that module by wasm-interp: {least * 1e3:.2f} ms, median {median * 1e3:.2f}, {bench.memory(words, binary):.1f} MiB")


def adds(count):
    return f"module m {ADDITION}\n" + "call m add 4 i32:2 i32:3\n" * count


def bumps(count):
    return f"module m {BUMP}\n" + "call m bump 100\n" * count


def bumps_in_turn(count):
    modules = "".join(f"module m{k} {BUMP}\n" for k in range(TURNED))
    return modules + "".join(f"call m{k % TURNED} bump 100\n" for k in range(count))


CALLED = {"add": adds, "a call that writes one block": bumps, f"the same of {TURNED:,} modules in turn": bumps_in_turn}


def calls(bench):
    for what, make in CALLED.items():
        for slots in SLOTS:
            least, median = bench.each(make, (CALLS // 10, CALLS), pools(slots))
            print(f"{what}, {slots} slots: {least * 1e6:.2f} us, median {median * 1e6:.2f}")
    print(f"add, 4 slots: {bench.instructions_each(adds, (1_000, 2_000), pools(4)):,.0f} instructions")


def slices(bench):
    workers = ["--workers", "4", *pools(4)]
    for what, options in {"whole": [], "slices of one turn": ["--slice", "1"], "slices of 1,000": ["--slice", "1000"]}.items():
        for called, make in CALLED.items():
            least, median = bench.each(make, (SLICED // 10, SLICED), [*workers, *options])
            print(f"{called}, four workers on three slots, {what}: {least * 1e6:.2f} us, median {median * 1e6:.2f}")


def data(size):
    return HEADER + section(5, b"\x01\x00" + number(size // 65_536 + 1)) + section(11, b"\x01\x00\x41\x00\x0b" + number(size) + b"\x07" * size)


def custom(size):
    return HEADER + section(0, b"\x01a" + b"\x07" * size)


def module_line(module):
    return b"module m " + module.hex().encode() + b"\n"


def refused_calls(arguments):
    """So many calls of a module that was refused, with so many arguments: the line and its line of the report."""
    return lambda count: "module m 00\n" + f"call m add 4{' i32:2' * arguments}\n" * count


def reading(bench):
    sizes, wide = (1 << 18, 1 << 19), ["--pages", "256"]
    for what, make in {"data": data, "custom section": custom}.items():
        print(f"{what}: {bench.instructions_each(lambda size: module_line(make(size)), sizes, wide):.1f} instructions a byte of it")
    for size in (1_024, 65_536):
        each = bench.instructions_each(lambda count: sends(count, size), (10, 20), ["--pages", "1"]) / size
        print(f"a request of {size:,} bytes, answered as it was sent: {each:.1f} instructions a byte")
    for arguments in (0, 2, 8):
        each = bench.instructions_each(refused_calls(arguments), (1_000, 2_000))
        print(f"a call line of {arguments} arguments with its line of the report: {each:.0f} instructions")


def functions(size, count):
    """So many functions, each with a body of so many bytes: of operations on constants, which are dropped."""
    body = b"\x00" + b"\x41\x00\x1a" * ((size - 2) // 3) + b"\x0b"
    bodies = (number(len(body)) + body) * count
    return HEADER + b"\x01\x04\x01\x60\x00\x00" + section(3, number(count) + b"\x00" * count) + section(10, number(count) + bodies)


def blocks(count):
    code = b"\x00" + b"\x02\x40\x41\x00\x04\x40\x05\x0b\x0b" * count + b"\x0b"
    return with_code(code)


def types(count):
    return HEADER + section(1, number(count) + b"\x60\x02\x7f\x7f\x01\x7f" * count)


LOADED = {
    "functions of 8 bytes": lambda: functions(8, 200_000),
    "functions of 7,000 bytes": lambda: functions(7_000, 300),
    "blocks and ifs": lambda: blocks(200_000),
    "types": lambda: types(300_000),
    "exports": lambda: with_exports([b"%06d" % k for k in range(200_000)]),
    "data": lambda: data(1 << 23),
    "custom section": lambda: custom(1 << 24),
}


def loading(bench):
    nothing = bench.seconds(bench.words(["--pages", "256"]), bench.file(module_line(HEADER)))[0]
    for what, make in LOADED.items():
        module = make()
        least = bench.seconds(bench.words(["--pages", "256"]), bench.file(module_line(module)))[0] - nothing
        said = f"{what}: {len(module) / least / 1e6:.1f} MB a second"
        if shutil.which("wasm-validate"):
            binary = bench.file(module)
            other = bench.seconds([shutil.which("wasm-validate"), binary], os.devnull)[0]
            said += f", {len(module) / other / 1e6:.1f} by wasm-validate"
        print(said)


# What a function does to all of its memory.
DONE = {"fill": "(fill (i32.const 0) (i32.const 7) (i32.const {size}))", "copy onto itself": "(copy (i32.const 0) (i32.const 0) (i32.const {size}))",
        "copy of half": "(copy (i32.const 0) (i32.const {half}) (i32.const {half}))"}


def dirtying(bench, pages, done, is_whole):
    """What makes a file of so many calls, each of which does this to a memory whose image is whole or empty."""
    size = pages << 16
    name, operands = done[1:-1].split(" ", 1)
    text = f'(module (memory {pages}) (func (export "f") (memory.{name} {operands.format(size=size, half=size // 2)}))'
    text += ' (data (i32.const 0) "%s")' % (r"\07" * size) if is_whole else ""
    path = f"{bench.folder}/dirtied"
    pathlib.Path(f"{path}.wat").write_text(text + ")")
    subprocess.run(["wat2wasm", f"{path}.wat", "-o", f"{path}.wasm"], check=True)
    module = pathlib.Path(f"{path}.wasm").read_bytes().hex()
    return lambda count: f"profile 2\nmodule m {module}\n" + "call m f 4\n" * count


def images(bench):
    for what, done in DONE.items():
        for pages in (32, 256):
            for is_whole in (False, True):
                make = dirtying(bench, pages, done, is_whole)
                least, median = bench.each(make, (20, 120), ["--pages", str(pages)])
                image = "a whole image" if is_whole else "no image"
                print(f"{what}, {pages} pages, {image}: {least * 1e3:.2f} ms a call, median {median * 1e3:.2f}")


PARTS = {it.__name__: it for it in (start, calls, slices, reading, loading, images)}


def main():
    parser = argparse.ArgumentParser(description=__doc__.splitlines()[0])
    parser.add_argument("--rounds", type=int, default=12)
    parser.add_argument("program", metavar="PROGRAM")
    parser.add_argument("parts", nargs="*", metavar="PART", help=", ".join(PARTS))
    options = parser.parse_args()
    unknown = [it for it in options.parts if it not in PARTS]
    if unknown:
        sys.exit(f"no such part: {', '.join(unknown)}")
    sys.stdout.reconfigure(line_buffering=True)
    with tempfile.TemporaryDirectory() as folder:
        bench = Bench(os.path.abspath(options.program), folder, options.rounds)
        for part in options.parts or PARTS:
            PARTS[part](bench)


if __name__ == "__main__":
    main()
