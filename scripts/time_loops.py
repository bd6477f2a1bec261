#!/usr/bin/env python3
"""Times built programs on the loops of scripts/loops: time_loops.py [--rounds N] [--divide N] [--count] PROGRAM ..

Each loop is run by each program in turn, round by round, and by `wasm-interp` where wabt is installed, whose `wat2wasm` is wanted
in any case. Printed are, for each loop, how many instructions of WebAssembly it has, and for each program the least processor seconds
of the rounds and the median, both without those of the least run of a single turn, millions of instructions a second by the least,
and how many times the first program's least and median are. The seconds are those of the program and of the system for it together:
which part is whose the system samples by its clock, too coarsely for a short run. The pools are as small as the loops allow, since
it is the machine that is timed, and not their opening. Another guest of the machine can make a single run take twice as long: so many
short rounds, by --divide, tell more than few long ones. With --count the host's instructions are printed too, by callgrind: those of
a turn, as the difference of two sizes (of a call for fib). Loops from int64 on were compiled from C by clang at -O2. The status is 1 where a program ends with another status than 0 or two of
them report another line.
"""
import argparse
import os
import pathlib
import re
import shutil
import statistics
import subprocess
import sys
import tempfile

LOOPS = pathlib.Path(__file__).parent / "loops"
# The turns of each loop, and of fib the number whose sum it is, which is made less by one for each division by 1.618.
TURNS = {
    "count": 17_000_000, "mix": 8_000_000, "memory": 6_500_000, "calls": 10_000_000, "blocks": 7_000_000, "fib": 33,
    "int64": 6_000_000, "indirect": 6_000_000, "switch": 5_000_000, "sort": 3_000, "crc": 7_000, "matrix": 1_500, "sha256": 17_000,
}
FUEL = 4294967295
POOLS = "--instances 1 --memories 1 --tables 1 --pages 1 --elements 8".split()
# The two sizes by which the host's instructions are counted.
SIZES = {name: (16, 20) if name == "fib" else (1000, 2000) if turns > 1_000_000 else (10, 20) for name, turns in TURNS.items()}


def turns_of(name, divide):
    if name != "fib":
        return TURNS[name] // divide
    number = TURNS[name]
    while divide > 1:
        number, divide = number - 1, divide / 1.618
    return number


class Loop:
    """A loop with so many turns, as a request file and as a binary with a function that wasm-interp can call."""

    def __init__(self, name, turns, folder):
        self.name, self.turns = name, turns
        text = (LOOPS / f"{name}.wat").read_text().rstrip()
        result = re.search(r"\(result (i\d\d)\)", text.split("$loop", 1)[1])[1]
        whole = f'{text[:-1]} (func (export "go") (result {result}) (call $loop (i32.const {turns}))))'
        stem = f"{folder}/{name}-{turns}"
        pathlib.Path(f"{stem}.wat").write_text(whole)
        subprocess.run(["wat2wasm", f"{stem}.wat", "-o", f"{stem}.wasm"], check=True)
        self.binary, self.requests = f"{stem}.wasm", f"{stem}.requests"
        self.code = pathlib.Path(self.binary).read_bytes().hex()
        self.write(FUEL)

    def write(self, fuel):
        pathlib.Path(self.requests).write_text(f"module m {self.code}\ncall m loop {fuel} i32:{self.turns}\n")


def run_of(program):
    return [program, "run", *POOLS]


def run_on(words, file):
    """The processor seconds of a run on this file, and the lines that it writes."""
    with open(file, "rb") as given, tempfile.TemporaryFile() as out:
        actions = [(os.POSIX_SPAWN_DUP2, given.fileno(), 0), (os.POSIX_SPAWN_DUP2, out.fileno(), 1)]
        process = os.posix_spawn(words[0], words, os.environ, file_actions=actions)
        _, status, used = os.wait4(process, 0)
        out.seek(0)
        lines = out.read().decode().splitlines()
    if status:
        sys.exit(f"{' '.join(words)} ended with status {os.waitstatus_to_exitcode(status)}")
    return used.ru_utime + used.ru_stime, lines


def timed(words, file):
    """The processor seconds of a run, and its last line."""
    seconds, lines = run_on(words, file)
    return seconds, lines[-1]


def instructions(loop, program):
    """How many instructions the call has: the least fuel on which it ends."""
    low, high = 0, FUEL
    while low < high:
        middle = (low + high) // 2
        loop.write(middle)
        if timed(run_of(program), loop.requests)[1].endswith("fuel"):
            low = middle + 1
        else:
            high = middle
    loop.write(FUEL)
    return low


def counted(program, loop):
    """The host's instructions of a run."""
    words = ["valgrind", "--tool=callgrind", "--callgrind-out-file=/dev/null", *run_of(program)]
    with open(loop.requests, "rb") as given:
        said = subprocess.run(words, stdin=given, stdout=subprocess.DEVNULL, stderr=subprocess.PIPE, check=True).stderr.decode()
    return int(re.search(r"Collected : (\d+)", said)[1])


def units(name, turns):
    """The turns of a loop, or the calls that fib makes of its function."""
    if name != "fib":
        return turns
    first, second = 1, 1
    for _ in range(turns - 1):
        first, second = second, first + second + 1
    return second


def host_instructions(program, name, folder):
    """Those of a turn, or of a call of fib."""
    less, more = SIZES[name]
    return (counted(program, Loop(name, more, folder)) - counted(program, Loop(name, less, folder))) / (units(name, more) - units(name, less))


def runs_of(program, loop):
    """The words of a run of a loop, and its input."""
    if os.path.basename(program) == "wasm-interp":
        return [program, loop.binary, "--run-all-exports"], os.devnull
    return run_of(program), loop.requests


def times_of(programs, loop, rounds):
    """The seconds of each program's runs of a loop, which they make in turn."""
    seconds, reports = {it: [] for it in programs}, set()
    for _ in range(rounds):
        for program in programs:
            used, line = timed(*runs_of(program, loop))
            seconds[program].append(used)
            if os.path.basename(program) != "wasm-interp":
                reports.add(line)
    if len(reports) > 1:
        sys.exit(f"{loop.name}: the programs report {reports}")
    return seconds


def measure(name, options, folder):
    loop, programs = Loop(name, turns_of(name, options.divide), folder), [*options.programs]
    if shutil.which("wasm-interp"):
        programs.append(shutil.which("wasm-interp"))
    starts = times_of(programs, Loop(name, 1, folder), options.rounds)
    seconds = times_of(programs, loop, options.rounds)
    small = SIZES[name][0]
    total = instructions(Loop(name, small, folder), programs[0]) * units(name, loop.turns) / units(name, small)
    print(f"{name}: {total / 1e6:.1f} million instructions")
    first = None
    for program, times in seconds.items():
        start = min(starts[program])
        least, median = min(times) - start, statistics.median(times) - start
        first = first or (least, median)
        said = f"  {program}: least {least:.4f} s, median {median:.4f} s (without {start:.4f} s of its start), "
        said += f"{total / least / 1e6:.0f} million a second, first by this {first[0] / least:.2f} and {first[1] / median:.2f}"
        if options.count and os.path.basename(program) != "wasm-interp":
            said += f", {host_instructions(program, name, folder):.1f} host instructions a turn"
        print(said, flush=True)


def main():
    parser = argparse.ArgumentParser(description=__doc__.splitlines()[0])
    parser.add_argument("--rounds", type=int, default=10)
    parser.add_argument("--divide", type=int, default=1, help="by what the turns are divided")
    parser.add_argument("--count", action="store_true", help="count the host's instructions too")
    parser.add_argument("programs", nargs="+", metavar="PROGRAM")
    options = parser.parse_args()
    options.programs = [os.path.abspath(it) for it in options.programs]
    with tempfile.TemporaryDirectory() as folder:
        for name in TURNS:
            measure(name, options, folder)


if __name__ == "__main__":
    main()
