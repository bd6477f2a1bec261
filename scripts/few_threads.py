#!/usr/bin/env python3
"""Runs poolhost where few threads can be made, and where little memory can be had. Takes the program's path.

With 2 to 16 workers each, where the system lets the user have so many processes and threads in all, every run must write
the whole report with status 0. Then come runs with a random limit on the size of the address space: each must write the
whole report with status 0, write nothing with status 5, or write nothing and end as a program that the system, or the
runtime's own start, gave up on for want of memory: by SIGKILL, SIGABRT or SIGSEGV. Last come runs with two workers on a file
with a module of 4 MiB behind its calls, in a little less than what suffices: there memory is refused while the module is
registered, and each must end as those before. Prints how many ended how. The status is 1 where a run ended
otherwise, or did not end. Takes about a minute.

Root has no limit on processes, so a root that runs it becomes another user for each run.
"""
import collections
import os
import random
import resource
import signal
import stat
import subprocess
import sys
import tempfile

# A user that has no other process: the limit counts them all.
USER = 61234
SECONDS = 20
RUNS = 300
COUNTER = """module bump 0061736d010000000105016000017f0302010005030100010708010462756d7000000a160114004100410028020041016a36020041002802000b
"""
CALLS = 40
TEXT = (COUNTER + "call bump bump 100\n" * CALLS).encode()
REPORT = ("module bump ok\n" + "".join(f"{number} ok i32:1\n" for number in range(1, CALLS + 1))).encode()
# A module whose data are 4 MiB of 7, behind the calls, and a call of it.
DATA = 1 << 22


def number(n):
    """LEB128, in five bytes."""
    return bytes((n >> 7 * k) & 127 | (128 if k < 4 else 0) for k in range(5))


def large_module():
    segment = b"\x01\x00\x41\x00\x0b" + number(DATA) + b"\x07" * DATA
    pages = DATA >> 16
    return bytes.fromhex("0061736d01000000") + b"\x05" + number(7) + b"\x01\x00" + number(pages) + b"\x0b" + number(len(segment)) + segment


LARGE_TEXT = TEXT + b"module large " + large_module().hex().encode() + b"\n"
LARGE_REPORT = REPORT + b"module large ok\n"
LARGE_WORDS = "--workers 2 --pages 64 --memories 3 --instances 3 --tables 2".split()
GIVEN_UP = (-signal.SIGKILL, -signal.SIGABRT, -signal.SIGSEGV)


def run(program, words, limits, text=TEXT):
    """The status and the output on a file under these limits, or None where it did not end."""

    def become():
        if os.getuid() == 0:
            os.setgroups([])
            os.setgid(USER)
            os.setuid(USER)
        for kind, value in limits:
            resource.setrlimit(kind, (value, value))

    try:
        ended = subprocess.run(
            [program, "run", *words],
            input=text,
            stdout=subprocess.PIPE,
            stderr=subprocess.DEVNULL,
            timeout=SECONDS,
            preexec_fn=become,
        )
    except subprocess.TimeoutExpired:
        return None
    except subprocess.SubprocessError:
        return ("not started", b"")
    return (ended.returncode, ended.stdout)


def few_threads(program):
    """How many runs ended well, and those that did not."""
    well, bad = 0, []
    for threads in (0, 1, 2, 3, 5, 9):
        for workers in range(2, 17):
            words = f"--workers {workers} --memories {workers + 1} --instances {workers + 1}".split()
            ended = run(program, words, [(resource.RLIMIT_NPROC, threads)])
            if ended == (0, REPORT):
                well += 1
            else:
                bad.append((f"{workers} workers where {threads} processes may be", ended))
    return well, bad


def little_memory(program):
    """How many runs ended how, and those that did not end well."""
    dice = random.Random(5)
    ends, bad = collections.Counter(), []
    for _ in range(RUNS):
        workers = dice.randrange(2, 17)
        size = int(2 ** dice.uniform(23, 32))
        words = f"--workers {workers} --pages {dice.choice((1, 16, 256))}".split()
        ended = run(program, words, [(resource.RLIMIT_AS, size)])
        ends[None if ended is None else ended[0]] += 1
        right = ended is not None and (ended == (0, REPORT) or (ended[0] in (5, *GIVEN_UP) and not ended[1]))
        if not right:
            bad.append((f"{workers} workers in {size} bytes", ended))
    return ends, bad


def while_registering(program):
    """How many runs ended with which status in less memory than suffices by up to 4 MiB, and those that did not end well."""

    def run_in(size):
        return run(program, LARGE_WORDS, [(resource.RLIMIT_AS, size)], LARGE_TEXT)

    least, most = 1 << 24, 1 << 32
    if run_in(most) != (0, LARGE_REPORT):
        return {}, [("the file of a large module", run_in(most))]
    while most - least > 1 << 14:
        middle = (least + most) // 2
        if run_in(middle) == (0, LARGE_REPORT):
            most = middle
        else:
            least = middle
    ends, bad = collections.Counter(), []
    for below in range(1, 41):
        size = least - below * DATA // 40
        ended = run_in(size)
        ends[None if ended is None else ended[0]] += 1
        if ended not in ((5, b""), (0, LARGE_REPORT)):
            bad.append((f"the file of a large module in {size} bytes", ended))
    return ends, bad


def told(ends):
    return ", ".join(f"{count} ended with {end}" for end, count in ends.items())


def main():
    if len(sys.argv) != 2:
        sys.exit("usage: few_threads.py PROGRAM")
    with tempfile.TemporaryDirectory() as folder:
        os.chmod(folder, stat.S_IRWXU | stat.S_IXGRP | stat.S_IXOTH)
        program = f"{folder}/poolhost"
        with open(sys.argv[1], "rb") as source, open(program, "wb") as copy:
            copy.write(source.read())
        os.chmod(program, 0o755)
        well, bad = few_threads(program)
        print(f"few threads: {well} ended well, {len(bad)} did not")
        ends, worse = little_memory(program)
        print("little memory:", told(ends))
        ends, last = while_registering(program)
        print("while registering:", told(ends))
    for where, ended in bad + worse + last:
        print(where, "did not end" if ended is None else f"ended with {ended[0]} after {len(ended[1])} bytes")
    sys.exit(1 if bad or worse or last else 0)


if __name__ == "__main__":
    main()
