#!/usr/bin/env python3
"""Runs poolhost on large and hostile request files: hostile_files.py PROGRAM

Prints what each run wrote, its seconds and the most memory that it had, of which a small process that starts it counts some
9 MiB at least. Then the greatest files are run beside files of half their size. The status is 1 where a run wrote anything
but what its row says, took more than ten seconds, or took more than three times as long as one of half its size.
"""
import subprocess
import sys
import tempfile

HEADER = bytes.fromhex("0061736d01000000")
VOID_FUNCTION = bytes.fromhex("01040160000003020100")
MOST_SECONDS = 10
MOST_TIMES = 3


def number(n):
    """LEB128."""
    out = bytearray()
    while n >= 128:
        out.append(n & 127 | 128)
        n >>= 7
    out.append(n)
    return bytes(out)


def signed(n):
    """Signed LEB128 of a number from 0 on."""
    out = number(n)
    return out if out[-1] < 64 else out[:-1] + bytes([out[-1] | 128, 0])


def section(kind, contents):
    return bytes([kind]) + number(len(contents)) + contents


def with_code(code):
    """A function of no parameters and no results."""
    return HEADER + VOID_FUNCTION + section(10, number(1) + number(len(code)) + code)


def with_exports(names):
    """A memory under these names."""
    entries = b"".join(number(len(name)) + name + b"\x02\x00" for name in names)
    return HEADER + section(5, b"\x01\x00\x00") + section(7, number(len(names)) + entries)


def line(module):
    return b"module m " + module.hex().encode() + b"\n"


def nested_blocks(count):
    return line(with_code(b"\x00" + b"\x02\x40" * count + b"\x0b" * (count + 1)))


ADDITION = "0061736d0100000001070160027f7f017f030201000707010361646400000a09010700200020016a0b"


def many_calls(count):
    """So many calls of the last of 4,096 modules."""
    modules = "".join(f"module m{k} {ADDITION}\n" for k in range(4096))
    return (modules + "call m4095 add 4 i32:1 i32:1\n" * count).encode()


def calls_of_one(count):
    return (f"module m {ADDITION}\n" + "call m add 4 i32:1 i32:1\n" * count).encode()


def calls_of_each(count):
    """So many modules of eight bytes, and a call of each, of which a file has 1,000,000 at most."""
    modules = "".join(f"module {k:x} 0061736d01000000\n" for k in range(count))
    return (modules + "".join(f"call {k:x} f 1\n" for k in range(min(count, 1_000_000)))).encode()


def retired_modules(count):
    """So many modules of eight bytes, and then a retire line for each."""
    modules = "".join(f"module {k:x} 0061736d01000000\n" for k in range(count))
    return ("profile 5\n" + modules + "".join(f"retire {k:x}\n" for k in range(count))).encode()


def rounds(count):
    """So many calls of one module, behind each of which another is retired."""
    modules = "".join(f"module {k:x} 0061736d01000000\n" for k in range(count))
    calls = "".join(f"call m add 4 i32:1 i32:1\nretire {k:x}\n" for k in range(count))
    return (f"profile 5\nmodule m {ADDITION}\n" + modules + calls).encode()


def one_line(size):
    """One module line of so many bytes."""
    return line(HEADER + section(0, b"\x00" * (size // 2 - 18)))


BUMP = "0061736d010000000105016000017f0302010005030100010708010462756d7000000a160114004100410028020041016a36020041002802000b"


def calls_with_memory(count):
    return (f"module m {BUMP}\n" + "call m bump 100\n" * count).encode()


# It answers what it is sent.
ECHO = (
    "0061736d010000000112036000017f60037f7f7f017f60027f7f017f02250304686f7374036c656e000004686f737404726561640001"
    "04686f73740577726974650002030201000503010001070501016500030a10010e004100410041001000100110020b"
)


def sends(count, size):
    """So many requests of so many bytes, each of which is answered as it was sent."""
    return (f"profile 3\nmodule m {ECHO}\n" + f"send m e 6 {'a5' * size}\n" * count).encode()


MANY = 1_000_000

NO_LOCALS = b"\x00\x0b"


def empty_runs(count):
    """A body of so many runs of no locals. No file holds more than some 4,190,000."""
    return number(count) + b"\x00\x7f" * count + b"\x0b"


def two_bodies(first, second):
    """Two functions of no parameters and no results, the first of them under the name f."""
    bodies = b"".join(number(len(body)) + body for body in (first, second))
    return HEADER + bytes.fromhex("010401600000030302000007050101660000") + section(10, b"\x02" + bodies)


def calls_of(callee):
    """A call of a function that calls this one until its 10,000 fuel is used up."""
    return line(two_bodies(bytes.fromhex("00034010010c000b0b"), callee)) + b"call m f 10000\n"


def calls_from_outside(body):
    """100,000 calls of a function with this body."""
    return line(two_bodies(body, NO_LOCALS)) + b"call m f 100\n" * 100_000


def calls_not_reached():
    kind = section(1, b"\x01\x60" + number(MANY) + b"\x7f" * MANY + b"\x00")
    code = b"\x00\x00" + b"\x10\x00" * MANY + b"\x0b"
    return HEADER + kind + section(3, b"\x01\x00") + section(10, b"\x01" + number(len(code)) + code)


# A function "f" that does nothing, exported, beside a memory of 32 pages.
FUNCTION_AND_MEMORY = HEADER + VOID_FUNCTION + section(5, b"\x01\x00\x20") + section(7, b"\x01\x01f\x00\x00") + section(10, b"\x01\x02\x00\x0b")


def with_bytes_at(places):
    """A module of 32 pages with one byte at each of these places."""
    segments = b"".join(b"\x00\x41" + signed(place) + b"\x0b\x01a" for place in places)
    return FUNCTION_AND_MEMORY + section(11, number(len(places)) + segments)


def modules(count, module):
    return b"".join(b"module m%d %s\n" % (k, module.hex().encode()) for k in range(count))


LAST_BYTE = [32 * 65_536 - 1]


def calls_of_two():
    """Calls of two modules, one after the other, each with a byte at the end of 32 pages."""
    return modules(2, with_bytes_at(LAST_BYTE)) + b"call m0 f 1\ncall m1 f 1\n" * 50_000


def long_names():
    modules = "".join(f"module {k:064} 0061736d01000000\n" for k in range(4096))
    return (modules + f"call {4095:064} f 1\n" * 100_000).encode()

# A file, the end of what is written, and options.
ROWS = [
    ("1,000,000 nested blocks", nested_blocks(MANY), "module m refused limit\n"),
    ("1,000,000 runs of no locals", line(with_code(number(MANY) + b"\x00\x7f" * MANY + b"\x0b")), "module m ok\n"),
    ("10,000 fuel on calls of a function without locals", calls_of(NO_LOCALS), "\n1 fuel\n"),
    ("10,000 fuel on calls of a function of 4,000,000 runs of no locals", calls_of(empty_runs(4 * MANY)), "\n1 fuel\n"),
    ("100,000 calls of a function without locals", calls_from_outside(NO_LOCALS), "\n100000 ok\n"),
    ("100,000 calls of a function of 1,000,000 runs of no locals", calls_from_outside(empty_runs(MANY)), "\n100000 ok\n"),
    ("1,000,000 runs of one local", line(with_code(number(MANY) + b"\x01\x7f" * MANY + b"\x0b")), "module m refused limit\n"),
    ("1,000,000 branches of a table", line(with_code(b"\x00\x02\x40\x41\x00\x0e" + number(MANY) + b"\x00" * (MANY + 1) + b"\x0b\x0b")), "module m ok\n"),
    ("1,000,000 functions without a body", line(HEADER + b"\x01\x04\x01\x60\x00\x00" + section(3, number(MANY) + b"\x00" * MANY)), "module m refused malformed\n"),
    ("1,000,000 functions", line(HEADER + b"\x01\x04\x01\x60\x00\x00" + section(3, number(MANY) + b"\x00" * MANY) + section(10, number(MANY) + b"\x02\x00\x0b" * MANY)), "module m ok\n"),
    ("100,000 exports, the last name first", line(with_exports([b"%05d" % k for k in range(99_999, -1, -1)])), "module m ok\n"),
    ("100,000 exports, two of one name", line(with_exports([b"%05d" % k for k in range(99_999)] + [b"00000"])), "module m refused invalid\n"),
    ("a name of 1 MiB", line(with_exports([b"a" * (1 << 20)])), "module m ok\n"),
    ("1,000,000 empty custom sections", line(HEADER + b"\x00\x01\x00" * MANY), "module m ok\n"),
    ("1,000,000 calls, not reached, of a function of 1,000,000 parameters", line(calls_not_reached()), "module m refused limit\n"),
    ("4,096 modules with a byte at the end of 32 pages", modules(4096, with_bytes_at(LAST_BYTE)), "\nmodule m4095 ok\n"),
    ("16 modules with a byte in each 64 of 32 pages", modules(16, with_bytes_at(range(0, 32 * 65_536, 64))), "\nmodule m15 ok\n"),
    ("4,096 tables of 1,024 elements", modules(4096, HEADER + b"\x04\x05\x01\x70\x00\x80\x08"), "\nmodule m4095 ok\n"),
    ("100,000 calls, one after the other of two modules with a byte at the end of 32 pages", calls_of_two(), "\n100000 ok\n"),
    ("100,000 calls of the last of 4,096 names that differ at their end", long_names(), "\n100000 refused export\n"),
    ("a count of items that are not there", line(HEADER + bytes.fromhex("0105ffffffff0f")), "module m refused malformed\n"),
    ("a count of locals past 32 bits", line(with_code(bytes.fromhex("02ffffffff0f7f017f0b"))), "module m refused malformed\n"),
    ("4,096 modules and 100,000 calls of the last one", many_calls(100_000), "\n100000 ok i32:2\n"),
]

# A file by its size, the size, and the options by the size. Half of it is run too.
GROWING = [
    ("calls of one module", calls_of_one, 1_000_000, lambda n: []),
    ("calls of one module on four workers", calls_of_one, 1_000_000, lambda n: ["--workers", "4"]),
    ("modules of eight bytes with a call each", calls_of_each, 1_048_576, lambda n: []),
    ("modules of eight bytes with a retire line each", retired_modules, 100_000, lambda n: []),
    ("retire lines with a call before each", rounds, 20_000, lambda n: []),
    ("retire lines with a call before each on four workers", rounds, 20_000, lambda n: ["--workers", "4"]),
    ("bytes in one module line", one_line, 1 << 26, lambda n: []),
    ("requests of 65,536 bytes, each answered as it was sent", lambda n: sends(n, 65_536), 500, lambda n: ["--pages", "1"]),
    ("requests of 65,536 bytes on four workers", lambda n: sends(n, 65_536), 500,
     lambda n: ["--pages", "1", "--workers", "4", "--memories", "5", "--instances", "5"]),
    ("requests of one byte, each answered as it was sent", lambda n: sends(n, 1), 1_000_000, lambda n: ["--pages", "1"]),
    ("memories of one page, with 16 workers", lambda n: calls_with_memory(100_000), 1024,
     lambda n: ["--memories", str(n), "--instances", str(n), "--pages", "1", "--workers", "16"]),
]


# Starts a program and prints its status, its seconds and the most KiB that it had. What a process has had begins at what its
# parent has, so a small process starts the program, and not this one, which holds the rows.
STARTER = """
import os, sys, time
began = time.time()
child = os.posix_spawn(sys.argv[1], [sys.argv[1], "run", *sys.argv[2:]], os.environ)
_, status, usage = os.wait4(child, 0)
print(status, time.time() - began, usage.ru_maxrss, file=sys.stderr)
"""


def run(program, text, options=()):
    """What the program writes, its status, its seconds and its most memory in MiB."""
    with tempfile.TemporaryFile() as given, tempfile.TemporaryFile() as written:
        given.write(text)
        given.seek(0)
        started = [sys.executable, "-I", "-S", "-c", STARTER, program, *options]
        told = subprocess.run(started, stdin=given, stdout=written, stderr=subprocess.PIPE, check=True).stderr
        status, seconds, most = told.split()[-3:]
        written.seek(0)
        return written.read().decode(), int(status), float(seconds), int(most) / 1024


def grows_with_its_size(program, what, make, size, options):
    """Whether the file of this size takes at most three times as long as one of half the size."""
    _, _, half, half_memory = run(program, make(size // 2), options(size // 2))
    _, status, seconds, memory = run(program, make(size), options(size))
    right = status == 0 and seconds < MOST_SECONDS and seconds < MOST_TIMES * max(half, 0.05)
    print(f"{size:,} {what}: {seconds:.2f} s, {memory:.0f} MiB; half of it {half:.2f} s, {half_memory:.0f} MiB"
          f"{'' if right else ' WRONG'}", flush=True)
    return right


def main(program):
    bad = 0
    for what, text, end in ROWS:
        written, status, seconds, memory = run(program, text)
        right = status == 0 and seconds < MOST_SECONDS and written.endswith(end)
        bad += not right
        print(f"{what}: {len(text)} bytes, {written[-40:].splitlines()[-1] if written else 'nothing'}, "
              f"{seconds:.2f} s, {memory:.0f} MiB{'' if right else ' WRONG'}", flush=True)
    bad += sum(not grows_with_its_size(program, *row) for row in GROWING)
    sys.exit(1 if bad else 0)


if __name__ == "__main__":
    if len(sys.argv) != 2:
        sys.exit(__doc__)
    main(sys.argv[1])
