#!/usr/bin/env python3
"""Says why poolhost refuses a WebAssembly binary, and what helps: why.py [--profile P] [limits] FILE.wasm ..

Each line names one thing that the profile or the limits refuse: the word of the report (malformed, unsupported, invalid, limit or
segment), what it is, how often it was seen, where first (the byte of the file, and the function, by name where the file has
names), and what helps, which mostly is an option of clang. The first line of a file has the report's word. The limits are
--pages, --elements and --frame, as `poolhost run` takes them.

It is a look and no verdict. It reads sections, types, imports, limits, segments and opcodes, and checks no types. Of a function's
frame it counts parameters, locals and labels, and no operands. So a module of which nothing is seen may still be refused.

The status is 0 where nothing was seen in any file, 1 where something was, and 2 where a file can't be read or the words are wrong.
"""
import argparse
import pathlib
import sys
import typing

import wasm_binary as wasm

VERDICTS = ["malformed", "unsupported", "invalid", "limit", "segment"]


class Feature(typing.NamedTuple):
    verdict: str
    what: str
    advice: str


LATER = "it is in profile 2; for profile 1 build with "
SIGN = Feature("malformed", "the extension of a sign", LATER + "-mcpu=mvp, or -mno-sign-ext")
BULK = Feature("malformed", "memory.copy or memory.fill", LATER + "-mcpu=mvp")
COUNT = Feature("malformed", "a count of the data segments", LATER + "-mcpu=mvp")
PADDED = Feature(
    "malformed",
    "call_indirect with a padded index of its table",
    "build with -mcpu=mvp, for profile 2 with -msign-ext -mbulk-memory too, or write the file anew: wasm-opt FILE -o FILE",
)
SEGMENTS = Feature("malformed", "a passive segment, or an instruction on segments or tables", "build without -pthread and --shared-memory")
SATURATING = Feature("malformed", "a saturating conversion of a float", "build without float and double")
REFERENCES = Feature("malformed", "a reference as a value", "build with -mcpu=mvp, or -mno-reference-types")
MULTI_BLOCK = Feature("malformed", "a block with parameters or several results", "build with -mcpu=mvp, or -mno-multivalue")
MULTI_RESULT = Feature("invalid", "a function type with several results", "build with -mcpu=mvp, or -mno-multivalue")
TAIL = Feature("malformed", "a tail call", "build with -mno-tail-call")
VECTORS = Feature("malformed", "vectors of 128 bits", "build with -mno-simd128")
ATOMIC = Feature("malformed", "an atomic instruction", "build with -mno-atomics, and without -pthread")
SHARED = Feature("malformed", "a shared memory, or one of 64 bits", "build for wasm32, without -pthread and --shared-memory")
EXCEPTIONS = Feature("malformed", "exceptions", "build with -fno-exceptions")
WIDE = Feature("malformed", "arithmetic of 128 bits", "build with -mno-wide-arithmetic")
COLLECTED = Feature("malformed", "a type or an instruction of garbage collection", "the language needs a target without it")
UNKNOWN = Feature("malformed", "an opcode, a type or a section that no profile has", "build with -mcpu=mvp")
MEMORIES = Feature("malformed", "an instruction on a second memory", "build with one memory")
TABLES = Feature("malformed", "a call by a second table", "build with one table")
FLOATS = Feature("unsupported", "floats", "build without float and double, which printf of a C library has too")
CONSTANT = Feature("invalid", "a constant of several instructions", "build with -mno-extended-const, and without -fPIC")
IMPORT_ADVICE = [
    "link what has it, or leave it out; no profile has it",
    "link without --import-table and -shared",
    "link without --import-memory and -shared",
    "link without -shared and -pie",
]
PAGES_ADVICE = "--pages allows up to 256; clang's stack is as large as -Wl,-z,stack-size=BYTES says"
FRAME_ADVICE = "--frame allows up to 4096; -O1 and more leave fewer locals"

# What follows an opcode: n a number, s a signed one, a the alignment and the offset of an access, b the type of a block, t types, l labels, m the
# index of a memory, i that of a table in call_indirect, 4 and 8 so many bytes.
PLAIN = (
    dict.fromkeys([0x00, 0x01, 0x05, 0x0B, 0x0F, 0x1A, 0x1B, *range(0x45, 0xC0)], "")
    | dict.fromkeys([0x02, 0x03, 0x04], "b")
    | dict.fromkeys([0x0C, 0x0D, 0x10, *range(0x20, 0x25)], "n")
    | dict.fromkeys([0x41, 0x42], "s")
    | dict.fromkeys(range(0x28, 0x3F), "a")
    | {0x0E: "l", 0x11: "ni", 0x3F: "m", 0x40: "m", 0x43: "4", 0x44: "8"}
)
FLOAT_OPCODES = {0x2A, 0x2B, 0x38, 0x39, 0x43, 0x44, *range(0x5B, 0x67), *range(0x8B, 0xA7), *range(0xA8, 0xAC), *range(0xAE, 0xC0)}
# Opcodes of later versions, with what follows them where it is known how to read on.
LATER_OPCODES = (
    dict.fromkeys(range(0xC0, 0xC5), (SIGN, ""))
    | dict.fromkeys([0x12, 0x14, 0x15], (TAIL, "n"))
    | dict.fromkeys([0x25, 0x26, 0xD2], (REFERENCES, "n"))
    | dict.fromkeys([0x06, 0x07, 0x08, 0x09, 0x0A, 0x18, 0x19, 0x1F], (EXCEPTIONS, None))
    | {0x13: (TAIL, "nn"), 0x1C: (REFERENCES, "t"), 0xD0: (REFERENCES, "s"), 0xD1: (REFERENCES, ""), 0xFB: (COLLECTED, None), 0xFD: (VECTORS, None), 0xFE: (ATOMIC, None)}
)
# The same of the numbers behind 0xFC.
PREFIX = 0xFC
PREFIXED = (
    dict.fromkeys(range(8), (SATURATING, ""))
    | dict.fromkeys([8, 12, 14], (SEGMENTS, "nn"))
    | dict.fromkeys([9, 13], (SEGMENTS, "n"))
    | dict.fromkeys([15, 16, 17], (REFERENCES, "n"))
    | dict.fromkeys(range(19, 23), (WIDE, ""))
    | {10: (BULK, "mm"), 11: (BULK, "m")}
)
NUMBERS, FLOAT_TYPES, REFERENCE_TYPES, VECTOR_TYPE, NO_RESULT = (0x7F, 0x7E), (0x7D, 0x7C), (0x70, 0x6F), 0x7B, 0x40
BLOCKS, END, I32_CONST = (0x02, 0x03, 0x04), 0x0B, 0x41
PAGE, MOST_GLOBALS = 65536, 1024


class Unreadable(Exception):
    """What follows in a section or in a function can't be read."""


class Sights:
    """What was seen: how often, and where first."""

    def __init__(self, profile):
        self.profile, self.function, self.seen = profile, None, {}

    def see(self, feature, at):
        if self.profile == 1 or feature not in (SIGN, BULK, COUNT):
            self.seen.setdefault(feature, [0, at, self.function])[0] += 1

    def value_type(self, cursor):
        at, byte = cursor.at, cursor.byte()
        if byte in FLOAT_TYPES:
            self.see(FLOATS, at)
        elif byte == VECTOR_TYPE:
            self.see(VECTORS, at)
        elif byte in REFERENCE_TYPES:
            self.see(REFERENCES, at)
        elif byte not in NUMBERS:
            self.see(UNKNOWN, at)
            raise Unreadable

    def value_types(self, cursor):
        """The bytes of a vector of types."""
        count = cursor.number()
        start = cursor.at
        for _ in range(count):
            self.value_type(cursor)
        return cursor.contents[start : cursor.at]


class Code:
    """The instructions of an expression, read up to its end."""

    def __init__(self, cursor, sights):
        self.cursor, self.sights = cursor, sights
        self.instructions, self.labels, self.most_labels = 0, 1, 1
        self.reads = {"n": cursor.number, "s": cursor.signed, "a": self.address, "b": self.block_type, "l": self.label_table, "m": self.memory, "i": self.table}
        self.reads |= {"t": lambda: sights.value_types(cursor), "4": lambda: cursor.take(4), "8": lambda: cursor.take(8)}

    def read(self):
        while self.labels > 0:
            self.instruction()
        return self

    def instruction(self):
        at, opcode = self.cursor.at, self.cursor.byte()
        self.instructions += 1
        if opcode in FLOAT_OPCODES:
            self.sights.see(FLOATS, at)
        if opcode in PLAIN:
            self.operands(PLAIN[opcode])
        elif opcode == PREFIX:
            self.later(at, *PREFIXED.get(self.cursor.number(), (UNKNOWN, None)))
        else:
            self.later(at, *LATER_OPCODES.get(opcode, (UNKNOWN, None)))
        self.labels += (opcode in BLOCKS) - (opcode == END)
        self.most_labels = max(self.most_labels, self.labels)

    def later(self, at, feature, operands):
        self.sights.see(feature, at)
        if operands is None:
            raise Unreadable
        self.operands(operands)

    def operands(self, letters):
        for it in letters:
            self.reads[it]()

    def address(self):
        """An alignment and an offset; a bit of the first says that the index of a memory stands between."""
        at = self.cursor.at
        if self.cursor.number() & 64:
            self.sights.see(MEMORIES, at)
            self.cursor.number()
        self.cursor.number()

    def block_type(self):
        at, byte = self.cursor.at, self.cursor.byte()
        if byte == NO_RESULT:
            return
        self.cursor.at = at
        if byte in (*NUMBERS, *FLOAT_TYPES, *REFERENCE_TYPES, VECTOR_TYPE):
            self.sights.value_type(self.cursor)
        else:
            self.sights.see(MULTI_BLOCK, at)
            self.cursor.signed()

    def label_table(self):
        self.cursor.vector(self.cursor.number)
        self.cursor.number()

    def memory(self):
        at = self.cursor.at
        if self.cursor.number() != 0 or self.cursor.at > at + 1:
            self.sights.see(MEMORIES, at)

    def table(self):
        at = self.cursor.at
        index = self.cursor.number()
        if index != 0:
            self.sights.see(TABLES, at)
        elif self.cursor.at > at + 1:
            self.sights.see(PADDED, at)


class Look:
    """A look at one binary."""

    def __init__(self, contents, profile, limits):
        self.contents, self.profile, self.limits = contents, profile, limits
        self.sights = Sights(profile)
        self.types, self.functions, self.imported, self.names = [], [], 0, {}
        self.least_elements = self.least_pages = None
        each = lambda read: lambda cursor: self.read_each(cursor, read)
        self.readers = {
            wasm.CUSTOM: self.read_names,
            wasm.TYPE: each(self.read_type),
            wasm.IMPORT: each(self.read_import),
            wasm.FUNCTION: each(lambda cursor: self.functions.append(cursor.number())),
            wasm.TABLE: self.read_tables,
            wasm.MEMORY: self.read_memories,
            wasm.GLOBAL: self.read_globals,
            wasm.EXPORT: each(wasm.exported),
            wasm.START: wasm.Cursor.number,
            wasm.ELEMENT: each(self.read_elements),
            wasm.CODE: self.read_bodies,
            wasm.DATA: each(self.read_data),
            wasm.DATA_COUNT: self.read_count,
        }

    def read(self):
        at = 0
        try:
            for number, at, cursor in wasm.sections(self.contents):
                self.read_section(number, at, cursor)
        except wasm.Refused as why:
            self.sights.see(Feature("malformed", str(why), "the file is cut, or no module: a component is none"), at)

    def read_section(self, number, at, cursor):
        if number not in self.readers:
            self.sights.see(EXCEPTIONS if number == 13 else UNKNOWN, at)
            return
        self.read_part(cursor, self.readers[number])

    def read_part(self, cursor, read):
        """Reads a part that should end where it says. A malformed feature that was seen before may be why it does not."""
        fault = None
        try:
            read(cursor)
            if cursor.left():
                fault = "there are bytes to spare"
        except wasm.Refused as why:
            fault = str(why)
        except Unreadable:
            pass
        if fault and not any(it.verdict == "malformed" for it in self.sights.seen):
            self.sights.see(Feature("malformed", fault, "the file is cut or damaged, or a tool wrote what 1.0 lacks"), cursor.at)

    def read_each(self, cursor, read):
        for _ in range(cursor.number()):
            read(cursor)

    def see_limit(self, at, value, limit, what, advice):
        if value > limit:
            self.sights.see(Feature("limit", f"{value} {what} where {limit} are allowed", advice), at)

    def read_names(self, cursor):
        """The names of functions, where the section has them."""
        if cursor.name() == b"name":
            while cursor.left():
                number, part = cursor.byte(), cursor.part()
                if number == 1:
                    self.read_each(part, lambda part: self.names.update({part.number(): part.string().decode(errors="replace")}))
        cursor.at = cursor.end

    def read_type(self, cursor):
        at = cursor.at
        if cursor.byte() != wasm.FUNCTION_TYPE:
            self.sights.see(COLLECTED, at)
            raise Unreadable
        self.types.append((self.sights.value_types(cursor), self.sights.value_types(cursor)))
        if len(self.types[-1][1]) > 1:
            self.sights.see(MULTI_RESULT, at)

    def read_import(self, cursor):
        at = cursor.at
        names, kind, type_index = wasm.imported(cursor)
        if kind == 0:
            self.functions.append(type_index)
            self.imported += 1
        is_host = names in wasm.HOST_FUNCTIONS
        has_its_type = kind == 0 and self.types[type_index : type_index + 1] == [wasm.HOST_FUNCTIONS.get(names)]
        if not has_its_type:
            advice = "the host's function has another type" if is_host else IMPORT_ADVICE[kind]
        elif self.profile < 3:
            advice = "profile 3 has it"
        else:
            return
        name = b".".join(names).decode()
        self.sights.see(Feature("unsupported", f"an import of the {wasm.KINDS[kind]} {name}", advice), at)

    def read_limits(self, cursor):
        """The least size of a memory or of a table."""
        at, flags = cursor.at, cursor.byte()
        if flags > 1:
            self.sights.see(SHARED, at)
        least = cursor.number()
        if flags & 1:
            cursor.number()
        return least

    def see_one(self, at, count, what):
        if count > 1:
            self.sights.see(Feature("invalid", f"{count} {what} where one is allowed", "build with -mcpu=mvp"), at)

    def read_table(self, cursor):
        at, kind = cursor.at, cursor.byte()
        if kind != REFERENCE_TYPES[0]:
            self.sights.see(REFERENCES, at)
        if kind not in REFERENCE_TYPES:
            raise Unreadable
        return self.read_limits(cursor)

    def read_tables(self, cursor):
        at, least = cursor.at, cursor.vector(lambda: self.read_table(cursor))
        self.see_one(at, len(least), "tables")
        self.least_elements = max(least, default=None)
        self.see_limit(at, max(least, default=0), self.limits.elements, "elements of a table", "--elements allows up to 65536")

    def read_memories(self, cursor):
        at, least = cursor.at, cursor.vector(lambda: self.read_limits(cursor))
        self.see_one(at, len(least), "memories")
        self.least_pages = max(least, default=None)
        self.see_limit(at, max(least, default=0), self.limits.pages, "pages of memory", PAGES_ADVICE)

    def read_globals(self, cursor):
        at, count = cursor.at, 0
        for count in range(1, cursor.number() + 1):
            self.sights.value_type(cursor)
            cursor.byte()
            self.read_constant(cursor)
        self.see_limit(at, count, MOST_GLOBALS, "globals", "no option allows more")

    def read_constant(self, cursor):
        """The value of a constant expression, where it is one i32.const."""
        at = cursor.at
        code = Code(cursor, self.sights).read()
        if code.instructions > 2:
            self.sights.see(CONSTANT, at)
        elif self.contents[at] == I32_CONST:
            return wasm.Cursor(self.contents, at + 1).signed() % (1 << 32)
        return None

    def read_offset(self, cursor):
        """Where a segment begins, if that is seen: a number before it is 0, or says of which later kind it is."""
        at, kind = cursor.at, cursor.number()
        if kind != 0:
            self.sights.see(SEGMENTS, at)
            raise Unreadable
        return self.read_constant(cursor)

    def see_segment(self, at, begin, length, size, what):
        if size is None:
            what = f"a segment of {what} without a memory or a table for them"
            self.sights.see(Feature("invalid", what, "link without --import-memory and --import-table"), at)
        elif begin is not None and begin + length > size:
            what = f"a segment of {what} from {begin} to {begin + length}, and there are {size}"
            self.sights.see(Feature("segment", what, "make the memory or the table larger"), at)

    def read_elements(self, cursor):
        at, begin = cursor.at, self.read_offset(cursor)
        functions = cursor.vector(cursor.number)
        self.see_segment(at, begin, len(functions), self.least_elements, "elements")

    def read_data(self, cursor):
        at, begin = cursor.at, self.read_offset(cursor)
        self.see_segment(at, begin, len(cursor.string()), self.least_pages and self.least_pages * PAGE, "bytes")

    def read_count(self, cursor):
        self.sights.see(COUNT, cursor.at)
        cursor.number()

    def read_bodies(self, cursor):
        for function in range(self.imported, self.imported + cursor.number()):
            self.sights.function = function
            self.read_part(cursor.part(), lambda part: self.read_body(function, part))
        self.sights.function = None

    def read_local(self, cursor):
        """How many locals of one type there are."""
        count = cursor.number()
        self.sights.value_type(cursor)
        return count

    def read_body(self, function, cursor):
        at, own = cursor.at, sum(cursor.vector(lambda: self.read_local(cursor)))
        labels = Code(cursor, self.sights).read().most_labels
        of_type = self.functions[function : function + 1]
        parameters = sum(len(self.types[it][0]) for it in of_type if it < len(self.types))
        self.see_limit(at, parameters + own + labels, self.limits.frame, "places in a frame, or more,", FRAME_ADVICE)

    def lines(self):
        """What was seen, by the word of the report and the place."""
        for feature, (times, at, function) in sorted(self.sights.seen.items(), key=lambda it: (VERDICTS.index(it[0].verdict), it[1][1])):
            often = "" if times == 1 else f"{times} times, first "
            within = "" if function is None else f" in function {self.names.get(function, function)}"
            yield f"{feature.verdict}: {feature.what} ({often}at byte {at}{within}): {feature.advice}"


def main():
    parser = argparse.ArgumentParser(description=__doc__.split("\n")[0])
    parser.add_argument("--profile", type=int, choices=[1, 2, 3, 4, 5], default=1)
    parser.add_argument("--pages", type=int, default=32)
    parser.add_argument("--elements", type=int, default=1024)
    parser.add_argument("--frame", type=int, default=1024)
    parser.add_argument("files", nargs="+", type=pathlib.Path, metavar="FILE.wasm")
    words = parser.parse_args()
    status = 0
    for path in words.files:
        try:
            look = Look(path.read_bytes(), words.profile, words)
        except OSError as why:
            parser.error(f"{path}: {why.strerror}")
        look.read()
        lines = list(look.lines())
        status = 1 if lines else status
        for line in lines or [f"nothing is seen that profile {words.profile} or the limits refuse"]:
            print(f"{path}: {line}")
    sys.exit(status)


if __name__ == "__main__":
    main()
