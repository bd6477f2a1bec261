"""Reads WebAssembly binaries part by part, for requests_of.py and why.py: a cursor, the sections, and what some of them hold."""

FUNCTION_TYPE = 0x60
CUSTOM, TYPE, IMPORT, FUNCTION, TABLE, MEMORY, GLOBAL, EXPORT, START, ELEMENT, CODE, DATA, DATA_COUNT = range(13)
# The kinds of what is imported and exported.
KINDS = ["function", "table", "memory", "global"]
HEADER = b"\0asm\1\0\0\0"
# The functions of the host, each with the types of its parameters and its results.
HOST_FUNCTIONS = {
    (b"host", b"len"): (b"", b"\x7f"),
    (b"host", b"read"): (b"\x7f\x7f\x7f", b"\x7f"),
    (b"host", b"write"): (b"\x7f\x7f", b"\x7f"),
}


class Refused(Exception):
    """Why bytes are no WebAssembly binary."""


class Cursor:
    """A place in bytes, from which items are read up to an end."""

    def __init__(self, contents, at=0, end=None):
        self.contents, self.at, self.end = contents, at, len(contents) if end is None else end

    def left(self):
        return self.end - self.at

    def take(self, count):
        if self.left() < count:
            raise Refused("it ends within an item")
        self.at += count
        return self.contents[self.at - count : self.at]

    def byte(self):
        return self.take(1)[0]

    def part(self):
        """A cursor over as many bytes as a number says."""
        size = self.number()
        start = self.at
        self.take(size)
        return Cursor(self.contents, start, self.at)

    def leb(self):
        """A number in LEB128, unsigned, and how many bits its bytes have room for."""
        value = shift = 0
        while True:
            byte = self.byte()
            value |= (byte & 127) << shift
            shift += 7
            if byte < 128:
                return value, shift

    def number(self):
        """An unsigned LEB128 of 32 bits."""
        value, room = self.leb()
        if room > 35 or value >= 1 << 32:
            raise Refused("a number has more than 32 bits")
        return value

    def signed(self):
        """A signed LEB128."""
        value, room = self.leb()
        return value - (1 << room) if value >> (room - 1) else value

    def vector(self, item):
        return [item() for _ in range(self.number())]

    def string(self):
        """As many bytes as a number says."""
        return self.take(self.number())

    def name(self):
        """The bytes of a name, which are UTF-8."""
        name = self.string()
        try:
            name.decode()
        except UnicodeDecodeError:
            raise Refused("a name is not UTF-8") from None
        return name


def sections(contents):
    """Each section's number, where it begins, and a cursor over what it holds."""
    cursor = Cursor(contents)
    if cursor.left() < len(HEADER) or cursor.take(len(HEADER)) != HEADER:
        raise Refused("it does not begin as a WebAssembly 1.0 binary")
    while cursor.left():
        start = cursor.at
        yield cursor.byte(), start, cursor.part()


def function_type(cursor):
    """The bytes of the types of a function's parameters, and of its results."""
    if cursor.byte() != FUNCTION_TYPE:
        raise Refused("a type is no function type")
    return cursor.string(), cursor.string()


def skip_limits(cursor):
    has_most = cursor.byte() & 1
    cursor.number()
    if has_most:
        cursor.number()


def imported(cursor):
    """An import: its two names, its kind, and the number of its type where it is a function."""
    names = cursor.name(), cursor.name()
    kind, type_index = cursor.byte(), None
    if kind == 0:
        type_index = cursor.number()
    elif kind == 3:
        cursor.take(2)
    elif kind in (1, 2):
        cursor.take(kind == 1)
        skip_limits(cursor)
    else:
        raise Refused("an import is of no kind that there is")
    return names, kind, type_index


def exported(cursor):
    """An export: its name, its kind and its number."""
    return cursor.name(), cursor.byte(), cursor.number()
