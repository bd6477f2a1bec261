#!/usr/bin/env python3
"""Writes a request file of WebAssembly binaries: requests_of.py [--profile P] FILE.wasm .. > FILE.requests

Each file is a module line, under the file's name without its ending. Its custom sections, as those of names, are left out:
they mean nothing to the host. Behind the line stands a comment for each function that the module exports, with the types of
its parameters and results. A call line is such a comment without `# `, with the fuel in place of FUEL and an argument in place
of each type. Where the module has functions of the host there is a comment for a send line too, with the bytes of the
request, in hex, in place of HEX.

An import that the profile lacks is told on standard error, and the line is written all the same. A file that is no WebAssembly
binary, or whose name no module line can have or another file has, ends the run with status 1 and a line that says so, and
nothing is written.
"""
import argparse
import pathlib
import sys

import wasm_binary as wasm

TYPES = {0x7F: "i32", 0x7E: "i64", 0x7D: "f32", 0x7C: "f64"}


class Module:
    """What a binary imports and exports, and its bytes without custom sections."""

    def __init__(self, contents):
        self.contents, parts = wasm.HEADER, {}
        for number, start, part in wasm.sections(contents):
            if number != wasm.CUSTOM:
                self.contents += contents[start : part.end]
                parts[number] = part
        items = lambda number, read: parts[number].vector(lambda: read(parts[number])) if number in parts else []
        self.types = items(wasm.TYPE, wasm.function_type)
        self.imports = items(wasm.IMPORT, wasm.imported)
        imported = [it for _, _, it in self.imports if it is not None]
        self.functions = imported + items(wasm.FUNCTION, wasm.Cursor.number)
        self.exports = items(wasm.EXPORT, wasm.exported)

    def exported_functions(self):
        """The exported functions, each with the types of its parameters and results."""
        for name, kind, index in self.exports:
            if kind == 0 and index < len(self.functions) and self.functions[index] < len(self.types):
                yield name, *([TYPES.get(it, "?") for it in of] for of in self.types[self.functions[index]])

    def foreign_imports(self, profile):
        """The imports that a file of the profile has none of, each as its two names."""
        for names, kind, _ in self.imports:
            if profile < 3 or kind != 0 or names not in wasm.HOST_FUNCTIONS:
                yield b".".join(names).decode(), names in wasm.HOST_FUNCTIONS

    def has_host(self):
        return any(names in wasm.HOST_FUNCTIONS for names, _, _ in self.imports)


def is_word(name):
    """Whether a call line can have the name."""
    return name and all(0x21 <= it <= 0x7E for it in name)


def warn(path, module, profile):
    for name, is_host in module.foreign_imports(profile):
        advice = "profile 3 has it" if is_host else "no profile has it"
        print(f"{path}: the module imports {name}, so it is unsupported in profile {profile}: {advice}", file=sys.stderr)


def lines_of(path, profile):
    if not is_word(path.stem.encode()) or len(path.stem) > 64:
        raise wasm.Refused("its name is no name of a module: 1 to 64 printable bytes of ASCII without spaces")
    module = Module(path.read_bytes())
    warn(path, module, profile)
    yield f"module {path.stem} {module.contents.hex()}"
    for name, parameters, results in module.exported_functions():
        if is_word(name):
            words = "".join(f" {it}:N" for it in parameters)
            answers = ", ".join(results) or "nothing"
            yield f"# call {path.stem} {name.decode()} FUEL{words}   (answers {answers})"
            if profile >= 3 and module.has_host():
                yield f"# send {path.stem} {name.decode()} FUEL HEX{words}   (answers {answers}, and bytes)"


def main():
    parser = argparse.ArgumentParser(description=__doc__.split("\n")[0])
    parser.add_argument("--profile", type=int, choices=[1, 2, 3, 4, 5], default=1)
    parser.add_argument("files", nargs="+", type=pathlib.Path, metavar="FILE.wasm")
    words = parser.parse_args()
    lines = [f"profile {words.profile}"] * (words.profile > 1)
    names = set()
    for path in words.files:
        try:
            if path.stem in names:
                raise wasm.Refused("an earlier file has its name, and no two modules may")
            names.add(path.stem)
            lines += lines_of(path, words.profile)
        except (OSError, wasm.Refused) as why:
            sys.exit(f"{path}: {why}")
    print("\n".join(lines))


if __name__ == "__main__":
    main()
