#!/usr/bin/env python3
"""Puts each line of a report beside the line that it answers: joined.py [--by tenant|module|export] REQUESTS REPORT

Writes one JSON object for each line of the report. `line` counts the lines of the request file from 1, and `asks` is module,
retire, call or send. Then come the words of that line: `module`, and of a call its number as `call`, its `tenant`, `export`, `fuel`,
`arguments`, and how many bytes it was `sent`. Then comes the answer: `answer` is ok, refused, done, trap or fuel, with `why` for a trap
and a refusal, `result` as the report writes it, and the bytes in hex as `out`. What a line has not is left out.

With --by it writes a row for each tenant, module, or export of a module instead: how many calls there are, how many of them
are ok, trapped, used up their fuel or were refused, and how many bytes were sent and answered. Calls before the first `for` line are those of `no tenant`.

The status is 1, with a line that says why, where the report isn't that of the file: a refused file has no report.
"""
import argparse
import collections
import json
import signal
import sys

# No name has a space.
NO_TENANT = "no tenant"
COLUMNS = ["calls", "ok", "trap", "fuel", "refused", "sent", "answered"]


class Mismatch(Exception):
    """Why a report is not that of a file."""


def byte_count(word):
    return 0 if word == "-" else len(word) // 2


def call_words(words):
    """What the words of a call line ask for."""
    request = words[4:5] if words[0] == "send" else []
    asked = {"export": words[2], "fuel": int(words[3].lstrip("0") or "0"), "arguments": words[4 + len(request) :]}
    return asked | {"sent": byte_count(it) for it in request}


def asked(path):
    """What each line of a request file asks for that has a line in the report."""
    tenant, calls = {}, 0
    with open(path, encoding="latin-1", newline="\n") as file:
        for number, line in enumerate(file, 1):
            words = [it for it in line.rstrip("\n").split(" ") if it]
            if line.startswith("#") or not words:
                continue
            if words[0] == "for":
                tenant = {"tenant": words[1]}
            elif words[0] in ("module", "retire"):
                yield {"line": number, "asks": words[0], "module": words[1]}
            elif words[0] in ("call", "send"):
                calls += 1
                yield {"line": number, "asks": words[0], "module": words[1], "call": calls} | tenant | call_words(words)


def answered(words):
    """What the words of an answer say."""
    said = {"answer": words[0]}
    if words[0] in ("trap", "refused"):
        said["why"] = words[1]
    elif words[0] == "ok":
        for word in words[1:]:
            kind, value = word.split(":")
            said |= {"out": "" if value == "-" else value} if kind == "out" else {"result": word}
    return said


def joined(requests, report):
    """What each line of a report answers, and how."""
    with open(report, encoding="latin-1", newline="\n") as file:
        for one in asked(requests):
            words = file.readline().split()
            head = [str(one["call"])] if "call" in one else [one["asks"], one["module"]]
            if words[: len(head)] != head or len(words) == len(head):
                raise Mismatch(f"{report}: {' '.join(words)!r} does not answer line {one['line']} of {requests}")
            yield one | answered(words[len(head) :])
        if file.readline():
            raise Mismatch(f"{report}: there are lines to spare")


def counted(lines, by):
    """The counts of the calls of each tenant, module or export."""
    rows = collections.defaultdict(collections.Counter)
    for one in lines:
        if "call" in one:
            name = one.get("tenant", NO_TENANT) if by == "tenant" else one["module"]
            row = rows[f"{name} {one['export']}" if by == "export" else name]
            row.update(["calls", one["answer"]])
            row.update(sent=one.get("sent", 0), answered=len(one.get("out", "")) // 2)
    return rows


def write_table(by, rows):
    wide = max(map(len, [by, *rows]))
    print(f"{by:{wide}}" + "".join(f" {it:>10}" for it in COLUMNS))
    for name, row in sorted(rows.items()):
        print(f"{name:{wide}}" + "".join(f" {row[it]:10}" for it in COLUMNS))


def main():
    parser = argparse.ArgumentParser(description=__doc__.split("\n")[0])
    parser.add_argument("--by", choices=["tenant", "module", "export"])
    parser.add_argument("requests", metavar="REQUESTS")
    parser.add_argument("report", metavar="REPORT")
    words = parser.parse_args()
    signal.signal(signal.SIGPIPE, signal.SIG_DFL)
    try:
        lines = joined(words.requests, words.report)
        if words.by:
            write_table(words.by, counted(lines, words.by))
        else:
            for one in lines:
                print(json.dumps(one))
    except OSError as why:
        sys.exit(f"{why.filename}: {why.strerror}")
    except Mismatch as why:
        sys.exit(str(why))
    except (IndexError, ValueError):
        sys.exit(f"{words.requests}: a line is none of a request file that is read")


if __name__ == "__main__":
    main()
