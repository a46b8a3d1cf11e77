#!/usr/bin/env python3
"""Checks random texts of schemas with the program: each is taken or has faults that lie in it.

    random_texts.py PROGRAM

A text is the first bytes of a good schema, such a schema with a byte changed, random bytes, or
random words of schemas. The texts are the same in each run.
"""

import pathlib
import random
import re
import subprocess
import sys
import tempfile

from rows import TAKEN, rows

CALLS = 60
TEXTS = 200

WORDS = ["table ", "struct ", "enum ", "union ", "namespace ", "root_type ", "rpc_service "]
WORDS += ["include ", "A", "B", "a", "b", "int", "ubyte", "string", "id", "key", "0", "-1", '"A"']
WORDS += [*"{}()[]:;,=.", "\n"]

# A fault: its place, what is wrong, the line, and a mark below.
REPORT = re.compile(rb"(\d+)\.fbs:(\d+):(\d+): [^\n]+\n([^\n]*\n[ \t]*\^\n)")

# What a terminal must not get: control characters but tabs, and marks of direction.
HIDDEN = re.compile("[\0-\x08\n-\x1f\x7f-\x9f\u061c\u200e\u200f\u202a-\u202e\u2066-\u2069]")

# So many bytes of a line are shown on either side of a place.
BESIDE = 80


def cut(good):
    return good[: random.randrange(len(good) + 1)]


def changed(good):
    at = random.randrange(len(good))
    return good[:at] + bytes([random.randrange(256)]) + good[at + 1 :]


def random_bytes(_good):
    return random.randbytes(random.randrange(64))


def random_words(_good):
    return "".join(random.choices(WORDS, k=random.randrange(64))).encode()


def shown(line):
    """The bytes of a line as a terminal may show them."""
    escaped = lambda found: "".join(f"\\x{byte:02x}" for byte in found[0].encode())
    return HIDDEN.sub(escaped, line.decode(errors="backslashreplace"))


def marked(line, column):
    """What is shown of a line, and below it a mark at a column."""
    front, rest = line[: column - 1], line[column - 1 :].split(b"\r")[0]
    before = ("..." if len(front) > BESIDE else "") + shown(front[-BESIDE:])
    after = shown(rest[:BESIDE]) + ("..." if len(rest) > BESIDE else "")
    return before + after + "\n" + re.sub("[^\t]", " ", before) + "^\n"


def lies_in(text, report):
    """Whether the fault of a report lies in a text, and is marked in its line."""
    line, column = int(report[2]), int(report[3])
    lines = text.split(b"\n")
    if line > len(lines) or column > len(lines[line - 1]) + 1:
        return False
    return marked(lines[line - 1], column).encode() == report[4]


def are_faults(texts, told):
    """Whether this is nothing but faults of these texts."""
    at = 0
    while at < len(told):
        report = REPORT.match(told, at)
        if not report or not lies_in(texts[int(report[1])], report):
            return False
        at = report.end()
    return True


def are_answered(program, texts):
    """Whether each of the texts is taken or has faults that lie in it."""
    with tempfile.TemporaryDirectory() as folder:
        names = [f"{index}.fbs" for index in range(len(texts))]
        for name, text in zip(names, texts):
            (pathlib.Path(folder) / name).write_bytes(text)
        words = [program, "check", *names]
        ended = subprocess.run(words, cwd=folder, capture_output=True, timeout=60)
    status = 1 if ended.stderr else 0
    return (ended.returncode, ended.stdout) == (status, b"") and are_faults(texts, ended.stderr)


def main(program):
    program = str(pathlib.Path(program).resolve())
    random.seed(1)
    goods = [row[0].encode() for name in TAKEN for row in rows(name)]
    made = [cut, changed, random_bytes, random_words]
    wrong = 0
    for _ in range(CALLS):
        texts = [random.choice(made)(random.choice(goods)) for _ in range(TEXTS)]
        if not are_answered(program, texts):
            print("not answered:", texts)
            wrong += 1
    print(f"random texts: {CALLS * TEXTS}, {wrong} calls ended wrong")
    return 1 if wrong else 0


if __name__ == "__main__":
    sys.exit(main(*sys.argv[1:]))
