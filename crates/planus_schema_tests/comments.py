#!/usr/bin/env python3
"""Formats schemas with comments at random places, and compares the tokens and comments.

    comments.py PROGRAM

Before the tokens of each good schema are comments and blanks. The program formats these texts; each
then has to have the tokens and comments that it had, as a plain program reads them, and to be
formatted. The texts are the same in each run.
"""

import pathlib
import random
import re
import subprocess
import sys
import tempfile

from rows import TAKEN, rows

ROUNDS = 10

PARTS = re.compile(
    rb"(?P<line>//[^\n]*)|(?P<block>/\*.*?\*/)|(?P<blank>\s+)"
    rb"|(?P<token>\"(\\.|[^\"\\])*\"|'(\\.|[^'\\])*'|[-+.\w]+|[{}()\[\]:;,=])",
    re.DOTALL,
)

BLANKS = [b"", b" ", b"\t", b"\n", b"\n\n", b"\r\n"]


def parts(text):
    """The tokens and comments of a text, those to the end of a line without the blanks there."""
    found = [part[0] if part["block"] else part[0].rstrip() for part in PARTS.finditer(text)]
    return [part for part in found if part]


def comment():
    said = bytes(random.choices(b" ab*/\t.\"'{", k=random.randrange(8)))
    if random.random() < 0.5:
        return b"//" + said.lstrip(b"/") + b"\n"
    return b"/*" + said.replace(b"/", b"") + random.choice([b"", b"\n"]) + b"*/"


def comments():
    some = [comment() + random.choice(BLANKS) for _ in range(random.randrange(3))]
    return random.choice(BLANKS) + b"".join(some)


def commented(good):
    """The text with comments before its tokens, and at its end."""
    with_some = [comments() + b" " + part + b"\n" for part in parts(good)]
    return b"".join(with_some) + comments()


def called(program, folder, option, names):
    words = [program, "format", option, *names]
    return subprocess.run(words, cwd=folder, capture_output=True, timeout=60)


def kept(program, texts):
    """Whether the program formats each of the texts, and keeps its tokens and comments."""
    with tempfile.TemporaryDirectory() as name:
        folder = pathlib.Path(name)
        names = [f"{index}.fbs" for index in range(len(texts))]
        for name, text in zip(names, texts):
            (folder / name).write_bytes(text)
        written = called(program, folder, "--write", names)
        checked = called(program, folder, "--check", names)
        same = [parts(text) == parts((folder / n).read_bytes()) for n, text in zip(names, texts)]
    said = written.stdout + written.stderr + checked.stdout + checked.stderr
    return not said and written.returncode == checked.returncode == 0 and all(same)


def main(program):
    program = str(pathlib.Path(program).resolve())
    random.seed(1)
    goods = [row[0].encode() for name in TAKEN for row in rows(name)]
    wrong = 0
    for _ in range(ROUNDS):
        texts = [commented(good) for good in goods]
        if not kept(program, texts):
            print("not kept:", texts)
            wrong += 1
    print(f"texts with comments: {ROUNDS * len(goods)}, {wrong} rounds ended wrong")
    return 1 if wrong or not goods else 0


if __name__ == "__main__":
    sys.exit(main(*sys.argv[1:]))
