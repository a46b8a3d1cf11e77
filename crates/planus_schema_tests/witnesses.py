#!/usr/bin/env python3
"""Shows of each change that breaks a buffer that the old and the new schema read differently.

    witnesses.py PROGRAM

In witnesses.txt each change has the old schema (`<`), the new one (`>`), the bytes of a buffer, which
flatc made (`*`), perhaps options of `view` (`$`), and lines that `view` prints by the old schema (`-`)
and by the new one (`+`): a whole line, with `~` a part of what is said on standard error, and with `!`
before it what isn't there. `conform` names one break or more, the two views differ, and the lines are
there.
"""

import pathlib
import subprocess
import sys
import tempfile

ROWS = pathlib.Path(__file__).resolve().parent / "witnesses.txt"


def rows():
    """The name and the lines of each change, by their first letter."""
    for block in ROWS.read_text().split("\n\n")[1:]:
        lines = block.strip("\n").split("\n")
        yield lines[0][2:], {mark: [line[2:] for line in lines[1:] if line[0] == mark] for mark in "<>*$-+"}


def called(program, folder, *words):
    """The status of a call, its lines, and what it says."""
    ended = subprocess.run([program, *words], cwd=folder, capture_output=True, text=True, timeout=60)
    return ended.returncode, ended.stdout.splitlines(), ended.stderr


def is_there(wanted, lines, said):
    """Whether the line is printed or said, or isn't, as it is wanted."""
    text = wanted.removeprefix("!")
    there = text[1:] in said if text.startswith("~") else text in lines
    return there != wanted.startswith("!")


def differences(program, folder):
    for name, row in rows():
        (folder / "old.fbs").write_text("\n".join(row["<"]))
        (folder / "new.fbs").write_text("\n".join(row[">"]))
        (folder / "buffer.bin").write_bytes(bytes.fromhex("".join(row["*"])))
        status, breaks, said = called(program, folder, "conform", "--json", "old.fbs", "new.fbs")
        if status != 1 or not breaks:
            yield f"{name}: conform ends with {status}, and names {len(breaks)} breaks: {said}"
        views = {}
        for mark, schema in ("-", "old.fbs"), ("+", "new.fbs"):
            options = " ".join(row["$"]).split()
            views[mark] = called(program, folder, "view", *options, schema, "buffer.bin")
            for wanted in row[mark]:
                if not is_there(wanted, *views[mark][1:]):
                    yield f"{name}: by {schema} {wanted!r} isn't so: {views[mark]}"
        if views["-"] == views["+"]:
            yield f"{name}: both schemas show the same: {views['-']}"


def main():
    with tempfile.TemporaryDirectory() as folder:
        found = list(differences(pathlib.Path(sys.argv[1]).resolve(), pathlib.Path(folder)))
    print("\n".join(found + [f"witnesses: {len(list(rows()))} changes, {len(found)} differences"]))
    sys.exit(1 if found else 0)


main()
