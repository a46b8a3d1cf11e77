#!/usr/bin/env python3
"""Calls the program where its output can't be written, and prints each call that ends otherwise.

    pipes.py PROGRAM

Where what reads the output is gone, a call ends with 0 and says nothing; where the disk is full, with 2,
and says that it can't write. Where nobody reads the errors, the status stays.
"""

import os
import pathlib
import subprocess
import sys
import tempfile

HERE = pathlib.Path(__file__).resolve().parent
SCHEMA = HERE.parent / "planus_cli/data/monster.fbs"
BUFFER = HERE.parent / "planus_cli/data/orc.bin"
CANT_WRITE = b"planus: can't write\n"

WRITING = [
    ["view", SCHEMA, BUFFER],
    ["view", "--lines", "100000", "--bytes", "10000000", "wide.fbs", "wide.bin"],
    ["json", "wide.fbs", "wide.bin"],
    ["binary", "wide.fbs", "wide.json"],
    ["format", SCHEMA],
    ["help"],
    ["view", "--help"],
    ["--version"],
]


def wide(folder):
    """A schema, and a buffer of it and JSON whose view and buffer have more than a block."""
    (folder / "wide.fbs").write_text("table T { x: [uint]; } root_type T;")
    count = 20000
    head = bytes.fromhex("0c000000 0000 0600 0800 0400 06000000 04000000")
    (folder / "wide.bin").write_bytes(head + count.to_bytes(4, "little") + bytes(4 * count))
    (folder / "wide.json").write_text("{ x: [" + "0," * count + "] }")


def closed():
    """The end of a pipe that nothing reads."""
    reader, writer = os.pipe()
    os.close(reader)
    return writer


def called(program, folder, words, output=None, errors=subprocess.PIPE):
    """How a call ends whose output goes there: its status, and what it says."""
    words = [program, *map(str, words)]
    ended = subprocess.run(words, cwd=folder, stdout=output, stderr=errors, timeout=60)
    return ended.returncode, ended.stderr


def differences(program, folder):
    """Each call, how it should end, and how it does."""
    for words in WRITING:
        end = closed()
        yield words, (0, b""), called(program, folder, words, output=end)
        os.close(end)
        with open("/dev/full", "wb") as full:
            yield words, (2, CANT_WRITE), called(program, folder, words, output=full)
    for words, status in ((["check", "missing.fbs"], 2), (["chek"], 2)):
        end = closed()
        yield words, (status, None), called(program, folder, words, errors=end)
        os.close(end)


def main(program):
    program = str(pathlib.Path(program).resolve())
    passed = failed = 0
    with tempfile.TemporaryDirectory() as folder:
        folder = pathlib.Path(folder)
        wide(folder)
        for words, wanted, got in differences(program, folder):
            passed += got == wanted
            failed += got != wanted
            if got != wanted:
                print(f"{' '.join(map(str, words))}\nwanted {wanted}\ngot    {got}")
    print(f"pipes: {passed} passed, {failed} failed")
    return 1 if failed or not passed else 0


if __name__ == "__main__":
    sys.exit(main(*sys.argv[1:]))
