#!/usr/bin/env python3
"""Calls the program as the cases of the folder `cases` do, and prints each that ends otherwise.

    cases.py PROGRAM

A case is some lines of a file, and an empty line ends it. The first mark of a line says what it is:

    $ view s.fbs b.bin      the words of the call, '' an empty one; left out, they are those of the case before
    < table A { }           a line of standard input
    > root.x = 7            a line that is written on standard output
    >: 0c000000             bytes that are written there, in hexadecimal digits
    ~ {"x":7}               what `json --compact` prints of these bytes by the same schema, which is a file
    ! planus: ..            a line that is written on standard error
    = 1                     the exit status, 0 if left out
    s.fbs| table A { }      a line of a file beside
    b.bin: 0c000000         bytes of a file beside, in hexadecimal digits
    s.fbs> table A {        a line that the file has afterwards
    b.bin>: 0c000000        bytes that it has afterwards
    & s.fbs| table A { }    a line of a file beside, of this case and of each below it
    # ..                    a comment

After a `view` or a `json` of a file of bytes that is as the case says, it is shown with each byte
changed: the call has to end with a status of 0 or 1 and within the limits. What `json --strict` prints
of one buffer has to be JSON or nothing.
"""

import json
import pathlib
import re
import subprocess
import sys
import tempfile

HERE = pathlib.Path(__file__).resolve().parent

LINES = 50
BYTES = 2000

LIMITS = {
    "view": ["--lines", str(LINES), "--bytes", str(BYTES)],
    "json": ["--strict", "--bytes", str(BYTES)],
}

# The bits that are changed in a byte, each in a call of its own. `json` stands on the readings of `view`.
CHANGES = {"view": (1, 127, 255), "json": (255,)}


class Case:
    def __init__(self, words, shared):
        self.words = words
        self.shared = shared
        self.input = self.written = self.told = self.json = ""
        self.status = 0
        self.buffer = None
        self.texts = {}
        self.bytes = {}
        self.left = {}

    def add(self, line):
        """Adds a line of the case's file."""
        beside = re.match(r"([-\w./]+)([|:]|>:?) ?(.*)", line)
        mark, said = line[0], line[2:]
        if mark == "$":
            self.words = [word if word != "''" else "" for word in said.split()]
        elif mark == "&":
            name, text = said.split("| ", 1)
            self.shared[name] = self.shared.get(name, "") + text + "\n"
        elif mark == "<":
            self.input += said + "\n"
        elif line.startswith(">:"):
            self.buffer = (self.buffer or b"") + bytes.fromhex(line[2:])
        elif mark == ">":
            self.written += said + "\n"
        elif mark == "~":
            self.json += said + "\n"
        elif mark == "!":
            self.told += said + "\n"
        elif mark == "=":
            self.status = int(said)
        elif beside and beside[2] == "|":
            self.texts[beside[1]] = self.texts.get(beside[1], "") + beside[3] + "\n"
        elif beside and beside[2] == ">":
            self.left[beside[1]] = self.left.get(beside[1], b"") + beside[3].encode() + b"\n"
        elif beside:
            files = self.bytes if beside[2] == ":" else self.left
            files[beside[1]] = files.get(beside[1], b"") + bytes.fromhex(beside[3])
        else:
            raise ValueError(f"no line of a case: {line}")


def cases(name):
    """The cases of a file."""
    text = (HERE / "cases" / name).read_bytes().decode()
    found, case, words, shared = [], None, [], {}
    for line in text.split("\n") + [""]:
        if line.startswith("#"):
            continue
        if line:
            case = case or Case(words, dict(shared))
            case.add(line)
        elif case:
            words, shared = case.words, case.shared
            found.append(case)
            case = None
    return found


def called(call, folder, case, words=()):
    """How a call of the program ends in this folder."""
    given = case.input.encode()
    words = [call, *case.words, *words]
    return subprocess.run(words, cwd=folder, input=given, capture_output=True, timeout=60)


def text_of(written):
    """What is written, as a case has it: a byte that is no UTF-8 is two hexadecimal digits after \\x."""
    return written.decode(errors="backslashreplace")


def written(case, ended):
    """What is written on standard output, in hexadecimal digits where the case has bytes."""
    return text_of(ended.stdout) if case.buffer is None and not case.json else ended.stdout.hex()


def wanted(case, ended):
    """What should be written there: any bytes, where the case has only their JSON."""
    if case.json and case.buffer is None:
        return ended.stdout.hex()
    return case.written if case.buffer is None else case.buffer.hex()


def json_of(program, folder, case, ended):
    """The JSON of the buffer that is written, by the schema of the call."""
    (folder / "written.bin").write_bytes(ended.stdout)
    schema = next(word for word in case.words if word.endswith(".fbs"))
    prefixed = ["--size-prefixed"] if "--size-prefixed" in case.words else []
    words = [program, "json", "--compact", *prefixed, schema, "written.bin"]
    shown = subprocess.run(words, cwd=folder, capture_output=True, timeout=60)
    return text_of(shown.stdout) + text_of(shown.stderr)


def is_json(text):
    try:
        json.loads(text)
    except ValueError:
        return False
    return True


def ends_within(case, ended):
    """Whether a call ended within the limits."""
    if ended.returncode not in (0, 1) or len(ended.stdout) > BYTES + LINES + 40:
        return False
    is_one = case.words[0] == "json" and "--size-prefixed" not in case.words
    return not is_one or not ended.stdout or is_json(ended.stdout)


def ends_damaged(program, folder, case):
    """Whether the call ends within the limits for each change of a byte of a file."""
    limits = LIMITS[case.words[0]]
    for name, whole in case.bytes.items():
        for at in range(len(whole)):
            for change in CHANGES[case.words[0]]:
                damaged = bytearray(whole)
                damaged[at] ^= change
                (folder / name).write_bytes(damaged)
                if not ends_within(case, called(program, folder, case, limits)):
                    return False
    return True


def difference(program, folder, case):
    """What a call does otherwise, and nothing if it does as the case says."""
    texts = {name: text.encode() for name, text in {**case.shared, **case.texts}.items()}
    for name, whole in {**texts, **case.bytes}.items():
        (folder / name).parent.mkdir(parents=True, exist_ok=True)
        (folder / name).write_bytes(whole)
    ended = called(program, folder, case)
    got = (written(case, ended), text_of(ended.stderr), ended.returncode)
    want = (wanted(case, ended), case.told, case.status)
    if got != want:
        return f"wanted {want}\ngot    {got}"
    if case.json and json_of(program, folder, case, ended) != case.json:
        return f"its JSON is {json_of(program, folder, case, ended)}"
    for name, whole in case.left.items():
        if not (folder / name).is_file() or (folder / name).read_bytes() != whole:
            return f"{name} isn't left so"
    shows = bool(case.words) and case.words[0] in LIMITS
    if shows and not ends_damaged(program, folder, case):
        return "it doesn't end so for each changed byte"
    return ""


def main(program):
    program = str(pathlib.Path(program).resolve())
    passed = failed = 0
    for file in sorted((HERE / "cases").iterdir()):
        for case in cases(file.name):
            with tempfile.TemporaryDirectory() as folder:
                said = difference(program, pathlib.Path(folder), case)
            passed += not said
            failed += bool(said)
            if said:
                print(f"{file.name}: {' '.join(case.words)}\n{case.input}{said}")
    print(f"cases: {passed} passed, {failed} failed")
    return 1 if failed or not passed else 0


if __name__ == "__main__":
    sys.exit(main(*sys.argv[1:]))
