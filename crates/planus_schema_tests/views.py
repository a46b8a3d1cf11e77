#!/usr/bin/env python3
"""Asks flatc again for the cases of cases/views.txt, and prints each of which it says anything else.

It wants flatc 2.0.8, which in Debian is flatbuffers-compiler.

- `flatc -b` has to make the case's buffer of its value in JSON, v.json. It writes no deprecated field, so it is
  asked with fields that are not.
- `flatc --json` of that buffer gives the value with its defaults left out. Each of its scalars has to
  stand in the lines, under its path, and the lines have no other value. Floats are compared by their
  bits, and have to be as short as Python's shortest.
"""

import json
import math
import pathlib
import re
import struct
import subprocess
import sys
import tempfile

from cases import cases

FLATC = ["flatc", "--json-nested-bytes"]


def made(schema, value):
    """The buffer of a value, and flatc's own JSON of that buffer."""
    with tempfile.TemporaryDirectory() as folder:
        at = pathlib.Path(folder)
        (at / "s.fbs").write_text(schema)
        (at / "v.json").write_text(value)
        subprocess.run(FLATC + ["-b", "s.fbs", "v.json"], cwd=at, check=True)
        buffer = (at / "v.bin").read_bytes()
        words = FLATC + ["--json", "--strict-json", "--raw-binary", "s.fbs", "--", "v.bin"]
        # It prints no vectors of unions. Of these the value itself is taken.
        printed = subprocess.run(words, cwd=at, capture_output=True).returncode == 0
        return buffer, strict((at / "v.json").read_text() if printed else value)


def strict(text):
    """The value of a text whose names and words need no quotes."""
    words = r'("(?:[^"\\]|\\.)*")|(-?\b(?!true\b|false\b)[A-Za-z_]\w*)'
    return json.loads(re.sub(words, lambda found: found[1] or f'"{found[2]}"', text))


def leaves(value, path):
    """The scalars of a value, each with its path; the type of a union is in no line of a value."""
    if isinstance(value, dict):
        for name, held in value.items():
            if not name.endswith("_type"):
                yield from leaves(held, f"{path}.{name}")
    elif isinstance(value, list):
        for index, held in enumerate(value):
            yield from leaves(held, f"{path}[{index}]")
    else:
        yield path, value


def shown(lines):
    """What the lines say, by path: bytes as numbers, strings without quotes, names of enums."""
    said = {}
    for line in lines.splitlines():
        path, equals, text = line.partition(" = ")
        if not equals:
            continue
        if text.startswith("bytes"):
            for index, byte in enumerate(bytes.fromhex(text[6:])):
                said[f"{path}[{index}]"] = str(byte)
        elif text.startswith('"'):
            said[path] = re.sub(r"\\(x..|u....|.)", unescaped, text[1:-1])
        else:
            said[path] = text
    return said


def unescaped(found):
    return chr(int(found[1][1:], 16)) if len(found[1]) > 1 else found[1]


def is_shortest(text, width):
    """Whether no decimal with fewer digits has the same bits."""
    digits = len(re.sub(r"e.*|[-.]", "", text).strip("0")) or 1
    bits = struct.pack(width, float(text))
    return digits == 1 or struct.pack(width, float(f"{float(text):.{digits - 1}g}")) != bits


def agrees(text, value):
    """Whether a line says a value of flatc's JSON."""
    if isinstance(value, bool):
        return text == str(value).lower()
    if isinstance(value, str):
        named = re.fullmatch(r"-?\d+ \((.*)\)", text)
        # flatc has a space between the names of flags.
        return (named[1].replace(" | ", " ") if named else text) == value
    if isinstance(value, float):
        # flatc prints floats with six digits after the point, or more.
        return math.isclose(float(text), value, rel_tol=1e-6, abs_tol=1e-6)
    return float(text) == value if "." in text or "e" in text else int(text.split()[0]) == value


def faults(schema, value, bytes_given, lines):
    buffer, again = made(schema.replace(" (deprecated)", ""), value)
    if buffer != bytes_given:
        yield "another buffer"
    said = shown(lines.replace(" (deprecated)", ""))
    there = dict(leaves(again, "root"))
    for path, held in there.items():
        if path not in said or not agrees(said[path], held):
            yield f"{path}: {held!r} is shown as {said.get(path)!r}"
    for path, text in said.items():
        if path not in there and not any(path.startswith(other) for other in there):
            yield f"{path} is no value of flatc's"
        if re.fullmatch(r"-?[\d.]+(e-?\d+)?", text) and ("." in text or "e" in text):
            if not is_shortest(text, "<d") and not is_shortest(text, "<f"):
                yield f"{path}: {text} is not the shortest"


def main():
    status = 0
    for case in cases("views.txt"):
        for fault in faults(case.input, case.texts["v.json"], case.bytes["b.bin"], case.written):
            print(f"{case.input}{fault}")
            status = 1
    return status


if __name__ == "__main__":
    sys.exit(main())
