#!/usr/bin/env python3
"""Compares the lines of `conform --json` with its reports.

    conform_lines.py PROGRAM

Each case of `conform.txt` and `conform_json.txt` is called with `--json` and without it. Each line
has to be JSON with the same members as the others, and to say what the report of that change says:
its message, and each file, line and column. Whom a change hurts is compared with the calls of
`--backward` and `--forward`. The status and what else is reported have to be the same.
"""

import json
import pathlib
import re
import sys
import tempfile

from cases import called, cases

MEMBERS = ["change", "hurt", "declaration", "part", "message", "advice", "new", "old"]
PLACE = ["file", "line", "column"]
WAYS = {"--backward": "old", "--forward": "new"}

# A report is a place with a message, the line, and a mark below it.
REPORT = re.compile(r"(?P<place>.+?:\d+:\d+): (?P<message>.*)\n.*\n[ \t]*\^\n")
BEFORE = "the old schema has this"

# A change of a statement has no declaration.
OF_STATEMENTS = {"root_changed", "identifier_removed", "identifier_changed", "identifier_added"}


def shown(text):
    """A text as a report has it."""
    return re.sub(r"[\x00-\x08\x0a-\x1f\x7f]", lambda c: f"\\x{ord(c[0]):02x}", text)


def reported(place):
    return f"{shown(place['file'])}:{place['line']}:{place['column']}" if place else None


def reports(text):
    """The changes that are reported, each with its message and its places, and what else is said."""
    found, rest, end = [], "", 0
    for report in REPORT.finditer(text):
        rest += text[end : report.start()]
        end = report.end()
        message, place = report["message"], report["place"]
        if message == BEFORE:
            found[-1][1].append(place)
        elif re.search(r": .*; ", message):
            found.append((message, [place]))
        else:
            rest += report[0]
    return found, rest + text[end:]


def line_faults(line):
    """What is wrong with a line by itself."""
    if list(line) != MEMBERS:
        yield f"members {list(line)}"
    for place in (line["new"], line["old"]):
        if place is not None and list(place) != PLACE:
            yield f"place {place}"
    if not line["message"].endswith("; " + line["advice"]):
        yield f"advice {line['advice']}"
    if line["hurt"] not in ("old", "new", "both", "none"):
        yield f"hurt {line['hurt']}"
    if (line["hurt"] == "none") != line["message"].startswith("note: "):
        yield f"label {line['message']}"
    name = line["part"] or line["declaration"]
    if (name is None) != (line["change"] in OF_STATEMENTS):
        yield f"name {name}"
    if name is not None and not line["message"].removeprefix("note: ").startswith(f"`{name}`: "):
        yield f"name {name}"


def lines_of(ended):
    return [json.loads(line) for line in ended.stdout.decode().splitlines()]


def faults(program, folder, case):
    """What is wrong with the lines of a case."""
    plain = [word for word in case.words if word != "--json"]
    case.words = [plain[0], "--json", *plain[1:]]
    told = called(program, folder, case)
    case.words = plain
    report = called(program, folder, case)
    lines = lines_of(told)
    changes, rest = reports(report.stderr.decode(errors="backslashreplace"))
    if told.returncode != report.returncode or report.stdout:
        yield f"status {told.returncode}"
    if told.stderr.decode(errors="backslashreplace") != rest:
        yield f"errors {told.stderr}"
    places = [[reported(p) for p in (line["new"], line["old"]) if p] for line in lines]
    if [(shown(line["message"]), at) for line, at in zip(lines, places)] != changes:
        yield f"lines {lines}, reports {changes}"
    for line in lines:
        yield from line_faults(line)
    if not set(WAYS) & set(plain):
        yield from way_faults(program, folder, case, plain, lines)


def way_faults(program, folder, case, plain, lines):
    """What the calls of one way say otherwise than whom each change hurts."""
    for way, unhurt in WAYS.items():
        case.words = [plain[0], "--json", way, *plain[1:]]
        some = lines_of(called(program, folder, case))
        hurt = [line for line in lines if line["hurt"] != unhurt]
        if some != hurt:
            yield f"{way} {some}, and not {hurt}"


def main(program):
    program = str(pathlib.Path(program).resolve())
    passed = failed = 0
    for name in ("conform.txt", "conform_json.txt"):
        for case in cases(name):
            if case.words[:1] != ["conform"]:
                continue
            with tempfile.TemporaryDirectory() as folder:
                folder = pathlib.Path(folder)
                for file, text in case.texts.items():
                    (folder / file).parent.mkdir(parents=True, exist_ok=True)
                    (folder / file).write_bytes(text.encode())
                said = list(faults(program, folder, case))
            passed += not said
            failed += bool(said)
            if said:
                print(name, case.words, case.texts, *said, sep="\n  ")
    print(f"lines: {passed} passed, {failed} failed")
    return 1 if failed or not passed else 0


if __name__ == "__main__":
    sys.exit(main(*sys.argv[1:]))
