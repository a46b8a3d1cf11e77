#!/usr/bin/env python3
"""Asks flatc again for the cases of cases/jsons.txt, and prints each of which it says anything else.

It wants flatc 2.0.8, which in Debian is flatbuffers-compiler.

- `flatc -b` has to make the case's buffer of its value in JSON, v.json.
- `flatc --json --strict-json` of that buffer has to print the case's text, of a case with `--compact` after the
  breaks and spaces of the layout are taken out.
"""

import pathlib
import subprocess
import sys
import tempfile

from cases import cases


def flatc(at, *words):
    subprocess.run(["flatc", *words], cwd=at, check=True, capture_output=True)


def answers(case):
    """The buffer that flatc makes of the value, and the text that it prints of that buffer."""
    with tempfile.TemporaryDirectory() as folder:
        at = pathlib.Path(folder)
        (at / "s.fbs").write_text(case.input)
        (at / "v.json").write_text(case.texts["v.json"])
        flatc(at, "-b", "--json-nested-bytes", "s.fbs", "v.json")
        buffer = (at / "v.bin").read_bytes()
        natural = [] if case.written.isascii() else ["--natural-utf8"]
        words = ["--json", "--strict-json", *natural, "--raw-binary", "s.fbs", "--", "v.bin"]
        flatc(at, *words)
        return buffer, (at / "v.json").read_text()


def compact(text):
    """A text in one line, without spaces. No string of these cases has a line break or `": `."""
    return "".join(line.strip() for line in text.split("\n")).replace('": ', '":') + "\n"


def main():
    passed = failed = 0
    for case in cases("jsons.txt"):
        buffer, text = answers(case)
        wanted = compact(text) if "--compact" in case.words else text
        agrees = buffer == case.bytes["b.bin"] and wanted == case.written
        passed += agrees
        failed += not agrees
        if not agrees:
            print(f"{case.input}{buffer.hex()}\n{wanted}")
    print(f"jsons: {passed} passed, {failed} failed")
    return 1 if failed or not passed else 0


if __name__ == "__main__":
    sys.exit(main())
