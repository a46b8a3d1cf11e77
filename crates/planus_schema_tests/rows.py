#!/usr/bin/env python3
"""Asks flatc again for the rows of src/meaning_rows.rt and for the cases of schemas, and prints each
text of which it says anything else.

It wants flatc 2.0.8, g++ and the headers of flatbuffers; in Debian these are flatbuffers-compiler,
g++ and libflatbuffers-dev. Each text is the file main.fbs, and what it includes is a.fbs beside it.

- `flatc -b --schema` takes a text or refuses it, and facts.cpp prints the facts of what it makes.
- `flatc --cpp` makes a header. Its slots (VT_..), sizes, alignments, distances and values of enums
  have to be those of the facts: a file with a static_assert for each has to compile.
"""

import contextlib
import pathlib
import re
import subprocess
import sys
import tempfile

from cases import cases

HERE = pathlib.Path(__file__).resolve().parent
TAKEN = ["STRUCTS", "ENUMS", "UNIONS", "NAMESPACES", "STATEMENTS", "DEFAULTS", "FIELDS"]


def rows(name):
    """The rows of a constant: each a schema and its facts, with the file that it includes first."""
    code = (HERE / "src" / "meaning_rows.rt").read_text()
    start = f'pub const {name}: &str = "'
    begin = code.index(start) + len(start)
    end = re.compile(r'(?<!\\)";\n').search(code, begin).start()
    text = re.sub(r"\\\n\s*", "", code[begin:end])
    text = text.replace('\\"', '"').replace("\\r", "\r").replace("\\\\", "\\")
    for row in text.split("\n\n"):
        texts, facts = row.split("=>")
        yield [*texts.split("+ ", 1), facts.strip()]


def ends_well(*words):
    return subprocess.run(words, capture_output=True).returncode == 0


def is_taken(text, included=""):
    """Whether flatc takes a text. What it makes is main.bfbs."""
    pathlib.Path("a.fbs").write_text(included)
    pathlib.Path("main.fbs").write_text(text)
    return ends_well("flatc", "-b", "--schema", "main.fbs")


def facts():
    return subprocess.check_output(["./facts", "main.bfbs"], text=True).splitlines()


def claim(of, word, said):
    """What a fact says of the header, in C++. Other facts say nothing of it."""
    owner, _, name = of.replace(".", "::").rpartition("::")
    if word == "slot":
        return f"{owner}::VT_{name.upper()} == {4 + 2 * int(said)}"
    if word in ("size", "align"):
        return f"{word}of(::{of.replace('.', '::')}) == {said}"
    if word == "at":
        return f"offsetof({owner}, {name}_) == {said}"
    if word == "is":
        number = f"{said}u" if int(said) >= 0 else f"{int(said) + 1} - 1"
        return f"{owner}_{name} == {number}"
    return "true"


def header_agrees(lines):
    words = [line.split(" ", 2) for line in lines]
    # A field that is deprecated has no VT_.
    old = [of for of, word, said in words if (word, said) == ("has", "deprecated")]
    claims = [claim(*fact) for fact in words if fact[0] not in old]
    code = '#include <cstddef>\n#include "main_generated.h"\n'
    code += "".join(f'static_assert({claim}, "");\n' for claim in claims)
    pathlib.Path("claims.cpp").write_text(code)
    compiler = ["g++", "-std=c++17", "-fsyntax-only", "-fno-access-control"]
    ends_well("flatc", "--cpp", "a.fbs")
    return ends_well("flatc", "--cpp", "main.fbs") and ends_well(*compiler, "claims.cpp")


def differing():
    """The texts of which flatc says anything else than their row does."""
    taken = {"taken.txt": True, "taken_here.txt": False, "refused.txt": False, "refused_here.txt": True}
    for name in taken:
        for case in cases(name):
            if is_taken(case.input) != taken[name]:
                yield case.input
    yield from (text for text, said in rows("TAKEN_HERE") if is_taken(text))
    for included, text, said in rows("SETTLED_HERE"):
        if not is_taken(text, included) or facts() == said.split("; "):
            yield text
    taken = [["", *row] for name in TAKEN for row in rows(name)]
    for included, text, said in [*taken, *rows("INCLUDED")]:
        if not is_taken(text, included) or "; ".join(facts()) != said or not header_agrees(facts()):
            yield text


def main():
    with tempfile.TemporaryDirectory() as folder, contextlib.chdir(folder):
        subprocess.check_call(["g++", "-o", "facts", HERE / "facts.cpp"])
        found = list(differing())
    for text in found:
        print(text)
    return 1 if found else 0


if __name__ == "__main__":
    sys.exit(main())
