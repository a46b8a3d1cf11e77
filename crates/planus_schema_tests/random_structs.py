#!/usr/bin/env python3
"""Views random structs with arrays, in buffers that flatc makes, and compares each value.

    random_structs.py PROGRAM [COUNT [SEED]]

Of COUNT structs (2000, if none is given) some fields are arrays, of scalars, enums and the structs
before. Each stands in a table, twice in a vector, and by itself in a vector of unions, among strings
and tables, so that places and sizes have to be flatc's, version 2.0.8 of which has to be on the path.
Prints the first difference.
"""

import json
import pathlib
import random
import subprocess
import sys
import tempfile

TOGETHER = 20

SCALARS = {
    "bool": (0, 1), "byte": (-128, 127), "ubyte": (0, 255), "short": (-(2**15), 2**15 - 1),
    "ushort": (0, 2**16 - 1), "int": (-(2**31), 2**31 - 1), "uint": (0, 2**32 - 1),
    "long": (-(2**63), 2**63 - 1), "ulong": (0, 2**64 - 1), "float": None, "double": None,
}

ENUMS = {"Small": ("ubyte", 3), "Wide": ("long", 2)}


class Structs:
    """The structs of a schema: each a list of fields, a name with a type and a count or none."""

    def __init__(self, chance, count):
        self.chance = chance
        self.structs = {}
        self.sizes = {}
        for number in range(count):
            self.add(f"S{number}")

    def add(self, name):
        kinds = [*SCALARS, *ENUMS, *(one for one in self.structs if self.sizes[one] < 200)]
        fields = []
        size = 0
        for number in range(self.chance.randint(1, 6)):
            kind = self.chance.choice(kinds)
            count = self.chance.choice([None, None, 1, 2, 3, self.chance.randint(1, 9)])
            fields.append((f"f{number}", kind, count))
            size += (count or 1) * self.sizes.get(kind, 1)
        self.structs[name] = fields
        self.sizes[name] = size

    def text(self):
        lines = [f"enum {name}: {base} {{ {', '.join(f'{name}{i}' for i in range(count))} }}"
                 for name, (base, count) in ENUMS.items()]
        for name, fields in self.structs.items():
            types = [f"{field}: {kind if count is None else f'[{kind}:{count}]'};"
                     for field, kind, count in fields]
            lines.append(f"struct {name} {{ {' '.join(types)} }}")
        own = " ".join(f"one_{name.lower()}: {name}; two_{name.lower()}: [{name}];" for name in self.structs)
        lines += ["table A { n: int = 1; }", f"union Each {{ A, word: string, {', '.join(self.structs)} }}"]
        return "\n".join([*lines, f"table T {{ {own} each: [Each]; }}", "root_type T;", ""])

    def members(self):
        """Members of the union in any order, each with its tag and its value."""
        all_of = [("A", 1, {"n": 2}), ("word", 2, "word"), ("word", 2, "")]
        all_of += [(name, 3 + i, self.value(name)) for i, name in enumerate(self.structs)]
        self.chance.shuffle(all_of)
        return all_of

    def member_lines(self, path, name, tag, value):
        """The lines of a view of a member."""
        yield f"{path}: union {tag} ({name})"
        if name == "A":
            yield f"{path}: table A"
            yield f"{path}.n = {value['n']}"
        elif name == "word":
            yield f'{path} = "{value}"'
        else:
            yield from self.lines(path, name, value)

    def value(self, kind):
        if kind in ENUMS:
            return self.chance.randrange(ENUMS[kind][1])
        if kind in self.structs:
            return {field: self.value(of) if count is None else [self.value(of) for _ in range(count)]
                    for field, of, count in self.structs[kind]}
        if SCALARS[kind] is None:
            return self.chance.randint(-9999, 9999) / 8
        return self.chance.randint(*SCALARS[kind])

    def lines(self, path, kind, value):
        """The lines of a view of a value."""
        if kind in ENUMS:
            yield f"{path} = {value} ({kind}{value})"
        elif kind in self.structs:
            yield f"{path}: struct {kind}"
            for field, of, count in self.structs[kind]:
                parts = [("", value[field])] if count is None else (
                    (f"[{i}]", item) for i, item in enumerate(value[field]))
                for mark, item in parts:
                    yield from self.lines(f"{path}.{field}{mark}", of, item)
        elif kind == "bool":
            yield f"{path} = {'true' if value else 'false'}"
        else:
            yield f"{path} = {value}"


def view(program, folder, structs, value):
    (folder / "s.fbs").write_text(structs.text())
    (folder / "s.json").write_text(json.dumps(value))
    subprocess.run(["flatc", "-b", "s.fbs", "s.json"], cwd=folder, check=True)
    limits = ["--lines", "1000000", "--bytes", "16777216"]
    call = [program, "view", *limits, "s.fbs", "s.bin"]
    return subprocess.run(call, cwd=folder, capture_output=True, text=True)


def differs(program, folder, chance):
    """What a view of some structs has that it should not, or None."""
    structs = Structs(chance, TOGETHER)
    value = {}
    wanted = ["root: table T"]
    for name in structs.structs:
        one, two = "one_" + name.lower(), "two_" + name.lower()
        value[one] = structs.value(name)
        value[two] = [structs.value(name), structs.value(name)]
        wanted += structs.lines(f"root.{one}", name, value[one])
        wanted.append(f"root.{two}: list 2")
        for i, item in enumerate(value[two]):
            wanted += structs.lines(f"root.{two}[{i}]", name, item)
    members = structs.members()
    value["each_type"] = [name for name, _, _ in members]
    value["each"] = [held for _, _, held in members]
    wanted.append(f"root.each: unions {len(members)}")
    for i, (name, tag, held) in enumerate(members):
        wanted += structs.member_lines(f"root.each[{i}]", name, tag, held)
    said = view(program, folder, structs, value)
    lines = said.stdout.splitlines()
    if said.returncode == 0 and lines == wanted:
        return None
    both = [(a, b) for a, b in zip(lines, wanted) if a != b]
    return structs.text() + (f"{both[0][0]}, not {both[0][1]}" if both else said.stderr)


def main(program, count="2000", seed="1"):
    chance = random.Random(int(seed))
    program = pathlib.Path(program).resolve()
    with tempfile.TemporaryDirectory() as folder:
        for _ in range(0, int(count), TOGETHER):
            said = differs(program, pathlib.Path(folder), chance)
            if said is not None:
                print(said)
                return 1
    print(f"structs: {count} are read as they were written")
    return 0


if __name__ == "__main__":
    sys.exit(main(*sys.argv[1:]))
