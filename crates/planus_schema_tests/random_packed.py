#!/usr/bin/env python3
"""Packs random values of random schemas with the program: printed again, each is the text that was packed.

    random_packed.py PROGRAM [SCHEMAS [SEED]]

Each of SCHEMAS schemas (200, if none is given) has enums, flags, structs with arrays, tables, some with a key,
and unions of tables, structs and strings; its fields are of all kinds, and in vectors. Of each 100 values are
packed one behind another, as `planus json` prints them, and again with their members mixed and in other
spellings: both buffers are printed as the first text. The values are the same in each run.
"""

import json
import pathlib
import random
import subprocess
import sys
import tempfile

VALUES = 100

INTEGERS = {
    "byte": (-(2**7), 2**7 - 1), "ubyte": (0, 2**8 - 1), "short": (-(2**15), 2**15 - 1),
    "ushort": (0, 2**16 - 1), "int": (-(2**31), 2**31 - 1), "uint": (0, 2**32 - 1),
    "long": (-(2**63), 2**63 - 1), "ulong": (0, 2**64 - 1),
}

# As they are printed; a float holds each exactly.
FLOATS = ["0.0", "-0.0", "1.0", "1.5", "-2.25", "1024.0", "0.0078125", "-65504.0", "nan", "inf", "-inf"]

CHARACTERS = ["a", "Z", "7", " ", "\"", "\\", "\n", "\t", "\x01", "é", "ß", "漢", "😀"]

DEPTH = 4


class Word(str):
    """A number, `true`, `nan` and the like: what stands without quotes."""


class Schema:
    """A random schema, whose declarations come before their uses but for tables, which are named first."""

    def __init__(self, chance):
        self.chance = chance
        self.enums = {}
        self.flags = {}
        self.structs = {}
        self.tables = {}
        self.keys = {}
        self.unions = {}
        for n in range(2):
            self.add_enum(n)
            self.add_struct(n)
        names = [f"Table{n}" for n in range(4)]
        self.unions["Union0"] = {"One": "Table1", "Two": "Struct0", "Three": "string", "Four": "Table2"}
        for name in names:
            self.add_table(name, names)

    def add_enum(self, n):
        kind = self.chance.choice(list(INTEGERS))
        low, high = INTEGERS[kind]
        numbers = sorted({0, self.chance.randint(low, high), self.chance.randint(low, high)})
        self.enums[f"Enum{n}"] = (kind, {f"V{i}": number for i, number in enumerate(numbers)})
        kind = self.chance.choice(["ubyte", "ushort", "uint", "ulong"])
        self.flags[f"Flags{n}"] = (kind, [f"Bit{i}" for i in range(self.chance.randint(1, 8))])

    def fixed(self):
        """A type of a fixed size."""
        return self.chance.choice(
            [*INTEGERS, "bool", "float", "double", *self.enums, *self.flags, *self.structs])

    def add_struct(self, n):
        fields = {}
        for i in range(self.chance.randint(1, 5)):
            count = self.chance.randint(1, 3) if self.chance.random() < 0.3 else None
            fields[f"f{i}"] = (self.fixed(), count)
        self.structs[f"Struct{n}"] = fields

    def add_table(self, name, names):
        fields = {}
        for i in range(self.chance.randint(1, 8)):
            kind = self.chance.choice([self.fixed(), "string", self.chance.choice(names), "Union0"])
            fields[f"g{i}"] = (kind, self.chance.random() < 0.35)
        self.tables[name] = fields
        if self.chance.random() < 0.5:
            self.keys[name] = self.chance.choice([*INTEGERS, "string"])

    def text(self):
        lines = []
        for name, (kind, values) in self.enums.items():
            lines.append(f"enum {name} : {kind} {{ {', '.join(f'{v} = {n}' for v, n in values.items())} }}")
        for name, (kind, bits) in self.flags.items():
            lines.append(f"enum {name} : {kind} (bit_flags) {{ {', '.join(bits)} }}")
        for name, fields in self.structs.items():
            parts = [f"{field}: {f'[{kind}:{count}]' if count else kind};" for field, (kind, count) in fields.items()]
            lines.append(f"struct {name} {{ {' '.join(parts)} }}")
        for name, members in self.unions.items():
            lines.append(f"union {name} {{ {', '.join(f'{member}: {kind}' for member, kind in members.items())} }}")
        for name, fields in self.tables.items():
            parts = [f"{field}: {f'[{kind}]' if listed else kind};" for field, (kind, listed) in fields.items()]
            if name in self.keys:
                parts.append(f"key: {self.keys[name]} (key);")
            lines.append(f"table {name} {{ {' '.join(parts)} }}")
        return "\n".join([*lines, "root_type Table0;", ""])


class Values:
    """Random values of a schema: words, strings, lists, and objects as dictionaries."""

    def __init__(self, schema, chance):
        self.schema = schema
        self.chance = chance

    def string(self):
        return "".join(self.chance.choice(CHARACTERS) for _ in range(self.chance.randint(0, 6)))

    def integer(self, kind):
        low, high = INTEGERS[kind]
        return self.chance.choice([0, 1, low, high, self.chance.randint(low, high)])

    def flags(self, kind, bits):
        chosen = [bit for bit in bits if self.chance.random() < 0.4]
        return " ".join(chosen) if chosen else Word("0")

    def fixed(self, kind):
        schema = self.schema
        if kind in INTEGERS:
            return Word(self.integer(kind))
        if kind == "bool":
            return Word(self.chance.choice(["true", "false"]))
        if kind in ("float", "double"):
            return Word(self.chance.choice(FLOATS))
        if kind in schema.enums:
            return self.chance.choice(list(schema.enums[kind][1]))
        if kind in schema.flags:
            return self.flags(*schema.flags[kind])
        return {field: self.item(kind, count) for field, (kind, count) in schema.structs[kind].items()}

    def item(self, kind, count):
        return [self.fixed(kind) for _ in range(count)] if count else self.fixed(kind)

    def value(self, kind, depth):
        if kind == "string":
            return self.string()
        return self.table(kind, depth) if kind in self.schema.tables else self.fixed(kind)

    def union(self, kind, depth):
        member, held = self.chance.choice(list(self.schema.unions[kind].items()))
        return member, self.value(held, depth)

    def listed(self, kind, depth):
        items = [self.value(kind, depth) for _ in range(self.chance.randint(0, 3))]
        if kind in self.schema.keys:
            number = self.schema.keys[kind] != "string"
            items.sort(key=lambda item: int(item["key"]) if number else item["key"].encode())
        return items

    def unions(self, kind, depth):
        pairs = [self.union(kind, depth) for _ in range(self.chance.randint(0, 3))]
        return [member for member, _ in pairs], [value for _, value in pairs]

    def table(self, name, depth):
        found = {}
        for field, (kind, listed) in self.schema.tables[name].items():
            if self.chance.random() < 0.3 or depth == DEPTH and kind not in self.schema.structs:
                continue
            if kind in self.schema.unions:
                both = self.unions(kind, depth + 1) if listed else self.union(kind, depth + 1)
                found[field + "_type"], found[field] = both
            elif listed:
                found[field] = self.listed(kind, depth + 1)
            else:
                found[field] = self.value(kind, depth + 1)
        if name in self.schema.keys:
            kind = self.schema.keys[name]
            found["key"] = self.string() if kind == "string" else Word(self.integer(kind))
        return found


def quoted(string):
    return json.dumps(string, ensure_ascii=False)


def printed(value):
    """A value as the program prints it in one line."""
    if isinstance(value, Word):
        return value
    if isinstance(value, str):
        return quoted(value)
    if isinstance(value, list):
        return "[" + ",".join(printed(item) for item in value) + "]"
    return "{" + ",".join(f"{quoted(key)}:{printed(item)}" for key, item in value.items()) + "}"


def mixed(value, chance):
    """The same value in another spelling, with members in any order and some that are absent."""
    if isinstance(value, Word):
        return f'"{value}"' if chance.random() < 0.2 else value
    if isinstance(value, str):
        return json.dumps(value) if chance.random() < 0.5 else quoted(value)
    gap = chance.choice(["", " ", "\n", "/* , */", "// ]\n"])
    if isinstance(value, list):
        return "[" + gap + ",".join(mixed(item, chance) for item in value) + gap + "]"
    members = [f"{gap}{chance.choice([key, quoted(key)])}:{mixed(item, chance)}" for key, item in value.items()]
    chance.shuffle(members)
    return "{" + ",".join(members) + chance.choice(["", ","] if members else [""]) + gap + "}"


def called(program, folder, words, given):
    ended = subprocess.run([program, *words], cwd=folder, input=given, capture_output=True, timeout=120)
    return ended.stdout if ended.returncode == 0 and not ended.stderr else None


def agrees(program, folder, schema, values, chance):
    """Whether both spellings of the values are packed and printed as they are."""
    (folder / "s.fbs").write_text(schema.text())
    wanted = "".join(printed(value) + "\n" for value in values).encode()
    other = "\n".join(mixed(value, chance) for value in values).encode()
    pack = ["binary", "--size-prefixed", "s.fbs", "-"]
    show = ["json", "--size-prefixed", "--compact", "s.fbs", "-"]
    for text in (wanted, other):
        packed = called(program, folder, pack, text)
        if packed is None or called(program, folder, show, packed) != wanted:
            (folder / "v.json").write_bytes(text)
            return False
    return True


def main():
    program = pathlib.Path(sys.argv[1]).resolve()
    count = int(sys.argv[2]) if len(sys.argv) > 2 else 200
    chance = random.Random(int(sys.argv[3]) if len(sys.argv) > 3 else 1)
    failed = 0
    for _ in range(count):
        schema = Schema(chance)
        makes = Values(schema, chance)
        values = [makes.table("Table0", 0) for _ in range(VALUES)]
        with tempfile.TemporaryDirectory() as name:
            folder = pathlib.Path(name)
            if not agrees(program, folder, schema, values, chance):
                failed += 1
                print(schema.text(), (folder / "v.json").read_text(), sep="\n")
    print(f"random_packed: {(count - failed) * VALUES} passed, {failed * VALUES} failed")
    return 1 if failed or not count else 0


if __name__ == "__main__":
    sys.exit(main())
