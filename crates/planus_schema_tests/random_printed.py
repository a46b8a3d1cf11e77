#!/usr/bin/env python3
"""Prints the code of random schemas with the program: it is never refused as not the schema's.

    random_printed.py PROGRAM [COUNT [SEED]]

Each of COUNT schemas (2000, if none is given) has enums, flags, structs with arrays and of up to 30
fields, unions of tables, structs and strings, and tables with fields of each kind, defaults and
attributes, under names that code spells otherwise, in up to three namespaces. Each must be printed; the program reads what it prints
again, and refuses code that isn't the schema's. The schemas are the same in each run.
"""

import pathlib
import random
import subprocess
import sys
import tempfile

INTEGERS = {
    "byte": (-(2**7), 2**7 - 1), "ubyte": (0, 2**8 - 1), "short": (-(2**15), 2**15 - 1),
    "ushort": (0, 2**16 - 1), "int": (-(2**31), 2**31 - 1), "uint": (0, 2**32 - 1),
    "long": (-(2**63), 2**63 - 1), "ulong": (0, 2**64 - 1),
}

FLOATS = ["0.0", "-0.0", "1.5", "-2.25e3", ".5", "3.", "1e-7", "0x1.8p1", "inf", "-infinity", "nan"]

# Words of Rust, of clauses, and of what is printed, and other spellings.
WORDS = ["type", "match", "self", "ref", "open", "table", "value", "result", "number", "bits", "lines",
         "HPMax", "x1y", "camelCase", "snake_case", "B", "builder", "fields", "create", "read", "new",
         "checked", "verify", "kind", "schema", "name", "text", "offset", "buffer", "given", "a_1", "this",
         "other"]

class Schema:
    def __init__(self, chance):
        self.chance = chance
        self.lines = []
        self.enums = {}
        self.structs = []
        # Those that stand in others.
        self.short = []
        self.tables = []
        self.unions = []
        self.count = 0

    def fresh(self, word):
        self.count += 1
        return f"{word}{self.count}"

    def names(self, count):
        """So many names, no two of which are spelled alike in code."""
        found = {}
        while len(found) < count:
            name = self.chance.choice(WORDS) if self.chance.random() < 0.5 else f"f{len(found)}"
            found.setdefault(name.replace("_", "").lower(), name)
        return list(found.values())

    def add_enum(self):
        name = self.fresh("Enum")
        kind = self.chance.choice(list(INTEGERS))
        low, high = INTEGERS[kind]
        flags = self.chance.random() < 0.4
        if flags:
            bits = {"byte": 7, "ubyte": 8, "short": 15, "ushort": 16, "int": 31, "uint": 32}.get(kind, 63)
            numbers = sorted(self.chance.sample(range(bits), self.chance.randint(1, min(6, bits))))
        else:
            some = {0} | {self.chance.randint(low, min(high, 2**63 - 1)) for _ in range(self.chance.randint(0, 13))}
            numbers = sorted(some)
        values = [f"V{index}" if self.chance.random() < 0.7 else f"other_word{index}"
                  for index in range(len(numbers))]
        body = ", ".join(f"{value} = {number}" for value, number in zip(values, numbers))
        self.lines.append(f"enum {name}: {kind} {'(bit_flags) ' if flags else ''}{{ {body} }}")
        self.enums[name] = (values, flags)

    def add_struct(self):
        name = self.fresh("Struct")
        kinds = [*INTEGERS, "bool", "float", "double", *self.enums, *self.short[-3:]]
        fields = []
        long = self.chance.random() < 0.2
        for field in self.names(self.chance.randint(8, 30) if long else self.chance.randint(1, 7)):
            kind = self.chance.choice(kinds)
            count = self.chance.choice([None, None, None, 1, 2, 5])
            fields.append(f"{field}: {kind if count is None else f'[{kind}:{count}]'};")
        self.lines.append(f"struct {name} {{ {' '.join(fields)} }}")
        self.structs.append(name)
        if not long:
            self.short.append(name)

    def add_union(self):
        name = self.fresh("Union")
        members = []
        for index in range(self.chance.randint(1, 5)):
            kind = self.chance.choice(["string", *self.structs, *self.tables])
            members.append(f"Member{index}: {kind}" if self.chance.random() < 0.9 else
                           f"Member{index}: {kind} = {index + 1 + 20 * index}")
        tagged = [index for index, member in enumerate(members) if "=" in member]
        if tagged:
            members = [member.split(" =")[0] + f" = {3 * index + 1}" for index, member in enumerate(members)]
        self.lines.append(f"union {name} {{ {', '.join(members)} }}")
        self.unions.append(name)

    def scalar_default(self, kind):
        if kind in INTEGERS:
            low, high = INTEGERS[kind]
            return self.chance.choice([str(self.chance.randint(low, high)), "0", hex(min(high, 255))])
        if kind == "bool":
            return self.chance.choice(["true", "false", "1"])
        return self.chance.choice(FLOATS)

    def field(self):
        """The type of a field, its default, and its attributes."""
        chance = self.chance.random()
        if chance < 0.3:
            kind = self.chance.choice([*INTEGERS, "bool", "float", "double"])
            default = self.chance.choice([None, "null", self.scalar_default(kind)])
            return kind, default, []
        if chance < 0.4 and self.enums:
            kind = self.chance.choice(list(self.enums))
            return kind, self.chance.choice([None, "null", self.chance.choice(self.enums[kind][0])]), []
        if chance < 0.5:
            return "string", None, self.chance.choice([[], ["required"]])
        required = self.chance.choice([[], [], ["required"]])
        if chance < 0.6 and self.unions:
            kind = self.chance.choice(self.unions)
            return self.chance.choice([kind, f"[{kind}]"]), None, required
        if chance < 0.7:
            return self.chance.choice([*self.structs, *self.tables]), None, required
        if chance < 0.75 and self.tables:
            return "[ubyte]", None, [f'nested_flatbuffer: "{self.chance.choice(self.tables)}"']
        items = [*INTEGERS, "bool", "float", "double", "string", *self.enums, *self.structs, *self.tables]
        return f"[{self.chance.choice(items)}]", None, required

    def add_table(self):
        name = self.fresh("Table")
        self.tables.append(name)
        fields = []
        key = False
        for field in self.names(self.chance.randint(1, 9)):
            kind, default, attributes = self.field()
            is_plain = kind in INTEGERS or kind == "string"
            if is_plain and not key and default != "null" and self.chance.random() < 0.1:
                attributes, key = [*attributes, "key"], True
            elif not attributes and self.chance.random() < 0.05:
                attributes = ["deprecated"]
            told = f" = {default}" if default and "required" not in attributes else ""
            fields.append(f"{field}: {kind}{told}{f' ({chr(44).join(attributes)})' if attributes else ''};")
        self.lines.append(f"table {name} {{ {' '.join(fields)} }}")

    def text(self):
        parts = [self.add_enum] * 2 + [self.add_struct] * 2 + [self.add_union, self.add_table, self.add_table]
        self.add_struct()
        self.add_table()
        for space in range(self.chance.randint(1, 3)):
            if space:
                # Types of another namespace are named by their full names, so each begins anew.
                self.lines.append(f"namespace space{space}.Inner;")
                self.enums, self.structs, self.short, self.tables, self.unions = {}, [], [], [], []
                self.add_struct()
                self.add_table()
            for _ in range(self.chance.randint(1, 8)):
                self.chance.choice(parts)()
        self.lines.append(f"root_type {self.tables[-1]};")
        if self.chance.random() < 0.5:
            self.lines.append('file_identifier "Rand";')
        return "\n".join(self.lines) + "\n"


def main(program, count="2000", seed="1"):
    program = str(pathlib.Path(program).resolve())
    chance = random.Random(int(seed))
    wrong = 0
    with tempfile.TemporaryDirectory() as folder:
        for number in range(int(count)):
            text = Schema(chance).text()
            (pathlib.Path(folder) / "a.fbs").write_text(text)
            words = [program, "rattle", "a.fbs", "-o", "printed"]
            ended = subprocess.run(words, cwd=folder, capture_output=True, timeout=60)
            if ended.returncode != 0 or ended.stdout:
                print(f"schema {number} isn't printed:\n{text}{ended.stderr.decode(errors='replace')}")
                wrong += 1
                if wrong == 3:
                    break
    print(f"random schemas tried: {number + 1}, {wrong} not printed")
    return 1 if wrong else 0


if __name__ == "__main__":
    sys.exit(main(*sys.argv[1:]))
