#!/usr/bin/env python3
"""Compares what `planus conform` says of random changes of random schemas with what is read.

    random_changes.py PROGRAM FLATC [PAIRS [SEED]]

Each pair is a schema and that schema after one change. Whether it breaks, and which way, is what
docs/EVOLUTION.md says of the change. Then flatc makes buffers by both schemas, some of which are
damaged, and `planus view` shows each by both, as does flatc with all defaults where a buffer isn't
damaged: where nothing is reported, what both show of the old schema's fields is the same, or is
excused. Where something is, buffers are made until one is read otherwise; the changes that none of
so many showed are counted. The pairs of a seed are the same in each run.
"""

import copy
import json
import pathlib
import random
import re
import subprocess
import sys
import tempfile

SCALARS = ["bool", "byte", "ubyte", "short", "ushort", "int", "uint", "long", "ulong", "float", "double"]
BITS = {"byte": 8, "ubyte": 8, "short": 16, "ushort": 16, "int": 32, "uint": 32, "long": 64, "ulong": 64}
BUFFERS = 3
DAMAGED = 2
ROUNDS = 12


def least(scalar):
    return 0 if scalar.startswith("u") or scalar == "bool" else -(1 << BITS[scalar] - 1)


def most(scalar):
    return (1 << BITS[scalar] - (0 if scalar.startswith("u") else 1)) - 1


class Field:
    def __init__(self, name, base, vector=False, default=None, required=False):
        self.name, self.base, self.vector = name, base, vector
        self.default, self.required, self.deprecated, self.id = default, required, False, None
        self.nested = None


class Schema:
    """Declarations by their names, in order."""

    def __init__(self):
        self.enums, self.structs, self.tables, self.unions = {}, {}, {}, {}
        self.root, self.identifier = "T0", "ABCD"

    def text(self):
        out = []
        for name, (scalar, flags, values) in self.enums.items():
            mark = " (bit_flags)" if flags else ""
            said = ", ".join(f"{value} = {number}" for value, number in values)
            out.append(f"enum {name} : {scalar}{mark} {{ {said} }}")
        for name, fields in self.structs.items():
            said = " ".join(f"{field}: {base};" for field, base in fields)
            out.append(f"struct {name} {{ {said} }}")
        # flatc wants a union before the fields that have it.
        for name, members in self.unions.items():
            said = ", ".join(f"{member}: {table} = {tag}" for member, table, tag in members)
            out.append(f"union {name} {{ {said} }}")
        for name, fields in self.tables.items():
            out.append(f"table {name} {{")
            out += [f"  {self.field_text(field)}" for field in fields]
            out.append("}")
        if self.root:
            out.append(f"root_type {self.root};")
        if self.identifier:
            out.append(f'file_identifier "{self.identifier}";')
        return "\n".join(out) + "\n"

    def field_text(self, field):
        kind = f"[{field.base}]" if field.vector else field.base
        default = "" if field.default is None else f" = {field.default}"
        marks = [f"id: {field.id}"]
        marks += ["required"] * field.required + ["deprecated"] * field.deprecated
        marks += [f'nested_flatbuffer: "{field.nested}"'] * (field.nested is not None)
        return f"{field.name}: {kind}{default} ({', '.join(marks)});"

    def is_scalar(self, field):
        return not field.vector and (field.base in SCALARS or field.base in self.enums)

    def number(self, fields):
        """Gives each field its id; a union takes two."""
        at = 0
        for field in fields:
            at += field.base in self.unions
            field.id = at
            at += 1


def random_schema():
    schema = Schema()
    for i in range(2):
        scalar = random.choice(list(BITS))
        numbers = random.sample(range(0, min(most(scalar), 100)), 3)
        schema.enums[f"E{i}"] = (scalar, False, [(f"V{k}", n) for k, n in enumerate(sorted({0, *numbers}))])
    schema.enums["G0"] = (random.choice(["ubyte", "uint"]), True, [("A", 0), ("B", 1), ("C", 4)])
    for i in range(2):
        bases = random.choices([*SCALARS, "E0"], k=3)
        schema.structs[f"S{i}"] = [(f"s{i}_{k}", base) for k, base in enumerate(bases)]
    for i in range(3):
        schema.tables[f"T{i}"] = []
    schema.unions["U0"] = [("M1", "T1", 1), ("M2", "T2", 3)]
    for i, fields in enumerate(schema.tables.values()):
        for k in range(random.randrange(3, 7)):
            fields.append(random_field(schema, f"f{i}_{k}", i))
    # Each declaration is reached.
    first, second, _ = schema.tables.values()
    first += [Field(f"all_{base.lower()}", base) for base in ("E0", "E1", "G0", "S0", "S1", "T1", "U0")]
    first.append(nested_field("all_nested"))
    if random.random() < 0.5:  # of which flatc shows no values
        first.append(Field("all_unions", "U0", vector=True))
    second.append(Field("all_t2", "T2"))
    for fields in schema.tables.values():
        random.shuffle(fields)
        schema.number(fields)
    return schema


def nested_field(name):
    field = Field(name, "ubyte", vector=True)
    field.nested = "T2"
    return field


def random_field(schema, name, table):
    """A field of a table, which leads to later tables alone."""
    later = [f"T{j}" for j in range(table + 1, 3)]
    kind = random.randrange(8)
    if kind < 3:
        return scalar_field(schema, name)
    if kind == 3:
        return Field(name, "string", vector=random.random() < 0.3, required=random.random() < 0.3)
    if kind == 4:
        return Field(name, random.choice([*SCALARS, "E0", "S0", "S1"]), vector=True)
    if kind == 5:
        return Field(name, random.choice(list(schema.structs)), required=random.random() < 0.2)
    if kind == 6 and later:
        return Field(name, random.choice(later), vector=random.random() < 0.5)
    if kind == 7 and table == 0:
        return Field(name, "U0", required=random.random() < 0.2)
    return scalar_field(schema, name)


def scalar_field(schema, name):
    base = random.choice([*SCALARS, *schema.enums])
    default = None
    if base in SCALARS and random.random() < 0.6:
        default = random.choice([other_default(base, None), "null"])
    elif base in schema.enums and not schema.enums[base][1] and random.random() < 0.5:
        default = random.choice(schema.enums[base][2])[0]
    return Field(name, base, default=default)


def other_default(base, now):
    """Another default of a type."""
    while True:
        if base == "bool":
            one = random.choice(["true", "false"])
        elif base in ("float", "double"):
            one = random.choice(["1.5", "-2.25", "3.0"])
        else:
            one = str(random.choice([1, 2, 7, most(base), least(base)]))
        zero = one in ("0", "false")
        if one != now and not (zero and now is None):
            return one


# ---- values


def random_value(schema, base, required):
    if base == "bool":
        return random.choice([True, False])
    if base in ("float", "double"):
        return random.choice([0.5, -1.25, 100.0])
    if base in BITS:
        return random.choice([0, 1, 5, most(base), least(base)])
    if base in schema.enums:
        scalar, flags, values = schema.enums[base]
        return random.choice(values)[1] if not flags else random.choice([1, 4, 5])
    if base == "string":
        return random.choice(["", "a", "somewhat longer", "\u00e4\u00f6"])
    if base in schema.structs:
        return {field: random_value(schema, kind, True) for field, kind in schema.structs[base]}
    return random_table(schema, base)


def random_table(schema, name):
    value = {}
    for field in schema.tables[name]:
        if field.deprecated or not field.required and random.random() < 0.25:
            continue
        if field.nested:
            value[field.name] = random_table(schema, field.nested)
        elif field.base in schema.unions and field.vector:
            members = random.choices(schema.unions[field.base], k=random.randrange(3))
            value[f"{field.name}_type"] = [member for member, _, _ in members]
            value[field.name] = [random_table(schema, table) for _, table, _ in members]
        elif field.base in schema.unions:
            member, table, _ = random.choice(schema.unions[field.base])
            value[f"{field.name}_type"] = member
            value[field.name] = random_table(schema, table)
        elif field.vector:
            value[field.name] = [random_value(schema, field.base, True) for _ in range(random.randrange(3))]
        else:
            value[field.name] = random_value(schema, field.base, True)
    return value


# ---- changes: each returns what it breaks ("B" backward, "F" forward), or None where it has no place


class Change:
    """What a change breaks, the fields that only one schema shows, those of which flatc shows none,
    new names with the old ones, and whether all differences are excused."""

    def __init__(self, breaks, without=(), unseen=(), renamed=(), excused=False, options=()):
        self.breaks, self.without, self.renamed, self.excused = breaks, without, dict(renamed), excused
        self.unseen = [*without, *unseen]
        self.options = list(options)


def pick(schema, wanted):
    found = [(name, field) for name, fields in schema.tables.items() for field in fields if wanted(field)]
    return random.choice(found) if found else (None, None)


def add_field(schema):
    name = random.choice(list(schema.tables))
    field = scalar_field(schema, "added")
    field.id = max(other.id for other in schema.tables[name]) + 1
    schema.tables[name].append(field)
    return Change("", ["added"])


def remove_field(schema):
    name = random.choice(list(schema.tables))
    fields = schema.tables[name]
    fields.remove(max(fields, key=lambda field: field.id))
    return Change("BF")


def deprecate(schema):
    _, field = pick(schema, lambda f: not f.required)
    field.deprecated = True
    return Change("", unseen=[field.name])


def deprecate_required(schema):
    _, field = pick(schema, lambda f: f.required)
    if field is None:
        return None
    field.deprecated, field.required = True, False
    return Change("F", unseen=[field.name])


def rename_field(schema):
    _, field = pick(schema, lambda f: True)
    old, field.name = field.name, "renamed"
    return Change("", renamed={"renamed": old, "renamed_type": f"{old}_type"})


def another_scalar(schema):
    _, field = pick(schema, lambda f: f.base in SCALARS and not f.nested)
    if field is None:
        return None
    field.base = random.choice([base for base in SCALARS if base != field.base])
    if field.default != "null":
        field.default = None
    return Change("BF")


def another_default(schema):
    _, field = pick(schema, lambda f: not f.vector and f.base in SCALARS and f.default != "null")
    if field is None:
        return None
    field.default = other_default(field.base, field.default)
    return Change("BF")


def to_null(schema):
    _, field = pick(schema, lambda f: not f.vector and f.base in SCALARS and f.default != "null")
    if field is None:
        return None
    field.default = "null"
    return Change("BF")


def make_required(schema):
    _, field = pick(schema, lambda f: not schema.is_scalar(f) and not f.required)
    if field is None:
        return None
    field.required = True
    return Change("B")


def make_optional(schema):
    _, field = pick(schema, lambda f: f.required)
    if field is None:
        return None
    field.required = False
    return Change("F")


def swap_fields(schema):
    name = random.choice(list(schema.tables))
    fields = schema.tables[name]
    first, second = random.sample(range(len(fields)), 2)
    fields[first], fields[second] = fields[second], fields[first]
    before = {field.name: field.id for field in fields}
    schema.number(fields)
    return Change("BF") if any(before[field.name] != field.id for field in fields) else Change("")


def reorder_declarations(schema):
    for part in ("enums", "tables", "unions"):
        entries = list(getattr(schema, part).items())
        random.shuffle(entries)
        setattr(schema, part, dict(entries))
    for fields in schema.tables.values():
        random.shuffle(fields)
    return Change("")


def plain_enum(schema):
    return random.choice([name for name, one in schema.enums.items() if not one[1]])


def add_value(schema):
    name = plain_enum(schema)
    scalar, flags, values = schema.enums[name]
    schema.enums[name] = (scalar, flags, [*values, ("NEW", values[-1][1] + 1)])
    return Change("F")


def remove_value(schema):
    name = plain_enum(schema)
    scalar, flags, values = schema.enums[name]
    gone = values[-1][0]
    if any(f.base == name and f.default == gone for fields in schema.tables.values() for f in fields):
        return None
    schema.enums[name] = (scalar, flags, values[:-1])
    return Change("B")


def renumber_value(schema):
    name = plain_enum(schema)
    scalar, flags, values = schema.enums[name]
    last, number = values[-1]
    schema.enums[name] = (scalar, flags, [*values[:-1], (last, number + 1)])
    return Change("BF")


def rename_value(schema):
    name = plain_enum(schema)
    scalar, flags, values = schema.enums[name]
    old = values[-1][0]
    for fields in schema.tables.values():
        for field in fields:
            if field.base == name and field.default == old:
                field.default = "NAMED"
    schema.enums[name] = (scalar, flags, [*values[:-1], ("NAMED", values[-1][1])])
    return Change("", renamed={"NAMED": old})


def another_number_type(schema):
    name = plain_enum(schema)
    scalar, flags, values = schema.enums[name]
    others = [one for one in BITS if one != scalar]
    schema.enums[name] = (random.choice(others), flags, values)
    return Change("BF")


def add_flag(schema):
    scalar, flags, values = schema.enums["G0"]
    schema.enums["G0"] = (scalar, flags, [*values, ("NEW", 6)])
    return Change("", excused=True)


def struct_field_added(schema):
    name = random.choice(list(schema.structs))
    schema.structs[name].append(("s_new", "double"))
    return Change("BF")


def struct_field_type(schema):
    name = random.choice(list(schema.structs))
    at = random.randrange(3)
    field, base = schema.structs[name][at]
    schema.structs[name][at] = (field, random.choice([one for one in SCALARS if one != base]))
    return Change("BF")


def struct_fields_swapped(schema):
    name = random.choice(list(schema.structs))
    fields = schema.structs[name]
    fields[0], fields[1] = fields[1], fields[0]
    return Change("BF")


def member_added(schema):
    schema.unions["U0"].append(("M3", "T2", 4))
    return Change("F")


def member_removed(schema):
    schema.unions["U0"].pop()
    return Change("B")


def member_tag(schema):
    member, table, tag = schema.unions["U0"].pop()
    schema.unions["U0"].append((member, table, tag + 1))
    return Change("BF")


def member_table(schema):
    member, table, tag = schema.unions["U0"][0]
    schema.unions["U0"][0] = (member, "T2", tag)
    return Change("BF")


def nested_table(schema):
    _, field = pick(schema, lambda f: f.nested)
    field.nested = "T1"
    return Change("BF")


def nested_no_more(schema):
    _, field = pick(schema, lambda f: f.nested)
    field.nested = None
    return Change("", [field.name])


def table_removed(schema):
    schema.tables["T9"] = schema.tables.pop("T2")
    for fields in schema.tables.values():
        for field in fields:
            field.base = "T9" if field.base == "T2" else field.base
            field.nested = "T9" if field.nested == "T2" else field.nested
    members = schema.unions["U0"]
    schema.unions["U0"] = [(member, "T9" if table == "T2" else table, tag) for member, table, tag in members]
    return Change("BF")


def table_renamed(schema):
    table_removed(schema)
    return Change("", renamed={"T9": "T2"}, options=["--rename", "T2=T9"])


def other_root(schema):
    schema.root = "T1"
    return Change("BF")


def other_identifier(schema):
    schema.identifier = random.choice(["EFGH", None])
    return Change("BF" if schema.identifier else "F")


CHANGES = [
    add_field, remove_field, deprecate, deprecate_required, rename_field, another_scalar, another_default, to_null,
    make_required, make_optional, swap_fields, reorder_declarations, add_value, remove_value, renumber_value,
    rename_value, another_number_type, add_flag, struct_field_added, struct_field_type, struct_fields_swapped,
    member_added, member_removed, member_tag, member_table, nested_table, nested_no_more, table_removed,
    table_renamed, other_root, other_identifier,
]


# ---- what is read


class Room:
    def __init__(self, folder, program, flatc):
        self.folder, self.program, self.flatc = pathlib.Path(folder), program, flatc

    def run(self, *call):
        return subprocess.run(call, cwd=self.folder, capture_output=True)

    def buffer(self, schema, file):
        """A buffer of a schema by flatc, or None where it makes none."""
        (self.folder / "value.json").write_text(json.dumps(random_table(schema, schema.root)))
        (self.folder / "value.bin").unlink(missing_ok=True)
        self.run(self.flatc, "-b", "--no-warnings", file, "value.json")
        made = self.folder / "value.bin"
        return made.read_bytes() if made.exists() else None

    def view(self, file, change):
        """The lines by a schema, in any order, without those of fields left out, and the status."""
        done = self.run(self.program, "view", file, "buffer.bin")
        out = done.stdout.decode(errors="backslashreplace")
        lines = [named(line.replace(" (deprecated)", ""), change) for line in out.splitlines()]
        lines += ["another identifier"] * (b"identifier" in done.stderr)
        return sorted(line for line in lines if not is_left_out(line, change)), done.returncode

    def answers(self, file, change):
        """What flatc reads by a schema, with defaults, or None."""
        (self.folder / "buffer.json").unlink(missing_ok=True)
        self.run(self.flatc, "--json", "--strict-json", "--defaults-json", "--raw-binary", file, "--", "buffer.bin")
        made = self.folder / "buffer.json"
        if not made.exists():
            return None
        try:
            return without(json.loads(made.read_text(errors="replace")), change)
        except json.JSONDecodeError:
            return None


def named(line, change):
    return re.sub(r"\w+", lambda word: change.renamed.get(word[0], word[0]), line)


def is_left_out(line, change):
    path = re.split(r" [=!]|: ", line)[0]
    return any(re.search(rf"\.{name}(_type)?(\b|\[|$)", path) for name in change.without)


def without(value, change):
    if isinstance(value, dict):
        return {
            change.renamed.get(name, name): without(part, change)
            for name, part in value.items()
            if re.sub("_type$", "", name) not in change.unseen
        }
    if isinstance(value, list):
        return [without(part, change) for part in value]
    return change.renamed.get(value, value) if isinstance(value, str) else value


def damaged(buffer):
    at = random.randrange(len(buffer))
    return buffer[:at] + bytes([random.randrange(256)]) + buffer[at + 1 :]


def differences(room, old, new, change):
    """Which ways some buffer is read otherwise."""
    found = set()
    made = []
    for schema, file in ((old, "old.fbs"), (new, "new.fbs")):
        for _ in range(BUFFERS):
            buffer = room.buffer(schema, file)
            if buffer:
                made.append((buffer, True))
                made += [(damaged(buffer), False) for _ in range(DAMAGED)]
    for buffer, whole in made:
        (room.folder / "buffer.bin").write_bytes(buffer)
        before, faults_before = room.view("old.fbs", change)
        after, faults_after = room.view("new.fbs", change)
        if before != after:
            found |= {"both"}
            found |= {"backward"} if faults_before == 0 else set()
            found |= {"forward"} if faults_after == 0 else set()
        elif whole and faults_before == 0 and faults_after == 0:
            answers = room.answers("old.fbs", change), room.answers("new.fbs", change)
            if None not in answers and answers[0] != answers[1]:
                found |= {"both", "backward", "forward"}
    return found


WAYS = [("both", []), ("backward", ["--backward"]), ("forward", ["--forward"])]


def wanted(change, way):
    return {"both": bool(change.breaks), "backward": "B" in change.breaks, "forward": "F" in change.breaks}[way]


def check(room, old, change_by, unseen):
    new = copy.deepcopy(old)
    change = change_by(new)
    if change is None:
        return 0
    (room.folder / "old.fbs").write_text(old.text())
    (room.folder / "new.fbs").write_text(new.text())
    for file in ("old.fbs", "new.fbs"):
        if room.run(room.program, "check", file).returncode != 0:
            return 0
    reported = {}
    for way, option in WAYS:
        done = room.run(room.program, "conform", *option, *change.options, "old.fbs", "new.fbs")
        reported[way] = done.returncode == 1
        if done.returncode not in (0, 1) or reported[way] != wanted(change, way):
            sys.exit(f"{change_by.__name__}, {way}: status {done.returncode}\n{old.text()}--\n{new.text()}{done.stderr.decode()}")
    rounds = ROUNDS if reported["both"] else 1
    found = set()
    while rounds > 0 and not found:
        rounds -= 1
        found = differences(room, old, new, change)
        for way in found:
            if not reported[way] and not change.excused:
                sys.exit(f"{change_by.__name__}, {way}: not reported\n{old.text()}--\n{new.text()}")
    if reported["both"] and not found:
        unseen[change_by.__name__] = unseen.get(change_by.__name__, 0) + 1
    return 1


def main():
    if len(sys.argv) not in (3, 4, 5):
        sys.exit(__doc__)
    program, flatc = str(pathlib.Path(sys.argv[1]).resolve()), sys.argv[2]
    pairs = int(sys.argv[3]) if len(sys.argv) > 3 else 200
    random.seed(sys.argv[4] if len(sys.argv) > 4 else "1")
    unseen, done, by = {}, 0, {}
    with tempfile.TemporaryDirectory() as folder:
        room = Room(folder, program, flatc)
        while done < pairs:
            change_by = random.choice(CHANGES)
            passed = check(room, random_schema(), change_by, unseen)
            done += passed
            by[change_by.__name__] = by.get(change_by.__name__, 0) + passed
    print(f"changes: {done} passed")
    for name, count in sorted(unseen.items()):
        print(f"  {name}: {count} of {by[name]} shown by no buffer")


if __name__ == "__main__":
    main()
