#!/usr/bin/env python3
"""Proves what `planus rattle` prints of the schemas of the folder `printed` and of the orc's.

    printed.py [--slots] PROGRAM [NAME]..

Each schema, or each that is named, is printed as a crate of a copy of this repository. The slot and
the default that each method reads by, and the alignment and size of each struct, have to be those of
the C++ that flatc 2.0.8 makes. Then the crate is proved with `rt ci`, which also tests its layout;
--slots leaves that out. The lines of each crate, and the seconds that its proof took, are printed.
"""

import pathlib
import re
import subprocess
import sys
import tempfile
import time

HERE = pathlib.Path(__file__).resolve().parent
REPOSITORY = HERE.parent.parent


def lines_of(crate):
    return sum(
        len(file.read_text().splitlines())
        for file in crate.rglob("*")
        if file.suffix in (".rt", ".antt")
    )


def read_by(crate):
    """Of each method the table, the field, its slot and, where it is a number, its default; and of
    each struct its name, alignment and size."""
    call = r'\(\s*&self\.0,\s*(\d+),\s*(?:([-\w:]+),\s*)?"(\w+)",\s*"(\w+)",?\s*\)'
    for file in crate.rglob("*.rt"):
        text = file.read_text()
        if text.startswith("//! Structs `"):
            ghosts = re.findall(r"ghost (?:ALIGNMENT|SIZE) = \{ (\d+) \}", text)
            yield file.stem.rstrip("_"), "", *map(int, ghosts)
        for slot, default, table, field in re.findall(call, text):
            default = {"true": "1", "false": "0"}.get(default, default)
            default = default if re.fullmatch(r"-?\d+", default) else ""
            # A name that is taken or reserved has a `_` after it.
            yield table.rstrip("_").lower(), field.lower(), int(slot), default


def written_otherwise(crate):
    """The fields that a table's lines don't have at the slot that their method reads by."""
    plain = r"(?:optional|required|plain_if|union|unions|union_required|unions_required) .*?"
    usual = r"number_or \w+|signed_or \w+ w\d+|plain_or \w+ \S+ as \w+>⟧\.eq"
    line = rf"^ +(?:{plain}|{usual}) (\d+) (?:[^∷]* )?fields\.«?(\w+)»? ∷"
    method = r"pub fn (\w+)\(&self\).*?&self\.0,\s*(\d+),"
    for file in crate.rglob("*.rt"):
        text = file.read_text()
        if text.startswith("//! Tables `"):
            lines = {(name, slot) for slot, name in re.findall(line, text, re.M)}
            yield from lines ^ set(re.findall(method, text, re.S))


def read_by_flatc(schema, folder):
    """The same by flatc, with the slot of a union's type."""
    made = ["flatc", "--cpp", "--gen-all", "-o", folder, schema]
    subprocess.run(made, check=True, capture_output=True)
    text = (folder / f"{schema.stem}_generated.h").read_text()
    structs = r"STRUCT\((\d+)\) (\w+) .*?STRUCT_END\(\2, (\d+)\)"
    for alignment, name, size in re.findall(structs, text, re.S):
        yield re.sub(r"(?<=[a-z])(?=[A-Z])", "_", name).lower(), "", int(alignment), int(size)
    # The least number of a type is a difference, as its digits alone are no number of C++.
    text = re.sub(r"\((-\d+)(\d)L* - 1L*\)", lambda least: f"{least[1]}{int(least[2]) + 1}", text)
    for table in re.split(r"\nstruct (?=\w+ FLATBUFFERS_FINAL_CLASS)", text)[1:]:
        slots = re.findall(r"VT_(\w+) = (\d+)", table)
        names = [name for name, _ in slots]
        defaults = dict(re.findall(r"GetField<\w+>\(VT_(\w+), (-?\d+)", table))
        for name, offset in slots:
            if name + "_TYPE" not in names:
                field = name.removesuffix("_TYPE") if name.removesuffix("_TYPE") in names else name
                table_name = table.split()[0].lower()
                yield table_name, field.lower(), int(offset) // 2 - 2, defaults.get(name, "")


def same_slots(schema, crate):
    """Whether methods read by the slots and defaults of flatc; it prints which don't."""
    with tempfile.TemporaryDirectory() as folder:
        wanted = list(read_by_flatc(schema, pathlib.Path(folder)))
    printed = list(read_by(crate))
    otherwise = sorted(written_otherwise(crate))
    if otherwise:
        print(f"{schema.stem}: {otherwise} by lines or methods alone")
        return False
    # What isn't a number here, as the value of an enum, is one in C++.
    numbers = {method[:3] for method in printed if method[3]}
    wanted = [(*one[:3], one[3] if one[:3] in numbers else "") for one in wanted]
    if sorted(printed) == sorted(wanted):
        print(f"{schema.stem}: {len(wanted)} slots and structs are those of flatc")
        return True
    print(f"{schema.stem}: {sorted(set(printed) ^ set(wanted))}")
    return False


def proved(repository, name):
    """Whether a crate of the repository is proved; it prints why not."""
    begun = time.monotonic()
    ran = subprocess.run(["rt", "ci", name], cwd=repository, capture_output=True, text=True)
    seconds = time.monotonic() - begun
    lines = lines_of(repository / "crates" / name)
    print(f"{name}: status {ran.returncode}, {lines} lines, {seconds:.0f} s", flush=True)
    if ran.returncode:
        print(ran.stdout[-2000:] + ran.stderr[-2000:])
    return ran.returncode == 0


def main(*words):
    program, *names = [word for word in words if word != "--slots"]
    program = pathlib.Path(program).resolve()
    schemas = [*sorted((HERE / "printed").glob("*.fbs")), REPOSITORY / "crates/monsters/monster.fbs"]
    schemas = [file for file in schemas if file.stem in names or not names]
    with tempfile.TemporaryDirectory() as folder:
        repository = pathlib.Path(folder) / "copy"
        subprocess.check_call(["git", "clone", "-q", REPOSITORY, repository])
        failed = []
        for file in schemas:
            crate = repository / "crates" / file.stem
            subprocess.check_call([program, "rattle", file, "-o", crate])
            with open(repository / "crates.txt", "a") as crates:
                crates.write(f"{file.stem}: planus planus_views\n")
            if not same_slots(file, crate):
                failed.append(file.stem)
        if "--slots" not in words:
            failed += [file.stem for file in schemas if not proved(repository, file.stem)]
    print("not so: " + " ".join(failed) if failed else f"all of {len(schemas)} schemas")
    return 1 if failed else 0


if __name__ == "__main__":
    sys.exit(main(*sys.argv[1:]))
