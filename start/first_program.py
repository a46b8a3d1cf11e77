"""first_program.py CRATES NAME: writes crates/app, a first program over the printed crate NAME, with a test.

The program writes a record of the schema's root to the file that its call names, reads it back and prints it. What it must print
then stands in crates/app/stdout, by the values that are written. Where no first record can be made, it only reads.
"""
import os
import re
import sys

crates, name = sys.argv[1:]
src = f"{crates}/{name}/src"
files = {}
for at, _, names in os.walk(src):
    for it in names:
        with open(f"{at}/{it}", encoding="utf-8") as file:
            files[os.path.relpath(f"{at}/{it}", src)[:-3]] = file.read()


class Missing(Exception):
    """No first value is known of a type."""


def path_of(type_):
    """Returns the module that lends a type to other crates."""
    for path, text in files.items():
        for words in re.findall(r"pub use (?:crate::)?\w+::(\{[^}]*\}|\w+);", text):
            if type_ in re.findall(r"\w+", words):
                return name if path == "lib" else f"{name}::{path.replace('/', '::')}"
    raise Missing(type_)


def fields_of(struct):
    """Returns the name and the type of each field of a struct, or None where there is no such struct."""
    for text in files.values():
        if found := re.search(rf"pub struct {struct}(?:<'a>)? \{{\n(.*?)\n\}}", text, re.S):
            return re.findall(r"pub (\w+): (.*),", found[1])
    return None


class Record:
    """What is written: statements before the record, and the types that they name."""

    def __init__(self):
        self.before, self.used, self.lists, self.above, self.parts = [], set(), set(), [], 0

    def value(self, type_):
        """Returns a first value of a field's type, and how `{:?}` prints it (None: it isn't printed so)."""
        if type_.startswith("Option<"):
            return "None", "None"
        if type_.startswith("&'a ["):
            return "&[]", None
        if type_.startswith("ByteList<"):
            # The checker wants what it lends in a variable.
            if "no_bytes" not in self.lists:
                self.before.append("    let no_bytes: [u8; 0] = [];")
            self.lists |= {"no_bytes", "ByteList"}
            return "ByteList(&no_bytes)", "[]"
        if re.fullmatch(r"[ui](8|16|32|64)", type_):
            return "1", "1"
        simple = {"f32": ("1.5", "1.5"), "f64": ("1.5", "1.5"), "bool": ("true", "true"), "&'a str": ('"first"', '"first"')}
        if type_ in simple:
            return simple[type_]
        if found := re.fullmatch(r"\[(.+); (\d+)\]", type_):
            one, shown = self.value(found[1])
            return f"[{one}; {found[2]}]", f"[{', '.join([shown] * int(found[2]))}]"
        if found := re.fullmatch(r"Offset<(\w+)>", type_):
            return self.table(found[1]), None
        if found := re.fullmatch(r"UnionOffset<(\w+)>", type_):
            return self.union(found[1]), None
        return self.plain(type_)

    def plain(self, type_):
        """Returns a value of an enum, flags or a struct."""
        for text in files.values():
            if found := re.search(rf"pub enum {type_} \{{\n(?:    ///.*\n)*    (\w+)", text):
                self.used.add(type_)
                return f"{type_}::{found[1]}", found[1]
            if f"pub const NOTHING: {type_} " in text:
                self.used.add(type_)
                return f"{type_}::NOTHING", f"{type_}(NOTHING)"
        fields = fields_of(type_)
        if fields is None:
            raise Missing(type_)
        self.used.add(type_)
        values = [(it, *self.value(of)) for it, of in fields]
        inner = ", ".join(f"{it}: {to}" for it, to, _ in values)
        return f"{type_} {{ {inner} }}", f"{type_} {{ {', '.join(f'{it}: {shown}' for it, _, shown in values)} }}"

    def table(self, table):
        """Writes a table before, and returns the name of its offset."""
        if table in self.above:
            raise Missing(table)
        fields = fields_of(f"{table}Fields")
        if fields is None:
            raise Missing(table)
        self.above.append(table)
        lines = [f"        {it}: {self.value(of)[0]}," for it, of in fields]
        self.above.pop()
        self.used |= {table, f"{table}Fields"}
        self.parts += 1
        offset = f"part_{self.parts}"
        self.before.append("\n".join([f"    let {offset} = {table}Fields {{", *lines, "    };", f"    let {offset} = {table}::create(builder, {offset})?;"]))
        return offset

    def part(self, call):
        """Writes a value before, and returns the name of its offset."""
        self.parts += 1
        self.before.append(f"    let part_{self.parts} = {call}?;")
        return f"part_{self.parts}"

    def member(self, kind, type_):
        """Writes a member of a union before, and returns the name of its offset."""
        if kind == "table":
            return self.table(type_)
        if kind == "text":
            return self.part('builder.create_string("first")')
        value = self.plain(type_)[0]
        self.lists.add("create_plain")
        return self.part(f"create_plain(builder, &{value})")

    def union(self, union):
        """Returns the first variant of a union, whose value is written before."""
        for text in files.values():
            if found := re.search(rf"pub fn (from_\w+)\(\s*(\w+): Offset<(\w+)>,?\s*\) -> UnionOffset<{union}>", text):
                self.used.add(union)
                return f"{union}::{found[1]}({self.member(found[2], found[3])})"
        raise Missing(union)


if "root" not in files:
    sys.exit("new.sh: the schema has no root_type, so there is no crates/app yet")
module, root, view = re.search(r"use crate::(\w+)::\{?(?:(\w+), )?(\w+Ref)\}?;", files["root"]).groups()
root = root or view[: -len("Ref")]
text = files[module]
getters = re.findall(r"pub fn (\w+)\(&self\) -> Result<(.*)>$", text, re.M)
identifier = "has_identifier" in files["root"]
record = Record()
record.above.append(root)
values, missing = [], []
for it, of in fields_of(f"{root}Fields") or []:
    try:
        values.append((it, of, *record.value(of)))
    except Missing as what:
        missing.append(f"{it} ({what})")

names = {view} | (set() if missing else record.used | {root, f"{root}Fields"})
paths = {}
for it in sorted(names):
    paths.setdefault(path_of(it), []).append(it)
own = ([] if missing else ["Create"]) + ["has_identifier"] * identifier + ["read_as_root"]
if identifier and not missing:
    own.insert(1, "finish_root")
paths[name] = own + paths.get(name, [])
lent = "<'_>" if "'" in re.search(rf"pub struct {view}(.*)", text)[1] else ""

out = [f"//! Writes a `{root}` to the file that the call names, reads it back from there, and prints it."]
if missing:
    out = [f"//! Reads a `{root}` from the file that the call names, and prints it."]
    print(f"crates/app only reads, since new.sh has no first value for {', '.join(missing)}")
out += ["#![tactic(auto)]", "", "use anyhow::{Context, Result, bail};"]
if not missing:
    out.append(f"use planus::{{{', '.join(sorted({'Builder'} | record.lists - {'no_bytes'}))}}};")
for path, its in sorted(paths.items()):
    out.append(f"use {path}::{{{', '.join(its)}}};")
if not missing:
    out += ["#[cfg(test)]", "use std::alloc::Global;"]
out += ["use std::{env, fs, io};" if not missing else "use std::{env, fs};", ""]
if not missing:
    finish = "finish_root(builder, record)?" if identifier else "builder.finish(record, None)?"
    out += [f"/// Writes a first `{root}`. Returns the finished buffer.", "fn write(builder: &mut Builder) -> io::Result<&[u8]> {"]
    out += [*record.before, f"    let record = {root}Fields {{", *[f"        {it}: {to}," for it, _, to, _ in values], "    };"]
    out += [f"    let record = {root}::create(builder, record)?;", f"    Ok({finish})", "}", ""]

printed = {it: shown for it, _, _, shown in values}
must_print = []
out += [f"/// Prints a `{root}`. Fails with the error of its first damaged field.", f"fn print(rt: &HostRuntime, record: {view}{lent}) -> Result<()> {{"]
for it, of in getters:
    inner = of[7:-1] if (is_option := of.startswith("Option<")) else of
    counted = inner.startswith(("Vector<", "UnionVector<"))
    shown = not inner.endswith("Ref<'a>")
    if not counted and shown:
        out.append(f'    println!(rt; "{it}: {{:?}}", record.{it}()?)?;')
        must_print.append(f"{it}: {printed.get(it)}")
    elif is_option:
        out += [f"    if let Some({'items' if counted else '_'}) = record.{it}()? {{"]
        out += [f'        println!(rt; "{it}: {"{} items" if counted else "there"}"{", items.len()" if counted else ""})?;', "    }"]
    elif counted:
        out.append(f'    println!(rt; "{it}: {{}} items", record.{it}()?.len())?;')
        must_print.append(f"{it}: 0 items")
    else:
        out += [f"    let _{it} = record.{it}()?;", f'    println!(rt; "{it}: there")?;']
        must_print.append(f"{it}: there")
out += ["    Ok(())", "}", "", "fn main(rt: HostRuntime) -> Result<()> {", "    let mut words = env::args(&rt)?;", "    let _name = words.next();"]
out += ["    let Some(file) = words.next() else {", f'        bail!("give the file to {"read" if missing else "write"}");', "    };"]
if not missing:
    out += ["    let mut builder = Builder::new(rt.alloc())?;", "    let bytes = write(&mut builder)?;"]
    out += ["    fs::write(&rt, file.as_str(), bytes)?;", '    println!(rt; "wrote {file}")?;', ""]
out.append('    let bytes = fs::read(&rt, file.as_str()).context("reading the file")?;')
if identifier:
    out += ["    if !has_identifier(&bytes) {", f'        bail!("{{file}} is no {root}");', "    }"]
out += ["    print(&rt, read_as_root(&bytes)?)", "}"]
if not missing:
    tests = {"1": "== 1", "true": "", '"first"': '== "first"'}
    compared = [(it, tests[to]) for it, of, to, _ in values if to in tests][:4]
    out += ["", "/// Returns whether what is written is read back.", "#[cfg(test)]", "fn is_read_back(alloc: Global) -> Result<bool> {"]
    out += ["    let mut builder = Builder::new(alloc)?;", f"    let {'record' if compared else '_record'} = read_as_root(write(&mut builder)?)?;"]
    out += [f"    Ok({' && '.join(f'record.{it}()? {to}'.strip() for it, to in compared) or 'true'})", "}", ""]
    out += ["#[test]", "fn first_record_is_read_back(rt: HostRuntime) {", "    assert!(rt; matches!(is_read_back(rt.alloc()), Ok(true)));", "}"]

app = f"{crates}/app"
os.makedirs(f"{app}/src", exist_ok=True)


def write(file, text):
    with open(f"{app}/{file}", "w", encoding="utf-8") as it:
        it.write(text)


write("src/main.rt", "\n".join([*out, ""]))
if missing:
    write("status", "1\n")  # with no file to read
else:
    write("args", "first.bin\n")
    write("stdout", "\n".join(["wrote first.bin", *must_print, ""]))
