# Times the program planus beside flatc on the same files, and prints the rows (README.md says what they are).
#   python3 bench/program.py PLANUS [FLATC]
# PLANUS: the program, as `sh install.sh` puts it; FLATC: flatc, else the one on the path. What is made stands in a folder of
# its own, which is removed.
import json, os, statistics, subprocess, sys, tempfile

TABLES, TURNS = 2000, 5
MIB = 1 << 20


def schema(tables, extra):
    """So many tables, each with seven fields, of which two lead to other tables, and so many fields more."""
    out = ["namespace big;", "enum Kind : ubyte { A, B, C }", "struct At { x: float; y: float; }"]
    for i in range(tables):
        more = "".join(f" more{k}: int;" for k in range(extra))
        out.append(
            f"table T{i} {{ id: ulong; name: string; kind: Kind = B; at: At; bytes: [ubyte]; "
            f"next: T{(i + 1) % tables}; all: [T{(i + 7) % tables}];{more} }}"
        )
    return "\n".join(out + ["root_type T0;", ""])


def value(names, count):
    """A root with so many tables, each with a name of this many letters, in groups of a hundred."""
    one = {"id": 7, "name": "n" * names, "kind": "C", "at": {"x": 1.5, "y": -2.0}}
    groups = [{"id": g, "all": [one] * 100} for g in range(count // 100)]
    return json.dumps({"name": "root", "all": groups})


def make(room, flatc):
    """Makes the schemas and the buffers."""
    path = lambda name: os.path.join(room, name)
    open(path("big.fbs"), "w").write(schema(TABLES, 0))
    open(path("more.fbs"), "w").write(schema(TABLES, 1))
    for name, letters, count in (("short", 8, 120_000), ("long", 4000, 3_800)):
        open(path(name + ".json"), "w").write(value(letters, count))
        subprocess.run([flatc, "-b", "-o", room, path("big.fbs"), path(name + ".json")], check=True)


def run(words, out):
    """The seconds of processor time, and the most memory in MiB."""
    with open(out, "wb") as sink:
        child = subprocess.Popen(words, stdout=sink, stderr=subprocess.PIPE)
        said = child.stderr.read()
        _, status, used = os.wait4(child.pid, 0)
    if os.waitstatus_to_exitcode(status) != 0:
        sys.exit(f"program.py: {' '.join(words)}: {said.decode()[:400]}")
    return used.ru_utime + used.ru_stime, used.ru_maxrss / 1024


def row(what, ours, theirs, room):
    sides = [("ours", ours)] + ([("flatc", theirs)] if theirs else [])
    times = {side: [] for side, _ in sides}
    peaks = {}
    for turn in range(TURNS):
        for side, words in sides if turn % 2 == 0 else sides[::-1]:
            seconds, peak = run(words, os.path.join(room, side + ".out"))
            times[side].append(seconds)
            peaks[side] = peak
    ms = 1000 * statistics.median(times["ours"])
    if not theirs:
        print(f"| {what} | {ms:.0f} | | {peaks['ours']:.0f} | |", flush=True)
        return
    ratio = statistics.median(a / max(b, 1e-4) for a, b in zip(times["ours"], times["flatc"]))
    print(f"| {what} | {ms:.0f} | {ratio:.2f} | {peaks['ours']:.0f} | {peaks['ours'] / peaks['flatc']:.2f} |", flush=True)


def main():
    if len(sys.argv) not in (2, 3):
        sys.exit("program.py: give the program planus, and flatc if it isn't on the path")
    planus, flatc = os.path.abspath(sys.argv[1]), (sys.argv + ["flatc"])[2]
    with tempfile.TemporaryDirectory() as room:
        path = lambda name: os.path.join(room, name)
        # In a process of its own: what a program takes at most counts from what it is started by.
        maker = os.fork()
        if maker == 0:
            make(room, flatc)
            os._exit(0)
        if os.waitpid(maker, 0)[1] != 0:
            sys.exit("program.py: the files can't be made")
        sizes = {name: os.path.getsize(path(name + ".bin")) / MIB for name in ("short", "long")}
        print(f"| | ours, ms | / flatc | peak, MiB | / flatc |\n|---|---|---|---|---|")
        many = f"{TABLES} tables"
        row(f"`check`, {many}", [planus, "check", path("big.fbs")], [flatc, "-b", "--schema", "-o", room, path("big.fbs")], room)
        row(f"`format`, {many}", [planus, "format", path("big.fbs")], None, room)
        row(
            f"`rattle`, {many} (`flatc --rust`)",
            [planus, "rattle", path("big.fbs"), "-o", path("big")],
            [flatc, "--rust", "-o", path("rust"), path("big.fbs")],
            room,
        )
        row(
            f"`conform`, {many} (`flatc --conform`)",
            [planus, "conform", path("big.fbs"), path("more.fbs")],
            [flatc, "--conform", path("big.fbs"), path("more.fbs")],
            room,
        )
        view = [planus, "view", "--lines", "100000000", "--bytes", "1000000000", path("big.fbs")]
        for name, what in (("short", "short strings"), ("long", "strings of 4000 bytes")):
            row(
                f"`view`, {sizes[name]:.1f} MiB of tables with {what} (`flatc --json`)",
                view + [path(name + ".bin")],
                [flatc, "--json", "--raw-binary", "-o", room, path("big.fbs"), "--", path(name + ".bin")],
                room,
            )


main()
