#!/usr/bin/env python3
"""Compares the script of `planus completions bash` with what `planus help` says, and runs it.

    completions.py PROGRAM

Of each command the script has to have exactly the options that its help names, and all commands.
"""

import pathlib
import re
import subprocess
import sys

OPTION = re.compile(r"(?<![\w-])--?[A-Za-z][\w-]*")
HELP = {"--help", "-h"}

# What help says of another program's call has that program's options.
OTHER = re.compile(r"\| dot .*")

# The words of a call up to where it is completed, and what may stand there.
COMPLETED = {
    ("",): "check format view json binary rattle dot conform completions help",
    ("c",): "check conform completions",
    ("b",): "binary",
    ("--v",): "--version",
    ("view", ""): "",
    ("view", "--l"): "--lines",
    ("completions", ""): "bash zsh fish",
    ("help", "f"): "format",
    ("dot", "-"): "-I --help -h",
}

CALL = """
source /dev/stdin <<< "$1"
shift
COMP_WORDS=("$@") COMP_CWORD=$(($# - 1))
_planus
echo "${COMPREPLY[*]}"
"""


def said(*words):
    return subprocess.run(words, capture_output=True, check=True, timeout=60).stdout.decode()


def differences(program):
    """Each thing that is compared, as it should be and as it is."""
    script = said(program, "completions", "bash")
    rows = re.findall(r"^ +(\w+)\) options='(.*?)' arguments='(.*?)' ;;$", script, re.M)
    usage = re.findall(r"^(?:usage:|      ) planus (\w+)", said(program, "help"), re.M)
    yield "commands", sorted(set(usage)), sorted(name for name, _, _ in rows)
    for name, options, _ in rows:
        if name != "help":
            named = set(OPTION.findall(OTHER.sub("", said(program, "help", name))))
            yield name, named, set(options.split()) - HELP
    for words, wanted in COMPLETED.items():
        got = said("bash", "-c", CALL, "bash", script, "planus", *words)
        yield words, wanted, got.strip()


def main(program):
    program = str(pathlib.Path(program).resolve())
    passed = failed = 0
    for what, wanted, got in differences(program):
        passed += got == wanted
        failed += got != wanted
        if got != wanted:
            print(f"{what}\nwanted {wanted}\ngot    {got}")
    print(f"completions: {passed} passed, {failed} failed")
    return 1 if failed or not passed else 0


if __name__ == "__main__":
    sys.exit(main(*sys.argv[1:]))
