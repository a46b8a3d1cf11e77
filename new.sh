#!/bin/sh
# Makes a repository of your own for a schema, or brings the runtime in one up to date.
#   sh new.sh [--no-verified] FOLDER SCHEMA          FOLDER is new or empty
#   sh new.sh --update FOLDER
#
# In FOLDER are then crates.txt, HANDLES, .gitignore, the schema, crates/planus* (the runtime, copied without the edits
# that try its contracts), crates/NAME (the code of SCHEMA.fbs, by `planus rattle`) and crates/app: a program that writes
# a record to the file that its call names, reads it back and prints it, with a test.
# With --no-verified the code has no views of verified buffers, so that less is to be proved.
# An update replaces the runtime and prints the schema's code again, as the comment in crates.txt says; it says what
# changed, and leaves crates/app alone.
# Needs `rt`, python3 (which rt needs too), and `planus`, which it builds by install.sh, or takes from PLANUS.
set -eu

RUNTIME="planus_back planus_read planus_view planus_unions planus_verify planus_write planus_fields planus planus_views planus_keys"
fail() {
    echo "new.sh: $1" >&2
    exit 2
}
usage() {
    sed -n 's/^#   //p' "$0"
}
[ "${1:-}" != --help ] || { usage; exit 0; }
options=
[ "${1:-}" != --no-verified ] || { options="--no-verified "; shift; }
[ $# = 2 ] || { usage >&2; exit 2; }
case $2 in -*) usage >&2; exit 2 ;; esac
here=$(CDPATH='' cd -- "$(dirname -- "$0")" && pwd)
command -v rt >/dev/null || fail "rt isn't on the path: it comes with the toolchain, Rattle"
command -v python3 >/dev/null || fail "python3 isn't on the path"

# Sets planus: what was built here since the sources changed, the proved one first.
find_planus() {
    planus=${PLANUS:-}
    [ -z "$planus" ] || { planus=$(CDPATH='' cd -- "$(dirname -- "$planus")" && pwd)/$(basename "$planus"); return; }
    for planus in "$here/crates/planus_cli/out/planus_cli" "$here/out/planus"; do
        if [ -x "$planus" ] && [ -z "$(find "$here"/crates/*/src -type f -newer "$planus" | head -n 1)" ]; then return; fi
    done
    sh "$here/install.sh" "$here/out" >&2
    planus=$here/out/planus
}
# The runtime's crates, copied to a folder.
copy_runtime() {
    for crate in $RUNTIME; do
        mkdir -p "$1/$crate"
        for part in src specs proofs; do
            [ ! -d "$here/crates/$crate/$part" ] || cp -R "$here/crates/$crate/$part" "$1/$crate/"
        done
    done
}
runtime_lines() {
    echo "# the runtime, copied by new.sh, of commit $(git -C "$here" rev-parse --short HEAD 2>/dev/null || echo "none")"
    for crate in $RUNTIME; do grep "^$crate:" "$here/crates.txt"; done
}
# Prints the code of a schema, and says the crate's line of crates.txt.
print_code() { # in the folder: crate, options, schema
    crate=$1
    shift
    said=$("$planus" rattle "$@" -o "$crate" 2>&1) || fail "the code of $* isn't printed: $said"
    printf '%s\n' "$said" | sed -n 's/^planus: the line of crates.txt is `\(.*\)`$/\1/p'
}

if [ "$1" = --update ]; then
    folder=$2
    [ -f "$folder/crates.txt" ] && [ -d "$folder/crates/planus" ] || fail "$folder isn't made by new.sh"
    room=$(mktemp -d)
    trap 'rm -rf "$room"' EXIT
    copy_runtime "$room"
    find_planus
    # The code of each schema, as the comment above its line says.
    sed -n 's/^# printed by: planus rattle \(.*\) -o crates\/\(.*\)$/\2 \1/p' "$folder/crates.txt" >"$room/schemas"
    mkdir "$room/printed"
    while read -r name words; do
        # shellcheck disable=SC2086 # options and a schema
        (cd "$folder" && print_code "$room/printed/$name" $words)
    done <"$room/schemas" >"$room/lines"
    changed=
    replace() { # folder of the new crate, name: the crate's files but what is built
        for part in src specs proofs; do
            new=$1/$2/$part old=$folder/crates/$2/$part
            mkdir -p "$new" "$old"
            count=$(diff -rq "$old" "$new" | wc -l)
            [ "$count" = 0 ] || { changed=yes; echo "crates/$2/$part: files that changed, came or went: $count"; }
            rm -rf "$old"
            [ -z "$(ls -A "$new")" ] || cp -R "$new" "$old"
        done
    }
    for crate in $RUNTIME; do replace "$room" "$crate"; done
    while read -r name words; do replace "$room/printed" "$name"; done <"$room/schemas"
    grep -v -e '^# the runtime, copied' $(printf ' -e ^%s:' $RUNTIME) "$folder/crates.txt" >"$room/rest" || :
    while read -r line; do
        sed "s/^${line%%:*}:.*/$line/" "$room/rest" >"$room/other"
        mv "$room/other" "$room/rest"
    done <"$room/lines"
    runtime_lines >"$room/crates.txt"
    sed '/./,$!d' "$room/rest" >"$room/own"
    { cat "$room/crates.txt"; echo; cat "$room/own"; } >"$folder/crates.txt"
    [ "$changed" ] || echo "the runtime and the code of schemas are as they were"
    echo "$folder is up to date with $(git -C "$here" rev-parse --short HEAD 2>/dev/null || echo "$here")"
    exit 0
fi

folder=$1 schema=$2
[ -f "$schema" ] || fail "there is no file $schema"
[ ! -e "$folder" ] || { [ -d "$folder" ] && [ -z "$(ls -A "$folder")" ]; } || fail "$folder is there already, and isn't an empty folder"

# the crate's name: that of the schema's file, in small letters, digits and _, or else with _schema after it
find_planus
name=$(basename "$schema" .fbs | tr 'A-Z' 'a-z' | tr -c 'a-z0-9_\n' '_' | sed 's/^[^a-z]/s_&/')
status=0
"$planus" rattle --check - -o "$name" </dev/null >/dev/null 2>&1 || status=$?
if [ "$status" = 2 ] || [ "$name" = app ]; then name=${name}_schema; fi

"$planus" check "$schema" || fail "mend $schema first"
file=$(basename "$schema")
room=$(mktemp -d)
trap 'rm -rf "$room"' EXIT
# shellcheck disable=SC2086 # none or one
line=$(cd "$(dirname "$schema")" && print_code "$room/$name" $options "$file")

mkdir -p "$folder/crates"
copy_runtime "$folder/crates"
cp -R "$room/$name" "$folder/crates/"
cat "$schema" >"$folder/$file"
sed -n 's/^[[:space:]]*include[[:space:]]*"\([^"]*\)".*/\1/p' "$schema" | while read -r part; do
    [ ! -f "$(dirname "$schema")/$part" ] || { mkdir -p "$(dirname "$folder/$part")" && cat "$(dirname "$schema")/$part" >"$folder/$part"; }
done
{
    runtime_lines
    echo
    echo "# printed by: planus rattle $options$file -o crates/$name"
    echo "$line"
} >"$folder/crates.txt"
echo "Handles allowed: none." >"$folder/HANDLES"
printf 'out/\n__pycache__/\n' >"$folder/.gitignore"
if python3 "$here/start/first_program.py" "$folder/crates" "$name"; then
    printf '\napp: anyhow planus planus_write %s\n' "$name" >>"$folder/crates.txt"
    (cd "$folder/crates/app" && rt fmt >/dev/null) || fail "the program of $folder/crates/app isn't laid out"
fi
if command -v git >/dev/null && ! git -C "$folder" rev-parse --git-dir >/dev/null 2>&1; then
    git -C "$folder" init -q
fi

folder=$(CDPATH='' cd -- "$folder" && pwd)
echo "$folder is made, with the runtime and the code of $file, crates/$name"
if [ -d "$folder/crates/app" ]; then
    data=$folder/first.bin
    grep -q 'file to write' "$folder/crates/app/src/main.rt" || data='the absolute path of a buffer'
    echo "Next:"
    echo "    cd $folder/crates/app"
    echo "    rt try -- $data      # half a minute: runs the program, unproved"
    echo "    $planus view $folder/$file $data"
    echo "    rt run -- $data      # proves the runtime, the schema's code and the program first"
fi
