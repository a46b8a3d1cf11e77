#!/bin/sh
# Callers of the calls for C over a buffer of flatc: sh foreign/run.sh [LIBRARY]
#
# Builds crates/harbour_c by rt lib, which proves it and all that it stands on, if LIBRARY, its libharbour_c.a, isn't given; and
# the callers in C, C++, Python and Rust. What they print is compared with ship.txt, which says what stands in ship.json. C
# and C++ call over damaged buffers too, with the address and undefined behaviour sanitizers. What isn't there is named and skipped:
# flatc (flatbuffers-compiler), gcc, g++, python3, rustc.
set -eu
[ $# = 0 ] || set -- "$(realpath "$1")"
cd "$(dirname "$0")"
kit=$(dirname "$(rt doc)")
room=$(mktemp -d)
trap 'rm -rf "$room"' EXIT
has() { command -v "$1" >/dev/null || { echo "foreign: $1 isn't there: $2 skipped"; return 1; }; }
has flatc "all" || exit 0
has gcc "all" || exit 0
if [ $# = 1 ]; then
    cp "$1" "$room/libharbour_c.a"
else
    (cd ../crates/harbour_c && rt lib >"$room/log" 2>&1) || { cat "$room/log" >&2; exit 1; }
    cp ../crates/harbour_c/out/libharbour_c.a "$room"
fi
link="$room/libharbour_c.a $kit/c/liblibc_c.a"
flags="-Wall -Wextra -Werror -O2 -I ../crates/harbour_c"
flatc -b -o "$room" ../crates/harbour/harbour.fbs ship.json

gcc -std=c99 $flags -o "$room/read" read.c $link
"$room/read" "$room/ship.bin" | diff ship.txt -
echo "foreign: C reads what flatc wrote"
if has g++ C++; then
    g++ -std=c++17 $flags -o "$room/read_cpp" read.cpp $link
    "$room/read_cpp" "$room/ship.bin" | diff ship.txt -
    echo "foreign: C++ reads it"
fi
gcc -shared -o "$room/libharbour.so" -Wl,--whole-archive "$room/libharbour_c.a" -Wl,--no-whole-archive "$kit/c/liblibc_c.a"
if has python3 Python; then
    PYTHONPATH=../crates/harbour_c python3 -B read.py "$room/libharbour.so" "$room/ship.bin" >"$room/said"
    diff ship.txt "$room/said"
    echo "foreign: Python reads it"
fi
if has rustc Rust; then
    rustc --edition 2024 -O -o "$room/read_rs" read.rs -L "$room" -l static=harbour_c -C "link-arg=$kit/c/liblibc_c.a"
    "$room/read_rs" "$room/ship.bin" >"$room/said"
    diff ship.txt "$room/said"
    echo "foreign: Rust reads it"
fi
gcc -std=c99 $flags -o "$room/damaged" damaged.c $link
"$room/damaged" "$room/ship.bin"
sanitized="-fsanitize=address,undefined -fno-sanitize-recover=all"
if gcc -std=c99 $flags $sanitized -o "$room/sanitized" damaged.c $link 2>/dev/null; then
    "$room/sanitized" "$room/ship.bin"
else
    echo "foreign: gcc has no sanitizers: skipped"
fi
if g++ -std=c++17 $flags $sanitized -o "$room/sanitized_cpp" damaged.cpp $link 2>/dev/null; then
    "$room/sanitized_cpp" "$room/ship.bin"
else
    echo "foreign: g++ isn't there, or has no sanitizers: skipped"
fi
