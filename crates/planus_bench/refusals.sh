#!/bin/sh
# Refuses one request for memory after the other: in a test of this crate, whose calls make nearly
# sixty, up to the given one; and in planus_demo over a script of a weapon, until none is refused.
# Looks whether the test passes, and whether what the program prints may be. It takes half a minute a
# run, most of it to build, and a run for each request.
#
#     sh refusals.sh [first N [last N of the test]]

cd "$(dirname "$0")" || exit 2
first=${1:-1} last=${2:-60}
script=$(mktemp) out=$(mktemp)
trap 'rm -f "$script" "$out"' EXIT
printf 'text Axe\ntable 0=ref:0 1=u16:24\nfinish 1\n' > "$script"
weapon='04 00 00 00 f4 ff ff ff 10 00 00 00 18 00 00 00 08 00 0a 00 04 00 08 00 03 00 00 00 41 78 65 00'
differences=0

# Runs rt try in a crate's folder with the Nth request refused. Leaves what was printed and the
# status.
try() {
    folder=$1 nth=$2
    shift 2
    (cd "../$folder" && rt try --fail-alloc "$nth" "$@" < "$script") > "$out" 2>&1
    status=$(sed -n 's/^run=ended status=\([0-9]*\) .*/\1/p' "$out")
    if [ -z "$status" ]; then
        cat "$out"
        exit 2
    fi
}

differ() {
    echo "$1, N=$2: $3"
    differences=$((differences + 1))
}

n=$first
while [ "$n" -le "$last" ]; do
    try planus_bench "$n" --test -- calls_with_one_request_refused
    grep -q '^test result: ok. 1 passed' "$out" || differ planus_bench "$n" "status $status"
    n=$((n + 1))
done
echo "planus_bench: N from $first to $last"

# The requests of a program that reads its input aren't counted: three clean runs are the end.
n=$first clean=0
while [ $clean -lt 3 ]; do
    try planus_demo "$n"
    case $status in
        0) grep -qxF "$weapon" "$out" || differ planus_demo "$n" 'another line than the weapon' ;;
        1) grep -qxF 'out of memory' "$out" || differ planus_demo "$n" 'no line out of memory' ;;
        2) ! grep -q '^out of memory\|^04 ' "$out" || differ planus_demo "$n" 'a line with status 2' ;;
        *) differ planus_demo "$n" "status $status" ;;
    esac
    if [ "$status" = 0 ]; then clean=$((clean + 1)); else clean=0; fi
    n=$((n + 1))
done
echo "planus_demo: N from $first to $((n - clean - 1))"
echo "differences: $differences"
[ "$differences" = 0 ]
