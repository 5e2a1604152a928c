#!/usr/bin/env bash
# How many instructions the rows of one request take: a plain Rust program and Vamluyak, on the same files.
#
#   bench/run.sh          36,864 rows: 12 subjects, 3 actions, and a resource with 1,024 nodes below it
#   bench/run.sh most     5,308,416 rows, the most that a request can have
#
# It needs rustc, python3 and valgrind, and the program ROWS (crates/rows_bench/out/rows_bench if it is not set), which is given
# the same three files as words and prints the same three lines; bench/baseline/main.rs says which. Where that program
# is not built, only the plain one is measured.
set -euo pipefail
cd "$(dirname "$0")/.."
rows=${ROWS:-crates/rows_bench/out/rows_bench}
set_name=${1:-many}
folder=$(mktemp -d)
trap 'rm -rf "$folder"' EXIT

rustc -O -C target-cpu=x86-64 -C panic=abort --edition 2024 -o "$folder/baseline" bench/baseline/main.rs
python3 bench/generate.py "$folder"
files=("$folder/$set_name"/{request,tree,grants}.bin)

# Prints what a program counts, and leaves the number of instructions in FOLDER/NAME.count.
measure() {
    local name=$1 program=$2
    valgrind --tool=callgrind --callgrind-out-file="$folder/$name.callgrind" "$program" "${files[@]}" \
        >"$folder/$name.out" 2>"$folder/$name.log" || { cat "$folder/$name.out" "$folder/$name.log" >&2; exit 1; }
    sed -n 's/^.*Collected : //p' "$folder/$name.log" >"$folder/$name.count"
    echo "$name: $(tr '\n' ' ' <"$folder/$name.out")instructions $(cat "$folder/$name.count")"
}

measure baseline "$folder/baseline"
if [ ! -x "$rows" ]; then
    echo "there is no $rows: nothing to compare with"
    exit 0
fi
measure vamluyak "$rows"
cmp "$folder/baseline.out" "$folder/vamluyak.out"
awk -v ours="$(cat "$folder/vamluyak.count")" -v plain="$(cat "$folder/baseline.count")" \
    'BEGIN { printf "ratio: %.2f\n", ours / plain }'
