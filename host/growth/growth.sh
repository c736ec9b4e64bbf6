#!/usr/bin/env bash
# Counts the instructions (valgrind --tool=callgrind) of calls of split_alignment with 512, 1,024, 2,048 and 4,096 symbols. What the sort of the symbols costs is the
# call with symbols in one section less the call with symbols in none; what the ranges cost is 64 calls that ask one less the same calls with a given
# alignment, which ask none, times 16 for 1,024 ranges. A count over n log2 n that stays the same or falls shows the growth.
set -eu
cd "$(dirname "$0")"
root=$(cd ../.. && pwd)
work=$(mktemp -d)
trap 'rm -rf "$work"' EXIT
cc -O2 -std=c99 -o "$work/growth" growth.c -L "$root/crates/entries/out" -lentries

count() {
    valgrind --tool=callgrind --callgrind-out-file="$work/out" --toggle-collect=split_alignment "$work/growth" "$@" 2>&1 >/dev/null |
        sed -nE 's/.*Collected : ([0-9]+).*/\1/p'
}

printf '%8s %12s %10s %14s %10s\n' symbols sort '/n log n' '1,024 ranges' '/n log n'
for n in 512 1024 2048 4096; do
    asked=$(count "$n" 1 0)
    sorted=$(count "$n" 1 1)
    unsorted=$(count "$n" 0 1)
    awk -v n="$n" -v a="$asked" -v s="$sorted" -v u="$unsorted" 'BEGIN {
        l = n * log(n) / log(2); sort = (s - u) / 64; ranges = (a - s) * 16
        printf "%8d %12d %10.2f %14d %10.2f\n", n, sort, sort / l, ranges, ranges / l }'
done
