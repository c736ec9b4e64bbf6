#!/usr/bin/env bash
# Counts the instructions of one call of split_file, and of the Rust's loading and stages, on the benchmark's inputs of 256, 512 and 1,024 splits, and prints a Markdown
# table, with the function of ours that takes the most by itself.
. "$(dirname "$0")/counting.sh"

# the function with the most instructions of its own in callgrind's file, and its part of all
greatest() {
    callgrind_annotate "$1" >"$work/functions"
    sed -nE 's/^ *[0-9,]+ \(([0-9.]+)%\)  [^:]*:([^ ]+).*/\2 \1 %/; T; p; q' "$work/functions"
}

printf '| Input | ours | over the half | the Rust | over the half | ratio | most of ours |\n|---|---|---|---|---|---|---|\n'
half=0
rust_half=0
for splits in 256 512 1,024; do
    o=$(count "$work/ours" "$ours" "$splits splits")
    r=$(count "$work/rust" "$rust" "$splits splits" rust)
    awk -v n="$splits" -v o="$o" -v r="$r" -v oh="$half" -v rh="$rust_half" -v og="$(grouped "$o")" -v rg="$(grouped "$r")" -v most="$(greatest "$work/ours")" 'BEGIN {
        printf "| %s splits | %s | %s | %s | %s | %.1f | %s |\n", n, og, oh ? sprintf("%.2f", o / oh) : "-", rg, rh ? sprintf("%.2f", r / rh) : "-", r / o, most }'
    half=$o
    rust_half=$r
done
