#!/usr/bin/env bash
# Counts the instructions of each stage within one whole run, ours and the Rust's, on all inputs of the benchmark, and prints a Markdown table: both begin a stage with their tables
# loaded, checked and sorted. A stage is counted with all that it calls. One that the compiler gave no function of its own is named at the end, and nothing is said of it.
. "$(dirname "$0")/counting.sh"

# functions OUT FUNCTION ARGUMENT..: a count, and to OUT.functions a line for each function within it: its instructions with those of what it calls, and its name
functions() {
    count "$@" >/dev/null
    callgrind_annotate --inclusive=yes --threshold=100 "$1" >"$work/text"
    sed -nE 's/^ *([0-9,]+) \( *[0-9.]+%\)  [^:]*:(.*) \[.*/\1 \2/p' "$work/text" | tr -d , >"$1.functions"
}

# of OUT FUNCTION..: the sum of these functions' instructions, or `-` if none of them is there
of() {
    local out=$1
    shift
    awk -v names=" $* " 'index(names, " " $2 " ") { sum += $1; there = 1 } END { print there ? sum : "-" }' "$out.functions"
}

# stage INPUT NAME OURS RUST: a row, for functions of ours and of the Rust
stage() {
    local o r ratio=-
    # The lists are words.
    # shellcheck disable=SC2086
    o=$(of "$work/ours" $3) r=$(of "$work/rust" $4)
    if [ "$o" = - ] || [ "$r" = - ]; then
        printf '%s on %s; ' "$2" "$1" >>"$work/unseen"
    else
        ratio=$(awk -v o="$o" -v r="$r" 'BEGIN { printf "%.2f", r / o }')
        [ "$o" -le "$r" ] || printf '%s on %s; ' "$2" "$1" >>"$work/slower"
    fi
    printf '| %s | %s | %s | %s | %s |\n' "$1" "$2" "$(grouped "$o")" "$(grouped "$r")" "$ratio"
}

# named WORD FILE: what the file lists, behind the word; nothing if it lists nothing
named() {
    [ ! -s "$2" ] || printf ' %s: %s.' "$1" "$(sed 's/; $//' "$2")"
}

: >"$work/slower"
: >"$work/unseen"
"$host" inputs >"$work/inputs"
split=oracle::util::split
printf '| Input | Stage | ours | the Rust | ratio |\n|---|---|---|---|---|\n'
while IFS= read -r input; do
    functions "$work/ours" "$ours" "$input"
    functions "$work/rust" "$rust" "$input" rust
    stage "$input" merge merge::add_split oracle::obj::ObjInfo::add_split
    stage "$input" common 'common::update_common_splits common::common_start common::mark_columns' "$split::update_common_splits"
    stage "$input" gap create_gap_splits::create_gap_splits "$split::create_gap_splits"
    stage "$input" check validate::validate "$split::validate_splits"
    stage "$input" trim trim::trim "$split::trim_split_alignment $split::trim_linker_generated_symbols"
    stage "$input" order order::ordered "$split::resolve_link_order"
    stage "$input" walk stage_walk::walk_columns "$split::probe::split_obj_sections"
done <"$work/inputs"
none=
[ -s "$work/slower" ] || [ -s "$work/unseen" ] || none=' None is.'
printf "\n- No stage slower than the Rust's, within a run.%s%s%s\n" "$none" "$(named Slower "$work/slower")" "$(named 'Not counted' "$work/unseen")"
