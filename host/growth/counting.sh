# Sourced by whole_run.sh and stages.sh: instructions, under valgrind --tool=callgrind, of one run over an input of the benchmark by `host once`. HOST names the host's program,
# if it isn't the one that `--profile measure` builds.
set -euo pipefail
cd "$(dirname "$0")/.."
host=${HOST:-target/measure/host}
work=$(mktemp -d)
trap 'rm -rf "$work"' EXIT
# valgrind counts each byte that `rep stosb` stores as an instruction: what clears memory is to use vector stores
export GLIBC_TUNABLES=glibc.cpu.x86_rep_stosb_threshold=4294967295

# The functions within which a run is counted.
ours=split_file
rust='oracle::asked::walked*'

# count OUT FUNCTION ARGUMENT..: the instructions within the function, the host called with the arguments; what callgrind says of them goes to the file OUT
count() {
    local out=$1 within=$2
    shift 2
    valgrind --tool=callgrind --callgrind-out-file="$out" --toggle-collect="$within" "$host" once "$@" 2>&1 |
        sed -nE 's/.*Collected : ([0-9]+).*/\1/p'
}

# a whole number with commas
grouped() {
    sed -E ':a; s/^([0-9]+)([0-9]{3})/\1,\2/; ta' <<<"$1"
}
