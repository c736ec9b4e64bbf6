#!/usr/bin/env bash
# measure.sh OUT [SMALL LARGE SECONDS]: measures anew what docs/MEASURED.md shows, and writes it to OUT as Markdown; what OUT has up to the line of MARK below stays.
# It takes libentries.a as it stands (`rt lib` in crates/entries), builds the host for measuring and for comparing, and needs valgrind. SMALL, LARGE and SECONDS
# bound the soak (else 10,000,000, 100,000 and 3,600). Status: 0, or 1 if something differs or valgrind reports an invalid access.
set -eu
MARK='<!-- what follows is written by host/measure.sh -->'
if [ $# -lt 1 ]; then
    sed -n '2,4s/^# //p' "$0" >&2
    exit 2
fi
out=$(realpath "$1")
shift
cd "$(dirname "$0")"
for profile in measure release; do
    cargo build --profile "$profile" --offline --locked
done
measure=target/measure/host
compare=target/release/host
work=$(mktemp -d)
trap 'rm -rf "$work"' EXIT
failed=0

# part TITLE COMMAND..: the command's output under a title that names it
part() {
    local title=$1
    shift
    printf '\n## %s\n\n`host/%s`\n\n' "$title" "$*"
    "$@" || failed=1
}

# The table of the soak, and what it says at the end; all that it says if something differs.
soak() {
    printf '\n## Soak\n\n`host/%s soak%s`\n\n' "$compare" "${*:+ $*}"
    if "$compare" soak "$@" >"$work/soak"; then
        sed -n '/^| Entry/,$p' "$work/soak" | sed 's/^host: /\n&/'
    else
        cat "$work/soak"
        failed=1
    fi
}

sample() {
    local status=0
    printf '\n## Short tables under valgrind\n\n`valgrind --error-exitcode=9 host/%s sample`\n\n' "$compare"
    valgrind --error-exitcode=9 "$compare" sample >"$work/sample" 2>&1 || status=$?
    if [ "$status" = 0 ]; then
        grep -E 'tables lent|^host: |ERROR SUMMARY' "$work/sample" | sed -E 's/^==[0-9]+== //; s/^/    /'
    else
        printf 'Status %s:\n\n' "$status"
        sed 's/^/    /' "$work/sample"
        failed=1
    fi
}

{
    if [ -f "$out" ] && grep -qxF -e "$MARK" "$out"; then
        sed "\\|^$MARK\$|q" "$out"
    fi
    printf '\nMeasured on %s at commit %s, on a machine with %s processors (%s).\n' "$(date -u +%Y-%m-%d)" \
        "$(git describe --always --dirty --exclude '*' --abbrev=12)" "$(nproc)" "$(uname -m)"
    part 'Speed' "$measure" bench 200
    part 'Joining pieces' "$measure" bench join 200
    part 'Instructions' growth/whole_run.sh
    part 'Stages within a run' growth/stages.sh
    part 'Memory' "$measure" memory
    soak "$@"
    sample
} >"$work/out"
cp "$work/out" "$out"
exit "$failed"
