#!/bin/sh
# Compiles the C programs with libentries.a, as C and, if there is a C++ compiler, as C++, and runs them.
# run.sh [FOLDER of libentries.a]     status: 0 if nothing differs
set -eu
here=$(dirname "$0")
lib=$(cd "${1:-$here/../../crates/entries/out}" && pwd)/libentries.a
out=$(mktemp -d)
trap 'rm -rf "$out"' EXIT
cd "$here"
flags="-Wall -Wextra -Werror -pedantic -I ../../include"

for program in toposort split_file join_pieces; do
    cc -std=c99 $flags $program.c "$lib" -o "$out/as_c"
    printf '   as C99: '
    "$out/as_c"

    if command -v c++ >/dev/null; then
        c++ -std=c++11 $flags -x c++ $program.c -x none "$lib" -o "$out/as_cpp"
        printf ' as C++11: '
        "$out/as_cpp"
    else
        echo "no C++ compiler: the header was not tried as C++"
    fi
done
