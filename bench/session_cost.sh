#!/bin/sh
# Instructions of a firm's session for a quote of 220 bytes that it expects: one call of fix_sessions_came, from the bytes
# to what the venue is given. Needs g++, valgrind and rt; with MODEL=1 the second implementation's, and no rt.
# @figure instructions of a firm's session for an expected quote of 220 bytes: one call of `fix_sessions_came`, from the bytes to what the venue is given | 10,000, and half of the 22,750 of QuickFIX's `Session` | 9,609, 0.42 times QuickFIX's. The second implementation (`MODEL=1`) 15,165
set -e
here=$(cd "$(dirname "$0")" && pwd)
top=$here/..
make=$(mktemp -d)
trap 'rm -rf "$make"' EXIT
if [ "${MODEL:-0}" = 1 ]; then
    set -- "$top"/gateway/session_model/*.cpp
else
    crate=$top/crates/fix_sessions_c
    (cd "$crate" && rt lib > /dev/null 2>&1)
    set -- "$crate/out/libfix_sessions_c.a" "$(dirname "$(rt doc)")/c/liblibc_c.a"
fi
g++ -std=c++20 -O3 -I "$top/gateway/src/session" -I "$top/gateway/src" -o "$make/cost" "$here/session_cost.cpp" "$@"
instructions() {
    valgrind --tool=callgrind --callgrind-out-file=/dev/null "$make/cost" "$1" 2>&1 | sed -n 's/.*Collected : //p'
}
none=$(instructions 0)
many=$(instructions 1000)
echo "a quote of 220 bytes: $(( (many - none) / 1000 )) instructions"
