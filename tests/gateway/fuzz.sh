#!/bin/sh
# Fuzzes what the gateway reads from a network, from bytes to sessions (gateway/fuzz), with the sanitizers of addresses and
# undefined behaviour. A connection without a Logon with the right password may have nothing accepted, sent, stored or
# counted for a firm; half of the runs have that password. The last line is `N passed, M failed`.
#
#     tests/packages.sh $(gateway/packages.sh) clang libclang-rt-dev
#     tests/gateway/fuzz.sh [SECONDS]
#
# It takes a minute if SECONDS are not named; 3600 is the long form. It begins with the inputs of tests/gateway/corpus, each
# of which is one test more. SEED is libFuzzer's (by the clock). CORPUS names a folder in which it keeps what it finds: the
# inputs that reach something new, and the one that is at fault. JOBS is how many compilers run at a time (2).
set -eu
here=$(cd "$(dirname "$0")" && pwd)
root=$(cd "$here/../.." && pwd)
seconds=${1:-60}
work=$(mktemp -d)
trap 'rm -rf "$work"' EXIT
trap 'exit 143' HUP INT TERM
kept=${CORPUS:-$work/corpus}
mkdir -p "$kept"

if ! (cd "$root/gateway" && cmake --preset fuzz && cmake --build --preset fuzz -j "${JOBS:-2}") >"$work/built" 2>&1; then
    tail -n 50 "$work/built"
    echo "0 passed, 1 failed"
    exit 1
fi
fuzz=$root/gateway/out/fuzz/fuzz/door_fuzz

# Those that are kept with the tests, one by one, and then new ones.
inputs=$(find "$here/corpus" -type f | wc -l)
if [ "$inputs" -gt 0 ] && "$fuzz" -runs=1 "$here"/corpus/* >"$work/told" 2>&1 &&
    "$fuzz" -max_total_time="$seconds" -max_len=8192 -seed="${SEED:-0}" -artifact_prefix="$kept/" -verbosity=0 \
        -print_final_stats=1 "$kept" "$here/corpus" >"$work/told" 2>&1; then
    sed -n 's/^stat::number_of_executed_units: */inputs that were run: /p' "$work/told"
    echo "$((inputs + 1)) passed, 0 failed"
else
    tail -n 60 "$work/told"
    echo "0 passed, 1 failed"
    exit 1
fi
