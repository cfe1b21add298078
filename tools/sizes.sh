#!/bin/sh
# Prints a page of sizes: for each crate its lines that are not blank, and its wrong bodies; and, from
# a log of the gate that ended, how it ended and how long it took.
# usage: tools/sizes.sh [LOG]     LOG as written by: { time rt ci; } >LOG 2>&1
set -eu
root=$(cd "$(dirname "$0")/.." && pwd)
log=${1:-/dev/null}
[ -r "$log" ] || { echo "cannot read $log" >&2; exit 2; }

# lines WHERE NAME: the lines that are not blank of the files of such a name there; 0 where none are.
lines() {
    [ -d "$1" ] || { echo 0; return; }
    find "$1" -name "$2" -type f -exec cat {} + | grep -c '[^[:space:]]' || true
}

# test_lines SRC: those of src/tests.rt, of src/tests/, and of modules of tests inside other files.
test_lines() {
    find "$1" -name '*.rt' -type f -exec awk -v src="$1" '
        FNR == 1 {ours = index(FILENAME, src "/tests.rt") == 1 || index(FILENAME, src "/tests/") == 1}
        is_for_tests && /^mod [a-z_]* \{$/ {ours = 1}
        {is_for_tests = /^#\[cfg\(test\)\]$/}
        ours && NF {n++}
        END {print n + 0}' {} +
}

# functions CRATE: how many functions the gate proved of it, without its tests.
functions() {
    awk -v head="== $1" '/^== /{ours = $0 == head}
        ours && match($0, /^logic=proved functions=[0-9]+/) {n = substr($0, 24, RLENGTH - 23)}
        END {print n}' "$log"
}

# edits CRATE: how many wrong bodies it has, in the gate and beside it.
edits() {
    awk -v crate="$1" '$1 == crate {gate = $2; beside = $3 + $4} END {print gate + 0, beside + 0}' "$bodies"
}

# full_day: of a day of 64 dealers and 64 investors at the limits of a configuration, on threads, what
# comes, what is printed, and what it takes, where the program is built.
full_day() {
    program=$root/crates/rfq_venue/out/rfq_venue
    [ -x "$program" ] || return 0
    PYTHONPATH="$root" python3 -m tests.hostile.full_day write >"$day"
    python3 - "$program" "$day" <<'END'
import resource, subprocess, sys, time
with open(sys.argv[2], "rb") as day:
    come = sum(line.startswith(b"say ") for line in day)
    day.seek(0)
    begun = time.time()
    printed = subprocess.run([sys.argv[1], "day"], stdin=day, capture_output=True, check=True).stdout.count(b"\n")
took = time.time() - begun
memory = resource.getrusage(resource.RUSAGE_CHILDREN).ru_maxrss // 1024
print("A day of 64 dealers and 64 investors at the limits of a configuration, on 129 threads:")
print("%d messages came, some %d were sent, in %.1f seconds and %d MB." % (come, printed, took, memory))
END
    echo
}

day=$(mktemp)
bodies=$(mktemp)
trap 'rm -f "$day" "$bodies"' EXIT
PYTHONPATH="$root" python3 -m tests.edits.wrong_bodies >"$bodies"
crates=$(sed -n 's/^\([a-z0-9_]*\)[ a-z_=+0-9A-Z]*:.*/\1/p' "$root/crates.txt")
echo '# Sizes and times'
echo
echo 'Lines that are not blank: code with its contracts and comments, definitions, proofs with'
echo 'lemmas, invariants and answers.'
echo
echo '| crate | code | definitions | proofs | tests | edits in the gate | beside it | functions proved |'
echo '|---|---|---|---|---|---|---|---|'
for crate in $crates; do
    at=$root/crates/$crate
    code=$(lines "$at/src" '*.rt')
    tests=$(test_lines "$at/src")
    case $crate in *_tests) tests=$code ;; esac
    edits=$(edits "$crate")
    echo "| \`$crate\` | $((code - tests)) | $(lines "$at/specs" '*.antt') |" \
        "$(lines "$at/proofs" '*.antt') | $tests | ${edits% *} | ${edits#* } | $(functions "$crate") |"
done
echo
full_day
if grep -q '^[0-9]* passed, ' "$log"; then
    echo 'The gate, `rt ci`:'
    echo
    sed -n -e 's/^[0-9]* passed, [0-9]* failed$/- it ended `&`/p' \
        -e 's/^\(real\|user\|sys\)[[:space:]]*\([0-9].*\)$/- \1 \2/p' "$log"
fi
