#!/bin/sh
# Times of `Board::withdraw`, beside a bare compare-and-exchange in C++, in one run.
# Needs g++ and rt. usage: bench/words.sh
# @figure `Board::withdraw` beside a bare `std::atomic` exchange, open and settled words, one thread and four | at most twice | 0.76 to 0.97 times
set -e
here=$(cd "$(dirname "$0")" && pwd)
make=$(mktemp -d)
trap 'rm -rf "$make"' EXIT
mkdir -p "$make/crates/words/src"
cp -a "$here/../crates/quote_word" "$make/crates/quote_word"
cp "$here/words.rt.txt" "$make/crates/words/src/main.rt"
printf 'quote_word: logbook\nwords: quote_word\n' >"$make/crates.txt"
cp "$here/../HANDLES" "$make/HANDLES"
(cd "$make/crates/words" && rt run >"$make/first" 2>"$make/log") || { cat "$make/log" >&2; exit 1; }
g++ -std=c++20 -O3 -Wall -Wextra -o "$make/bare" "$here/words.cpp" -lpthread
# The two take turns, and each case has its best time.
for turn in 1 2 3; do
    "$make/crates/words/out/words" >>"$make/ours"
    "$make/bare" >>"$make/theirs"
done
awk '
    FNR == NR { if (!($1 in ours) || $2 < ours[$1]) ours[$1] = $2; next }
    { if (!($1 in bare) || $2 < bare[$1]) bare[$1] = $2; if (!seen[$1]++) names[++n] = $1 }
    END {
        printf "%-14s %12s %12s %6s\n", "nanoseconds", "withdraw", "std::atomic", "ratio"
        for (i = 1; i <= n; ++i) {
            name = names[i]
            ratio = ours[name] / bare[name]
            printf "%-14s %12.2f %12.2f %6.2f\n", name, ours[name] / 100, bare[name] / 100, ratio
        }
    }' "$make/ours" "$make/theirs"
