#!/bin/sh
# Instructions a message of `alone` on days of 100 to 4,096 quotes, from the line that is read to the answer that is
# printed, and of QuickFIX, which parses the same frames and checks their length and sum alone. Needs g++,
# libquickfix-dev, valgrind and rt.
# @figure instructions a quote of `alone` | at 4,096 quotes at most 1.5 times those at 100, and 0.9 times QuickFIX's parse of the same frames | 10,902, 1.06 times those at 100; 0.90 times QuickFIX's 12,157
set -e
here=$(cd "$(dirname "$0")" && pwd)
crate=$here/../crates/rfq_venue
program=$crate/out/rfq_venue
make=$(mktemp -d)
trap 'rm -rf "$make"' EXIT
(cd "$crate" && rt run < ../../examples/first-quote.due > /dev/null 2>&1)
g++ -std=c++14 -O3 -w -o "$make/day" "$here/day.cpp" -lquickfix -lpthread
instructions() {
    valgrind --tool=callgrind --callgrind-out-file=/dev/null "$@" 2>&1 > /dev/null | sed -n 's/.*Collected : //p'
}
"$make/day" 0 0 > "$make/none"
none=$(instructions "$program" alone < "$make/none")
for quotes in 100 400 1600 4096; do
    "$make/day" $quotes 0 > "$make/text"
    alone=$(( ($(instructions "$program" alone < "$make/text") - none) / quotes ))
    once=$(instructions "$make/day" $quotes 1)
    twice=$(instructions "$make/day" $quotes 2)
    quickfix=$(( (twice - once) / quotes ))
    echo "$quotes quotes: alone $alone, QuickFIX $quickfix, $(( alone * 100 / quickfix )) of 100"
done
