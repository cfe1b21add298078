#!/bin/bash
# Instructions and time a message of `replay` on days of 10 to 1,000 auctions, 22 steps each, from the line that is read to
# the answers that are printed; of `live` on the same messages; and of QuickFIX, which parses the frames of the same messages,
# or of these and of all that the venue sends for them, with its checks of length and sum, or parses the former and builds and
# writes the latter; of `replay` where the messages come as frames, byte by byte or digit by digit; and messages a second of
# `live --marks` and of `replay` over pipes (pipes.py). Needs g++, python3, libquickfix-dev, valgrind and rt.
#
#     bench/venue.sh [PROGRAM]
# @figure instructions of `replay` on 1,000 auctions (6,000 messages come, 16,000 are sent), beside the least that a venue on QuickFIX needs: to parse the former and to build and write the latter | 140 million, 0.45 times | 134 million, 0.45 times; QuickFIX's parse alone of what comes and is sent takes 2.2 times as much. 182,692 messages a second
# @figure instructions a line of `live`, of the same messages; of `replay` where they come as `hex` lines | those of `replay`; twice those of `in` lines | 1.14 times; 1.07 times
set -e
. "$(dirname "$0")/program.sh"
g++ -std=c++14 -O3 -w -o "$make/venue" "$here/venue.cpp" -lquickfix -lpthread
instructions() {
    valgrind --tool=callgrind --callgrind-out-file=/dev/null "$@" 2>&1 > /dev/null | sed -n 's/.*Collected : //p'
}
best() {  # the best time of nine runs, in microseconds
    for run in 1 2 3 4 5 6 7 8 9; do
        from=$(date +%s%N)
        "$@" > /dev/null
        echo $((($(date +%s%N) - from) / 1000))
    done | sort -n | head -1
}
"$make/venue" day 0 > "$make/none"
none=$(instructions "$program" replay < "$make/none")
none_live=$(instructions "$program" live < "$make/none")
each_round() {  # the instructions of one round of what QuickFIX does
    what=$1 auctions=$2
    shift 2
    once=$(instructions "$make/venue" "$what" "$auctions" 1 "$@")
    twice=$(instructions "$make/venue" "$what" "$auctions" 2 "$@")
    echo $((twice - once))
}
for auctions in 10 100 1000; do
    messages=$((6 * auctions))
    "$make/venue" day $auctions > "$make/text"
    grep -v '^turn ' "$make/text" > "$make/lines"
    day=$(($(instructions "$program" replay < "$make/text") - none))
    live=$(($(instructions "$program" live < "$make/lines") - none_live))
    "$program" replay --frames < "$make/text" > "$make/sent"
    sent=$(wc -l < "$make/sent")
    quickfix=$(each_round parse $auctions)
    echo "$auctions auctions, $messages messages: replay $((day / messages)) each, QuickFIX's parse $((quickfix / messages))," \
        "$((day * 100 / quickfix)) of 100"
    quickfix=$(each_round parse $auctions "$make/sent")
    echo "    and the $sent that are sent for them: replay $((day / (messages + sent))) each," \
        "QuickFIX's parse $((quickfix / (messages + sent))), $((day * 100 / quickfix)) of 100"
    floor=$(each_round serve $auctions "$make/sent")
    echo "    QuickFIX's parse of these and its writing of those: $((floor / 1000)) thousand, replay $((day / 1000)) thousand," \
        "$((day * 100 / floor)) of 100; live $((live / messages)) a line, $((live * 100 / day)) of 100 of replay"
done
for how in in hex; do
    "$make/venue" day 1000 $how > "$make/text"
    echo "6000 messages as \`$how\` lines: replay $((($(instructions "$program" replay < "$make/text") - none) / 6000)) each"
done
"$make/venue" day 1000 > "$make/text"
replayed() { "$program" replay < "$make/text"; }
took=$(best replayed)
one=$(best "$make/venue" parse 1000 2)
eleven=$(best "$make/venue" parse 1000 12)
echo "6000 messages: replay $((6000000000 / took)) a second, QuickFIX's parse $((60000000000 / (eleven - one))) a second"
python3 "$here/pipes.py" "$program" "$make/text"
