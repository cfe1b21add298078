#!/bin/sh
# Instructions of one read_frame, of read_frame and read_dealer together, and of QuickFIX's parse, of a Quote of 133
# bytes and of one with every field. Needs g++, libquickfix-dev, valgrind and rt.
# @figure instructions of `read_frame` and `read_dealer` together | at most 2.5 times `read_frame`, and 40 of 100 of QuickFIX's parse | a Quote 2,963, 2.31 times (QuickFIX 12,092); one with every field 4,622, 2.49 times (QuickFIX 16,704)
set -e
here=$(cd "$(dirname "$0")" && pwd)
crate=$here/../crates/quote_messages_c
(cd "$crate" && rt lib > /dev/null 2>&1)
make=$(mktemp -d)
trap 'rm -rf "$make"' EXIT
g++ -std=c++14 -O3 -w -o "$make/session" "$here/session.cpp" "$crate/out/libquote_messages_c.a" -lquickfix -lpthread
instructions() {
    valgrind --tool=callgrind --callgrind-out-file=/dev/null "$make/session" "$1" "$2" "$3" 2>&1 | sed -n 's/.*Collected : //p'
}
one() {
    none=$(instructions "$1" "$2" 0)
    many=$(instructions "$1" "$2" 100)
    echo $(( (many - none) / 100 ))
}
for frame in 0 1; do
    row=$(one 0 $frame)
    read=$(( $(one 1 $frame) - row ))
    both=$(( $(one 2 $frame) - row ))
    quickfix=$(one 3 $frame)
    echo "frame $frame: read_frame $read, with read_dealer $both, QuickFIX $quickfix"
    echo "frame $frame: with read_dealer / read_frame $(( both * 100 / read )) of 100, / QuickFIX $(( both * 100 / quickfix )) of 100"
done
