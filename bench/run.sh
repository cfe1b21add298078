#!/bin/sh
# Times of one run, their ratios, and where valgrind is there the instructions of one call.
# Needs g++, libquickfix-dev and rt; valgrind is optional.
# @figure to read and check a frame and find one field | a Quote in a fifth of QuickFIX's time, and at most 2.5 times C++ | met: [below](#reading-a-frame)
# @figure to cut a stream into messages | ahead of QuickFIX from pieces of 512 bytes on | met: [below](#reading-a-frame)
set -e
here=$(cd "$(dirname "$0")" && pwd)
crate=$here/../crates/fix_fields_c
heap=$(dirname "$(rt doc)")/c/liblibc_c.a
(cd "$crate" && rt lib > /dev/null 2>&1)
make=$(mktemp -d)
trap 'rm -rf "$make"' EXIT
g++ -std=c++14 -O3 -w -o "$make/bench" "$here/bench.cpp" "$crate/out/libfix_fields_c.a" "$heap" -lquickfix -lpthread
"$make/bench"
command -v valgrind > /dev/null || exit 0
instructions() {
    valgrind --tool=callgrind --callgrind-out-file=/dev/null "$make/bench" "$1" "$2" "$3" 2>&1 | sed -n 's/.*Collected : //p'
}
for frame in 0 1; do
    for reader in 0 1 2; do
        none=$(instructions $reader $frame 0)
        many=$(instructions $reader $frame 100)
        echo "frame $frame, reader $reader: $(( (many - none) / 100 )) instructions"
    done
done
for place in 0 1 2 3; do
    for reader in 0 1 2; do
        none=$(instructions $reader $((place + 2)) 0)
        some=$(instructions $reader $((place + 2)) 5)
        echo "stream in pieces $place, splitter $reader: $(( (some - none) / 5000 )) instructions a message"
    done
done
