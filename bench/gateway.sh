#!/bin/sh
# The time from a quote to its 297=0 through TCP, log and venue, beside a bare QuickFIX echo with an
# fdatasync a message, and messages a second in a burst, both in one run; what the quote's way is
# made up of, the sealing of its batch on a line of its own; and the bytes to the disk for a quote.
# Needs what gateway/packages.sh names.
#
#     bench/gateway.sh [GATEWAY [VENUE WORDS ..]]
#
# The venue `-` is gateway_venue.cpp, which does nothing but answer: the gateway's own part.
# @figure a quote from a stock initiator to its 297=0 through gateway, log (SQLite) and venue (or a stand-in that answers at once), beside a bare QuickFIX echo with an fdatasync, in five pairs that take turns: the median; the 99th percentile | 1.15 times; 1.5 times | load 20 falling to 10: 1.37 times (1.23 to 1.47; 0.32 ms and 0.23); 1.36 times (1.08 to 2.24). On two other evenings 1.50 (1.01 to 1.75) and 1.24, 1.08 (0.94 to 1.23) and 1.13. The gateway of before form 6 of the log, in the minutes of the 1.50: 1.17 (1.00 to 2.27) and 2.44 (0.79 to 3.57)
set -eu
here=$(cd "$(dirname "$0")" && pwd)
root=$(cd "$here/.." && pwd)
gateway=${1:-$root/gateway/out/mireseason-gateway}
[ $# = 0 ] || shift
[ $# != 0 ] || set -- "$root/crates/rfq_venue/out/rfq_venue"
make=$(mktemp -d)
trap 'rm -rf "$make"' EXIT
g++ -std=c++14 -O2 -Wall -Wextra -Werror -o "$make/load" "$here/gateway_load.cpp" -lquickfix -lpthread
if [ "$1" = - ]; then
    g++ -std=c++20 -O2 -Wall -Wextra -Werror -o "$make/venue" "$here/gateway_venue.cpp"
    set -- "$make/venue"
fi
PYTHONPATH="$root" python3 -m bench.gateway "$gateway" "$make/load" -- "$@"
