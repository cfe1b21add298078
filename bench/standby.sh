#!/bin/sh
# A quote from a stock initiator to its 297=0 with the log in PostgreSQL, whose commits wait for a synchronous standby on this
# machine, beside a bare INSERT with its commit there (gateway.py). Needs what gateway/packages.sh names, PostgreSQL and
# libpq-dev.
#
#     bench/standby.sh [GATEWAY [VENUE WORDS ..]]
# @figure the same with the log in PostgreSQL and one synchronous standby on this machine, beside a bare INSERT with its commit there: the median | 1.3 times | load 10 falling to 7: 2.62 times (2.57 to 2.90; 1.19 ms and 0.45)
set -eu
here=$(cd "$(dirname "$0")" && pwd)
root=$(cd "$here/.." && pwd)
gateway=${1:-$root/gateway/out/mireseason-gateway}
[ $# = 0 ] || shift
[ $# != 0 ] || set -- "$root/crates/rfq_venue/out/rfq_venue"
make=$(mktemp -d)
trap 'rm -rf "$make"' EXIT
g++ -std=c++14 -O2 -Wall -Wextra -Werror -o "$make/load" "$here/gateway_load.cpp" -lquickfix -lpthread
g++ -std=c++20 -O2 -Wall -Wextra -Werror -I"$(pg_config --includedir)" -o "$make/bare" "$here/bare.cpp" -lpq
PYTHONPATH="$root" python3 -m bench.gateway "$gateway" "$make/load" --bare "$make/bare" -- "$@"
