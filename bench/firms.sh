#!/bin/sh
# All that a day of a venue accepts, as fast as 64 firms in plain C++ get it answered (firms.py), beside the burst of one
# firm's echo (gateway.py) and `live --marks` by pipes with the same lines; the same with the log replicated, beside one writer
# that copies the same batches; and four venues behind one gateway, beside one. On a disk: the folder of temporary files, or
# what TMPDIR says. Needs what gateway/packages.sh names, PostgreSQL and libpq-dev.
#
#     bench/firms.sh [GATEWAY [VENUE WORDS ..]]
# @figure all that a day accepts (65,536 quotes, 4,096 requests, and a hit of each) from 64 firms, SQLite on a disk, beside one firm's burst at the echo | 4 times, the 99th percentile under 20 ms | load 7: 15,625 and 16,481 messages a second, 2.5 and 2.7 times (the echo 6,146); 24 ms both. `live --marks` by pipes 64,647 and 63,838. Of a message the firms take 15 us of a processor
# @figure the same with the log in PostgreSQL and its standby, beside one writer that copies the same batches | 20,000 a second, under 50 ms | load 6: 9,225 and 9,402; 55 and 53 ms; the writer 35,257 and 35,893
# @figure four venues behind one gateway, beside one, each with 64 firms on the same processors | 1.8 times | load 5 to 7: 1.27 and 1.78 times (19,146 and 29,789 messages a second, beside 15,081 and 16,724); on another evening 1.26, twice
set -eu
here=$(cd "$(dirname "$0")" && pwd)
root=$(cd "$here/.." && pwd)
gateway=${1:-$root/gateway/out/mireseason-gateway}
[ $# = 0 ] || shift
[ $# != 0 ] || set -- "$root/crates/rfq_venue/out/rfq_venue"
make=$(mktemp -d)
trap 'rm -rf "$make"' EXIT
g++ -std=c++14 -O2 -Wall -Wextra -Werror -o "$make/load" "$here/gateway_load.cpp" -lquickfix -lpthread
g++ -std=c++20 -O2 -Wall -Wextra -Werror -o "$make/firms" "$here/firms.cpp"
g++ -std=c++20 -O2 -Wall -Wextra -Werror -I"$(pg_config --includedir)" -o "$make/bare" "$here/bare.cpp" -lpq
export PYTHONPATH="$root"
python3 -m bench.gateway "$gateway" "$make/load" --rounds 3 -- "$@"
python3 -m bench.firms "$gateway" "$make" -- "$@"
python3 -m bench.firms "$gateway" "$make" --log replicated -- "$@"
for venues in 1 4; do
    python3 -m bench.firms "$gateway" "$make" --venues "$venues" --part 4 -- "$@"
done
