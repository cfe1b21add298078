#!/bin/sh
# Plays one auction over TCP: starts the gateway on this folder's configuration, with today's date, lets two dealers and an
# investor trade by stock QuickFIX initiators, prints what each was sent and what the log has, and ends all that it started.
#
# usage: examples/gateway/run.sh [FOLDER]    keeps the day in FOLDER; without it in a new folder, which is removed afterwards
#
# VENUE is the command line of the venue's program (crates/rfq_venue/out/rfq_venue), GATEWAY the gateway
# (gateway/out/mireseason-gateway).
set -eu
here=$(cd "$(dirname "$0")" && pwd)
root=$(cd "$here/../.." && pwd)
venue=${VENUE:-$root/crates/rfq_venue/out/rfq_venue}
gateway=${GATEWAY:-$root/gateway/out/mireseason-gateway}
if [ $# -gt 0 ]; then
    mkdir -p "$1"
    day=$(cd "$1" && pwd)
    remove=
else
    day=$(mktemp -d)
    remove=$day
fi
pids=
end() {
    # shellcheck disable=SC2086 # one word for each process
    [ -z "$pids" ] || kill $pids 2>/dev/null || true
    wait
    [ -z "$remove" ] || rm -rf "$remove"
}
trap end EXIT
trap 'exit 143' HUP INT TERM

# free USUAL: this port of the loopback, or another one where it is taken: below those that the kernel gives to each
# connection, of which one may be somebody else's again when the gateway begins.
free() {
    python3 -c 'import random, socket, sys
port = int(sys.argv[1])
while True:
    with socket.socket() as probe:
        probe.setsockopt(socket.SOL_SOCKET, socket.SO_REUSEADDR, 1)
        try:
            probe.bind(("127.0.0.1", port))
            probe.listen()
            break
        except OSError:
            port = random.SystemRandom().randrange(10000, 32768)
print(port)' "$1"
}
# told COUNT EVENT PROCESS ..: waits until the gateway has told an event so often; not behind the end of a process.
told() {
    count=$1 event=$2
    shift 2
    for _ in $(seq 1800); do
        [ "$(grep -c " $event " gateway.events)" -lt "$count" ] || return 0
        kill -0 "$@" 2>/dev/null || break
        sleep 0.1
    done
    echo "the gateway did not tell \`$event\`:" >&2
    cat gateway.events >&2
    exit 1
}

cp "$here"/*.toml "$here"/*.cfg "$day"
chmod o-rwx "$day/credentials.toml"
mkdir -p "$day/store" "$day/fix"
cp "$root"/fix/*.xml "$day/fix"
sed -i "s/^date = .*/date = \"$(date -u +%Y%m%d)\"/" "$day/venue.toml"
command=$(for word in $venue; do
    [ ! -e "$word" ] || word=$(realpath "$word")
    printf '"%s", ' "$word"
done)
sed -i "s|^command = .*|command = [$command\"live\", \"--frames\", \"--marks\"]|" "$day/gateway.toml"
port=$(free 9878)
sed -i -e "s/^port = 9878/port = $port/" -e "s/^port = 9879/port = $(free 9879)/" "$day/gateway.toml"
sed -i "s/^SocketConnectPort=.*/SocketConnectPort=$port/" "$day"/*.cfg
g++ -std=c++14 -O1 -Wall -Wextra -Wno-deprecated -o "$day/firm" "$here/firm.cpp" -lquickfix -lpthread

cd "$day"
[ -d keys ] || "$gateway" --make-keys keys >keys.made
: >gateway.events # it is looked at before the gateway may have begun to write it
"$gateway" gateway.toml 2>gateway.events &
server=$!
pids=$server
told 1 ready "$server"
./firm dlr1.cfg dealer T1 99.5 >dlr1.out &
first=$!
./firm dlr2.cfg dealer T2 99.4375 >dlr2.out &
second=$!
pids="$pids $first $second"
told 2 'logged on' "$server" "$first" "$second"
./firm inv1.cfg investor T8 DLR1 DLR2 >inv1.out
wait "$first" "$second"
kill "$server"
wait "$server" || { cat gateway.events >&2; exit 1; }
pids=

for firm in dlr1 dlr2 inv1; do
    echo "-- what $firm was sent"
    cut -d ' ' -f 2- "$firm.out"
done
echo "-- what the gateway told"
cat gateway.events
