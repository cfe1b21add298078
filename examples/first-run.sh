#!/bin/sh
# The first run: one auction over TCP. On a machine that has `rt` this
# - installs what is missing from Debian;
# - proves and builds the venue and the library of its sessions, and tells how far it is (it takes what is built already);
# - builds the gateway, and starts it with a log in SQLite;
# - lets two dealers and an investor trade by stock QuickFIX initiators, and prints what each was sent;
# - ends all that it started.
#
#     examples/first-run.sh               some 45 minutes on four processors the first time, then
#                                         seconds; more than an hour on two
#     examples/first-run.sh --unproved    in minutes, what can be seen without a proof: the same program
#                                         by `rt try`, on an auction as a text; then the auction over TCP
#                                         with second implementations in its place: of the venue, in
#                                         Python, and of its sessions, in C++
set -eu
root=$(cd "$(dirname "$0")/.." && pwd)
case "${1:-}" in
'') unproved= ;;
--unproved) unproved=yes ;;
*)
    sed -n '/^#     ex/,/^set/s/^# \{0,1\}//p' "$0" >&2
    exit 2
    ;;
esac
command -v rt >/dev/null || { echo "the command rt is not on the PATH" >&2; exit 2; }
work=$(mktemp -d)
building=
proving=
end() {
    status=$?
    [ -z "$proving" ] || { kill "$proving" && wait "$proving"; } 2>/dev/null || true
    [ -z "$building" ] || kill -- "-$building" 2>/dev/null || true
    rm -rf "$work"
    [ "$status" = 0 ] || echo "first-run.sh: not done, status $status: see above" >&2
}
trap end EXIT
trap 'exit 143' HUP INT TERM

start=$(date +%s)
say() { printf '\n== %s (%d s from the start)\n' "$*" "$(($(date +%s) - start))"; }

say "Packages of Debian: minutes, if many are missing"
# shellcheck disable=SC2046 # a word for each package
"$root/tests/packages.sh" $("$root/gateway/packages.sh")

# build NICENESS: the gateway, in a session of its own, so that its compilers end with it; where Linux
# shares processors out by session, it is the session that has to be nice. Which sessions it is linked
# with is chosen anew: the proved ones, where their library stands.
build() {
    # shellcheck disable=SC2016 # of the inner shell
    setsid nice -n "$1" sh -c '{ echo "$2" >/proc/self/autogroup; } 2>/dev/null
        cmake -U "SESSION*" -S "$1" -B "$1/out" && exec cmake --build "$1/out" -j "$(nproc)" --target mireseason-gateway' \
        build "$root/gateway" "$1" >"$work/built" 2>&1 &
    building=$!
}
# built: waits for it.
built() {
    status=0
    wait "$building" || status=$?
    building=
    [ "$status" = 0 ] || { tail -n 40 "$work/built" >&2; exit "$status"; }
}

say "The gateway is built meanwhile"
build 19

if [ -n "$unproved" ]; then
    say "The venue, unproved: what each firm is sent in examples/auction.venue"
    (cd "$root/crates/rfq_venue" && rt try -- replay <"$root/examples/auction.venue")
    venue="python3 $root/tests/model/program.py"
else
    say "The venue, proved"
    # A shell looks at no signal while it waits for what is not in the background.
    python3 "$root/examples/prove_venue.py" &
    proving=$!
    wait "$proving"
    proving=
    venue=$root/crates/rfq_venue/out/rfq_venue
fi

say "The gateway: some minutes, if it is not built yet"
built
if [ -z "$unproved" ]; then # its sessions were not proved yet when it was begun
    build 0
    built
fi
"$root/gateway/out/mireseason-gateway" --version

say "An auction over TCP: a minute, since its initiators are compiled"
VENUE=$venue "$root/examples/gateway/run.sh"
say "Done"
