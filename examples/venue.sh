#!/bin/sh
# A venue to try: the gateway, the venue's program, two dealers that quote by themselves, an investor that
# asks now and then, and a desk in the browser for INV1 and for DLR3; an operator's command and page, and a
# supervisor's view of the day as it goes on. It runs until Ctrl-C, and prints the addresses and the logins,
# what an operator can try, and how each auction ends.
#
#     examples/venue.sh           two minutes from a fresh clone on four quiet processors, then seconds
#     examples/venue.sh down      ends it, if it still runs, and has the audit check the day
#
# It runs the proved program, crates/rfq_venue/out/rfq_venue, and the proved sessions,
# crates/fix_sessions_c/out, if they are there (examples/prove_venue.py makes both). Otherwise it runs second
# implementations, and the pages say so. It writes everything into FOLDER (examples/venue/out). GATEWAY and
# DESK name folders of programs that are built already (gateway/out and desk/out). If one is missing, it
# builds all in examples/venue/out/built: to have them soon, not to have them fast. PORTS names four ports:
# of the gateway, and of the pages of INV1, of DLR3 and of the operator (8101 to 8103, or others if these
# are taken).
set -eu
root=$(cd "$(dirname "$0")/.." && pwd)
here=$root/examples/venue
# absolute PATH: from wherever this script goes.
absolute() {
    case $1 in
    /*) echo "$1" ;;
    *) echo "$PWD/$1" ;;
    esac
}
# quoted PATH: as one word of a command line, whatever is in it.
quoted() { printf "'%s'" "$(printf '%s' "$1" | sed "s/'/'\\\\''/g")"; }

day=$(absolute "${FOLDER:-$here/out}")
gateway=$(absolute "${GATEWAY:-$root/gateway/out}")/mireseason-gateway
desks=$(absolute "${DESK:-$root/desk/out}")
built=$here/out/built
audit_packages="python3-jinja2 python3-psycopg2 python3-cryptography openssl"
proved=$root/crates/rfq_venue/out/rfq_venue
program=$(quoted "$proved") # its command line
[ -x "$proved" ] || program="python3 $(quoted "$root/tests/model/program.py")"
start=$(date +%s)
pids=
building=

say() { printf '== %s (%d s from the start)\n' "$*" "$(($(date +%s) - start))"; }
fail() {
    echo "examples/venue.sh: $*" >&2
    exit 1
}

# stop: ends what this script has started; the gateway last, so that the desks log out.
stop() {
    trap - EXIT HUP INT TERM
    for pid in $building $pids; do
        kill -- "$pid" 2>/dev/null || true
    done
    wait
    rm -f "$day/pid" "$day/pids"
}

# started PID: a process of the venue. Its number is added, so that none is lost where this is killed.
started() {
    pids="$1 $pids"
    echo "$1" >>"$day/pids"
}

# left: those that a script which was killed has left behind; they work in the day's folder.
left() {
    [ ! -e "$day/pids" ] || while read -r pid; do
        [ "$(readlink "/proc/$pid/cwd")" != "$(cd "$day" && pwd -P)" ] || echo "$pid"
    done <"$day/pids"
}

# sweep: ends them.
sweep() {
    [ -n "$(left)" ] || return 0
    echo "The programs of a venue whose script was killed are ended."
    for pid in $(left); do
        kill "$pid" 2>/dev/null || true
    done
    while [ -n "$(left)" ]; do sleep 0.1; done
    rm -f "$day/pids"
}

# log: the log of the last day in the folder.
log() { find "$day" -maxdepth 1 -name 'day-*.db' 2>/dev/null | sort | tail -n 1; }

# runs: whether the venue of this folder runs.
runs() { [ -e "$day/pid" ] && grep -qa venue.sh "/proc/$(cat "$day/pid")/cmdline" 2>/dev/null; }

down() {
    if runs; then
        kill "$(cat "$day/pid")"
        while runs; do sleep 0.1; done
        echo "The venue has ended."
    fi
    sweep
    log=$(log)
    [ -n "$log" ] || fail "there is no day in $day"
    echo "The audit of $log:"
    exec "$root/audit/mireseason-audit" check --venue "$program" --gateway-key "$day/keys/gateway.pub" "$log"
}

# build: all four programs, in a session of its own, so that its compilers end with it. It says every ten
# seconds how far it is.
build() {
    # Which sessions the gateway is linked with is chosen anew: the proved ones, where their library stands.
    # shellcheck disable=SC2016 # of the inner shell
    setsid nice sh -c 'cmake -U "SESSION*" -S "$0" -B "$1" &&
        exec cmake --build "$1" -j "$(nproc)" --target venue-to-try' "$here" "$built" >"$day/build" 2>&1 &
    building=-$!
    while kill -0 "${building#-}" 2>/dev/null; do
        sleep 1
        [ $((($(date +%s) - start) % 10)) != 0 ] || say "$(grep -o '^\[ *[0-9]*%\]' "$day/build" | tail -n 1)"
    done
    wait "${building#-}" || {
        tail -n 30 "$day/build" >&2
        fail "the programs can't be built: see above"
    }
    building=
}

# ready: waits until the gateway takes connections.
ready() {
    for _ in $(seq 600); do
        ! grep -q ' ready ' "$day/gateway.events" || return 0
        kill -0 "$1" 2>/dev/null || break
        sleep 0.1
    done
    tail -n 5 "$day/gateway.events" >&2
    fail "the gateway does not start: see above, and $day/gateway.events"
}

# run NAME PROGRAM CONFIG: in the background.
run() {
    "$2" "$3" >"$day/$1.out" 2>>"$day/$1.events" &
    started $!
}

# view: the supervisor's pages of the day, made anew as it goes on, where the audit's packages are there.
view() {
    /usr/bin/python3 -c 'import jinja2, psycopg2, cryptography' 2>/dev/null || return 0
    rm -rf "$day/pages"
    nice "$root/audit/mireseason-audit" page "$(log)" "$day/pages" --follow --every 20 --venue "$program" \
        >"$day/view.events" 2>&1 &
    started $!
    echo "  supervisor  file://$day/pages/index.html: who asked, who quoted, what each firm was told; made anew as the day goes on"
}

# operator: what whoever tries the venue can do as its operator.
operator() {
    echo "  operator    $(cat page): who is logged on, what is open, the last events; and metrics"
    [ -S admin.sock ] || {
        echo "              (no command: the name of $day is too long for a socket)"
        return 0
    }
    cat <<EOF
  Say $day/admin and one of these. What changes something stands in the log, with who and why:
    halt --because "prices are in doubt"              nothing is asked, quoted or hit any more; resume
    suspend DLR1 --because "their desk called"        DLR1 is logged out, and its quotes are gone; resume DLR1
    cancel DLR2 --because "they asked"                the quotes of DLR2 are gone, and it goes on
    release DLR1                                      lets DLR1 try again, were its store lost
    next-day                                          which day opens next, and with which firms
    status                                            the day, the disk, the clock, and what a restart would do
EOF
}

[ "${1:-}" != down ] || down
[ $# = 0 ] || {
    sed -n '/^#     ex/,/^#$/s/^# \{0,1\}//p' "$0" >&2
    exit 2
}
umask 077 # the folder has passwords
mkdir -p "$day"
# Whoever else writes there puts a command of his own in the place of the operator's.
if [ ! -O "$day" ] || [ -n "$(find "$day" -maxdepth 0 -perm /022)" ]; then
    fail "$day is somebody else's, or others may write there: passwords and commands go there"
fi
! runs ||
    fail "a venue runs in $day already: examples/venue.sh down ends it"
sweep
trap stop EXIT
trap 'exit 0' HUP INT TERM

are_built=yes
for each in "$gateway" "$(dirname "$gateway")/mireseason-admin" "$desks/mireseason-desk" "$desks/sample-firm"; do
    [ -x "$each" ] || are_built=
done
if [ -z "$are_built" ]; then
    gateway=$built/gateway/mireseason-gateway
    desks=$built/desk
    say "Packages of Debian: minutes, if many are missing"
    # shellcheck disable=SC2046,SC2086 # a word for each package
    "$root/tests/packages.sh" $("$root/gateway/packages.sh") $("$root/desk/packages.sh") $audit_packages
    say "The programs are built: two minutes on four quiet processors, if nothing is built yet"
    build
fi

python3 "$here/prepare.py" "$day" "$gateway" "$program"
echo $$ >"$day/pid"
cd "$day"
: >gateway.events
"$gateway" gateway.toml 2>gateway.events &
server=$!
started "$server"
ready "$server"
before=$(python3 "$here/tell.py" "$(log)") # what an earlier start has told
for firm in DLR1 DLR2 INV2; do
    run "$firm" "$desks/sample-firm" "$firm.toml"
done
for firm in INV1 DLR3; do
    run "$firm" "$desks/mireseason-desk" "$firm.toml"
done
for firm in INV1 DLR3; do
    for _ in $(seq 100); do
        [ ! -s "$firm.out" ] || break
        sleep 0.1
    done
    [ -s "$firm.out" ] || fail "the desk of $firm does not start: $(tail -n 1 "$firm.events")"
done

say "The venue runs until Ctrl-C: $program"
cat addresses
view
operator
echo "Ask two or three dealers on INV1's page, and quote on DLR3's. How each auction ends:"
python3 "$here/tell.py" "$(log)" "$before" &
started $!
status=0
wait "$server" || status=$?
[ "$status" = 0 ] || { tail -n 3 gateway.events >&2; fail "the gateway ended with status $status"; }
say "The gateway has ended"
