#!/bin/sh
# Runs all tests: the gate (rt ci, and the wrong bodies that each landing tries), ctest (the gateway's own tests in C++)
# and pytest (the folders below tests/). It counts what these report, and nothing else. The last line is
# `N passed, M failed`.
#
#     tests/run.sh                 the gate first, and then the short forms of the others, in the time that is left
#     tests/run.sh --beside        only the others, with the program that is built
#     tests/run.sh --quick         ten to twenty minutes from a fresh clone, with `rt` or without: the second
#                                  implementation of the venue takes the program's place, and
#                                  nothing is proved
#
# Each folder is a part. A part
# - says that it begins, and what it installs from Debian;
# - prints a line with its seed and its time, and one for each reason for which it skipped a test;
# - prints its last lines if it fails, and the others go on;
# - has a limit of time, many times what it takes, also on two processors that have other work. A part that is not done
#   by then hangs: it has failed, and ends with all that it started.
#
# A skipped test is neither passed nor failed, and neither is an unsteady one, which failed and then passed alone: it is
# named, and somebody has to mend it. What a machine can't do (a package that can't be had) is told as not run. Before the
# last line each part has one with its wall-clock and its processor time, the most expensive first; after them comes again
# what was not run, and why. The day of a gateway ends at midnight in UTC: what would come too near to it waits for the
# next day, on top of its limit.
#
# SEED is the seed of all (1), JOBS how many processors they take (all). GATEWAY names a gateway that is
# built already. MINUTES is the time for everything (no limit): a part that can't be done in what is left
# of it is told as not run.
set -u
root=$(cd "$(dirname "$0")/.." && pwd)
cd "$root" || exit 2
seed=${SEED:-1}
jobs=${JOBS:-$(nproc)}
several=$((jobs / 2 + 1)) # tests of one folder at a time, where two folders are tried beside each other
start=$(date +%s)
most=$((${MINUTES:-1440} * 60))
least=300 # seconds: no form is begun with less
in_day=1500 # seconds: so near to midnight in UTC a test waits for it at most, by gateway/midnight.py
program=$root/crates/rfq_venue/out/rfq_venue
gateway=${GATEWAY:-$root/gateway/out/mireseason-gateway}
# What most parts need; a folder tests/NAME names more of its own in a file `packages`.
usual="$(gateway/packages.sh) openssl postgresql sqlite3 python3-jinja2 python3-psycopg2 python3-cryptography"
second="python3 tests/model/program.py"
testers="python3-pytest python3-pytest-xdist python3-hypothesis" # Debian's packages of pytest
work=$(mktemp -d) || exit 2
child=
asides=
library=
end() {
    # shellcheck disable=SC2086 # a word for each process
    kill $child $asides 2>/dev/null
    rm -rf "$work"
}
trap end EXIT
trap 'exit 143' HUP INT TERM
exec </dev/null
: >"$work/absent"
: >"$work/counts"
: >"$work/parts"
: >"$work/not_run"
export LC_ALL=C.UTF-8
# Compilers, databases and browsers want a place of their own.
[ -n "${HOME:-}" ] && [ -w "$HOME" ] || export HOME="$work"

# shellcheck source=tests/parts.sh
. tests/parts.sh

gate() {
    : >"$work/gate.begins"
    rt ci | tee "$work/gate"
    verdict=$(sed -n 's/^\([0-9]*\) passed, \([0-9]*\) failed$/\1 \2/p' "$work/gate" | tail -n 1)
    verdict=${verdict:-0 1}
    echo "gate: ${verdict% *} passed, ${verdict#* } failed"
    count "${verdict% *}" "${verdict#* }"
    [ "${verdict#* }" != 0 ] || : >"$work/is_proved"
}

# compile_ahead: the gate leaves processors idle, since each crate waits for those below it. They compile the gateway and the
# desk, so that what is built later comes from ccache. Nothing counts what becomes of it.
compile_ahead() {
    told=$work/ahead
    # shellcheck disable=SC2046 # a word for each package
    can_have "$(what_is_left)" ccache $(gateway/packages.sh) $(cat tests/desk/packages) || return 0
    # rt looks at every file of the tree before it says anything.
    waited=0
    until [ -s "$work/gate" ] || [ "$waited" -ge 300 ]; do sleep 1 && waited=$((waited + 1)); done
    # Two files at a time: the proofs beside it count on the memory that is free when they begin.
    in_time 7200 nice -n 19 tests/build.sh 2 gateway gateway/out &&
        in_time 7200 nice -n 19 tests/build.sh 2 desk desk/out
}

# wrong_bodies: those of the gate, over what it proved.
wrong_bodies() {
    told=$work/edits
    in_time 7200 tests/edits/run.sh --gate --since "$work/gate.begins" || :
    verdict=$(sed -n 's/^\([0-9]*\) passed, \([0-9]*\) failed$/\1 \2/p' "$told" | tail -n 1)
    verdict=${verdict:-0 1}
    [ "${verdict#* }" = 0 ] || cat "$told"
    echo "wrong bodies: ${verdict% *} refused, ${verdict#* } not"
    count "${verdict% *}" "${verdict#* }"
}

# proved_sums: whether what is built is what crates/proved.sha256 has for these sources.
proved_sums() {
    if tools/proved.py; then count 1 0; else count 0 1; fi
}

# The proved sessions and their recovery, with which the gateway is linked, over what the gate has built. Without them it would be
# built over the second implementation.
session_libraries() {
    for name in fix_sessions_c session_recovery_c; do
        told=$work/$name
        in_time 7200 python3 -m tests.harness.static_library "$name" "$work/gate.begins" && continue
        tail -n 20 "$told"
        echo "gate: crates/$name gives no library"
        count 0 1
    done
}

# begin_library: beside what needs no gateway.
begin_library() {
    [ "$(what_is_left)" -ge "$least" ] || return 0
    aside clocked library session_libraries
    library=$!
}

# folder NAME SECONDS PACKAGES WORDS ..: pytest on a folder of tests, $several at a time. A few that fail are tried once more,
# alone: one that passes then is told as unsteady.
folder() {
    name=$1 limit=$2 packages=$3
    shift 3
    form "$name" "$limit" "$testers $packages" \
        python3 -m tests.harness.twice "tests/$name" --venue "$program" --seed "$seed" --junitxml "$work/$name.xml" \
        -o junit_family=xunit1 -q --durations 5 --gateway "$gateway" -n "$several" --dist loadgroup "$@"
}

# day_folder NAME SECONDS PACKAGES WORDS ..: one whose tests play days.
day_folder() {
    name=$1 limit=$2
    shift 2
    in_one_day "$name" || return 0
    folder "$name" $((limit + in_day)) "$@"
}

# The gateway, and its tests. One that fails beside other work is tried once more, as pytest's are (harness/twice.py): ctest's output has
# both.
build_gateway() {
    [ -z "$library" ] || wait "$library"
    [ -z "${GATEWAY:-}" ] || return 0
    in_one_day ctest || return 0
    told=$work/ccache
    can_have "$(what_is_left)" ccache || :
    # shellcheck disable=SC2016 # of the inner shell
    form ctest 7200 "$(gateway/packages.sh)" \
        sh -c 'tests/build.sh "$1" gateway gateway/out && python3 -m tests.gateway.midnight &&
            ctest --test-dir gateway/out -j "$1" --repeat until-pass:2 --output-on-failure --output-junit "$2"' build "$jobs" "$work/ctest.xml"
}

# part NAME: a folder of tests, with its limit of time and what it needs.
part() {
    case $1 in
    pages) folder pages 1800 "mypy black" ;;
    cases) folder cases 2400 "" ;;
    model | isolation | hostile) folder "$1" 3600 "" -n "$jobs" ;;
    refused_memory) folder "$1" 3600 "gcc libc6-dev" -n "$jobs" ;;
    engines) folder engines 1800 "g++ libquickfix-dev" ;;
    gateway) day_folder gateway 5400 "$usual clang libclang-rt-dev" ;;
    audit) day_folder audit 5400 "$usual" ;;
    replicas) day_folder replicas 3600 "$usual patroni etcd-server etcd-client iproute2" -n 0 ;;
    certify) day_folder certify 3600 "$usual $(cat tests/certify/packages)" -n $((2 * jobs)) ;; # most of it waits
    mutants) day_folder mutants 7200 "$usual $(cat tests/desk/packages tests/mutants/packages)" ;;
    *) day_folder "$1" 3600 "$usual $(cat "tests/$1/packages" 2>/dev/null)" ;;
    esac
}

# others: the folders with tests that `part` has no line for.
others() {
    for file in tests/*/test_*.py; do basename "$(dirname "$file")"; done | sort -u |
        grep -vxE 'pages|cases|model|isolation|hostile|refused_memory|engines|gateway|audit|replicas'
}

# longest_first NAME ..: folders, those first whose tests take most seconds by tests/durations.
longest_first() {
    printf '%s\n' "$@" | awk 'FILENAME == "tests/durations" { if (!/^#/) { split($2, path, "/"); seconds[path[2]] += $1 } next }
        { print seconds[$1] + 0, $1 }' tests/durations - | sort -rn | cut -d ' ' -f 2
}

# lane NAME ..: in this order each of these parts that no other lane has begun.
lane() {
    for each in "$@"; do
        ! mkdir "$work/$each.begun" 2>/dev/null || part "$each"
    done
}

# lane_before_gateway: what needs no gateway, and then, with another lane, what needs one.
lane_before_gateway() {
    # shellcheck disable=SC2086 # a word for each part
    lane $before_gateway
    until [ -e "$work/gateway.stands" ]; do sleep 1; done
    # shellcheck disable=SC2086
    lane $with_gateway
}

# browser: what a part does without where it can't be had.
browser() {
    told=$work/browser
    [ "$(what_is_left)" -lt "$least" ] || can_have "$(what_is_left)" chromium || echo "chromium can't be installed"
    can_have "$(what_is_left)" tshark || echo "tshark can't be installed"
}

# in_two_lanes BUILD: the parts of $before_gateway while BUILD makes the gateway, and then those of $with_gateway, two at a time:
# most tests wait rather than compute.
in_two_lanes() {
    aside lane_before_gateway
    other=$!
    "$1"
    : >"$work/gateway.stands"
    # shellcheck disable=SC2086 # a word for each part
    lane $with_gateway
    wait "$other"
}

# drawn_mutants: six small mistakes in files that this change has, each against the tests that the tree remembers of its function. Those
# that every test lets through are named for whoever reviews the change, and nobody counts them: now and then one changes nothing
# that anybody could see. Of C++ none is drawn here: to compile and link a gateway for each takes longer than all else.
drawn_mutants() {
    since=$(git merge-base HEAD origin/main 2>/dev/null) || since=
    [ -n "$since" ] && [ "$since" != "$(git rev-parse HEAD)" ] || since=$(git rev-parse --verify -q 'HEAD^') || return 0
    [ "$(what_is_left)" -ge "$least" ] || return 0
    told=$work/drawn
    in_time 240 python3 -m tests.mutants.drawn --since "$since" --seed "$seed" --count 6 --jobs "$jobs" --below 15 --limit 60 \
        --part audit certify install keeper scripts --venue "$program" --gateway "$gateway" || tail -n 5 "$told"
    sed -n '/^passed\|^unseen/,/^  + /s/^/drawn: /p' "$told"
    sed -n 's/^all  *\([0-9]*\) *\([0-9]*\) *\([0-9]*\) *\([0-9]*\) *\([0-9]*\)$/drawn: \1 mistakes, \2 refused, \3 hang, \5 not/p' "$told"
}

beside() {
    if ! [ -x "$program" ]; then
        echo "there is no program $program: nothing beside the gate can be tried." \
            "examples/prove_venue.py proves and builds it (37 minutes on four processors);" \
            "tests/run.sh --quick does without it"
        count 0 1
        return
    fi
    began_beside=$(date +%s)
    browser
    before_gateway=$(longest_first model refused_memory hostile isolation engines pages)
    # shellcheck disable=SC2046 # a word for each folder
    with_gateway=$(longest_first gateway audit replicas $(others))
    in_two_lanes build_gateway
    clocked drawn drawn_mutants
    echo "beside the gate: $(($(date +%s) - began_beside)) s"
}

# soon: a gateway that is to be had soon, rather than to be fast, as that of examples/venue.sh; its tests are built beside what
# tries it.
soon() {
    [ -z "${GATEWAY:-}" ] || return 0
    told=$work/ccache
    can_have "$(what_is_left)" ccache || :
    told=$work/build
    in_time 3600 tests/build.sh "$jobs" examples/venue "$built" mireseason-gateway mireseason-admin terms_test ||
        tail -n 30 "$told"
    aside ctest_soon
    ctest=$!
}

# ctest_soon: the gateway's own tests.
ctest_soon() {
    in_one_day ctest || return 0
    # shellcheck disable=SC2016 # of the inner shell
    form ctest 3600 "$(gateway/packages.sh)" \
        sh -c 'tests/build.sh "$1" examples/venue "$2" gateway-tests && python3 -m tests.gateway.midnight &&
            ctest --test-dir "$2/gateway" -j "$1" --repeat until-pass:2 --output-on-failure --output-junit "$3"' \
        build "$several" "$built" "$work/ctest.xml"
}

# The second implementation stands in the program's place, and is not held against itself. What needs no gateway is tried while it
# is built. Of the other folders those are tried that take a minute.
quick() {
    program=$second
    built=examples/venue/out/built
    # Before the lanes begin, of which one is a process of its own.
    gateway=${GATEWAY:-$root/$built/gateway/mireseason-gateway}
    ctest=
    short='examples|supervisor'
    told=$work/all
    # shellcheck disable=SC2086 # a word for each package
    can_have "$(what_is_left)" $usual $testers ||
        echo "can't be installed: $(paste -sd ' ' "$told.lacking")"
    browser
    not_run "model, isolation, hostile, refused_memory, replicas: not run: there is no proved program"
    not_run "$(others | grep -vxE "$short" | paste -sd ' ' | sed 's/ /, /g'): not run: --quick has no time for them"
    before_gateway=$(longest_first pages cases supervisor)
    with_gateway="gateway audit engines examples"
    in_two_lanes soon
    [ -z "$ctest" ] || wait "$ctest"
    echo "quick: $(($(date +%s) - start)) s"
}

debians_python
case "${1:-}" in
'')
    aside clocked ahead compile_ahead
    ahead=$!
    aside clocked gate gate # aside, so that its processor time is its own
    wait "$!"
    wait "$ahead"
    begin_library
    refused=
    if [ -e "$work/is_proved" ]; then
        aside clocked wrong_bodies wrong_bodies
        refused=$!
    else
        not_run "wrong_bodies: not run: the gate failed"
    fi
    beside
    [ -z "$refused" ] || wait "$refused"
    proved_sums
    ;;
--beside) beside ;;
--quick)
    quick
    table
    total " (nothing was proved)"
    exit
    ;;
*)
    sed -n '/^#     tests/,/^set/s/^# \{0,1\}//p' "$0" | sed '$d' >&2
    exit 2
    ;;
esac
table
total
