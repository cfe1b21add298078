#!/bin/sh
# Runs the parts of tests/run.sh, which reads this file: how a part is run, counted and told, what it takes, and when it is
# not run. $work is a folder of this run alone. shellcheck disable=SC2034,SC2154 # names that tests/run.sh gives and takes

# count GOOD BAD
count() {
    echo "$1 $2" >>"$work/counts"
}

# total: the last line, of all that was counted.
total() {
    awk -v more="${1:-}" '{ passed += $1; failed += $2 }
        END { print passed + 0 " passed, " failed + 0 " failed" more; exit failed > 0 }' "$work/counts"
}

# table: what each part took, the most expensive first, and what was not run, and why.
table() {
    echo "part                 wall-clock    processor"
    sort -k 3,3nr "$work/parts" | awk '{ printf "%-18s %10d s %10d s\n", $1, $2, $3 }'
    cat "$work/not_run"
}

# debians_python: the one Python for all, since it alone has Debian's modules.
debians_python() {
    first=$(command -v python3)
    [ -n "$first" ] && [ "$(readlink -f "$first")" != "$(readlink -f /usr/bin/python3)" ] || return 0
    echo "python3: $first is first on the PATH; the tests take /usr/bin/python3, which has Debian's modules" >&2
    mkdir "$work/bin" && ln -s /usr/bin/python3 "$work/bin/python3" && export PATH="$work/bin:$PATH"
}

# aside COMMAND ..: beside the others.
aside() {
    (
        child=
        trap '[ -z "$child" ] || kill "$child" 2>/dev/null' EXIT
        trap 'exit 143' HUP INT TERM
        "$@"
    ) &
    asides="$asides $!"
}

# in_time SECONDS COMMAND ..: so that a signal to this script ends the command too. cut says whether its time is over,
# and the file $told has what the command said.
in_time() {
    seconds=$1 status=0 cut=
    shift
    since=$(date +%s)
    timeout -k 60 "$seconds" "$@" >"$told" 2>&1 &
    child=$!
    wait "$child" || status=$?
    # By SIGTERM, or by SIGKILL where that did not end it.
    if [ "$status" = 124 ] || [ "$status" = 137 ] && [ $(($(date +%s) - since)) -ge "$seconds" ]; then
        cut=yes
        kill -KILL "-$child" 2>/dev/null # who is left of its processes
        echo "not done in $seconds s" >>"$told"
    elif [ "$status" != 0 ]; then
        echo "ended with status $status" >>"$told" # over 128: by a signal
    fi
    child=
    return "$status"
}

# what_is_left: the seconds of MINUTES that are left.
what_is_left() {
    echo $((most - ($(date +%s) - start)))
}

# can_have SECONDS PACKAGE ..: installs what is missing. What could not be had once is not tried again: without a
# network that takes minutes each time.
can_have() {
    seconds=$1
    shift
    ! printf '%s\n' "$@" | grep -xF -f "$work/absent" >"$told.lacking" || return 1
    ! timeout "$seconds" tests/packages.sh "$@" 2>"$told.packages" || return 0
    sed -n 's/ is not installed.*//p' "$told.packages" | tee "$told.lacking" >>"$work/absent"
    return 1
}

# tell NAME REPORT STATUS TOOK: counts a report, and tells of it. A part without a report, or with one that does not
# say why its command failed, has failed.
tell() {
    name=$1 report=$2 status=$3 took=$4
    counted=$work/$name.counted
    if ! [ -s "$report" ] || ! python3 -m tests.harness.reports "$report" >"$counted" 2>>"$told"; then
        echo "0 0" >"$counted"
    fi
    read -r good bad <"$counted"
    [ "$status" = 0 ] && [ "$good" != 0 ] || [ "$bad" != 0 ] || ! is_fault "$status" "$report" || bad=1
    [ "$bad" = 0 ] || tail -n 60 "$told"
    echo "$name: $good passed, $bad failed, seed $seed, $took s"
    sed -n "s/^skipped /$name: skipped /p; s/^failed /$name: failed /p; s/^unsteady /$name: unsteady /p" "$counted"
    ! grep -q '^unsteady ' "$counted" || tail -n 60 "$told"
    count "$good" "$bad"
}

# is_fault STATUS REPORT: whether a command that reported nothing failed is at fault all the same.
is_fault() {
    [ "$1" != 0 ] || ! [ -s "$2" ]
}

# form NAME SECONDS PACKAGES COMMAND ..: the command writes its report to $work/NAME.xml.
form() {
    name=$1 limit=$2 packages=$3 told=$work/$1
    shift 3
    left=$(what_is_left)
    # shellcheck disable=SC2086 # a word for each package
    if [ "$left" -ge "$least" ] && ! can_have "$left" $packages; then
        not_run "$name: not run: can't be installed: $(paste -sd ' ' "$told.lacking")"
        return
    fi
    began=$(date +%s)
    left=$(what_is_left)
    if [ "$left" -lt "$least" ]; then
        not_run "$name: not run: $left s are left"
        return
    fi
    [ "$limit" -lt "$left" ] || limit=$left
    echo "$name: begins, $limit s at most" >&2
    status=0
    clocked "$name" in_time "$limit" "$@" || status=$?
    took=$(($(date +%s) - began))
    if [ -n "$cut" ] && [ "$limit" = "$left" ]; then
        not_run "$name: not run to its end: $left s were left"
        return
    fi
    # At once, since other parts tell too.
    tell "$name" "$work/$name.xml" "$status" "$took" >"$told.said"
    cat "$told.said"
}

# clocked NAME COMMAND ..: a line of $work/parts has the command's seconds, by the clock and of processors. Its status is the
# command's.
clocked() {
    { date +%s && times; } >"$work/$1.before"
    without_name "$@"
    set -- "$1" "$?"
    { date +%s && times; } >"$work/$1.after"
    awk -v name="$1" 'FNR == 1 { clock[FILENAME] = $1 }
        FNR == 3 { for (at = 1; at <= 2; ++at) { split($at, part, "m"); spent[FILENAME] += 60 * part[1] + part[2] } }
        END { print name, clock[ARGV[2]] - clock[ARGV[1]], int(spent[ARGV[2]] - spent[ARGV[1]] + 0.5) }' \
        "$work/$1.before" "$work/$1.after" >>"$work/parts"
    return "$2"
}

# without_name NAME COMMAND ..: runs the command.
without_name() {
    shift
    "$@"
}

# not_run LINE: says why a part was not run, and keeps it.
not_run() {
    echo "$1" | tee -a "$work/not_run"
}

# in_one_day NAME: whether a part may begin, whose tests play days, each within one of UTC. What they wait for the next one
# is not of its time.
in_one_day() {
    left=$(what_is_left)
    midnight=$((86400 - $(date +%s) % 86400))
    [ "$midnight" -lt "$in_day" ] || return 0
    if [ $((left - midnight)) -lt "$least" ]; then
        not_run "$1: not run: $left s are left, and it might wait $midnight s for midnight in UTC"
        return 1
    fi
    echo "$1: may wait $midnight s for midnight in UTC" >&2
}
