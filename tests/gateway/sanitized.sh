#!/bin/sh
# Builds the gateway with the sanitizers, of addresses and undefined behaviour and then of threads, and tries each build:
# with its own tests (ctest), and with those of this folder (pytest), whose days end programs at random places. A
# sanitizer's report ends the gateway, and with it the test. The last line is `N passed, M failed`.
#
#     tests/packages.sh $(gateway/packages.sh) openssl python3-pytest python3-pytest-xdist python3-hypothesis
#     tests/gateway/sanitized.sh [address|thread]
#
# VENUE has the words of the venue's program (the second implementation). SEED is that of what is drawn (1), JOBS is how
# many compilers run at a time (2). KEEP names a folder for the files of what fails.
set -eu
root=$(cd "$(dirname "$0")/../.." && pwd)
cd "$root"
case "${1:-}" in
'') builds="address thread" ;;
address | thread) builds=$1 ;;
*)
    sed -n '/^#     tests\/g/s/^# *//p' "$0" >&2
    exit 2
    ;;
esac
work=$(mktemp -d)
trap 'rm -rf "$work"' EXIT
trap 'exit 143' HUP INT TERM

# The shim of the disk is loaded in front of the sanitizer's library.
export ASAN_OPTIONS=verify_asan_link_order=0
export TSAN_OPTIONS="halt_on_error=1 suppressions=$root/gateway/unit/tsan.suppressions"

built() {
    (cd gateway && cmake --preset "$1" && cmake --build --preset "$1" -j "${JOBS:-2}") >"$work/built" 2>&1 ||
        { tail -n 50 "$work/built"; return 1; }
}
reports=
status=0
for build in $builds; do
    echo "== $build"
    built "$build" || { status=1; continue; }
    /usr/bin/python3 -m tests.gateway.midnight
    (cd gateway && ctest --preset "$build" --output-junit "$work/$build-ctest.xml") || status=1
    /usr/bin/python3 -m pytest tests/gateway -n 3 --venue "${VENUE:-second}" --sanitized -k 'not fuzzer and not proved' \
        --gateway "gateway/out/$build/mireseason-gateway" --junitxml "$work/$build-pytest.xml" || status=1
    reports="$reports $work/$build-ctest.xml $work/$build-pytest.xml"
done
# shellcheck disable=SC2086 # a word for each report
/usr/bin/python3 -m tests.harness.reports $reports | awk 'NR == 1 { print $1 " passed, " $2 " failed" } NR > 1'
exit "$status"
