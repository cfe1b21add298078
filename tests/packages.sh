#!/bin/sh
# Installs the named Debian packages that are missing, and says so first. If another has apt's locks it
# waits, within limits. Status 1, with a line for each, if one is still missing.
# usage: tests/packages.sh PACKAGE ..
set -eu
locked=300   # seconds that a lock is waited for
longest=1800 # seconds of one call of apt-get

missing() {
    for package in "$@"; do
        dpkg-query -W -f='${Status}' "$package" 2>/dev/null | grep -q '^install ok installed' ||
            echo "$package"
    done
}
# shellcheck disable=SC2046 # a word for each package
set -- $(missing "$@")
[ $# -gt 0 ] || exit 0
as_root=
[ "$(id -u)" = 0 ] || as_root="sudo -n"
echo "installing $*"
export DEBIAN_FRONTEND=noninteractive
told=$(mktemp)
trap 'rm -f "$told"' EXIT

# apt WORDS ..: in $told what it says.
apt() {
    $as_root timeout "$longest" apt-get -qq -o "DPkg::Lock::Timeout=$locked" "$@" </dev/null >"$told" 2>&1
}
install() {
    apt install -y --no-install-recommends "$@"
}
# The lock of the lists is none of those that apt-get waits for.
update() {
    end=$(($(date +%s) + locked))
    until apt update; do
        grep -q 'get lock' "$told" && [ "$(date +%s)" -lt "$end" ] || return 0
        sleep 5
    done
}
install "$@" || {
    update
    # One by one where they can't be had together.
    install "$@" || for package in "$@"; do install "$package" || tail -n 3 "$told" >&2; done
}
# shellcheck disable=SC2046 # a word for each package
set -- $(missing "$@")
[ $# -gt 0 ] || exit 0
for package in "$@"; do
    echo "$package is not installed, and can't be" >&2
done
exit 1
