#!/bin/sh
# Builds the Debian packages of a tree whose gate has passed: by dpkg-buildpackage on a copy of it, so that nothing is left here.
#
#     install/packages/build.sh [--source] [FOLDER]     puts the packages into FOLDER (install/packages/out)
#
# --source adds the source package. It has the proved program and the proved sessions, which only Rattle's kit makes.
# It first proves what is not proved yet, by examples/prove_venue.py, unless VENUE and GATEWAY name programs that are built already,
# as debian/rules has it. DESK names a folder with a built desk, or `none`, without which there is no package of it. All packages have
# the version of the file VERSION, whose changes CHANGELOG.md lists, and the commit of the tree; a tree with changes that are not
# committed gets a `+` after its commit. UNPROVED=1 takes what is not proved, for trials alone.
#
# Needs debhelper and dpkg-dev, and what debian/control names.
set -eu
export LC_ALL=C.UTF-8
root=$(cd "$(dirname "$0")/../.." && pwd)
kinds=binary
if [ "${1:-}" = --source ]; then
    kinds=full
    shift
fi
[ $# -le 1 ] || {
    sed -n '/^#     inst/,/^#$/s/^# \{0,1\}//p' "$0" >&2
    exit 2
}
out=${1:-$root/install/packages/out}
mkdir -p "$out"
out=$(cd "$out" && pwd)
work=$(mktemp -d)
trap 'rm -rf "$work"' EXIT
trap 'exit 143' HUP INT TERM
tree=$work/mireseason-$(head -n 1 "$root/VERSION")

# copy: the tree's sources, and what the gate made of the proved crates.
copy() {
    mkdir -p "$tree/debian/proved"
    if [ -e "$root/.git" ]; then
        (cd "$root" && git ls-files -z | tar --null --ignore-failed-read --files-from - -cf -) | tar -C "$tree" -xf -
        git -C "$root" describe --always --abbrev=12 --match=no-tag --dirty=+ >"$tree/COMMIT"
    else
        tar -C "$root" --exclude=out --exclude=__pycache__ --exclude=unlanded -cf - . | tar -C "$tree" -xf -
    fi
    for file in rfq_venue/out/rfq_venue fix_sessions_c/out/libfix_sessions_c.a session_recovery_c/out/libsession_recovery_c.a; do
        [ ! -e "$root/crates/$file" ] || cp -p "$root/crates/$file" "$tree/debian/proved"
    done
    "$root/install/packages/changelog.sh" >"$tree/debian/changelog"
    find "$tree" -type d -exec chmod 0755 {} + -o -type f -perm /0100 -exec chmod 0755 {} + -o -type f -exec chmod 0644 {} +
}

if [ -z "${VENUE:-}" ] || [ -z "${GATEWAY:-}" ]; then
    python3 "$root/examples/prove_venue.py" >&2
fi
copy
profiles=
if [ "${DESK:-}" = none ]; then
    profiles=pkg.mireseason.nodesk
    unset DESK
fi
(cd "$tree" && dpkg-buildpackage --build="$kinds" --build-profiles="$profiles" --no-sign --no-check-builddeps >"$work/told" 2>&1) || {
    tail -n 40 "$work/told" >&2
    echo "install/packages/build.sh: dpkg-buildpackage failed: see above" >&2
    exit 1
}
for file in "$work"/*.deb "$work"/*.dsc "$work"/*.tar.xz; do
    [ -e "$file" ] || continue
    mv "$file" "$out"
    echo "$out/$(basename "$file")"
done
