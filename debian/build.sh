#!/bin/sh
# Puts into debian/built what the packages install that is no file of the tree. debian/rules calls it.
set -eu
cd "$(dirname "$0")/.."
built=debian/built
fail() {
    echo "debian/build.sh: $*" >&2
    exit 1
}

# commit: the tree's, as the gateway's build has it.
commit() {
    if [ -e COMMIT ]; then
        head -n 1 COMMIT
    else
        git describe --always --abbrev=12 --match=no-tag --dirty=+ 2>/dev/null || echo unknown
    fi
}

# proved CRATE FILE: what the gate made of a crate, here or where the source package has it. It has to be the bytes whose SHA-256
# crates/proved.sha256 has.
proved() {
    file=debian/proved/$2
    [ -e "$file" ] || file=crates/$1/out/$2
    [ -e "$file" ] || fail "there is no $file: examples/prove_venue.py makes it"
    sum=$(sed -n "s|  crates/$1/out/$2\$||p" crates/proved.sha256)
    [ "${UNPROVED:-0}" = 1 ] || echo "$sum  $file" | sha256sum --check --quiet >&2 ||
        fail "$file is not the one of crates/proved.sha256: after a release's gate, tools/proved.py --write"
    echo "$file"
}

# make_with_cmake PART TARGETS ..: a part of the tree in its own `out`, as developers and the gate build it.
make_with_cmake() {
    part=$1
    shift
    cmake -S "$part" -B "$part/out" $sessions
    cmake --build "$part/out" -j "$(nproc)" --target "$@"
}

# gateway: the folder that has it, with what it is made of.
gateway() {
    if [ -n "${GATEWAY:-}" ]; then
        echo "$GATEWAY"
        return
    fi
    sessions=
    if [ "${UNPROVED:-0}" != 1 ]; then
        library=$(proved fix_sessions_c libfix_sessions_c.a)
        recovery=$(proved session_recovery_c libsession_recovery_c.a)
        sessions="-DSESSION=proved -DSESSION_LIBRARY=$PWD/$library -DRECOVERY_LIBRARY=$PWD/$recovery"
    fi
    make_with_cmake gateway mireseason-gateway mireseason-admin spdx >&2
    echo gateway/out
}

# desk: the folder that has the desk.
desk() {
    sessions=
    [ -n "${DESK:-}" ] || make_with_cmake desk mireseason-desk >&2
    echo "${DESK:-desk/out}"
}

# take_gateway FOLDER
take_gateway() {
    [ -x "$1/mireseason-gateway" ] || fail "there is no gateway in $1"
    case ${UNPROVED:-0}$("$1/mireseason-gateway" --version) in
    0*"not proved"*) fail "the gateway in $1 was built with the sessions' second implementation" ;;
    esac
    install -m 0755 "$1/mireseason-gateway" "$1/mireseason-admin" "$built"
    if [ -e "$1/mireseason-gateway.spdx.json" ]; then
        cp "$1/mireseason-gateway.spdx.json" "$built"
    else
        /usr/bin/python3 gateway/spdx.py "$1/mireseason-gateway" crates.txt "$built/mireseason-gateway.spdx.json"
    fi
}

# take_pages: the installed pages, whose links lead to what is installed.
take_pages() {
    mkdir "$built/docs"
    for page in OPERATING FORMATS CONNECTING FAULTS MARKET SESSIONS SUPERVISING TRADING; do
        cp "docs/$page.md" "$built/docs"
    done
    cp SECURITY.md "$built/docs"
    cp gateway/README.md "$built/docs/gateway.md"
    cp desk/README.md "$built/docs/desk.md"
    cp install/hosts/README.md "$built/docs/deploy.md"
    /usr/bin/python3 install/packages/links.py "$built/docs"
}

rm -rf "$built"
mkdir "$built"
commit >"$built/COMMIT"
venue=${VENUE:-$(proved rfq_venue rfq_venue)}
install -m 0755 "$venue" "$built/rfq_venue"
# As sha256sum --check reads it: which commit a program belongs to.
{
    echo "# $("$venue" --version): the program of mireseason $(head -n 1 VERSION), proved from commit $(cat "$built/COMMIT")"
    sha256sum "$venue" | sed "s| .*|  /usr/bin/rfq_venue|"
} >"$built/programs"
folder=$(gateway)
take_gateway "$folder"
case " ${DEB_BUILD_PROFILES:-} " in
*" pkg.mireseason.nodesk "*) ;;
*)
    folder=$(desk)
    install -m 0755 "$folder/mireseason-desk" "$built"
    ;;
esac
take_pages
