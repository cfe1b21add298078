#!/bin/sh
# Makes a signed apt repository of a release, or adds a release to one.
#
#     install/repository.sh KEY DIR [PACKAGES]
#
# KEY names one secret key of gpg, best by its fingerprint. DIR is the repository's folder, which a web server may serve, and
# PACKAGES the folder that has the packages (install/packages/out). URL says where hosts find DIR (file:DIR).
#
# A host needs DIR/mireseason.sources alone: the address and the public key. What KEY signed of earlier releases stays, so that a
# host can go back, and a version never changes. It refuses trials: a tree with changes, or without the proved sessions. UNPROVED=1
# takes them.
#
# Needs apt-utils, gpg, gpgv and xz-utils.
set -eu
export LC_ALL=C.UTF-8
root=$(cd "$(dirname "$0")/.." && pwd)
[ $# -ge 2 ] && [ $# -le 3 ] || {
    sed -n '/^#     inst/,/^#$/s/^# \{0,1\}//p' "$0" >&2
    exit 2
}
fail() {
    echo "install/repository.sh: $*" >&2
    exit 1
}
packages=$(cd "${3:-$root/install/packages/out}" && pwd) || exit 1
mkdir -p "$2"
dir=$(cd "$2" && pwd)
url=${URL:-file:$dir}
case $url in
*[![:graph:]]*) fail "the address has a blank: $url" ;;
esac
dist=$dir/dists/stable
index=main/binary-amd64
work=$(mktemp -d)
trap 'rm -rf "$work"' EXIT
trap 'exit 143' HUP INT TERM
exec 9<"$dir"
flock -n 9 || fail "another call works in $dir"

# key_of NAME: the fingerprint of the one secret key of that name.
key_of() {
    gpg --batch --with-colons --list-secret-keys -- "$1" 2>/dev/null |
        awk -F : '$1 == "sec" { keys++ } $1 == "fpr" && !found { found = $10 } END { if (keys != 1) exit 1; print found }'
}

# inside FILE PATH: a file that a package installs.
inside() {
    dpkg-deb --fsys-tarfile "$1" | tar -xO "./$2"
}

# is_trial FILE: whether a package is for trials alone.
is_trial() {
    case $(basename "$1") in
    mireseason-venue_*) inside "$1" usr/share/mireseason/programs | head -n 1 | grep -Eq '\+$|unknown$' ;;
    mireseason-gateway_*) inside "$1" usr/bin/mireseason-gateway | grep -aqc 'sessions not proved' ;;
    *) return 1 ;;
    esac
}

# files_of PACKAGES: the files that an index of packages has, with their sums.
files_of() {
    awk '$1 == "Filename:" { file = $2 } $1 == "SHA256:" { sum = $2 } !NF && file { print file, sum; file = "" }
        END { if (file) print file, sum }' "$1" | sort
}

# earlier: the index that DIR has, which KEY has to have signed. No file of DIR is read beside it: whoever else writes there gets
# nothing signed by that.
earlier() {
    [ -e "$dist/InRelease" ] || return 0
    gpgv --keyring "$work/key.gpg" --output "$work/Release" "$dist/InRelease" 2>"$work/told" || {
        cat "$work/told" >&2
        fail "$dist/InRelease is not signed by $key"
    }
    cp "$dist/$index/Packages" "$work/earlier"
    sum=$(awk -v name="$index/Packages" '/^[^ ]/ { here = $1 == "SHA256:" } here && $3 == name { print $1 }' "$work/Release")
    echo "$sum  $work/earlier" | sha256sum --check --status || fail "$dist/$index/Packages is not what $key signed"
}

# take: has the packages in $work/pool, and their index, without those that the index of DIR has.
take() {
    mkdir "$work/pool"
    for file in "$packages"/mireseason*.deb; do
        [ "${UNPROVED:-0}" = 1 ] || ! is_trial "$file" || fail "$file is for trials alone"
        install -m 0644 "$file" "$work/pool"
    done
    (cd "$work" && apt-ftparchive packages pool) >"$work/all"
    files_of "$work/all" >"$work/new"
    files_of "$work/earlier" | join - "$work/new" | awk '$2 != $3 { print $1; found = 1 } END { exit found }' >&2 ||
        fail "these are there with other bytes, and a version never changes"
    files_of "$work/earlier" | cut -d ' ' -f 1 >"$work/known"
    awk 'FILENAME == ARGV[1] { known[$0]; next } { text = text $0 "\n" } $1 == "Filename:" { file = $2 }
        !NF { if (!(file in known)) printf "%s", text; text = "" }' "$work/known" "$work/all" >"$work/added"
}

# publish: the packages, then the indexes, by their sums too, so that nobody reads half of a change; what is signed comes last.
publish() {
    mkdir -p "$dir/pool" "$dist/$index/by-hash/SHA256" "$work/dist/$index"
    # Whoever else writes into DIR may have put a link there, which is not followed.
    cp --remove-destination "$work/pool"/* "$dir/pool"
    cat "$work/earlier" "$work/added" >"$work/dist/$index/Packages"
    xz -k "$work/dist/$index/Packages"
    (cd "$work/dist" && apt-ftparchive -o APT::FTPArchive::Release::Origin=Mireseason -o APT::FTPArchive::Release::Label=Mireseason \
        -o APT::FTPArchive::Release::Suite=stable -o APT::FTPArchive::Release::Components=main \
        -o APT::FTPArchive::Release::Architectures=amd64 -o APT::FTPArchive::Release::Acquire-By-Hash=yes \
        -o APT::FTPArchive::Release::Patterns::=Packages -o APT::FTPArchive::Release::Patterns::=Packages.xz release .) >"$work/Release"
    gpg --batch --yes --quiet --local-user "$key" --digest-algo SHA512 --output "$work/InRelease" --clearsign "$work/Release"
    for file in Packages Packages.xz; do
        sum=$(sha256sum "$work/dist/$index/$file" | cut -d ' ' -f 1)
        cp --remove-destination "$work/dist/$index/$file" "$dist/$index/by-hash/SHA256/$sum"
        cp --remove-destination "$work/dist/$index/$file" "$dist/$index/$file"
    done
    whole "$work/InRelease" "$dist/InRelease"
}

# whole FILE TO: a file in its place, whole or not at all for whoever reads there.
whole() {
    cp --remove-destination "$1" "$2.part"
    mv -T "$2.part" "$2"
}

# sources: what a host puts into /etc/apt/sources.list.d.
sources() {
    printf 'Types: deb\nURIs: %s\nSuites: stable\nComponents: main\nArchitectures: amd64\nSigned-By:\n' "$url"
    gpg --batch --armor --export-options export-minimal --export "$key" | sed 's/^$/./; s/^/ /'
}

key=$(key_of "$1") || fail "gpg has not one secret key $1"
gpg --batch --export "$key" >"$work/key.gpg"
[ -n "$(ls "$packages"/mireseason_*.deb 2>/dev/null)" ] || fail "$packages has no package mireseason: build them first"
: >"$work/earlier"
earlier
take
publish
sources >"$work/sources"
whole "$work/sources" "$dir/mireseason.sources"
echo "$dir is signed by $key; hosts need $dir/mireseason.sources"
