#!/bin/sh
# Prints what CHANGELOG.md says of this version in the form of Debian's changelog. For a release: install/packages/changelog.sh > debian/changelog
set -eu
export LC_ALL=C.UTF-8
root=$(cd "$(dirname "$0")/../.." && pwd)
version=$(head -n 1 "$root/VERSION")
moment=$(git -C "$root" log -1 --format=%ct 2>/dev/null || date +%s)
echo "mireseason ($version) stable; urgency=medium"
echo
awk -v version="$version" '$1 == "##" { here = $2 == version; next } here && /^- / { sub(/^- /, "  * "); print; next }
    here && NF { print "    " $0 }' "$root/CHANGELOG.md" | sed 's/^ *    /    /' | fold -s -w 76 |
    sed 's/^\([^ ]\)/    \1/; s/ *$//'
printf '\n -- Mireseason maintainers <maintainers@users.noreply.mireseason.example>  %s\n' "$(date -u -R -d "@$moment")"
