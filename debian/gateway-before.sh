
# are_alike: whether the gateway and the venue's program are still of one version, so that nothing of this upgrade is unpacked
# yet.
are_alike() {
    # shellcheck disable=SC2016 # of dpkg-query
    [ "$(dpkg-query -W -f '${Version}\n' mireseason-gateway mireseason-venue 2>/dev/null | sort -u | wc -l)" = 1 ]
}

# An upgrade restarts the gateway. One that could not start would end the market: so it is asked before anything is unpacked,
# whichever package comes first, while all that is installed is the old one.
if [ "$1" = upgrade ] && runs_installed mireseason-gateway /usr/bin/mireseason-gateway && are_alike &&
    ! service_fits mireseason \
        /usr/bin/mireseason-gateway --check /etc/mireseason/gateway.toml; then
    cat >&2 <<END
$DPKG_MAINTSCRIPT_PACKAGE: the gateway runs, and finds a fault in its files: see above.
Nothing was unpacked, and it runs on. Mend its files, or stop it, and call the upgrade again.
END
    exit 1
fi
