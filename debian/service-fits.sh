# service_fits USER WORDS ..: whether a service would start with its files as they are. It runs WORDS, a command that
# says so, as the service's own user, without access to this terminal and without root's environment, and shows what they
# print as plain characters.
service_fits() {
    user=$1
    shift
    told=$(mktemp) # and no pipe, which what they have started and left may keep open without end
    if (cd / && setsid --wait timeout --kill-after=10 120 env -i PATH="$PATH" LC_ALL=C.UTF-8 \
        runuser -u "$user" -- "$@" </dev/null >"$told" 2>&1); then
        rm -f "$told"
        return 0
    fi
    head -c 65536 "$told" | head -n 20 | cut -c -500 | cat -v >&2
    rm -f "$told"
    return 1
}

# process_of SERVICE: the process that systemd has of it; nothing where there is none, or no systemd.
process_of() {
    [ -d /run/systemd/system ] || return 0
    main=$(systemctl show --property MainPID --value "$1.service")
    [ "$main" = 0 ] || echo "$main"
}

# runs_installed SERVICE PROGRAM: whether what runs is the program that is installed, and not an older one.
runs_installed() {
    [ "$(readlink "/proc/$(process_of "$1")/exe")" = "$2" ]
}
