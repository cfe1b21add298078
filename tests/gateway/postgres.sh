#!/bin/sh
# Runs a command with a PostgreSQL server of its own, as another user than root and in a folder that is
# removed after it, and ends the server. Each word `{}` of the command becomes the connection string of
# libpq. usage: tests/gateway/postgres.sh COMMAND ..
set -eu
bin=$(ls -d /usr/lib/postgresql/*/bin 2>/dev/null | sort -V | tail -n 1)
[ -n "$bin" ] || { echo "PostgreSQL is not installed" >&2; exit 2; }
folder=$(mktemp -d)
as=
if [ "$(id -u)" = 0 ]; then
    chown postgres "$folder"
    as="setpriv --reuid=postgres --regid=postgres --clear-groups"
fi
chmod 755 "$folder"
# $as is no word or several.
run() { (cd "$folder" && $as "$@"); }
end() {
    run "$bin/pg_ctl" -D "$folder/data" -m immediate stop >/dev/null 2>&1 || true
    rm -rf "$folder"
}
trap end EXIT
trap 'exit 143' TERM INT
run "$bin/initdb" -D "$folder/data" -U mireseason --auth=trust >"$folder.told" 2>&1 ||
    { cat "$folder.told" >&2; rm -f "$folder.told"; exit 1; }
rm -f "$folder.told"
# Its socket alone: no port that another server may have.
run "$bin/pg_ctl" -D "$folder/data" -w -t 300 -l "$folder/log" \
    -o "-c listen_addresses='' -c unix_socket_directories=$folder" start >/dev/null
count=$#
while [ "$count" -gt 0 ]; do
    word=$1
    shift
    [ "$word" != '{}' ] || word="host=$folder user=mireseason dbname=postgres"
    set -- "$@" "$word"
    count=$((count - 1))
done
"$@"
