#!/bin/sh
# Patroni runs it once, when the cluster is made. It makes the database of the logs, the role of the gateways, and a role that reads and
# has no password; it sets the keeper's password. database.sql, beside this file, says what they may do. The one argument is a connection
# string of the superuser.
# configure.py replaces the words between two @.
set -eu
psql --no-psqlrc -v ON_ERROR_STOP=1 -d "$1" \
    -c "CREATE ROLE gateway LOGIN PASSWORD '@GATEWAY_PASSWORD@'" \
    -c "CREATE ROLE reader LOGIN" \
    -c 'CREATE DATABASE mireseason'
psql --no-psqlrc -v ON_ERROR_STOP=1 -d "$1 dbname=mireseason" -f "$(dirname "$0")/database.sql"
psql --no-psqlrc -v ON_ERROR_STOP=1 -d "$1" -c "ALTER ROLE keeper PASSWORD @KEEPER@"
