#!/bin/sh
# Runs all tests of one folder: the long form, or the short one after the word `short`. It passes the other words to pytest.
#
#     tests/FOLDER/run.sh [short] [OPTIONS ..]      tests/README.md has the options
#
# VENUE, GATEWAY, SEED and KEEP stand for the options of these names.
set -eu
name=$1
shift
form=long
if [ "${1:-}" = short ]; then
    form=short
    shift
fi
cd "$(dirname "$0")/.."
exec /usr/bin/python3 -m pytest "tests/$name" --form "$form" "$@"
