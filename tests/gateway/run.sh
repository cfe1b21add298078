#!/bin/sh
# pytest on all that tries the gateway: this folder, and those of one firm against the others (tests/limits) and of its operator
# (tests/admin). tests/folder.sh says what words it takes.
exec "$(dirname "$0")/../folder.sh" gateway "$@" tests/limits tests/admin
