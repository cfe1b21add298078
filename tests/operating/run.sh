#!/bin/sh
# pytest on this folder: tests/folder.sh says what words it takes.
exec "$(dirname "$0")/../folder.sh" operating "$@"
