#!/bin/sh
# The tests of the desk: tests/desk/run.sh [WORDS OF PYTEST ..]
cd "$(dirname "$0")/../.." && exec /usr/bin/python3 -m pytest tests/desk "$@"
