#!/bin/sh
# A whole installation on this machine, whose hosts are network namespaces: one_machine.py says what it does. Needs root.
#
#     tests/lab/one_machine.sh up FOLDER [--images FOLDER] [--gateway PROGRAM] [--venue WORDS] [--day FOLDER]
#     tests/lab/one_machine.sh down FOLDER [--images FOLDER]
set -eu
cd "$(dirname "$0")/../.."
PYTHONPATH=.:install/hosts exec /usr/bin/python3 -m tests.lab.one_machine "$@"
