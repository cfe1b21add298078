#!/bin/sh
# Builds a part of the tree. It does not compile again what ccache keeps, neither here nor in a copy of the tree. Which
# sessions a gateway is linked with is chosen anew.
#
#     tests/build.sh JOBS SOURCE OUT [TARGET ..]      these targets, or all
set -eu
root=$(cd "$(dirname "$0")/.." && pwd)
jobs=$1 source=$2 out=$3
shift 3
export CCACHE_BASEDIR="${CCACHE_BASEDIR:-$root}" CCACHE_NOHASHDIR=1 CCACHE_SLOPPINESS=pch_defines,time_macros
launcher=
! command -v ccache >/dev/null || launcher=-DCMAKE_CXX_COMPILER_LAUNCHER=ccache
cmake -U "SESSION*" -S "$source" -B "$out" $launcher
[ $# = 0 ] || set -- --target "$@"
cmake --build "$out" -j "$jobs" "$@"
