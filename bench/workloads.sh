#!/bin/sh
# Measures whole workloads by `refrun run`, beside Clojure where it is there:
#
#   bench/workloads.sh [--against PROGRAM] [--steps N] [--rounds N] [--warm-up S] [SHAPE..]
#
# README.md beside this says what the figures mean. $REFRUN names the program to measure; without it, it is the one of this
# repository, which is built first where it isn't yet.
set -eu
here=$(cd "$(dirname "$0")" && pwd)
top=$(dirname "$here")

command -v python3 >/dev/null || { echo "bench/workloads.sh needs python3" >&2; exit 2; }
if [ -z "${REFRUN:-}" ]; then
  "$top/refrun" --help </dev/null >/dev/null
  REFRUN=$top/crates/refrun/out/refrun
fi
exec python3 -B "$here/workloads.py" "$REFRUN" "$@"
