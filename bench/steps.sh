#!/bin/sh
# Measures how long a run takes, and how much memory, as its one worker makes twice as many steps:
#
#   bench/steps.sh [--against PROGRAM] [--steps N] [--rounds N] [SHAPE..]
#
# README.md beside this says what the figures mean. Where the program isn't built yet, this builds it first.
set -eu
here=$(cd "$(dirname "$0")" && pwd)
refrun=$(dirname "$here")/refrun

command -v python3 >/dev/null || { echo "bench/steps.sh needs python3" >&2; exit 2; }
"$refrun" --help </dev/null >/dev/null
exec python3 -B "$here/steps.py" "$refrun" "$@"
