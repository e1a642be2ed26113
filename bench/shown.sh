#!/bin/sh
# Measures how long it takes to show a dump of 640,000 entries, and how much memory, next to its audit:
#
#   bench/shown.sh [--rounds N]
#
# README.md beside this says what the figures mean. Where the program isn't built yet, this builds it first.
set -eu
here=$(cd "$(dirname "$0")" && pwd)
refrun=$(dirname "$here")/refrun

command -v python3 >/dev/null || { echo "bench/shown.sh needs python3" >&2; exit 2; }
"$refrun" --help </dev/null >/dev/null
exec python3 -B "$here/shown.py" "$refrun" "$@"
