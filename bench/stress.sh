#!/bin/sh
# Tries shared worlds with threads that do everything, for so many minutes, and compares what is in them with what the threads
# count:
#
#   bench/stress.sh [--minutes N] [--seed N]
#
# README.md beside this says what is tried. The program is proved and built in a folder outside of the repository, $REF_BENCH or
# ref-bench among the temporary files, over copies of the libraries.
set -eu
here=$(cd "$(dirname "$0")" && pwd)
name=threads library=ref_shared try="try 1"
. "$here/build.sh"
exec python3 -B "$here/stress.py" "$program" "$@"
