#!/bin/sh
# Lets the shop of crates/service stay open for so many minutes, and prints its memory as time goes on; before that, how long the lock is
# held for folds of so many entries:
#
#   bench/steady.sh [--minutes N] [--bites-only]
#
# README.md beside this says what the figures mean. The program is proved and built in a folder outside of the repository, $REF_BENCH or
# ref-bench among the temporary files, over copies of crates/service and of the libraries.
set -eu
here=$(cd "$(dirname "$0")" && pwd)
name=steady library=ref_program over=service try="run 1"
. "$here/build.sh"
exec python3 -B "$here/steady.py" "$program" "$@"
