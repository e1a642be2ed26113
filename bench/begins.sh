#!/bin/sh
# Measures a transaction of one `alter` on worlds with more and more refs, on refs that hold more and more, and the memory of an entry:
#
#   bench/begins.sh [--times N] [--rounds N] [--entries N] [REFS ..]
#
# README.md beside this says what the figures mean. The program is proved and built in a folder outside of the repository,
# $REF_BENCH or ref-bench among the temporary files, over copies of the libraries.
set -eu
here=$(cd "$(dirname "$0")" && pwd)
name=begins library=ref_world try="64 1000"
. "$here/build.sh"
exec python3 -B "$here/begins.py" "$program" "$@"
