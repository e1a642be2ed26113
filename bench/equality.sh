#!/bin/sh
# Measures the equality of collections that share their parts, of so many members, and 30, 1,000, 10,000 and 100,000 where none is said:
#
#   bench/equality.sh [MEMBERS ..]
#
# README.md beside this says what the figures mean. The program is proved and built in a folder outside of the repository,
# $REF_BENCH or ref-bench among the temporary files, over a copy of ref_edn.
set -eu
here=$(cd "$(dirname "$0")" && pwd)
name=equality library=ref_edn try="10"
. "$here/build.sh"
[ $# -gt 0 ] || set -- 30 1000 10000 100000
exec "$program" "$@"
