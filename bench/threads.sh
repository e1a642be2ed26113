#!/bin/sh
# Measures calls on a shared world from 1, 2 and 4 threads, beside Clojure and the limit program where their tools are
# installed:
#
#   bench/threads.sh [--seconds S] [--warm-up S] [--acts N] [--threads N,N..] [SHAPE..]
#   bench/threads.sh --instructions [--acts N] [SHAPE..]              instructions of an act, where valgrind is installed
#   bench/threads.sh --compare [--acts N] [--threads N,N..] [SHAPE..]  whether both programs leave the same in the world
#
# README.md beside this says what the figures mean. The program that is measured is no crate of the repository: it is proved and
# built in a folder outside of it, $REF_BENCH or ref-bench among the temporary files, over copies of the libraries.
set -eu
here=$(cd "$(dirname "$0")" && pwd)
name=threads library=ref_shared try="try 1"
. "$here/build.sh"

limit=
if command -v rustc >/dev/null; then
  limit=$room/limit
  rustc --edition 2021 -O -C codegen-units=1 -o "$limit" "$here/threads/limit/main.rs"
fi
exec python3 -B "$here/threads.py" "$program" ${limit:+--limit "$limit"} "$@"
