#!/bin/sh
# Measures how fast ref_edn reads and prints EDN, beside serde_json, Clojure and jq where they are installed, and beside an older
# build of the same program where one is named:
#
#   bench/run.sh [--against PROGRAM] [--quick] [--rounds N] [--seconds S] [--bytes N] [--members N] [SHAPE..]
#
# README.md beside this says what the figures mean. The program that is measured is no crate of the repository, so that
# the gate needs no time for it: this copies ref_edn and ref_value into a folder of its own, adds the program there, and has
# rt prove and build all three. The folder is $REF_BENCH, or ref-bench among the temporary files; it is kept, so that a second
# run builds only what has changed.
set -eu
here=$(cd "$(dirname "$0")" && pwd)
top=$(dirname "$here")
room=${REF_BENCH:-${TMPDIR:-/tmp}/ref-bench}
tree=$room/tree

for tool in rt python3; do
  command -v $tool >/dev/null || { echo "bench/run.sh needs $tool" >&2; exit 2; }
done

# What rt kept of earlier checks, there or in the repository, spares a proof of all of them.
mkdir -p "$tree/crates/edn_bench/src" "$room/data"
for crate in ref_value ref_edn; do
  mkdir -p "$tree/crates/$crate"
  if [ ! -d "$tree/crates/$crate/out" ] && [ -d "$top/crates/$crate/out" ]; then
    cp -a "$top/crates/$crate/out" "$tree/crates/$crate/"
  fi
  for part in src specs proofs; do
    rm -rf "$tree/crates/$crate/$part"
    cp -a "$top/crates/$crate/$part" "$tree/crates/$crate/"
  done
done
cp "$here/edn_bench.rt.txt" "$tree/crates/edn_bench/src/main.rt"
{ grep '^ref_\(value\|edn\) *:' "$top/crates.txt"; echo 'edn_bench: ref_edn ref_value anyhow'; } > "$tree/crates.txt"

echo "building in $tree"
program=$tree/crates/edn_bench/out/edn_bench
# rt also runs what it has built, here on a text that any reader takes.
if ! (cd "$tree/crates/edn_bench" && echo '[1 2 3]' | rt run > "$room/build.txt" 2>&1); then
  tail -20 "$room/build.txt" >&2
  echo "bench/run.sh: not built, or [1 2 3] was not read; all that rt said is in $room/build.txt" >&2
  exit 1
fi
# The same with serde_json, where cargo is there, and the crate in the registry of Debian's package librust-serde-json-dev, so
# that nothing is fetched.
registry=/usr/share/cargo/registry
if command -v cargo >/dev/null && [ -n "$(find "$registry" -maxdepth 1 -name 'serde_json-*' 2>/dev/null)" ]; then
  mkdir -p "$room/json/.cargo"
  cp "$here/json/Cargo.toml" "$here/json/main.rs" "$room/json/"
  printf '[source.crates-io]\nreplace-with = "debian"\n[source.debian]\ndirectory = "%s"\n' "$registry" > "$room/json/.cargo/config.toml"
  if (cd "$room/json" && cargo build --release --offline --target-dir target > "$room/json.txt" 2>&1); then
    set -- --json "$room/json/target/release/json_bench" "$@"
  else
    echo "bench/run.sh: the program with serde_json is not built; all that cargo said is in $room/json.txt" >&2
  fi
fi
# Where refrun is built its `print` is measured beside jq too.
refrun=$top/crates/refrun/out/refrun
if [ -x "$refrun" ]; then set -- --refrun "$refrun" "$@"; fi
exec python3 -B "$here/compare.py" "$program" "$room/data" "$@"
