# Builds a program of this folder in a folder of its own. Read by threads.sh, stress.sh, begins.sh, equality.sh and steady.sh, which set
# `here`, the program's `name`, the highest `library` that it stands on, or several, what it is told for a short `try`, and `over`, if its
# files stand over those of a crate; it sets `room`, the folder, and `program`.
top=$(dirname "$here")
room=${REF_BENCH:-${TMPDIR:-/tmp}/ref-bench}/$name
tree=$room/tree
program=$tree/crates/$name/out/$name

for tool in rt python3; do
  command -v $tool >/dev/null || { echo "bench/$(basename "$0") needs $tool" >&2; exit 2; }
done

# The library, and all that it stands on.
libraries=$(awk -F: -v library="$library" '
  function visit(name,    i, many, names) {
    if (name in seen || !(name in below)) return
    seen[name] = 1
    print name
    many = split(below[name], names, " ")
    for (i = 1; i <= many; i++) visit(names[i])
  }
  { split($1, head, " "); line[head[1]] = $0; below[head[1]] = $2 }
  END { many = split(library, wanted, " "); for (i = 1; i <= many; i++) visit(wanted[i]) }' "$top/crates.txt")

# What the repository keeps of a library's proof is taken over, where it is another one than was taken before.
for below in $libraries; do
  from=$top/crates/$below
  to=$tree/crates/$below
  mkdir -p "$to/out"
  for part in src specs proofs; do
    rm -rf "$to/$part"
    if [ -d "$from/$part" ]; then cp -a "$from/$part" "$to/"; fi
  done
  if [ -f "$from/out/rlib/stamp" ] && ! cmp -s "$from/out/rlib/stamp" "$to/out/rlib/stamp"; then
    rm -rf "$to/out/rlib"
    cp -a "$from/out/rlib" "$to/out/"
  fi
done

# The program's files have names that end in .txt, since an .rt or .antt file has to belong to a crate of the repository. Those of the crate
# that they stand over come first, under the program's name.
rm -rf "$tree/crates/$name/src" "$tree/crates/$name/specs" "$tree/crates/$name/proofs"
if [ -n "${over:-}" ]; then
  mkdir -p "$tree/crates/$name"
  for part in src specs proofs; do
    if [ -d "$top/crates/$over/$part" ]; then
      cp -a "$top/crates/$over/$part" "$tree/crates/$name/"
      find "$tree/crates/$name/$part" -type f -exec sed -i "s/Rattle\.$over\./Rattle.$name./" {} +
    fi
  done
fi
for file in $(cd "$here/$name" && find src proofs -name '*.txt'); do
  mkdir -p "$tree/crates/$name/$(dirname "$file")"
  cp "$here/$name/$file" "$tree/crates/$name/${file%.txt}"
done
cp "$top/HANDLES" "$tree/"
{
  for below in $libraries; do grep "^$below[ :]" "$top/crates.txt"; done
  echo "$name:" $libraries
} > "$tree/crates.txt"

echo "building in $tree"
# rt also runs what it has built, here on a short try.
if ! (cd "$tree/crates/$name" && rt run -- $try > "$room/build.txt" 2>&1); then
  tail -20 "$room/build.txt" >&2
  echo "bench/$(basename "$0"): not built, or a first try failed; all that rt said is in $room/build.txt" >&2
  exit 1
fi
