# The proved program of this repository: where it stands, the crates below it, and whether it is as new as its sources.
# `wgcc` and `examples/run` read this file by `source`; it runs nothing by itself.
root=$(cd "$(dirname "$(readlink -f "${BASH_SOURCE[0]}")")/.." && pwd) || exit 125
program=$root/crates/wgcc/out/wgcc
stamp=$root/crates/wgcc/out/wgcc.sources
# In an unpacked package the program stands at the top, and there is nothing to build it of.
[ ! -e "$root/PACKAGE" ] || program=$root/wgcc

# The crates that a crate stands on, lowest first, and last the crate itself.
crates_below() {
  awk -v top="$1" '
    { sub(/#.*/, "") }
    /:/ { split($0, at, ":"); split(at[1], head, " "); below[head[1]] = at[2] }
    function visit(name,    parts, count, i) {
      if (!(name in below) || name in seen) return
      seen[name] = 1
      count = split(below[name], parts, " ")
      for (i = 1; i <= count; i++) visit(parts[i])
      print name
    }
    END { visit(top) }' "$root/crates.txt"
}

# The folders of a crate that decide what is built of it.
places() {
  local part
  for part in src specs proofs; do
    [ ! -d "$root/crates/$1/$part" ] || echo "$root/crates/$1/$part"
  done
}

# A source of one of these crates that is newer than that file, if there is one.
newer() {
  local since=$1 name found
  shift
  mapfile -t found < <(for name in "$@"; do places "$name"; done)
  find "$root/crates.txt" "${found[@]}" -newer "$since" -print -quit
}

# Why the proved program has to be built: nothing is said where it is there and no source is newer.
# Only `rt` writes the file, and it builds a program only once all crates below it are proved.
why_to_build() {
  local since=$stamp names found
  [ ! -e "$root/PACKAGE" ] || return 0
  if [ ! -x "$program" ]; then
    echo 'the program is not built yet'
    return
  fi
  [ -e "$since" ] || since=$program
  mapfile -t names < <(crates_below wgcc)
  found=$(newer "$since" "${names[@]}")
  [ -z "$found" ] || echo "what is built is older than ${found#"$root"/}"
}
