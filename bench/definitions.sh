#!/usr/bin/env bash
# Prints which definitions the given files stand on: each module of specs/ that they name, directly or
# through other such modules, with its lines, crate by crate; then how many there are, and how many
# lines all definitions of the repository have. A module counts whole, so what is told is the most that
# has to be read. Without words it is told of the contract of `morpheus`, and of the traits over which
# it is stated.
#
#   bench/definitions.sh                                          of all that is promised
#   bench/definitions.sh crates/command_rename/specs/Products.antt    of what a renaming keeps
set -eu

cd "$(dirname -- "$(dirname -- "$(readlink -f -- "$0")")")/crates"
files=("${@#crates/}")
[ $# -gt 0 ] || files=(morpheus_top/src/top.rt project_store/src/store.rt project_store/src/sink.rt)

# The modules of definitions that a file names, as files. What a path names behind its module is left out, and so are the types that
# the toolchain makes of those of the code.
named_by() {
  local path
  sed -nE 's/^ *(ghost |pub )?use Rattle\.([a-z0-9_]+)\.specs\.([A-Za-z0-9_.]*[A-Za-z0-9_]).*/\2\/specs\/\3/p' "$1" | tr . / | while read -r path; do
    while [ ! -f "$path.antt" ] && [ "${path%/*}" != "$path" ]; do path=${path%/*}; done
    [ ! -f "$path.antt" ] || echo "$path.antt"
  done
}

declare -A is_found=()
todo=("${files[@]}")
while [ ${#todo[@]} -gt 0 ]; do
  file=${todo[-1]}
  unset 'todo[-1]'
  [ -z "${is_found[$file]-}" ] || continue
  is_found[$file]=yes
  mapfile -t -O "${#todo[@]}" todo < <(named_by "$file")
done

printf '%s\n' "${!is_found[@]}" | grep '\.antt$' | sort | xargs wc -l | awk '
  $2 == "total" { next }
  {
    crate = $2; sub(/\/.*/, "", crate)
    module = $2; sub(/.*\/specs\//, "", module); sub(/\.antt$/, "", module)
    lines[crate] += $1; all += $1; count++
    names[crate] = names[crate] parting[crate] module " " $1
    parting[crate] = ", "
  }
  END {
    for (crate in lines) printf "%5d  %s: %s\n", lines[crate], crate, names[crate] | "sort -rn"
    close("sort -rn")
    printf "%d modules, %d lines", count, all
  }'
find . -path '*/specs/*.antt' -print0 | xargs -0 cat | wc -l | awk '{ printf " of %d\n", $1 }'
