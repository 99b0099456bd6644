#!/usr/bin/env bash
# Measures `morpheus rename` on projects that grow with the number of features: for 8, 16, 32 and 64 features the time and the peak of
# each family of `bench/projects.sh`, in which a name of the unit gets another; and a project of 20 units, 2,000 functions and 64 features
# in which a function that is declared for all of them does, and then an object that each function uses. Each must be renamed. Needs GNU
# time and awk. Ends with 1 where an answer is another, where the time of a family grows by more than 3 from 32 to 64 features, or where
# the large project takes two minutes or more. A time below 0.05 s isn't compared.
#
#   bench/rename.sh [FAMILY..]    these families alone, without the large project
set -eu

home=$(dirname -- "$(dirname -- "$(readlink -f -- "$0")")")
program=$home/build/morpheus
room=$(mktemp -d)
trap 'rm -rf "$room"' EXIT

# shellcheck source=bench/measure.sh
. "$home/bench/measure.sh"
# shellcheck source=bench/projects.sh
. "$home/bench/projects.sh"

# The name that is renamed in a family.
renamed() {
  case $1 in
    declarations | two-types | three-types) echo x0 ;;
    members | initialisers) echo m0 ;;
    parameters) echo f ;;
    functions) echo f0 ;;
    units) echo g0 ;;
    *) echo x ;;
  esac
}

# The first place of a name in a file.
place() {
  printf '%s@%s' "$1" "$(grep -bow -- "$2" "$1" | head -n 1 | cut -d : -f 1)"
}

# One family, for `table`: the first such name of its unit is renamed.
measured() {
  best 60 rename p.toml "$(place m.c "$(renamed "$1")")" other out
}

[ -x "$program" ] || { echo "build the program first: ./morpheus check .." >&2; exit 1; }
cd "$room"

failed=0
families=("$@")
[ $# -gt 0 ] || families=("${FAMILIES[@]}")
table renamed 3 '' "${families[@]}"
[ $# -eq 0 ] || exit "$failed"

large
for name in f0 shared; do
  read -r seconds peak < <(best 300 rename p.toml "$(place all.h "$name")" other out)
  printf '\n20 units, 2,000 functions, 64 features, %s: %s in %.2f s, %d MiB.\n' "$name" "$(cat output)" "$seconds" $((peak / 1024))
  case $(cat output) in renamed*) awk -v s="$seconds" 'BEGIN { exit s >= 120 }' || failed=1 ;; *) failed=1 ;; esac
done
exit "$failed"
