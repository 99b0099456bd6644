#!/usr/bin/env bash
# Measures `morpheus check` on projects that grow with the number of features: for 8, 16, 32 and 64 features the time and the peak of
# each of a dozen families, the time of accepting each configuration by itself for up to 12 features (`run PROJECT NAMES 0 -`, one after
# the other), and a project of 20 units, 2,000 functions and 64 features. Each answer must be `accepted`. Needs GNU time and awk. Ends with
# 1 where an answer is another, where the time of a family grows by more than 3 from 32 to 64 features (by more than 5 where lists are
# matched by position: parameters and initialisers), or where the large project takes a minute or more. A time below 0.05 s isn't compared.
#
#   bench/check.sh [FAMILY..]    these families alone, without what follows them
set -eu

home=$(dirname -- "$(dirname -- "$(readlink -f -- "$0")")")
program=$home/build/morpheus
room=$(mktemp -d)
trap 'rm -rf "$room"' EXIT

# shellcheck source=bench/measure.sh
. "$home/bench/measure.sh"
# shellcheck source=bench/projects.sh
. "$home/bench/projects.sh"

# One family, for `table`.
measured() {
  best 60 check p.toml
}

[ -x "$program" ] || "$home/morpheus" --version >/dev/null
[ -x "$program" ] || { echo "build the program first: ./morpheus check .." >&2; exit 1; }
cd "$room"

failed=0
families=("$@")
[ $# -gt 0 ] || families=("${FAMILIES[@]}")
table accepted 5 'parameters initialisers' "${families[@]}"
[ $# -eq 0 ] || exit "$failed"

printf '\n| Features | check | each configuration by itself |\n|---|---|---|\n'
for n in 2 4 6 8 10 12; do
  make uses "$n"
  read -r seconds peak < <(measured)
  begun=$(date +%s.%N)
  for ((c = 0; c < 1 << n; c++)); do
    names=
    for ((i = 0; i < n; i++)); do ((c >> i & 1)) && names+=${names:+,}F$i; done
    "$program" run p.toml "${names:--}" 0 - >output || true
  done
  printf '| %d | %.2f s | %.2f s |\n' "$n" "$seconds" "$(awk -v a="$begun" -v b="$(date +%s.%N)" 'BEGIN { print b - a }')"
done

large
read -r seconds peak < <(best 300 check p.toml)
printf '\n20 units, 2,000 functions, 64 features: %s in %.2f s, %d MiB.\n' "$(cat output)" "$seconds" $((peak / 1024))
[ "$(cat output)" = accepted ] && awk -v s="$seconds" 'BEGIN { exit s >= 60 }' || failed=1
exit "$failed"
