#!/usr/bin/env bash
# Measures the forests of units that grow with the number of features: for 8, 16, 32 and 64 features the processor time and the peak of the
# program that reads the unit in all configurations at once (`crates/forest_cases`), how many tokens its stream has, how many leaves and
# items its forest has, and how many nodes their conditions have. Needs GNU time and awk. Ends with 1 where leaves, items or the time grow
# by more than 3 from 32 to 64; a time below 0.05 s isn't compared. Two families are tried for 8 features alone: links of an `else if`
# chain, and groups inside one expression (docs/CHOICE-TREES.md says why).
set -eu

home=$(dirname -- "$(dirname -- "$(readlink -f -- "$0")")")
program=$home/crates/forest_cases/out/forest_cases
room=$(mktemp -d)
trap 'rm -rf "$room"' EXIT

# shellcheck source=bench/measure.sh
. "$home/bench/measure.sh"

[ -x "$program" ] || (cd "$home/crates/forest_cases" && rt run >/dev/null)
cd "$room"

failed=0
printf '| Family | features | tokens | leaves | items | nodes | time | peak |\n|---|---|---|---|---|---|---|---|\n'
for family in statements declarations functions members parameters arguments initialisers declarators texts \
  bare-if else-parts heads braces nested else-if expression; do
  before=
  for n in 8 16 32 64; do
    case $family in
      else-if | expression) [ "$n" = 8 ] || continue ;;
    esac
    read -r seconds peak < <(best 60 "$family" "$n")
    read -r tokens leaves items nodes <output
    printf '| %s | %d | %d | %d | %d | %d | %.2f s | %d MiB |\n' "$family" "$n" "$tokens" "$leaves" "$items" "$nodes" "$seconds" $((peak / 1024))
    if [ "$n" = 64 ]; then
      awk -v a="$before" -v b="$leaves $items $seconds" 'BEGIN {
        split(a, x); split(b, y)
        for (i = 1; i <= 2; i++) if (y[i] > 3 * x[i]) exit 1
        exit y[3] >= 0.05 && y[3] > 3 * x[3]
      }' || { failed=1; printf '\n%s grows by more than 3 from 32 to 64 features.\n\n' "$family"; }
    fi
    before="$leaves $items $seconds"
  done
done
exit "$failed"
