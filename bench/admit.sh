#!/usr/bin/env bash
# Measures `morpheus admit` on random constraints of three literals beside minisat on the same
# clauses, and on a model that propagation alone decides. Prints tables; ends with 1 where a bar
# is missed or the two disagree. Needs GNU time, awk and minisat (Debian's package, installed if it
# is missing).
set -eu

home=$(dirname -- "$(dirname -- "$(readlink -f -- "$0")")")
program=$home/build/morpheus
# A run that takes longer than so many seconds is stopped.
patience=${1:-20}
room=$(mktemp -d)
trap 'rm -rf "$room"' EXIT

command -v minisat >/dev/null || { apt-get update && apt-get install -y minisat; } >/dev/null
"$home/morpheus" --version
"$home/morpheus" >/dev/null || [ $? = 2 ]
cd "$room"

# Writes p.toml and p.cnf: so many features, and clauses of three different features each, whose
# literals are positive or negative by chance.
random_model() {
  awk -v features="$1" -v clauses="$2" -v seed="$3" '
    BEGIN {
      srand(seed)
      printf "p cnf %d %d\n", features, clauses >"p.cnf"
      printf "features = [" >"p.toml"
      for (i = 1; i <= features; i++) printf "%s\"F%d\"", (i > 1 ? ", " : ""), i >"p.toml"
      printf "]\nconstraints = [\n" >"p.toml"
      for (c = 0; c < clauses; c++) {
        split("", used)
        text = ""
        line = ""
        for (k = 0; k < 3; k++) {
          do v = 1 + int(rand() * features); while (v in used)
          used[v] = 1
          negative = rand() < 0.5
          text = text (k ? " || " : "") (negative ? "!" : "") "F" v
          line = line (negative ? "-" : "") v " "
        }
        printf "  \"%s\",\n", text >"p.toml"
        printf "%s0\n", line >"p.cnf"
      }
      printf "]\n[[unit]]\nfile = \"m.c\"\n" >"p.toml"
    }'
}

# Writes p.toml: 128 features and 500 constraints of three literals, each with two features that
# imply a third, but for ten that turn a feature on.
propagated_model() {
  awk '
    BEGIN {
      srand(1)
      printf "features = ["
      for (i = 1; i <= 128; i++) printf "%s\"F%d\"", (i > 1 ? ", " : ""), i
      printf "]\nconstraints = [\n"
      for (c = 0; c < 10; c++) { v = 1 + c * 12; printf "  \"F%d || F%d || F%d\",\n", v, v, v }
      for (c = 0; c < 490; c++)
        printf "  \"!F%d || !F%d || F%d\",\n", 1 + int(rand() * 128), 1 + int(rand() * 128), 1 + int(rand() * 128)
      printf "]\n[[unit]]\nfile = \"m.c\"\n"
    }' >p.toml
}

# Runs the words, and prints their seconds, or the patience with a `>` where it ended.
seconds() {
  if /usr/bin/time -q -f '%e' -o measure timeout "$patience" "$@" >output 2>/dev/null; then
    cat measure
  else
    [ $? = 124 ] && echo ">$patience" || tail -n 1 measure
  fi
}

failed=0
printf '| Features | constraints | answer | admit | minisat |\n|---|---|---|---|---|\n'
for features in 20 30 40 50 60; do
  clauses=$((features * 426 / 100))
  for seed in 1 2 3; do
    random_model "$features" "$clauses" "$seed"
    ours=$(seconds "$program" admit p.toml)
    answer=$(sed 's/^admits nothing$/unsatisfiable/; s/^admits .*/satisfiable/' output)
    theirs=$(seconds minisat -verb=0 p.cnf)
    wanted=$(sed -n 's/^UNSATISFIABLE$/unsatisfiable/p; s/^SATISFIABLE$/satisfiable/p' output)
    [ "${ours#>}" != "$ours" ] && answer="$wanted (minisat)"
    [ "${answer% (minisat)}" = "$wanted" ] || failed=1
    printf '| %d | %d | %s | %s s | %s s |\n' "$features" "$clauses" "$answer" "$ours" "$theirs"
  done
done

propagated_model
ours=$(seconds "$program" admit p.toml)
printf '\nA model of 128 features and 500 constraints that propagation decides: %s s (at most 1).\n' "$ours"
case $ours in
  '>'*) failed=1 ;;
  *) awk -v s="$ours" 'BEGIN { exit !(s <= 1) }' || failed=1 ;;
esac
exit "$failed"
