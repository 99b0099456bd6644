#!/usr/bin/env bash
# Measures `morpheus tokens` on units of 1, 2 and 4 MiB without macros, and on units with 25,000,
# 50,000 and 100,000 macro calls, beside `gcc -E -P` on the same files, and prints a table. The two
# are compared: the tokens of gcc's text are the unit's. Needs GNU time, awk and gcc. Ends with 1
# where a bar is missed or the two disagree.
set -eu

home=$(dirname -- "$(dirname -- "$(readlink -f -- "$0")")")
program=$home/build/morpheus
room=$(mktemp -d)
trap 'rm -rf "$room"' EXIT

# Writes a unit of at most the given number of bytes, without macros.
plain_unit() {
  awk -v most="$1" '
    BEGIN {
      for (i = 0; size < most - 200; i++) {
        text = "int value_" i "(int left, int right) { return left * " (i % 1000) " + (right - value_" (i - i % 7) "); } /* " i " */"
        print text
        size += length(text) + 1
      }
    }'
}

# Writes a unit with the given number of macro calls: object-like ones, and function-like ones with
# calls in their arguments.
unit_with_calls() {
  awk -v most="$1" '
    BEGIN {
      for (m = 0; m < 100; m++) {
        print "#define SIZE_" m " " m + 1
        print "#define ADD_" m "(a, b) ((a) + (b) * SIZE_" m ")"
      }
      for (i = 0; i < most; i += 4)
        print "int value_" i " = ADD_" i % 100 "(SIZE_" i % 89 ", ADD_" i % 97 "(" i ", SIZE_3));"
    }'
}

# The lowest seconds of three runs.
best() {
  for _ in 1 2 3; do
    /usr/bin/time -f '%e' -o measure "$@" >output
    cat measure
  done | awk 'NR == 1 || $1 < s { s = $1 } END { print s }'
}

"$home/morpheus" --version
"$home/morpheus" >/dev/null || [ $? = 2 ]
cd "$room"
printf '[[unit]]\nfile = "m.c"\n' >p.toml
printf '[[unit]]\nfile = "e.c"\n' >e.toml

failed=0
printf '| Unit | bytes | tokens | gcc -E -P | tokens to gcc |\n|---|---|---|---|---|\n'
for kind in plain calls; do
  rows=''
  for part in 1 2 4; do
    case $kind in
      plain) plain_unit $((part * 1048576)) >m.c; name="$part MiB without macros" ;;
      calls) unit_with_calls $((part * 25000)) >m.c; name="$((part * 25000)) macro calls" ;;
    esac
    ours=$(best "$program" tokens p.toml m.c -)
    mv output tokens
    theirs=$(best gcc -E -P m.c)
    mv output e.c
    "$program" tokens e.toml e.c - | cmp -s - tokens || { failed=1; echo "the two differ on $name"; }
    awk -v name="$name" -v bytes="$(wc -c <m.c)" -v ours="$ours" -v theirs="$theirs" 'BEGIN {
      printf "| %s | %d | %.2f s | %.2f s | %.1f |\n", name, bytes, ours, theirs, ours / (theirs > 0.01 ? theirs : 0.01) }'
    rows="$rows$part $ours
"
  done
  printf '%s' "$rows" | awk -v kind="$kind" '
    { time[$1] = $2 }
    END {
      growth = time[4] / (time[1] > 0.01 ? time[1] : 0.01)
      printf "%s: from the first to the last the time grows by %.1f (at most 6, by 4 where it is linear).\n", kind, growth >"/dev/stderr"
      exit !(growth <= 6)
    }' || failed=1
done
exit "$failed"
