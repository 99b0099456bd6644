#!/usr/bin/env bash
# Measures streams of units that grow with the number of features: for 8, 16, 32 and 64 features the time and the peak of the
# program that preprocesses the unit in all configurations at once (`crates/stream_cases`), how many tokens the stream has and how
# many nodes its conditions have; and a unit of 1 MiB with 2,000 groups beside `morpheus tokens` on the same unit. Needs GNU time and
# awk. Ends with 1 where the time from 32 to 64 grows by more than 3, or the large unit takes more than 5 times as long as `tokens`.
set -eu

home=$(dirname -- "$(dirname -- "$(readlink -f -- "$0")")")
program=$home/crates/stream_cases/out/stream_cases
tokens=$home/build/morpheus
room=$(mktemp -d)
trap 'rm -rf "$room"' EXIT

# Each writes m.c for so many features: n groups that define a name each, and a line that uses all names.
own_names() {
  awk -v n="$1" 'BEGIN {
    for (i = 0; i < n; i++) printf "#ifdef F%d\n#define M%d 1\n#endif\n", i, i
    for (i = 0; i < n; i++) printf "M%d ", i
    print ""
  }'
}

# n groups that define the same name, each differently, and n uses of it
one_name() {
  awk -v n="$1" 'BEGIN {
    for (i = 0; i < n; i++) printf "#ifdef F%d\n#define M %d\n#endif\n", i, i
    for (i = 0; i < n; i++) print "M"
  }'
}

# the argument of a call that holds n names with two meanings each
argument() {
  awk -v n="$1" 'BEGIN {
    for (i = 0; i < n; i++) printf "#ifdef F%d\n#define M%d 1\n#else\n#define M%d 2\n#endif\n", i, i, i
    print "#define CALL(x) (x)"
    printf "CALL("
    for (i = 0; i < n; i++) printf "M%d ", i
    print ")"
  }'
}

# a chain of n macros, each of which has two bodies that name the next
chain() {
  awk -v n="$1" 'BEGIN {
    for (i = 0; i < n; i++) printf "#ifdef F%d\n#define M%d M%d\n#else\n#define M%d M%d\n#endif\n", i, i, i + 1, i, i + 1
    print "M0"
  }'
}

# n nested groups
nested() {
  awk -v n="$1" 'BEGIN {
    for (i = 0; i < n; i++) printf "#ifdef F%d\nint a%d;\n", i, i
    for (i = 0; i < n; i++) print "#endif"
  }'
}

# n groups with three branches each, the first of which looks at a macro too
branches() {
  awk -v n="$1" 'BEGIN {
    print "#ifdef F0\n#define N 40\n#else\n#define N 20\n#endif"
    for (i = 0; i < n; i++)
      printf "#if defined(F%d) && N > %d\nint a%d;\n#elif defined(F%d)\nint b%d;\n#else\nint c%d;\n#endif\n", i, i, i, (i + 1) % n, i, i
  }'
}

# a header of 200 lines with a guard, which is included in n groups
inclusions() {
  awk -v n="$1" 'BEGIN { for (i = 0; i < n; i++) printf "#ifdef F%d\n#include \"h.h\"\n#endif\n", i }'
}

header() {
  awk 'BEGIN {
    print "#ifndef H\n#define H"
    for (i = 0; i < 200; i++) printf "int h%d;\n", i
    print "#endif"
  }'
}

# 1 MiB with 2,000 groups
large_unit() {
  awk 'BEGIN {
    for (g = 0; g < 2000; g++) {
      printf "#ifdef F%d\n#define SIZE_%d 1\n#else\n#define SIZE_%d 2\n#endif\n", g % 64, g, g
      for (size = 0; size < 420; size += length(text) + 1) {
        text = "int value_" g "_" size "(int left, int right) { return left * SIZE_" g " + right; }"
        print text
      }
    }
  }'
}

project() {
  awk -v n="$1" 'BEGIN {
    printf "features = ["
    for (i = 0; i < n; i++) printf "\"F%d\", ", i
    print "]\nheaders = [\"h.h\"]\n[[unit]]\nfile = \"m.c\""
  }'
}

# The lowest seconds of three runs and the highest peak in KiB.
best() {
  for _ in 1 2 3; do
    /usr/bin/time -f '%e %M' -o measure "$@" >output
    cat measure
  done | awk 'NR == 1 || $1 < s { s = $1 } $2 > m { m = $2 } END { print s, m }'
}

[ -x "$program" ] || (cd "$home/crates/stream_cases" && rt run >/dev/null)
cd "$room"
header >h.h

failed=0
printf '| Unit | features | tokens | nodes | time | peak |\n|---|---|---|---|---|---|\n'
for kind in own_names one_name argument chain nested branches inclusions; do
  before=
  for n in 8 16 32 64; do
    project "$n" >p.toml
    "$kind" "$n" >m.c
    read -r seconds peak < <(best "$program" p.toml)
    read -r count nodes < <(sed -n 's/^  \([0-9]*\) tokens, \([0-9]*\) nodes$/\1 \2/p' output)
    printf '| %s | %d | %d | %d | %s s | %d MiB |\n' "$kind" "$n" "$count" "$nodes" "$seconds" $((peak / 1024))
    [ "$n" != 32 ] || before=$seconds
  done
  # (less than a hundredth of a second can't be told from nothing)
  awk -v a="$before" -v b="$seconds" 'BEGIN { exit !(b > 0.05 && b > 3 * (a > 0.01 ? a : 0.01)) }' && failed=1
done

project 64 >p.toml
large_unit >m.c
read -r all _ < <(best "$program" p.toml)
read -r one _ < <(best "$tokens" tokens p.toml m.c -)
printf '\nA unit of %d bytes with 2,000 groups: %s s in all configurations, %s s in one.\n' "$(wc -c <m.c)" "$all" "$one"
awk -v a="$all" -v b="$one" 'BEGIN { exit !(a > 5 * b) }' && failed=1
exit "$failed"
