#!/usr/bin/env bash
# Measures `morpheus run` on nested loops with calls, on an array of 100,000 elements, on calls within
# calls, on units of 25,000 to 100,000 statements, and on units with long lists and long texts, beside the same programs built by
# `gcc -O0`, and prints a table. The outputs are compared. Needs GNU time, awk and gcc. Ends with 1 where a bar is missed or the
# two disagree.
set -eu

home=$(dirname -- "$(dirname -- "$(readlink -f -- "$0")")")
program=$home/build/morpheus
room=$(mktemp -d)
trap 'rm -rf "$room"' EXIT

# Nested loops, with a call in each of the given number of turns (times 1,000).
calls() {
  cat <<END
#include <stdio.h>
int sum;
int added(int a, int b) { return (a + b) % 9973; }
int main(void) {
  int i;
  int j;
  for (i = 0; i < $1; i++)
    for (j = 0; j < 1000; j++)
      sum = added(sum, i + j);
  putchar('0' + sum % 10);
  putchar('\n');
  return 0;
}
END
}

# An array of 100,000 elements is filled, and then summed the given number of times.
array() {
  cat <<END
#include <stdio.h>
int element[100000];
int main(void) {
  int i;
  int turn;
  int sum = 0;
  for (i = 0; i < 100000; i++)
    element[i] = i % 97;
  for (turn = 0; turn < $1; turn++)
    for (i = 0; i < 100000; i++)
      sum = (sum + element[i]) % 9973;
  putchar('0' + sum % 10);
  putchar('\n');
  return 0;
}
END
}

# Calls that nest so deep.
nested() {
  cat <<END
#include <stdio.h>
int depth(int left) {
  if (left == 0)
    return 0;
  return 1 + depth(left - 1);
}
int main(void) {
  putchar('0' + depth($1) % 10);
  putchar('\\n');
  return 0;
}
END
}

# So many statements in functions of 1,000 each.
statements() {
  awk -v most="$1" '
    BEGIN {
      print "#include <stdio.h>"
      print "int total;"
      for (f = 0; f < most / 1000; f++) {
        print "void step_" f "(int by) {"
        for (i = 0; i < 1000; i++)
          print "  total = (total + by * " (i % 7 + 1) ") % 9973;"
        print "}"
      }
      print "int main(void) {"
      for (f = 0; f < most / 1000; f++)
        print "  step_" f "(" f % 5 ");"
      print "  putchar(48 + total % 10);"
      print "  putchar(10);"
      print "  return 0;"
      print "}"
    }'
}

# So many parts in each kind of list: declarators at file scope, in a struct and in a block, and items of each.
lists() {
  awk -v most="$1" '
    function names(name,  i) { for (i = 1; i <= most; i++) printf("%s%s%d", (i > 1 ? ", " : "int "), name, i); print ";" }
    function items(name,  i) { for (i = 1; i <= most; i++) print "int " name i ";" }
    BEGIN {
      names("listed")
      items("item")
      print "struct by_list {"; names("member"); print "};"
      print "struct by_items {"; items("member"); print "};"
      print "int main(void) {"; names("local"); items("inner"); print "return 0; }"
    }'
}

# Structs that are defined and used, so many of them.
structs() {
  awk -v most="$1" 'BEGIN {
    for (i = 1; i <= most; i++) print "struct s" i " { int member; }; struct s" i " object" i ";"
    print "int main(void) { return 0; }" }'
}

# Texts of so many bytes: alone, as a member, and as many texts together.
texts() {
  awk -v most="$1" '
    function text(size,  t) { t = "x"; while (length(t) < size - 1) t = t t; return "\"" substr(t, 1, size - 1) "\"" }
    BEGIN {
      print "char alone[" most "] = " text(most) ";"
      print "struct s { int number; char text[" most "]; };"
      print "struct s inside = { 1, " text(most) " };"
      print "struct line { char text[4096]; };"
      printf "struct line many[" most / 4096 "] = { "
      for (i = 0; i < most / 4096; i++) printf("%s{ %s }", (i > 0 ? ",\n" : ""), text(4096))
      print "};"
      print "int main(void) { return 0; }"
    }'
}

# The lowest seconds of three runs, and the largest peak in MiB; the output stays in the file `output`.
best() {
  for _ in 1 2 3; do
    /usr/bin/time -f '%e %M' -o measure "$@" >output
    cat measure
  done | awk 'NR == 1 || $1 < s { s = $1 } $2 > m { m = $2 } END { print s, int(m / 1024) }'
}

"$home/morpheus" --version
"$home/morpheus" >/dev/null || [ $? = 2 ]
cd "$room"
printf '[[unit]]\nfile = "m.c"\n' >p.toml

# Runs the unit m.c by both, and prints a row with what it counts. The seconds are kept in `ours`.
row() {
  local name=$1 count=$2 peak theirs
  read -r ours peak < <(best "$program" run p.toml - 1000000 -)
  mv output own
  gcc -O0 -w -o built m.c
  read -r theirs _ < <(best ./built)
  printf '\nended 0\n' >>output
  cmp -s output own || { failed=1; echo "the two differ on $name"; }
  awk -v name="$name" -v count="$count" -v ours="$ours" -v peak="$peak" -v theirs="$theirs" 'BEGIN {
    printf "| %s | %.2f s | %d | %d MiB | %.2f s |\n", name, ours, count / (ours > 0.01 ? ours : 0.01), peak, theirs }'
}

# Whether the time grew by at most so much.
grew() {
  awk -v name="$1" -v first="$2" -v last="$3" -v most="$4" 'BEGIN {
    growth = last / (first > 0.01 ? first : 0.01)
    printf "%s: the time grows by %.1f (at most %d).\n", name, growth, most >"/dev/stderr"
    exit !(growth <= most) }' || failed=1
}

failed=0
printf '| Program | `run` | a second | peak | built by `gcc -O0` |\n|---|---|---|---|---|\n'
calls 100 >m.c
row '10^5 turns with calls' 100000
first=$ours
calls 1000 >m.c
row '10^6 turns with calls' 1000000
grew 'From 10^5 to 10^6 turns with calls' "$first" "$ours" 12
array 1 >m.c
row 'an array of 10^5 elements, filled and summed' 200000
first=$ours
array 19 >m.c
row 'the same, summed 19 times' 2000000
grew 'From 2 to 20 passes over an array' "$first" "$ours" 12
nested 50000 >m.c
row '50,000 calls within each other' 50000
statements 25000 >m.c
row '25,000 statements, each run once' 25000
first=$ours
statements 100000 >m.c
row '100,000 statements, each run once' 100000
grew 'From 25,000 to 100,000 statements' "$first" "$ours" 6
lists 5000 >m.c
row 'lists of 5,000 parts' 30000
first=$ours
lists 20000 >m.c
row 'lists of 20,000 parts' 120000
grew 'From lists of 5,000 to 20,000 parts' "$first" "$ours" 6
structs 2500 >m.c
row '2,500 structs' 2500
first=$ours
structs 10000 >m.c
row '10,000 structs' 10000
grew 'From 2,500 to 10,000 structs' "$first" "$ours" 6
texts 65536 >m.c
row 'texts of 3 times 64 KiB' 196608
first=$ours
texts 262144 >m.c
row 'texts of 3 times 256 KiB' 786432
grew 'From texts of 64 to 256 KiB' "$first" "$ours" 6
exit "$failed"
