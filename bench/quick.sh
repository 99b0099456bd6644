#!/usr/bin/env bash
# Measures `morpheus quick` on files of 1, 4 and 16 MiB beside sed, and prints a table.
# Needs GNU time, awk and sed. Ends with 1 where a bar is missed.
set -eu

home=$(dirname -- "$(dirname -- "$(readlink -f -- "$0")")")
program=$home/build/morpheus
room=$(mktemp -d)
trap 'rm -rf "$room"' EXIT

# Writes a file of the quick form with at most the given number of bytes: declarations, then
# statements in groups, most of which speak of the name `counter`.
generate() {
  awk -v most="$1" '
    function put(text) { printf "%s\n", text; size += length(text) + 1 }
    BEGIN {
      put("int counter = 0;")
      for (i = 0; size < most / 2 - 200; i++) {
        group = (i % 8 == 0)
        if (group) put("#ifdef FEATURE_" (i % 128))
        put("int value_" i " = " i ";")
        if (group) { put("#else"); put("int value_" i " = 0;"); put("#endif") }
      }
      put("int main(void) {")
      for (j = 0; size < most - 300; j++) {
        group = (j % 8 == 0)
        if (group) put("#ifdef FEATURE_" (j % 128))
        put("  counter = counter + value_" (j % i) " - " (j % 1000) ";")
        if (group) { put("#else"); put("  putchar(counter + 48);"); put("#endif") }
      }
      put("  return 0;")
      put("}")
    }'
}

# Runs the words, and prints their seconds and their most kilobytes of memory.
measure() {
  /usr/bin/time -f '%e %M' -o "$room/measure" "$@" >"$room/output"
  cat "$room/measure"
}

# The lower of each of three runs.
best() {
  for _ in 1 2 3; do measure "$@"; done |
    awk 'NR == 1 || $1 < s { s = $1 } NR == 1 || $2 < m { m = $2 } END { print s, m }'
}

"$home/morpheus" --version
"$home/morpheus" >/dev/null || [ $? = 2 ]
cd "$room"
printf '| File | quick | peak | sed | peak | quick to sed |\n|---|---|---|---|---|---|\n'
rows=''
for mib in 1 4 16; do
  generate $((mib * 1048576)) >q.c
  read -r seconds memory < <(best "$program" quick q.c counter total out)
  read -r sed_seconds sed_memory < <(best sed 's/\<counter\>/total/g' q.c)
  sed 's/\<counter\>/total/g' q.c | cmp - out/q.c
  row="$mib $seconds $memory $sed_seconds $sed_memory"
  rows="$rows$row
"
  awk '{ printf "| %d MiB | %.2f s | %.0f MiB | %.2f s | %.0f MiB | %.1f |\n",
         $1, $2, $3 / 1024, $4, $5 / 1024, $2 / ($4 > 0.01 ? $4 : 0.01) }' <<<"$row"
done
printf '%s' "$rows" | awk '
  { time[$1] = $2; memory[$1] = $3; sed[$1] = $4 }
  END {
    growth = time[16] / (time[4] > 0.01 ? time[4] : 0.01)
    peak = memory[16] / 1024
    beside = time[16] / (sed[16] > 0.01 ? sed[16] : 0.01)
    printf "\nFrom 4 to 16 MiB the time grows by %.1f (at most 5), the memory by %.1f.\n", growth, memory[16] / memory[4]
    printf "The peak at 16 MiB is %.0f MiB (below 256).\n", peak
    printf "The time at 16 MiB is %.1f times that of sed (at most 20).\n", beside
    exit !(growth <= 5 && peak < 256 && beside <= 20)
  }'
