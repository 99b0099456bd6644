# shellcheck shell=bash
# How scripts measure a program, which they name in `program`. Sourced by them.

# The lowest processor seconds of up to three runs of the program with the given words, which other work on the machine changes little, and
# their highest peak in KiB; the answer is left in the file output. The folder out is empty before each run. A run is stopped after so many
# seconds, and one of ten or more isn't made again.
#   best SECONDS WORD..
best() {
  local most=$1
  shift
  for _ in 1 2 3; do
    rm -rf out
    mkdir out
    /usr/bin/time -f '%U %S %M' -o measure timeout "$most" "$program" "$@" >output || true
    tail -n 1 measure
    [ -s output ] && tail -n 1 measure | awk '$1 + $2 < 10 { fast = 1 } END { exit !fast }' || break
  done | awk 'NR == 1 || $1 + $2 < s { s = $1 + $2 } $3 > m { m = $3 } END { print s, m }'
}
