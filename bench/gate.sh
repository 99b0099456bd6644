#!/usr/bin/env bash
# Runs the whole gate from nothing on a clone of what is committed, and prints what it costs: by
# crate the processor seconds of its proof, of the second proof that its must-fail edits begin with,
# of the edits and of its tests, and the sums for 1,000 lines of src; then, for the dearest crates, the
# base of a check: of one that proves no function. Ends with 1 where the gate is not green or a bar is
# missed. Takes as long as the gate; nothing else should run meanwhile. What is shown by crate is
# sampled each second, and leaves out what copies of the prover took that lived for less; the sum of all
# is exact.
#
#   bench/gate.sh           the gate from nothing
#   bench/gate.sh --kept    with what earlier runs on this machine have passed taken over
set -u

readonly MOST_MINUTES=80 MOST_PROCESSOR_MINUTES=300 MOST_PROOF=180
readonly MOST_FOR_1000_LINES=5 MOST_BASE=15
# the bases of crates whose proofs take less than these processor seconds aren't measured
readonly LEAST_PROOF=60

home=$(dirname -- "$(dirname -- "$(readlink -f -- "$0")")")
room=$(mktemp -d)
trap 'rm -rf "$room"' EXIT
ticks=$(getconf CLK_TCK)

git clone -q "$home" "$room/clone" || exit 1
mkdir "$room/calls"
words=(--anew)
[ "${1-}" = --kept ] && words=()

# What a process of the prover works at, by the words that rt gives it: the seed of a crate's edits,
# an edit (over the seed, or from nothing in a folder of its own), tests, or the proof.
stage() {
  case " $1 " in
    *rt-edits-*/seed\ *) echo second ;;
    *rt-edits-*) echo edits ;;
    *' --test '*) echo tests ;;
    *) case $2 in */rt-edit-*) echo edits ;; *) echo proof ;; esac ;;
  esac
}

# Whether a process is one that the gate began.
is_begun_by_gate() {
  local pid=$1 stat rest
  while [ "$pid" -gt 1 ]; do
    [ "$pid" = "$gate" ] && return 0
    read -r stat 2>/dev/null <"/proc/$pid/stat" || return 1
    rest=(${stat##*) })
    pid=${rest[1]}
  done
  return 1
}

# Notes how a crate is proved.
note_call() {
  printf '%s\0' "${words[@]}" >"$room/calls/$1"
}

# Prints the processor seconds of a check of a crate that proves no function.
base_of() {
  local words word checked=() is_place=0
  mapfile -d '' -t words <"$room/calls/$1"
  for word in "${words[@]:2}"; do
    case $is_place$word in
      0-o) is_place=1 ;;
      0--statements | 0--empty-contracts) ;;
      0*) checked+=("$word") ;;
      *) is_place=0 ;;
    esac
  done
  (
    cd "$room/clone/crates/$1" && "${words[0]}" check "${checked[@]}" --only '' >"$room/base" 2>&1
    times >"$room/base_times"
  )
  awk 'NR == 2 { for (i = 1; i <= 2; i++) { split($i, t, /[ms]/); s += 60 * t[1] + t[2] } } END { printf "%.1f", s }' "$room/base_times"
}

# Adds up the processor time of each process of the prover, as often as it can be read.
declare -A spent task
sample() {
  local pid stat rest words folder crate
  for pid in $(pgrep -x "rattle|antt-kernel" 2>/dev/null); do
    read -r stat 2>/dev/null <"/proc/$pid/stat" || continue
    if [ -z "${task[$pid]-}" ]; then
      is_begun_by_gate "$pid" || continue
      mapfile -d '' -t words 2>/dev/null <"/proc/$pid/cmdline" || continue
      folder=$(readlink "/proc/$pid/cwd")
      crate=$(printf '%s\n' "${words[@]}" | sed -n '/^--crate-name$/{n;p;q}')
      [ -n "$crate" ] || continue
      task[$pid]="$crate $(stage "${words[*]}" "$folder")"
      case "${task[$pid]} ${words[*]}" in "$crate proof "*' --statements '* | "$crate proof "*' check '*) note_call "$crate" ;; esac
    fi
    rest=(${stat##*) })
    spent[$pid]=$((rest[11] + rest[12]))
  done
}

begun=$SECONDS
(cd "$room/clone" && exec rt ci "${words[@]}") >"$room/log" 2>&1 </dev/null &
gate=$!
while kill -0 "$gate" 2>/dev/null; do
  sample
  sleep 1
done
wait "$gate"
status=$?
minutes=$(((SECONDS - begun + 59) / 60))
# user and system time of the children that ended, all processes of the gate among them
times >"$room/times"
total=$(awk 'NR == 2 { for (i = 1; i <= 2; i++) { split($i, t, /[ms]/); s += 60 * t[1] + t[2] } } END { printf "%d", s / 60 }' "$room/times")

for pid in "${!spent[@]}"; do
  printf '%s %d\n' "${task[$pid]}" "${spent[$pid]}"
done >"$room/spent"
while read -r crate; do
  printf '%s lines %d\n' "$crate" "$(cat "$room/clone/crates/$crate"/src/*.rt | wc -l)"
done < <(sed -n 's/^\([a-z][a-z0-9_]*\):.*/\1/p' "$room/clone/crates.txt") >>"$room/spent"

awk -v ticks="$ticks" -v dearest="$MOST_PROOF" -v bar="$MOST_FOR_1000_LINES" '
  $2 == "lines" { lines[$1] = $3; all_lines += $3; next }
  { seconds[$1, $2] += $3 / ticks; sum[$2] += $3 / ticks; of[$1] += $3 / ticks; all += $3 / ticks; seen[$1] }
  END {
    printf "| Crate | lines of src | proof | second proof | edits | tests | all, s | min for 1,000 lines |\n|---|---|---|---|---|---|---|---|\n"
    for (c in lines)
      printf "| `%s` | %d | %.0f | %.0f | %.0f | %.0f | %.0f | %.1f |\n", c, lines[c], seconds[c, "proof"], seconds[c, "second"],
        seconds[c, "edits"], seconds[c, "tests"], of[c], lines[c] ? of[c] / 60 / lines[c] * 1000 : 0 | "sort -t\"|\" -k8,8nr"
    close("sort -t\"|\" -k8,8nr")
    for (c in lines) if (seconds[c, "proof"] > dearest) { printf "\nThe proof of %s takes more than %d s.\n", c, dearest; missed = 1 }
    printf "\nAll, in processor minutes: proofs %.0f, second proofs %.0f, edits %.0f, tests %.0f; %.1f for 1,000 lines of src (at most %d).\n",
      sum["proof"] / 60, sum["second"] / 60, sum["edits"] / 60, sum["tests"] / 60, all / 60 / all_lines * 1000, bar
    exit missed || all / 60 / all_lines * 1000 > bar
  }' "$room/spent"
missed=$?

# the dearest proofs first
printf '\n| Crate | base, s |\n|---|---|\n'
for crate in $(awk -v ticks="$ticks" -v least="$LEAST_PROOF" '$2 == "proof" { s[$1] += $3 / ticks } END { for (c in s) if (s[c] >= least) printf "%d %s\n", s[c], c }' "$room/spent" | sort -nr | cut -d ' ' -f 2); do
  [ -e "$room/calls/$crate" ] || continue
  base=$(base_of "$crate")
  printf '| `%s` | %s |\n' "$crate" "$base"
  awk -v base="$base" -v most="$MOST_BASE" 'BEGIN { exit base > most }' || missed=1
done

tail -n 1 "$room/log"
printf 'The gate took %d min (at most %d) and %d processor minutes (at most %d) on %d processors.\n' \
  "$minutes" "$MOST_MINUTES" "$total" "$MOST_PROCESSOR_MINUTES" "$(nproc)"
[ "$status" = 0 ] && [ "$missed" = 0 ] && [ "$minutes" -le "$MOST_MINUTES" ] && [ "$total" -le "$MOST_PROCESSOR_MINUTES" ]
