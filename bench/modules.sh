#!/usr/bin/env bash
# Prints the modules of a crate's proof that took longest, by the seconds before the check kept each: generated
# modules of its functions, and files of specs/ and proofs/. To be run after `rt check --jobs 1` from nothing
# in the crate's folder; with more jobs the seconds of modules that are checked at the same time are mixed.
#
#   bench/modules.sh CRATE [COUNT]
set -eu

readonly kept="$(dirname -- "$(dirname -- "$(readlink -f -- "$0")")")/crates/$1/out/incremental"

find "$kept" -type f -name '*.oantt' -printf '%T@ %f\n' | sort -n |
  awk 'NR > 1 { printf "%.2f %s\n", $1 - before, $2 } { before = $1 }' |
  sed "s/Rattle-$1-//; s/\.decls\.oantt$//; s/\.oantt$//" |
  awk '{ seconds[$2] += $1 } END { for (name in seconds) printf "%8.2f %s\n", seconds[name], name }' |
  sort -rn | sed "${2:-30}q"
