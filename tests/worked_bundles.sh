#!/usr/bin/env bash
# Runs the built program on every worked bundle, as a user would, with 1, 2 and 64 workers, and compares what it writes and its
# status.
# usage: tests/worked_bundles.sh [PROGRAM]
set -u
cd "$(dirname "$0")/.." || exit 1
. tests/program.sh
. tests/counts.sh
program=$(program_of twosync "${1:-}") || exit 1
bundles=tests/worked_bundles
# The versions of texts that the program knows. Bundles of others are malformed to it.
known=plan_1
work=$(mktemp -d)
trap 'rm -rf "$work"' EXIT

# the file NAME.ENDING, unpacked
part() { if [ -f "$bundles/$1" ]; then cat "$bundles/$1"; else gzip -dc "$bundles/$1.gz"; fi; }

while IFS=$'\t' read -r name level status size title; do
  part "$name.in" >"$work/in"
  if [[ " $known " == *" $level "* ]]; then part "$name.out" >"$work/want"; else echo malformed >"$work/want"; status=3; fi
  for workers in 1 2 64; do
    "$program" trial --workers "$workers" <"$work/in" >"$work/got" 2>"$work/err"
    got=$?
    if [ "$got" = "$status" ] && cmp -s "$work/got" "$work/want" && [ ! -s "$work/err" ]; then
      ok
    else
      bad "$name ($title), $workers workers: status $got, wanted $status"
      head -c 300 "$work/err"
      diff "$work/want" "$work/got" | head -n 5
    fi
  done
done <"$bundles/index.tsv"
ended 'worked bundles'
