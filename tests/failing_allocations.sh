#!/usr/bin/env bash
# Runs the built program on a few worked bundles with each of its allocations refused in turn. Each run has to write the
# bundle's whole answer, or a beginning of it with `twosync: fault 1` and status 3. There is one worker, so that each number
# is the same allocation in every run.
# usage: tests/failing_allocations.sh [PROGRAM]
set -u
cd "$(dirname "$0")/.." || exit 1
. tests/program.sh
. tests/counts.sh
program=$(program_of twosync "${1:-}") || exit 1
bundles=tests/worked_bundles
work=$(mktemp -d)
trap 'rm -rf "$work"' EXIT
${CC:-cc} -O1 -shared -fPIC -o "$work/refuse.so" tests/failing_allocations.c -ldl || exit 1

for name in copy_new_file new_directory_on_both_sides chain_through_all_actions; do
  want=$bundles/$name.out
  number=0
  good=1
  # No bundle here needs 100,000 allocations; the run that meets no refusal ends the series.
  touch "$work/refused"
  while [ -e "$work/refused" ] && [ "$number" -lt 100000 ]; do
    number=$((number + 1))
    rm "$work/refused"
    LD_PRELOAD=$work/refuse.so FAIL_ALLOCATION=$number ALLOCATION_REFUSED=$work/refused \
      "$program" trial --workers 1 <"$bundles/$name.in" >"$work/got" 2>"$work/err"
    status=$?
    if [ "$status" = 0 ] && cmp -s "$work/got" "$want" && [ ! -s "$work/err" ]; then continue; fi
    if [ "$status" = 3 ] && [ "$(cat "$work/err")" = 'twosync: fault 1' ] &&
      cmp -s -n "$(stat -c %s "$work/got")" "$work/got" "$want"; then continue; fi
    good=0
    echo "FAILED: $name, allocation $number: status $status, $(head -c 200 "$work/err")"
  done
  # The last run met no refusal, so it gave the whole answer; one allocation at least was refused before.
  if [ "$good" = 1 ] && [ ! -e "$work/refused" ] && [ "$status" = 0 ] && [ "$number" -gt 1 ]; then
    ok
    echo "$name: $((number - 1)) allocations refused in turn"
  else
    bad "$name, $number allocations"
  fi
done
ended 'failing allocations'
