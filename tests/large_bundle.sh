#!/usr/bin/env bash
# Runs the built program on a bundle of 20,000 entries, or as many as are asked for, and compares what it writes with
# what the rules say: the first replica's new files are copied, and the archive has them. Then it looks whether several
# threads check such a plan: one worker carries out in the thread that it is called in, so that threads come from the checker. For
# a small plan it begins none.
# usage: tests/large_bundle.sh [ENTRIES] [PROGRAM]
set -u
cd "$(dirname "$0")/.." || exit 1
entries=${1:-20000}
. tests/program.sh
. tests/counts.sh
program=$(program_of twosync "${2:-}") || exit 1
work=$(mktemp -d)
trap 'rm -rf "$work"' EXIT

# the byte `a` and its SHA-256
byte=61
digest=ca978112ca1bbdcafac231b39a23dc4da786eff8147c4e72b9807785afee48bb

tree() { awk -v n="$entries" -v x="$byte" 'BEGIN { for (i = 0; i < n; i++) printf "f /file%07d 1\nx %s\n", i, x }'; }
{
  printf 'twosync-bundle 1\narchive\nfirst\n'
  tree
  printf 'second\nholds\nplan\ntwosync-plan 1\n'
  awk -v n="$entries" 'BEGIN {
    for (i = 0; i < n; i++) printf "entry first /file%07d\n", i
    for (i = 0; i < n; i++) printf "piece %d 0 1 /file%07d\ncommit %d\np %d\nmark %d\np %d\n", i, i, i, 3 * i, i, 3 * i + 1
    printf "end %d %d\n", n, 3 * n
  }'
} >"$work/in"
{
  printf 'first\n'
  tree
  printf 'second\n'
  tree
  printf 'archive\n'
  awk -v n="$entries" -v d="$digest" 'BEGIN { for (i = 0; i < n; i++) printf "f /file%07d 1 %s\n", i, d }'
  printf 'report\n'
  awk -v n="$entries" 'BEGIN {
    for (i = 0; i < n; i++) printf "done first /file%07d\n", i
    printf "total %d done %d skipped 0 failed 0 blocked 0\n", n, n
  }'
} >"$work/want"

# note STATUS WHAT: it is well where the status is 0
note() { if [ "$1" = 0 ]; then ok; else bad "$2"; fi; }

"$program" trial <"$work/in" >"$work/got"
status=$?
[ "$status" = 0 ] && cmp -s "$work/got" "$work/want"
note $? "a bundle of $entries entries: status $status, $(diff "$work/want" "$work/got" | head -n 5)"

# how many threads a trial by one worker begins
threads() { strace -f -qq -e trace=clone,clone3 -o "$work/calls" "$program" trial --workers 1 <"$1" >"$work/got" && grep -c 'clone' "$work/calls"; }
begun=$(threads "$work/in")
[ "$(nproc)" = 1 ] || [ "$begun" -gt 0 ]
note $? "$begun threads for a plan of $((3 * entries)) actions, of $(nproc) processors"
begun=$(threads tests/worked_bundles/copy_new_file.in)
[ "$begun" = 0 ]
note $? "$begun threads for a plan of three actions"

ended 'large bundle'
