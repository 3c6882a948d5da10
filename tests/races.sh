#!/usr/bin/env bash
# Races: targets that change after a run has scanned them, and two runs at once.
# usage: tests/races.sh [PROGRAM]
set -u
cd "$(dirname "$0")/.." || exit 1
. tests/cases.sh

# ---- targets that change after a run has scanned them and before it comes to them
# each source is large, so that none of its commits can be made before the run is stopped
large() { head -c 40000000 /dev/urandom >"$1"; }
# while_it_runs CHANGE OUT ERR WORDS..: runs the program, and calls the function CHANGE when it has scanned both replicas
while_it_runs() {
  local change=$1 want_out=$2 want_err=$3 got
  shift 3
  "$program" "$@" >out 2>err &
  child=$!
  until_plan
  holds_true "$change: the run is stopped before its commits" test -e second/.twosync/plan -a ! -e second/.twosync/new-0
  "$change"
  kill -CONT "$child"
  wait "$child"
  got=$?
  if [ "$got" = 2 ] && [ "$(cat out)" = "$want_out" ] && [ "$(cat err)" = "$want_err" ]; then
    ok
  else
    bad "$change: status $got, $(cat out), $(cat err)"
  fi
}
fresh
mkdir first/g
printf a | tee first/gone first/y >first/z
cp -r first/* second
"$program" "${sync[@]}" >/dev/null 2>&1
for name in g/a gone new z; do large "first/$name"; done
printf b >first/y
files_change() {
  rm -r second/g second/gone
  printf c >second/new
  printf d >second/z
}
while_it_runs files_change 'failed first /g/a
failed first /gone
failed first /new
done first /y
failed first /z
total 5 done 1 skipped 0 failed 4 blocked 0' 'twosync: fault 8 /g/a
twosync: fault 14 /gone
twosync: fault 14 /new
twosync: fault 14 /z' "${sync[@]}"
holds_true 'targets that went stay away' test ! -e second/gone -a ! -e second/g
holds_true 'a target that came stays' test "$(cat second/new)" = c
holds_true 'a target that changed stays' test "$(cat second/z)" = d
holds_true 'the other target is replaced' test "$(cat second/y)" = b
holds_true 'nothing is left of refused commits' test -z "$(left_in first second)"
expect 'the archive without failed entries' 0 "d /g
f /gone 1 $SA
f /y 1 $SB
f /z 1 $SA" '' show archive
expect 'the next run' 1 'skip conflict /g
skip conflict /gone
skip conflict /new
skip conflict /z
total 4 done 0 skipped 4 failed 0 blocked 0' '' "${sync[@]}"

fresh
mkdir first/d first/k
printf a | tee first/d/x first/f first/k/x >first/l
cp -r first/* second
"$program" "${sync[@]}" >/dev/null 2>&1
rm -r first/d
for name in d f k/x l; do large "first/$name"; done
"$program" plan first second archive >plan
kinds_change() {
  printf b >second/d/y
  rm second/f second/l
  mkdir second/f
  mv second/k elsewhere
  ln -s ../elsewhere second/k
  ln -s ../archive second/l
}
while_it_runs kinds_change 'failed first /d
failed first /f
failed first /k/x
failed first /l
total 4 done 0 skipped 0 failed 4 blocked 0' 'twosync: fault 14 /d
twosync: fault 14 /f
twosync: fault 14 /k/x
twosync: fault 14 /l' run first second archive plan
holds_true 'a folder that grew stays' test "$(cat second/d/x second/d/y)" = ab
holds_true 'a folder that became a link is not entered' test "$(cat elsewhere/x)" = a
holds_true 'a file that became a folder stays' test -d second/f
holds_true 'a file that became a link stays' test "$(readlink second/l)" = ../archive
holds_true 'where it leads to' test "$(head -n 1 archive)" = 'twosync-archive 1'

# one byte of a large target changes, at its beginning, in its middle or at its end, and its length and its time stay
for offset in 0 65536 131071 199999; do
  fresh
  head -c 200000 /dev/zero | tee first/a >second/a
  "$program" "${sync[@]}" >/dev/null 2>&1
  large first/a
  byte_changes() {
    touch -r second/a stamp
    printf x | dd of=second/a bs=1 seek="$offset" conv=notrunc status=none
    touch -r stamp second/a
    cp second/a wanted
  }
  while_it_runs byte_changes $'failed first /a\ntotal 1 done 0 skipped 0 failed 1 blocked 0' 'twosync: fault 14 /a' "${sync[@]}"
  holds_true "a target that changed at $offset stays" cmp -s second/a wanted
done

# a commit whose bytes don't fit is reported as such, whatever became of its target
fresh
large first/a
both_change() {
  large first/a
  printf b >second/a
}
while_it_runs both_change 'failed first /a
total 1 done 0 skipped 0 failed 1 blocked 0' 'twosync: fault 15 /a' "${sync[@]}"
holds_true 'what came in its place stays' test "$(cat second/a)" = b

# ---- files and folders that come and go while they are scanned refuse hardly a run
fresh
mkdir first/d first/d/e
seq -f 'first/d/%.0f' 200 | xargs touch
printf a >first/a
come_and_go() {
  while [ ! -e stop ]; do
    for name in x d/x d/e/x; do
      printf x >"first/$name"
      rm "first/$name"
      mkdir "first/$name"
      rmdir "first/$name"
    done
  done
}
come_and_go &
child=$!
refused=0
for _ in $(seq 60); do
  "$program" scan first >scanned 2>err || {
    refused=$((refused + 1))
    cat err
  }
  grep -qx "f /a 1 $SA" scanned || refused=$((refused + 1))
done
: >stop
wait "$child"
rm stop scanned
# A child is looked up again ten times. On a busy machine each of these may come too late, once in a while.
holds_true "files that come and go refuse hardly a scan: $refused of 60" test "$refused" -le 2

# ---- two runs at once
fresh
for k in 1 2 3 4 5 6 7 8; do head -c 30000000 /dev/urandom >"first/f$k"; done
"$program" "${sync[@]}" >theirs 2>&1 &
child=$!
until_plan
mkdir third
expect 'a second run' 3 '' 'twosync: fault 8' "${sync[@]}"
expect 'a second run with another replica' 3 '' 'twosync: fault 8' sync third second other
holds_true 'the first run keeps its locks' test -e first/.twosync/lock -a -e second/.twosync/lock
holds_true 'the second run gives up its own' test ! -e third/.twosync/lock
kill -CONT $child
wait $child
got=$?
if [ "$got" = 0 ] && [ "$(tail -n 1 theirs)" = 'total 8 done 8 skipped 0 failed 0 blocked 0' ]; then
  ok
else
  bad "the first run: status $got"
fi
alike 'two runs'

ended races
