#!/usr/bin/env bash
# Recovery: what the next run makes of what a stopped run has left, and of what lies in .twosync and comes of no run.
# usage: tests/recovery.sh [PROGRAM]
set -u
cd "$(dirname "$0")/.." || exit 1
. tests/cases.sh

one='total 1 done 1 skipped 0 failed 0 blocked 0'

# ---- recovery: a run was stopped between the two renames of a swap, or when the old file was on its way back: then it has
# both names; a plan carried by hand recovers, too
for when in 'between the renames' 'on the way back'; do
  for words in 'sync first second archive' 'run first second archive plan'; do
    fresh
    printf a >second/a
    mkdir first/a
    printf b >first/a/b
    archive_of "f /a 1 $SA" >archive
    mkdir first/.twosync second/.twosync
    tee first/.twosync/plan plan >second/.twosync/plan <<'P'
twosync-plan 1
entry first /a
piece 0 0 1 /a/b
commit 0
p 0
mark 0
p 1
end 1 3
P
    ln second/a second/.twosync/old-0
    [ "$when" = 'on the way back' ] || rm second/a
    mkdir second/.twosync/new-0
    # shellcheck disable=SC2086
    expect "recovery, $when: $words" 0 $'done first /a\n'"$one" '' $words
    alike "recovery, $when: $words"
    holds_true "recovery, $when: $words: the change" test "$(cat second/a/b)" = b
    archive_of "d /a
f /a/b 1 $SB" >wanted
    holds_true "recovery, $when: $words: the archive" cmp -s archive wanted
  done
done

# ---- a spot has its entry's number, which isn't that of its commit where an entry before it has none
# stopped_at NUMBER KIND: /c is a conflict, and /f was replaced or deleted in the first replica; the swap of /f was stopped
# when the old file was at the spot of this number. After a deletion that is the only spot.
stopped_at() {
  fresh
  printf a | tee first/c first/f >second/f
  archive_of "f /c 1 $SA
f /f 1 $SA" >archive
  printf b | tee first/c >first/f
  mkdir -m 700 first/.twosync second/.twosync
  mv second/f "second/.twosync/old-$1"
  if [ "$2" = deleted ]; then rm first/f; else printf x >"second/.twosync/new-$1"; fi
  {
    printf 'twosync-plan 1\nentry conflict /c\nentry first /f\n'
    case $2 in
    replaced) printf 'piece 1 0 1 /f\ncommit 1\np 0\nmark 1\np 1\nend 2 3\n' ;;
    deleted) printf 'commit 1\nmark 1\np 0\nend 2 2\n' ;;
    esac
  } | tee first/.twosync/plan >second/.twosync/plan
}
for kind in replaced deleted; do
  stopped_at 1 $kind
  done=first
  [ $kind = replaced ] || done=same
  expect "the second entry, $kind" 1 $'skip conflict /c\n'"done $done /f"$'\ntotal 2 done 1 skipped 1 failed 0 blocked 0' '' "${sync[@]}"
  if [ $kind = replaced ]; then
    holds_true 'the second entry, replaced: the change' test "$(cat second/f)" = b
  else
    holds_true 'the second entry, deleted: it is gone' test ! -e second/f
  fi
  holds_true "the second entry, $kind: the conflict" test ! -e second/c -a "$(cat first/c)" = b
  holds_true "the second entry, $kind: nothing is left" test -z "$(left_in first second)"
  stopped_at 0 $kind
  refused "the number of the commit, $kind" 8 "${sync[@]}"
done

# ---- one swap that can't be ended doesn't keep the others from it, before it and after it
for gone in /away/a /gone/a; do
  fresh
  printf b >first/f
  archive_of "f /f 1 $SA" >archive
  make_known archive first second
  printf 'entry first %s\n' "$gone" /f | LC_ALL=C sort >entries
  { echo 'twosync-plan 1' && cat entries && echo 'end 2 0'; } >second/.twosync/plan
  for number in 0 1; do
    printf n >"second/.twosync/new-$number"
    printf a >"second/.twosync/old-$number"
  done
  expect "beside $gone, which has no folder" 0 $'done first /f\n'"$one" \
    "twosync: kept $gone as second/.twosync/left-0" "${sync[@]}"
  holds_true "beside $gone, which has no folder: the other one" test "$(cat second/f)" = b
  holds_true "beside $gone, which has no folder: it is kept" \
    test "$(left_in second)" = left-0 -a "$(cat second/.twosync/left-0)" = a
done

# ---- other leftovers
fresh
printf a >first/a
mkdir second/.twosync
printf 'twosync-pl' >second/.twosync/plan
expect 'a plan file that was cut' 0 $'done first /a\ntotal 1 done 1 skipped 0 failed 0 blocked 0' '' "${sync[@]}"
alike 'a plan file that was cut'

fresh
printf a >first/a
mkdir -p second/.twosync/new-0
printf 'twosync-plan 1\nentry first /gone/a\nend 1 0\n' >second/.twosync/plan
expect 'recovery where the folder above is gone' 0 $'done first /a\ntotal 1 done 1 skipped 0 failed 0 blocked 0' '' "${sync[@]}"
alike 'recovery where the folder above is gone'

# stopped_at_gone FROM TO: a swap in the replica TO was stopped, and the folder that its target stood in is gone
stopped_at_gone() {
  fresh
  printf a >"$1/a"
  mkdir "$2/.twosync"
  printf n >"$2/.twosync/new-0"
  printf o >"$2/.twosync/old-0"
  printf 'twosync-plan 1\nentry %s /gone/a\nend 1 0\n' "$1" >"$2/.twosync/plan"
}
kept='twosync: kept /gone/a as second/.twosync/left-0'
stopped_at_gone first second
expect 'recovery where the original has no folder to go back to' 0 $'done first /a\ntotal 1 done 1 skipped 0 failed 0 blocked 0' "$kept" "${sync[@]}"
holds_true 'the original is kept' test "$(cat second/.twosync/left-0)" = o
expect 'the run after it' 0 'total 0 done 0 skipped 0 failed 0 blocked 0' '' "${sync[@]}"
holds_true 'the original is still kept, and nothing else' test "$(left_in second)" = left-0
stopped_at_gone first second
"$program" "${sync[@]}" >out 2>/dev/full
status=$?
: >err
answered 'no room to say what is kept' 2 $'done first /a\ntotal 1 done 1 skipped 0 failed 0 blocked 0' '' "$status"
holds_true 'it is kept, and the run was made' test "$(cat second/.twosync/left-0)" = o -a -e second/a -a -e archive
stopped_at_gone first second
mkfifo first/p
expect 'a refusal after recovery says what is kept' 3 '' "$kept"$'\ntwosync: fault 10' "${sync[@]}"
holds_true 'and it is kept' test "$(cat second/.twosync/left-0)" = o
holds_true 'and no plan is left' test ! -e first/.twosync/plan -a ! -e second/.twosync/plan
stopped_at_gone second first
expect 'recovery in the first replica, with no folder to go back to' 0 $'done second /a\n'"$one" \
  'twosync: kept /gone/a as first/.twosync/left-0' "${sync[@]}"
holds_true 'the original is kept in the first replica' test "$(cat first/.twosync/left-0)" = o
stopped_at_gone first second
mkdir second/gone
expect 'recovery where the original has a folder to go back to' 0 $'done first /a\ndone second /gone\ntotal 2 done 2 skipped 0 failed 0 blocked 0' '' "${sync[@]}"
alike 'recovery where the original has a folder to go back to'
holds_true 'the original is back' test "$(cat first/gone/a)" = o

# ---- what can't be removed doesn't keep later runs out
nothing='total 0 done 0 skipped 0 failed 0 blocked 0'
# with_module: both replicas have /mod with a file, and then the first has lost it
with_module() {
  fresh
  mkdir -p second/mod/shut
  printf a | tee second/mod/f >second/mod/shut/f
  cp -r second/mod first
  "$program" "${sync[@]}" >/dev/null 2>&1
  rm -r first/mod
}
if may_be_refused; then
  with_module
  chmod 555 second/mod/shut
  chmod -R a+rX . && chmod 777 . && chown -R 65534 first second archive
  before=("${as[@]}")
  expect 'a closed folder is opened to be removed' 0 $'done first /mod\ntotal 1 done 1 skipped 0 failed 0 blocked 0' '' "${sync[@]}" --allow-empty
  before=()
  alike 'a closed folder is opened to be removed'
  chmod 755 .
else
  echo 'skipped: no other user to run as, so a closed folder is not tried'
fi
with_module
if chattr +i second/mod/f 2>/dev/null; then
  expect 'a file that can not be removed' 0 $'done first /mod\ntotal 1 done 1 skipped 0 failed 0 blocked 0' 'twosync: fault 8 /mod' "${sync[@]}" --allow-empty
  holds_true 'it is out of the way' test ! -e second/mod -a "$(left_in second)" = trash-0
  expect 'the run after it is not refused' 0 "$nothing" '' "${sync[@]}"
  printf b >first/b
  expect 'nor the one after that' 0 $'done first /b\ntotal 1 done 1 skipped 0 failed 0 blocked 0' '' "${sync[@]}"
  mkdir third
  expect 'nor one with another replica' 0 $'done second /b\ntotal 1 done 1 skipped 0 failed 0 blocked 0' '' sync third second other
  rm -r third other
  chattr -i second/.twosync/trash-0/f
  expect 'a run that can remove it' 0 "$nothing" '' "${sync[@]}"
  alike 'a run that can remove it'
else
  echo 'skipped: no file can be made immutable here, so one that can not be removed is not tried'
fi

# ---- what lies in .twosync and comes of no run
fresh
printf a >first/a
mkdir -p second/.twosync/new-0
expect 'a spot that no plan explains' 3 '' 'twosync: fault 8' "${sync[@]}"
holds_true 'it is left alone' test -d second/.twosync/new-0 -a ! -e second/a -a ! -e archive
rmdir second/.twosync/new-0
expect 'a spot that was cleared by hand' 0 $'done first /a\ntotal 1 done 1 skipped 0 failed 0 blocked 0' '' "${sync[@]}"
alike 'a spot that was cleared by hand'
fresh
printf a >first/a
mkdir first/.twosync second/.twosync
ln -s ../../theirs first/.twosync/plan
ln -s ../../theirs second/.twosync/plan
expect 'links in place of the plan file' 0 $'done first /a\ntotal 1 done 1 skipped 0 failed 0 blocked 0' '' "${sync[@]}"
alike 'links in place of the plan file'
holds_true 'the links are not followed' test ! -e theirs
printf b >first/a
: >"second/.twosync/$(printf 'new-\377')"
mkdir second/.twosync/new-x
expect 'what else is there' 0 $'done first /a\ntotal 1 done 1 skipped 0 failed 0 blocked 0' '' "${sync[@]}"
holds_true 'what else is there stays' test "$(left_in second | wc -l)" = 2
fresh
printf a >first/a
mkdir elsewhere
ln -s ../elsewhere second/.twosync
expect 'a link in place of .twosync' 3 '' 'twosync: fault 5 /.twosync' "${sync[@]}"
holds_true 'it is not followed' test -z "$(ls elsewhere)" -a ! -e second/a
rmdir elsewhere

# ---- a run that is ended by a signal before one of the calls that mark its replicas, where the archive names a path and
# neither has taken part: no later run takes one of them for a new one
if command -v strace >/dev/null; then
  for number in 1 2 3 4; do
    fresh
    printf a | tee first/a >second/a
    archive_of "f /a 1 $SA" >archive
    printf b >first/b
    "$program" plan first second archive >plan
    strace -qq -f -o trace.log -e signal=none -e trace=chmod -e inject="chmod:signal=KILL:when=$number" \
      "$program" run first second archive plan --workers 1 >/dev/null 2>&1
    stopped=$?
    [ "$number" -gt 2 ] || holds_true "before mark $number: the run is stopped ($stopped)" test "$stopped" -gt 128
    "$program" "${sync[@]}" >out 2>err
    got=$?
    if [ "$got" = 0 ] && [ ! -s err ]; then ok; else bad "after a stop before mark $number: status $got, $(cat err)"; fi
    alike "after a stop before mark $number"
  done
else
  echo 'skipped: strace is missing, so no run is stopped before a mark'
fi

# ---- a run that is ended by a signal while it writes, at several moments
for delay in 0.02 0.05 0.1 0.2 0.4; do
  fresh
  mkdir first/d
  for k in 1 2 3 4; do head -c 30000000 /dev/urandom >"first/d/f$k"; done
  printf b >second/b
  "$program" "${sync[@]}" >/dev/null 2>&1 &
  child=$!
  for _ in $(seq 10000); do
    [ ! -e second/.twosync/plan ] || break
    sleep 0.005
  done
  sleep "$delay"
  kill -KILL $child
  wait $child 2>/dev/null
  "$program" "${sync[@]}" >out 2>err
  got=$?
  if [ "$got" = 0 ] && [ ! -s err ]; then ok; else bad "after a signal at $delay: status $got, $(cat err)"; fi
  alike "after a signal at $delay"
done

ended recovery
