#!/usr/bin/env bash
# Runs the built program's commands on real folders, as a user would, and compares what they print, their status and what
# they leave in the folders: first syncs, changes on both sides, conflicts, names, held paths, plans carried by hand, usage,
# many files and a large one. What is wanted is written out here, or made by other tools (sha256sum, diff).
# usage: tests/commands.sh [PROGRAM]
set -u
cd "$(dirname "$0")/.." || exit 1
. tests/cases.sh

# ---- a first sync, and one with nothing to do
fresh
printf a >first/a
expect 'first sync' 0 $'done first /a\ntotal 1 done 1 skipped 0 failed 0 blocked 0' '' "${sync[@]}"
alike 'first sync'
expect 'nothing to do' 0 'total 0 done 0 skipped 0 failed 0 blocked 0' '' "${sync[@]}"
expect 'show' 0 "f /a 1 $SA" '' show archive
expect 'scan' 0 "$(archive_of "f /a 1 $SA")" '' scan first
expect 'scan by one worker' 0 "$(archive_of "f /a 1 $SA")" '' scan second --workers 1
holds_true 'the archive file' cmp -s archive <(archive_of "f /a 1 $SA")

# ---- conflicts are left alone
printf b >first/a
printf c >second/a
expect 'conflict' 1 $'skip conflict /a\ntotal 1 done 0 skipped 1 failed 0 blocked 0' '' "${sync[@]}"
holds_true 'the first side of a conflict' test "$(cat first/a)" = b
holds_true 'the second side of a conflict' test "$(cat second/a)" = c
expect 'the archive of a conflict' 0 "f /a 1 $SA" '' show archive
cp first/a second/a
expect 'a conflict settled by hand' 0 $'done same /a\ntotal 1 done 1 skipped 0 failed 0 blocked 0' '' "${sync[@]}"

# ---- empty files and folders, and files of one and more pieces
fresh
: >first/e
mkdir -p first/d/d
head -c 1048576 /dev/zero >first/f
head -c 3145729 /dev/urandom >second/g
expect 'files of many sizes' 0 $'done first /d\ndone first /e\ndone first /f\ndone second /g\ntotal 4 done 4 skipped 0 failed 0 blocked 0' '' "${sync[@]}"
alike 'files of many sizes'

# ---- files around the sizes of a buffer and of a piece, copied, replaced and deleted from either side
for role in 'first second' 'second first'; do
  read -r from to <<<"$role"
  for size in 65535 65536 65537 200000 1048576 1048577; do
    fresh
    head -c "$size" /dev/urandom >"$from/f"
    for step in copied replaced deleted; do
      case $step in
      replaced) head -c "$size" /dev/urandom >"$from/f" ;;
      deleted) rm "$from/f" ;;
      esac
      expect "$size bytes, $step from $from" 0 "done $from /f"$'\ntotal 1 done 1 skipped 0 failed 0 blocked 0' '' "${sync[@]}"
      alike "$size bytes, $step from $from"
    done
    holds_true "$size bytes, deleted from $from: it is gone" test ! -e "$to/f"
  done
done

# ---- changes on both sides
fresh
mkdir first/d second/d
printf a >first/d/x
printf b >second/d/y
expect 'both sides' 0 $'done dir /d\ndone first /d/x\ndone second /d/y\ntotal 3 done 3 skipped 0 failed 0 blocked 0' '' "${sync[@]}"
alike 'both sides'
expect 'show a folder' 0 "d /d
f /d/x 1 $SA
f /d/y 1 $SB" '' show archive
printf bb >first/d/x
rm second/d/y
expect 'a change here, a deletion there' 0 $'done first /d/x\ndone second /d/y\ntotal 2 done 2 skipped 0 failed 0 blocked 0' '' "${sync[@]}"
alike 'a change here, a deletion there'
holds_true 'the deletion' test ! -e first/d/y
rm -r second/d
expect 'a deleted folder' 0 $'done second /d\ntotal 1 done 1 skipped 0 failed 0 blocked 0' '' "${sync[@]}"
alike 'a deleted folder'
holds_true 'the folder is gone' test ! -e first/d

# ---- a file that became a folder, and the reverse
fresh
printf a >first/a
"$program" "${sync[@]}" >/dev/null 2>&1
rm first/a
mkdir first/a
printf b >first/a/b
expect 'a file became a folder' 0 $'done first /a\ntotal 1 done 1 skipped 0 failed 0 blocked 0' '' "${sync[@]}"
alike 'a file became a folder'
rm -r second/a
printf a >second/a
expect 'a folder became a file' 0 $'done second /a\ntotal 1 done 1 skipped 0 failed 0 blocked 0' '' "${sync[@]}"
alike 'a folder became a file'
holds_true 'the file' test "$(cat first/a)" = a

# ---- names
fresh
printf a >"first/a b%"
printf b >"first/$(printf 'x\ny')"
printf c >"first/ü"
expect 'names' 0 $'done first /a%20b%25\ndone first /x%0Ay\ndone first /ü\ntotal 3 done 3 skipped 0 failed 0 blocked 0' '' "${sync[@]}"
alike 'names'

# ---- held paths
fresh
mkdir first/n
printf a >first/n/x.o
printf b >first/b
echo 'name *.o' >holds
expect 'held' 1 $'done first /b\nskip held /n\ntotal 2 done 1 skipped 1 failed 0 blocked 0' '' "${sync[@]}" --holds holds
holds_true 'what is held stays' test ! -e second/n
echo 'path /n' >holds
expect 'held by path' 1 $'skip held /n\ntotal 1 done 0 skipped 1 failed 0 blocked 0' '' "${sync[@]}" --holds holds
printf 'name *.o\nname **\n' >holds
expect 'a bad rule' 3 '' 'twosync: fault 11' "${sync[@]}" --holds holds
expect 'no rules there' 3 '' 'twosync: fault 9' "${sync[@]}" --holds nowhere

# ---- a plan carried by hand
fresh
printf a >first/a
want="twosync-plan 1
entry first /a
piece 0 0 1 /a
commit 0
p 0
mark 0
p 1
end 1 3"
expect 'plan' 0 "$want" '' plan first second archive
holds_true 'a plan changes nothing' test ! -e second/a -a ! -e archive -a ! -e first/.twosync
echo "$want" >plan
expect 'check' 0 'valid' '' check first second archive plan
expect 'run' 0 $'done first /a\ntotal 1 done 1 skipped 0 failed 0 blocked 0' '' run first second archive plan
alike 'run'
expect 'the same plan again' 3 'refused 3 0' '' run first second archive plan
fresh
printf a >first/a
"$program" plan first second archive >plan
printf b >first/b
expect 'check after a change' 3 'refused 4 1' '' check first second archive plan
expect 'run after a change' 3 'refused 4 1' '' run first second archive plan
holds_true 'a refused plan changes nothing' test ! -e second/a -a ! -e archive
holds_true 'a refused run leaves no plan' test ! -e first/.twosync/plan -a ! -e second/.twosync/plan
holds_true 'a refused run leaves no lock' test ! -e first/.twosync/lock -a ! -e second/.twosync/lock
fresh
printf a >first/a
"$program" "${sync[@]}" >/dev/null 2>&1
printf b >first/a
"$program" plan first second archive >plan
printf c >second/a
expect 'run after a change of its target' 3 'refused 3 0' '' run first second archive plan
holds_true 'the changed target stays' test "$(cat second/a)" = c
printf 'twosync-plan 1\nend 0 00\n' >plan
expect 'no plan text' 3 '' 'twosync: fault 6' run first second archive plan
rm plan
expect 'no plan there' 3 '' 'twosync: fault 9' check first second archive plan

# ---- many files, of which then some change on both sides
fresh
for d in $(seq 100); do
  mkdir "first/d$d" "second/d$d"
  for k in $(seq 100); do printf '%s' "$d $k" >"first/d$d/f $k"; done
done
"$program" "${sync[@]}" >out 2>err
got=$?
if [ "$got" = 0 ] && [ ! -s err ] && [ "$(tail -n 1 out)" = 'total 10100 done 10100 skipped 0 failed 0 blocked 0' ]; then
  ok
else
  bad "10,000 files: status $got, $(tail -n 1 out), $(cat err)"
fi
alike '10,000 files'
holds_true 'the number of files' test "$(find second -name 'f *' | wc -l)" = 10000
for d in $(seq 100); do
  printf new >>"first/d$d/f 1"
  rm "second/d$d/f 2"
done
"$program" "${sync[@]}" >out 2>err
got=$?
if [ "$got" = 0 ] && [ ! -s err ] && [ "$(tail -n 1 out)" = 'total 200 done 200 skipped 0 failed 0 blocked 0' ]; then
  ok
else
  bad "changes among 10,000 files: status $got, $(tail -n 1 out), $(cat err)"
fi
alike 'changes among 10,000 files'
holds_true 'the changed file' test "$(cat 'second/d7/f 1')" = '7 1new'
holds_true 'the deleted file' test ! -e 'first/d7/f 2'
expect 'nothing to do among 10,000 files' 0 'total 0 done 0 skipped 0 failed 0 blocked 0' '' "${sync[@]}"

# ---- each of many actions that fail has its line and its fault
if may_be_refused; then
  fresh
  mkdir first/d second/d
  seq 1500 | split -l 1 -a 3 - first/d/f
  chmod 555 second/d
  chmod 777 .
  chown -R 65534 first second 2>/dev/null
  before=("${as[@]}")
  names=$(ls first/d)
  expect 'each of 1,500 files fails' 2 "done dir /d
$(sed 's|^|failed first /d/|' <<<"$names")
total 1501 done 1 skipped 0 failed 1500 blocked 0" "$(sed 's|^|twosync: fault 8 /d/|' <<<"$names")" "${sync[@]}"
  chmod 755 second/d
  expect 'each of them is copied later' 0 "$(sed 's|^|done first /d/|' <<<"$names")
total 1500 done 1500 skipped 0 failed 0 blocked 0" '' "${sync[@]}"
  before=()
  alike 'each of them is copied later'
  chmod 755 .
else
  echo 'skipped: no other user to run as, so files that all fail are not tried'
fi

# ---- a file of 64 MiB
fresh
head -c 67108864 /dev/urandom >second/large
expect 'a large file' 0 $'done second /large\ntotal 1 done 1 skipped 0 failed 0 blocked 0' '' "${sync[@]}"
alike 'a large file'
holds_true 'the size of the large file' test "$(stat -c %s first/large)" = 67108864

# ---- usage
usage() {
  local name=$1 got
  shift
  "$program" "$@" >out 2>err
  got=$?
  if [ "$got" = 3 ] && [ "$(tail -n 1 err)" = 'twosync: fault 16' ] && [ "$(wc -l <err)" -gt 1 ] && [ ! -s out ]; then
    ok
  else
    bad "$name: status $got, $(tail -n 1 err)"
  fi
}
usage 'no words'
usage 'no command of this name' synchronize first second archive
usage 'no workers' "${sync[@]}" --workers 0
usage 'too many workers' "${sync[@]}" --workers 65
usage 'workers that are no number' "${sync[@]}" --workers four
usage 'a checkpoint after no action' "${sync[@]}" --checkpoint 0
usage 'a checkpoint after too many actions' "${sync[@]}" --checkpoint 1048577
usage 'a checkpoint that is no number' "${sync[@]}" --checkpoint many
usage 'a checkpoint of a plan' plan first second archive --checkpoint 1
usage 'too few files' sync first second
usage 'too many files' scan first second
usage 'an option of no command' scan first --holds holds
for empty in "'' second archive" "first '' archive" "first second ''" "first second archive --holds ''"; do
  eval "usage \"an empty word: $empty\" sync $empty"
done
usage 'an empty word for a plan' run first second archive ''
usage "a word that isn't UTF-8" sync first second "$(printf 'archive\377')"
"$program" --help >out 2>err
got=$?
if [ "$got" = 0 ] && [ ! -s err ] && [ "$(wc -l <out)" -le 40 ]; then ok; else bad "help: status $got, $(wc -l <out) lines"; fi
for name in trial scan show plan check run sync ARCHIVE 'twosync sync'; do
  holds_true "help tells of $name" grep -q -- "$name" out
done
for number in 1 4 5 6 7 8 9 10 11 12 14 15 16; do
  holds_true "help tells of fault $number" grep -qE "(^| )$number( [a-z]|$)" out
done
expect 'version' 0 'twosync 0.1.0' '' --version

ended commands
