#!/usr/bin/env bash
# What `sync` holds back, though its plan is valid: one that rests on an archive that a folder doesn't know, and one that takes all
# files from a folder that has several. `preview` shows such a plan, and then answers what `sync` would. `plan` and `run` carry it
# out, and so does `--allow-empty` for the latter.
# usage: tests/guards.sh [PROGRAM]
set -u
cd "$(dirname "$0")/.." || exit 1
. tests/cases.sh
umask 022

nothing='total 0 done 0 skipped 0 failed 0 blocked 0'
hint="See \`preview\`. If what it shows is right, use \`plan\` and \`run\`. If not, remove the archive: then nothing is deleted."

# of_both PATHS..: the archive of folders that hold these files, each with the text `a`, and neither of which knows it
of_both() { archive_of "$(printf "f %s 1 $SA\n" "$@")"; }
# with FOLDER NAME..: files with the text `a` in a folder
with() {
  local folder=$1 name
  shift
  for name in "$@"; do printf a >"$folder/$name"; done
}
# held_back NAME SENTENCE WORDS..: each way to ask for a `sync` of the pair is refused, and changes nothing; `preview` shows the plan
# and says the same
held_back() {
  local name=$1 sentence=$2 shown got
  shift 2
  refused "$name" 9 "${sync[@]}" "$@"
  refused "$name, the other way round" 9 sync second first archive "$@"
  refused "$name, by one worker" 9 "${sync[@]}" --workers 1 "$@"
  expect "$name, explained" 3 '' "$sentence"$'\n''twosync: fault 9' "${sync[@]}" --explain "$@"
  state >state.before
  "$program" plan first second archive "$@" >plan 2>err
  holds_true "$name: it can be planned" test "$?" = 0 -a ! -s err
  expect "$name: it can be checked" 0 valid '' check first second archive plan "$@"
  rm plan
  shown=$("$program" preview first second archive --allow-empty "$@" 2>/dev/null)
  "$program" preview first second archive "$@" >out 2>err
  got=$?
  answered "$name: a preview" 3 "$(cat out)" 'twosync: fault 9' "$got"
  holds_true "$name: a preview shows the plan" grep -qx 'total [1-9].*' out
  holds_true "$name: a preview shows all" test "$shown" = "$(cat out)"
  "$program" preview first second archive --json "$@" >out 2>err
  got=$?
  answered "$name: a preview as JSON" 3 "$(cat out)" 'twosync: fault 9' "$got"
  holds_true "$name: a preview as JSON shows the plan" test -s out
  "$program" preview first second archive --explain "$@" >out 2>err
  got=$?
  answered "$name: a preview, explained" 3 "$shown" "$sentence"$'\n''twosync: fault 9' "$got"
  state >state.after
  holds_true "$name: a look changes nothing" cmp -s state.before state.after
}
# carried_out NAME WORDS..: `plan` and `run` do it, and the next sync has nothing to do
carried_out() {
  local name=$1
  shift
  "$program" plan first second archive "$@" >plan 2>err
  "$program" run first second archive plan "$@" >out 2>err
  got=$?
  holds_true "$name: plan and run: status $got, $(tail -n 1 err)" test "$got" = 0 -a ! -s err
  rm plan
  alike "$name: plan and run"
  expect "$name: the next sync" 0 "$nothing" '' "${sync[@]}" "$@"
}
# goes NAME WORDS..: `preview` and `sync` let it through, and both folders hold the same then
goes() {
  local name=$1 got
  shift
  "$program" preview first second archive "$@" >out 2>err
  got=$?
  holds_true "$name: a preview: status $got, $(tail -n 1 err)" test "$got" = 0 -a ! -s err
  "$program" "${sync[@]}" "$@" >out 2>err
  got=$?
  holds_true "$name: status $got, $(tail -n 1 err)" test "$got" = 0 -a ! -s err
  alike "$name"
}
# neither PATHS: what is said where neither folder knows the archive
neither() {
  echo "Neither first nor second took part in the last run with the archive archive, which names $1 paths: are their disks mounted, and is this the right archive? $hint"
}
# forgotten FOLDER..: these folders lose what they know of archives, as a copy without its .twosync
forgotten() {
  local folder
  for folder in "$@"; do rm -r "${folder:?}/.twosync"; done
}

# ---- an archive that neither folder knows
name='two empty folders, as where nothing is mounted'
fresh
of_both /f /g >archive
cp archive archive.before
held_back "$name" "$(neither 2)"
holds_true "$name: the archive stands" cmp -s archive archive.before
holds_true "$name: nothing is made" test ! -e first/.twosync -a ! -e second/.twosync
rm archive.before

for odd in first second; do
  other=$([ "$odd" = first ] && echo second || echo first)
  name="two copies without their .twosync, of which $odd isn't whole"
  fresh
  with first f g h
  with second f g h
  "$program" "${sync[@]}" >/dev/null 2>&1
  forgotten first second
  rm "$odd/g"
  held_back "$name" "$(neither 3)"
  holds_true "$name: nothing is lost" test -e "$other/g"
  # without the archive nothing is deleted
  mv archive archive.kept
  goes "$name, without the archive"
  holds_true "$name, without the archive: nothing is lost" test -e first/g -a -e second/g
  forgotten first second
  rm "$odd/g"
  mv archive.kept archive
  carried_out "$name"
  holds_true "$name, by plan and run: what is missing is deleted" test ! -e "$other/g"
done

name='two new folders, and the archive of another pair'
fresh
with first f own
with second more
of_both /f /more >archive
held_back "$name" "$(neither 2)"
rm archive
goes "$name, without it"
holds_true "$name, without it: all is there" test -e first/more -a -e second/f -a -e second/own

name='an archive that scan wrote'
fresh
with first f g h
with second f g h
"$program" scan first >archive
rm second/g
held_back "$name" "$(neither 3)"
holds_true "$name: nothing is lost" test -e first/g
carried_out "$name"

# ---- one that just one folder knows
for odd in first second; do
  name="$odd took part in no run"
  fresh
  with first f g h
  with second f g h
  "$program" "${sync[@]}" >/dev/null 2>&1
  forgotten "$odd"
  rm "$odd/f"
  held_back "$name" "$odd took no part in the last run with the archive archive, which names 3 paths: is its disk mounted, and is this the right archive? $hint"
  carried_out "$name"
done

# ---- where nothing can be lost
name='an archive of nothing that neither knows'
fresh
with first f
of_both >/dev/null
archive_of '' >archive
goes "$name"

name='an archive that neither knows, and nothing to be done'
fresh
with first f g
with second f g
of_both /f /g >archive
goes "$name"
with first h
goes "$name: both know it then"
rm first/f
goes "$name: both know it then, too"
holds_true "$name: a deletion" test ! -e second/f

name='an archive that neither knows, and a conflict alone'
fresh
with first f g
with second f g
of_both /f /g >archive
printf 1 >first/f
printf 2 >second/f
for time in once twice; do
  expect "$name, $time" 1 $'skip conflict /f\ntotal 1 done 0 skipped 1 failed 0 blocked 0' '' "${sync[@]}"
done
holds_true "$name: neither knows it then" test ! -e first/.twosync/archives -a ! -e second/.twosync/archives
rm second/g
expect "$name, and something to be done" 3 '' 'twosync: fault 9' "${sync[@]}"
holds_true "$name, and something to be done: nothing is lost" test -e first/g

# ---- plans that lie there
# junk_plans NAME FIRST SECOND: these texts in the place of plans don't let a sync through
junk_plans() {
  fresh
  with first f g h
  with second f g
  of_both /f /g /h >archive
  mkdir -m 700 first/.twosync second/.twosync
  printf '%s' "$2" >first/.twosync/plan
  printf '%s' "$3" >second/.twosync/plan
  "$program" "${sync[@]}" >out 2>err
  got=$?
  answered "$1" 3 '' 'twosync: fault 9' "$got"
  holds_true "$1: nothing is lost" test -e first/h
}
fresh
with first f g
with second f
"$program" plan first second archive >one.plan
with second h
"$program" plan first second archive >other.plan
junk_plans 'empty plans' '' ''
junk_plans 'no plans' 'no plan' 'no plan'
junk_plans 'a plan in the first folder alone' "$(cat one.plan)
" ''
junk_plans 'a plan in the second folder alone' '' "$(cat one.plan)
"
junk_plans 'plans of two runs' "$(cat one.plan)
" "$(cat other.plan)
"
junk_plans 'one plan that is cut short in both' "$(cat one.plan)" "$(cat one.plan)"
rm one.plan other.plan

# the same one in both does
fresh
with first f g h
with second f g h
of_both /f /g /h >archive
rm first/f
"$program" plan first second archive >plan
mkdir -m 700 first/.twosync second/.twosync
tee first/.twosync/plan <plan >second/.twosync/plan
rm plan
goes 'the same plan in both'
holds_true 'the same plan in both: it is carried out' test ! -e second/f

if command -v strace >/dev/null; then
  name='a run of a plan that was stopped'
  fresh
  with first f g h
  with second f g h
  of_both /f /g /h >archive
  rm first/f
  with first i j
  "$program" plan first second archive >plan
  { strace -qq -f -o /dev/null -e signal=none -P "$PWD/second/i" -P second/i -e trace="$moving" -e inject="$moving:signal=KILL" \
    "$program" run first second archive plan --workers 1 >/dev/null; } 2>/dev/null
  holds_true "$name: it is stopped" test "$?" -gt 128
  rm plan
  holds_true "$name: its plans are there" cmp -s first/.twosync/plan second/.twosync/plan
  "$program" preview first second archive >out 2>err
  holds_true "$name: a preview lets it through" test "$?" = 0 -a ! -s err
  "$program" "${sync[@]}" >out 2>err
  got=$?
  holds_true "$name: the next sync goes on: status $got, $(cat err)" test "$got" = 0 -a ! -s err
  alike "$name: the next sync"
  holds_true "$name: it is carried out" test ! -e second/f -a -e second/i -a -e second/j
  expect "$name: one more" 0 "$nothing" '' "${sync[@]}"
fi

# ---- another archive that takes the place of the one that was claimed, before that is read
if command -v strace >/dev/null; then
  for had in 'the pair'\''s own' no; do
    name="$had archive, and that of another pair comes before it is read"
    fresh
    rm -rf third fourth other
    mkdir third fourth
    with first f g h
    "$program" "${sync[@]}" >/dev/null 2>&1
    with third p q r
    "$program" sync third fourth other >/dev/null 2>&1
    with first p q r
    [ "$had" != no ] || rm archive
    strace -qq -f -o /dev/null -e signal=none -P archive.new -P "$PWD/archive.new" -e trace=openat \
      -e inject=openat:delay_exit=1500000:when=1 "$program" "${sync[@]}" >out 2>err &
    child=$!
    until_there archive.new
    cp other archive
    wait "$child"
    answered "$name" 3 '' 'twosync: fault 9' "$?"
    holds_true "$name: nothing is lost" test -e first/p -a -e first/q -a -e first/r
    holds_true "$name: nothing comes of it" cmp -s other archive
  done
  rm -rf third fourth other
fi

# ---- a folder that would lose all its files
# emptied FOLDER FILES OTHERS: what is said of it
emptied() {
  local other
  other=$([ "$1" = first ] && echo second || echo first)
  echo "All $2 files in $1 would be deleted; $other has $3. Is its disk mounted? If this is right, add --allow-empty, or use \`plan\` and \`run\`."
}
for odd in first second; do
  other=$([ "$odd" = first ] && echo second || echo first)
  # before FILES..: both folders hold these files, and a run has made them so
  before() {
    local file
    fresh
    mkdir first/d
    for file in "$@"; do printf a >"first/$file"; done
    "$program" "${sync[@]}" >/dev/null 2>&1
  }
  name="$odd was emptied"
  before f g d/h
  rm -r "$odd"/[!.]*
  held_back "$name" "$(emptied "$other" 3 0)"
  holds_true "$name: nothing is lost" test -e "$other/f" -a -e "$other/d/h"
  carried_out "$name"
  holds_true "$name: that is carried out" test -z "$(ls "$other")"

  before f g d/h
  rm -r "$odd"/[!.]*
  goes "$name, and that is allowed" --allow-empty
  holds_true "$name, and that is allowed: it is carried out" test -z "$(ls "$other")"

  name="$odd lost all files, and its folders stayed"
  before f g d/h
  rm "$odd/f" "$odd/g" "$odd/d/h"
  held_back "$name" "$(emptied "$other" 3 0)"

  name="$odd had one file"
  before f
  rm "$odd/f"
  goes "$name"

  name="$odd keeps one file"
  before f g d/h
  rm "$odd/f" "$odd/g"
  goes "$name"

  name="$odd has other files"
  before f g d/h
  rm -r "$odd"/[!.]*
  with "$odd" new
  goes "$name"

  name="$odd was emptied, and one file is held"
  before f g d/h
  rm -r "$odd"/[!.]*
  echo 'path /g' >rules
  "$program" "${sync[@]}" --holds rules >out 2>err
  got=$?
  answered "$name: what is held stays" 1 "$(cat out)" '' "$got"
  holds_true "$name" test -e "$other/g" -a ! -e "$other/f"
  rm rules

  name="$odd was emptied, and a link is held"
  before f g
  ln -s nowhere "$other/link"
  rm "$odd"/[fg]
  held_back "$name" "$(emptied "$other" 2 0)" --hold-special
done
name='both were emptied'
fresh
with first f g
"$program" "${sync[@]}" >/dev/null 2>&1
rm first/f first/g second/f second/g
goes "$name"

ended guards
