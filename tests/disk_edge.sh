#!/usr/bin/env bash
# What lies where a run comes to work, and where it must not do harm: leftovers of other runs in .twosync, whatever stands
# at the archive's place, and a replica that isn't mounted. What is wanted is written out here.
# usage: tests/disk_edge.sh [PROGRAM]
set -u
cd "$(dirname "$0")/.." || exit 1
. tests/cases.sh
umask 022

nothing='total 0 done 0 skipped 0 failed 0 blocked 0'
one='total 1 done 1 skipped 0 failed 0 blocked 0'

# both_at BYTES: both replicas and the archive have one file /f, of one byte `a`; each has its own directory, and knows the archive
both_at() {
  fresh
  printf a | tee first/f >second/f
  archive_of "f /f 1 $SA" >archive
  make_known archive first second
}

# a_plan ENTRY: a plan of this one entry
a_plan() {
  case $1 in
  first) printf 'twosync-plan 1\nentry first /f\npiece 0 0 1 /f\ncommit 0\np 0\nmark 0\np 1\nend 1 3\n' ;;
  second) printf 'twosync-plan 1\nentry second /f\npiece 0 0 1 /f\ncommit 0\np 0\nmark 0\np 1\nend 1 3\n' ;;
  same | dir) printf 'twosync-plan 1\nentry %s /f\nmark 0\nend 1 1\n' "$1" ;;
  conflict | held) printf 'twosync-plan 1\nentry %s /f\nend 1 0\n' "$1" ;;
  esac
}

# plan_file KIND FILE: makes a plan file that doesn't vouch for a spot of entry 0
plan_file() {
  case $1 in
  missing) rm -f "$2" ;;
  empty) : >"$2" ;;
  cut) a_plan first | head -c 40 >"$2" ;;
  'cut by its last byte') a_plan first | head -c -1 >"$2" ;;
  damaged) a_plan first | sed 's/^end 1 3$/end 1 4/' >"$2" ;;
  longer) { a_plan first && printf x; } >"$2" ;;
  'of another version') a_plan first | sed 's/^twosync-plan 1$/twosync-plan 9/' >"$2" ;;
  'without entries') printf 'twosync-plan 1\nend 0 0\n' >"$2" ;;
  *) a_plan "${1##* }" >"$2" ;;
  esac
}
no_plans=(missing empty cut 'cut by its last byte' damaged longer 'of another version')
no_entries=('without entries' 'of conflict' 'of held' 'of same' 'of dir')

# ---- leftovers that no plan vouches for
# spots REPLICA WHICH: puts the one copy of something at the spots of entry 0; the file that the old one was is gone
spots() {
  case $2 in new | both) mkdir "$1/.twosync/new-0" && printf new >"$1/.twosync/new-0/x" ;; esac
  case $2 in old | both) printf precious >"$1/.twosync/old-0" && rm "$1/f" ;; esac
}
for replica in first second; do
  for spot in new old both; do
    for kind in "${no_plans[@]}" "${no_entries[@]}"; do
      both_at
      spots "$replica" "$spot"
      plan_file "$kind" "$replica/.twosync/plan"
      refused "$spot in $replica, a plan $kind: sync" 8 "${sync[@]}"
      printf 'twosync-plan 1\nend 0 0\n' >plan
      refused "$spot in $replica, a plan $kind: run" 8 run first second archive plan
    done
  done
done
for spot in new-1 old-1 new-7 old-4294967295; do
  both_at
  printf precious >"second/.twosync/$spot"
  a_plan first | tee first/.twosync/plan >second/.twosync/plan
  refused "$spot, which the plan has no entry for" 8 "${sync[@]}"
done
# one good spot doesn't vouch for another
both_at
rm second/f
printf a >second/.twosync/old-0
printf precious >second/.twosync/old-1
mkdir second/.twosync/new-0
a_plan first | tee first/.twosync/plan >second/.twosync/plan
refused 'a spot of the plan and one that is none' 8 "${sync[@]}"

# ---- a directory .twosync that belongs to somebody else
# Whoever owns it may put a plan there, by which the next run would bring a file of theirs to its place.
# of_nobody REPLICA WHAT: the directory of the program in a replica belongs to another user, with what that one has put there
of_nobody() {
  both_at
  printf b >first/f
  case $2 in
  'no other .twosync') rm -r first/.twosync second/.twosync && mkdir -m 700 "$1/.twosync" ;;
  'open to all') chmod 777 "$1/.twosync" ;;
  'marked as unused') chmod 1700 "$1/.twosync" ;;
  *'a plan'*) a_plan first >"$1/.twosync/plan" ;;
  esac
  case $2 in *old-0*) printf theirs >"$1/.twosync/old-0" ;; esac
  case $2 in *new-0*) printf theirs >"$1/.twosync/new-0" ;; esac
  case $2 in *'a lock'*) : >"$1/.twosync/lock" ;; esac
  chown -R nobody "$1/.twosync"
  a_plan first >plan
}
# all_here: all that lies here, with its owners and the modes of .twosync, but for a lock, which may be made and removed
all_here() {
  {
    state
    find first second archive -printf '%p %y %m %U %G\n' | LC_ALL=C sort
  } | grep -v '/[.]twosync/lock'
}
# refused_at_own NAME WORDS..: the program refuses these words because of the owner of .twosync, and changes nothing
refused_at_own() {
  local name=$1
  shift
  all_here >state.before
  before=(timeout 10)
  expect "$name" 3 '' 'twosync: fault 5 /.twosync' "$@"
  before=()
  all_here >state.after
  if cmp -s state.before state.after; then
    ok
  else
    bad "$name: something has changed: $(diff state.before state.after | grep '^[<>]' | cut -c1-100 | head -n 3 | tr '\n' ' ')"
  fi
}
if [ "$(id -u)" = 0 ] && mkdir -p probe && chown nobody probe 2>/dev/null; then
  for replica in first second; do
    for what in nothing 'open to all' 'marked as unused' 'a plan' 'a plan and old-0' 'a plan, old-0 and new-0' old-0 'a lock' \
      'a plan, old-0 and a lock' 'no other .twosync'; do
      for words in 'sync first second archive' 'run first second archive plan'; do
        of_nobody "$replica" "$what"
        # shellcheck disable=SC2086
        refused_at_own "$replica/.twosync is another user's, $what: ${words%% *}" $words
      done
    done
  done
  # whose replica it is doesn't matter, and neither does whose the files in it are
  both_at
  printf b >first/f
  chown nobody first second first/f second/f archive
  expect "the replicas are another user's, but not .twosync" 0 $'done first /f\n'"$one" '' "${sync[@]}"
  alike "the replicas are another user's, but not .twosync"
else
  echo "skipped: this user may give nothing away, so another user's .twosync is not tried"
fi
rm -rf probe
if may_be_refused; then
  # one who isn't root has a .twosync that belongs to him
  mkdir theirs
  chmod 777 theirs
  cd theirs || exit 1
  "${as[@]}" bash -c 'mkdir first second && mkdir -m 700 first/.twosync second/.twosync && printf a >first/f && : >first/.twosync/lock'
  before=("${as[@]}")
  expect "a user's own .twosync, and a lock that was left there" 0 $'done first /f\n'"$one" '' "${sync[@]}"
  before=()
  alike "a user's own .twosync, and a lock that was left there"
  cd ..
  rm -r theirs
else
  echo "skipped: no other user to run as, so that one's own .twosync is not tried"
fi
# What a run of the same user has left when it was killed is no reason to refuse the next one.
for role in 'first second' 'second first'; do
  read -r from to <<<"$role"
  fresh
  seq 400 | split -l 1 -a 2 - "$from/f"
  "$program" "${sync[@]}" >out 2>err &
  child=$!
  until_plan
  kill -KILL "$child"
  wait "$child" 2>/dev/null
  for replica in first second; do
    holds_true "killed, from $from: a lock is left in $replica" test -f "$replica/.twosync/lock"
  done
  "$program" "${sync[@]}" >report 2>err
  got=$?
  # what was put in place before the kill is in both
  sed "s/^done same /done $from /" report >out
  answered "killed, from $from: the next run" 0 "$(for file in "$from"/f*; do echo "done $from /${file##*/}"; done)
total 400 done 400 skipped 0 failed 0 blocked 0" '' "$got"
  alike "killed, from $from: the next run"
  holds_true "killed, from $from: all files are there" test "$(find "$to" -name .twosync -prune -o -type f -print | wc -l)" = 400
done

# ---- leftovers of other entries, where this run's entry 0 is one that stays as it is
# The conflict: /c was changed in the first replica, and deleted in the second.
for reason in conflict held; do
  for spot in new old both; do
    both_at
    mv first/f first/c
    rm second/f
    archive_of "f /c 1 $SA" >archive
    make_known archive first second
    words=("${sync[@]}")
    if [ "$reason" = conflict ]; then
      printf b >first/c
    else
      echo 'path /c' >holds
      words+=(--holds holds)
    fi
    case $spot in new | both) printf another >second/.twosync/new-0 ;; esac
    case $spot in old | both) printf precious >second/.twosync/old-0 ;; esac
    refused "$spot beside an entry of $reason" 8 "${words[@]}"
    holds_true "$spot beside an entry of $reason: nothing appears at its path" test ! -e second/c
  done
done

# ---- a plan file that is no plan, and no spot: as if it weren't there
for kind in "${no_plans[@]}" "${no_entries[@]}" 'of first' 'of second'; do
  both_at
  printf b >first/f
  plan_file "$kind" first/.twosync/plan
  plan_file "$kind" second/.twosync/plan
  expect "no spot, a plan $kind" 0 $'done first /f\n'"$one" '' "${sync[@]}"
  alike "no spot, a plan $kind"
done

# ---- recovery by a good plan in either replica, also where the other one has lost its plan file
for role in 'first second' 'second first'; do
  read -r from to <<<"$role"
  for there in both one; do
    both_at
    printf b >"$from/f"
    mv "$to/f" "$to/.twosync/old-0"
    printf x >"$to/.twosync/new-0"
    a_plan "$from" >"$to/.twosync/plan"
    [ "$there" = one ] || a_plan "$from" >"$from/.twosync/plan"
    expect "recovery in $to, plans in $there" 0 "done $from /f"$'\n'"$one" '' "${sync[@]}"
    alike "recovery in $to, plans in $there"
    holds_true "recovery in $to, plans in $there: the change" test "$(cat "$to/f")" = b
  done
done

# ---- what else lies in .twosync stays
others=(left-0 left-7 notes new-x new- old-x new-0.bak .new-0 old.0 plan.old)
both_at
printf b >first/f
for name in "${others[@]}"; do
  printf '%s' "$name" | tee "first/.twosync/$name" >"second/.twosync/$name"
done
expect 'other names' 0 $'done first /f\n'"$one" '' "${sync[@]}"
for replica in first second; do
  for name in "${others[@]}"; do
    holds_true "$name stays in $replica" test "$(cat "$replica/.twosync/$name" 2>/dev/null)" = "$name"
  done
  holds_true "nothing else is in $replica" test "$(left_in "$replica" | wc -l)" = "${#others[@]}"
done
# Names that spell the number of an entry in another way are no spots of it, however the command answers.
for name in new-00 old-00 new-+0 old-+0 old-0x0 old-4294967296; do
  both_at
  printf b >first/f
  printf precious >"second/.twosync/$name"
  timeout 10 "$program" "${sync[@]}" >/dev/null 2>&1
  holds_true "$name stays" test "$(cat "second/.twosync/$name" 2>/dev/null)" = precious
done
# A link in place of the plan or of its beginning isn't followed.
for name in plan plan.new; do
  both_at
  printf b >first/f
  printf theirs >theirs
  ln -s ../../theirs "first/.twosync/$name"
  ln -s ../../theirs "second/.twosync/$name"
  timeout 10 "$program" "${sync[@]}" >/dev/null 2>&1
  holds_true "a link in place of $name is not followed" test "$(cat theirs)" = theirs
  rm theirs
done

# ---- what stands at the place where the new archive is made
# changed: /f was changed in the first replica since the last run
changed() {
  both_at
  printf b >first/f
}
done_well() {
  expect "$1" 0 $'done first /f\n'"$one" '' sync first second "${2:-archive}"
  alike "$1"
  holds_true "$1: the archive" cmp -s archive <(archive_of "f /f 1 $SB")
}
beginning() {
  case $1 in
  empty) : ;;
  'one letter') printf t ;;
  'a shorter beginning') printf 'twosync-arch' ;;
  'the word') printf 'twosync-archive ' ;;
  'a cut archive') printf 'twosync-archive 1\nf /f 1 ca97' ;;
  'a whole archive') archive_of "f /f 1 $SA" ;;
  'another version') printf 'twosync-archive 2\n' ;;
  esac
}
for kind in empty 'one letter' 'a shorter beginning' 'the word' 'a cut archive' 'a whole archive' 'another version'; do
  changed
  beginning "$kind" >archive.new
  done_well "archive.new is $kind"
done
theirs() {
  case $1 in
  'my notes') printf 'my notes\n' >archive.new ;;
  'nearly an archive') printf 'twosync-archivX' >archive.new ;;
  'another first letter') printf ' twosync-archive 1\n' >archive.new ;;
  'a link to notes') printf notes >elsewhere && ln -s elsewhere archive.new ;;
  'a link to an archive') archive_of '' >elsewhere && ln -s elsewhere archive.new ;;
  'a link to nothing') ln -s elsewhere archive.new ;;
  'a folder') mkdir archive.new ;;
  'a folder with a file') mkdir archive.new && printf x >archive.new/x ;;
  'a fifo') mkfifo archive.new ;;
  esac
}
for kind in 'my notes' 'nearly an archive' 'another first letter' 'a link to notes' 'a link to an archive' \
  'a link to nothing' 'a folder' 'a folder with a file' 'a fifo'; do
  rm -rf elsewhere
  changed
  a_plan first >plan
  theirs "$kind"
  refused "archive.new is $kind: sync" 5 "${sync[@]}"
  rm -rf elsewhere
  changed
  a_plan first >plan
  theirs "$kind"
  refused "archive.new is $kind: run" 5 run first second archive plan
  rm -rf elsewhere archive.new
done

# ---- an archive's place that can't have one
for kind in folder fifo device; do
  changed
  a_plan first >plan
  rm archive
  case $kind in
  folder) mkdir archive ;;
  fifo) mkfifo archive ;;
  device)
    if ! mknod archive c 1 3 2>/dev/null; then
      echo 'skipped: this user may make no device, so none is given as the archive'
      continue
    fi
    ;;
  esac
  refused "the archive is a $kind: sync" 5 "${sync[@]}"
  refused "the archive is a $kind: run" 5 run first second archive plan
  refused "the archive is a $kind: plan" 5 plan first second archive
  refused "the archive is a $kind: check" 5 check first second archive plan
  refused "the archive is a $kind: show" 5 show archive
done
changed
refused 'the archive has no folder' 5 sync first second nowhere/archive
refused 'the archive is below a file' 5 sync first second archive/archive
if may_be_refused; then
  changed
  mkdir shut
  cp archive shut
  chmod 555 shut
  chmod -R a+rwX first second
  chmod 777 first/.twosync second/.twosync
  chown -R 65534 first second shut 2>/dev/null
  before=("${as[@]}")
  refused 'a new archive in a folder that must not be written' 5 sync first second shut/new
  refused 'an archive in a folder that must not be written' 5 sync first second shut/archive
  before=()
  chmod 755 shut
  rm -r shut
else
  echo 'skipped: no other user to run as, so a folder that must not be written is not tried'
fi

# ---- after a refusal there is no new archive
changed
printf x >>archive
refused 'a longer archive' 6 "${sync[@]}"
changed
sed -i 's/ 1 ca/ 1 da/' archive
refused 'a changed archive' 7 "${sync[@]}"
changed
mkfifo first/p
refused 'a fifo in a replica' 10 "${sync[@]}"
changed
refused 'no rules there' 9 "${sync[@]}" --holds nowhere
refused 'no plan there' 9 run first second archive nowhere
refused 'no first folder' 9 sync nowhere second archive
changed
a_plan second >plan
state >state.before
expect 'a plan for another pair' 3 'refused 3 0' '' run first second archive plan
state >state.after
holds_true 'a plan for another pair: nothing has changed' cmp -s state.before state.after

# ---- the archive may be reached by links
mkdir real links
linked() {
  changed
  rm -f real/* links/*
  [ "$2" = dangling ] || mv archive real/archive
  rm -f archive
  case $1 in
  relative) ln -s ../real/archive links/archive ;;
  absolute) ln -s "$work/real/archive" links/archive ;;
  twice) ln -s ../real/archive links/other && ln -s other links/archive ;;
  esac
  readlink links/archive >state.link
}
for kind in relative absolute twice; do
  for there in there dangling; do
    linked "$kind" "$there"
    # where there is no archive yet, the changed file is a conflict, so it is settled first
    [ "$there" = there ] || printf b >second/f
    lines=$([ "$there" = there ] && echo first || echo same)
    expect "a $kind link to an archive, $there" 0 "done $lines /f"$'\n'"$one" '' sync first second links/archive
    alike "a $kind link to an archive, $there"
    holds_true "a $kind link to an archive, $there: it stays a link" cmp -s state.link <(readlink links/archive)
    holds_true "a $kind link to an archive, $there: what it leads to" \
      cmp -s real/archive <(archive_of "f /f 1 $SB")
    holds_true "a $kind link to an archive, $there: it is alone" test "$(find real links -type f)" = real/archive
    expect "a $kind link to an archive, $there: again" 0 "$nothing" '' sync first second links/archive
  done
done
# Whichever place the new archive has, a file of somebody's beside the link or beside what it leads to isn't touched.
for place in links real; do
  linked relative there
  printf 'my notes' >"$place/archive.new"
  timeout 10 "$program" sync first second links/archive >/dev/null 2>&1
  holds_true "$place/archive.new stays" test "$(cat "$place/archive.new" 2>/dev/null)" = 'my notes'
done
rm -rf real links

# ---- two runs at once with one archive and different pairs
fresh
rm -rf third fourth
mkdir third fourth
printf c >third/c
seq 400 | split -l 1 -a 2 - first/f
ln -s archive other
"$program" "${sync[@]}" >theirs 2>&1 &
child=$!
until_plan
printf 'twosync-plan 1\nentry first /c\npiece 0 0 1 /c\ncommit 0\np 0\nmark 0\np 1\nend 1 3\n' >plan
refused 'another pair with an archive that is in use: sync' 8 sync third fourth archive
refused 'another pair with an archive that is in use: run' 8 run third fourth archive plan
refused 'another pair with an archive that is in use, by a link' 8 sync third fourth other
kill -CONT "$child" 2>/dev/null
wait "$child"
got=$?
holds_true 'the first run' test "$got" = 0 -a "$(tail -n 1 theirs)" = 'total 400 done 400 skipped 0 failed 0 blocked 0'
alike 'the first run'
holds_true 'its archive' test "$("$program" show archive | wc -l)" = 400
rm -rf third fourth other theirs

# ---- a replica that isn't mounted
# seen: a pair that was synchronized
seen() {
  fresh
  printf a | tee first/f >second/f
  "$program" "${sync[@]}" >/dev/null 2>&1
}
for replica in first second; do
  other=$([ "$replica" = first ] && echo second || echo first)
  for how in empty others; do
    seen
    holds_true "a run leaves .twosync in $replica" test -d "$replica/.twosync"
    holds_true "a run leaves only the file archives in it in $replica" test "$(ls -A "$replica/.twosync")" = archives -a -z "$(left_in "$replica")"
    rm -r "$replica"
    mkdir "$replica"
    [ "$how" = empty ] || printf z >"$replica/z"
    refused "$replica isn't mounted, $how there" 9 "${sync[@]}"
    holds_true "$replica isn't mounted, $how there: the other file stays" test "$(cat "$other/f")" = a
    refused "$replica isn't mounted, $how there: again" 9 "${sync[@]}"
    refused "$replica isn't mounted, $how there: with one worker" 9 "${sync[@]}" --workers 1
  done
  seen
  rm -r "$replica"
  mkdir "$replica"
  want=$(printf 'twosync-plan 1\nentry %s /f\ncommit 0\nmark 0\np 0\nend 1 2' "$replica")
  state >state.before
  expect "$replica isn't mounted: plan" 0 "$want" '' plan first second archive
  echo "$want" >plan
  expect "$replica isn't mounted: check" 0 valid '' check first second archive plan
  rm plan
  state >state.after
  holds_true "$replica isn't mounted: plan and check change nothing" cmp -s state.before state.after
  echo "$want" >plan
  expect "$replica isn't mounted: run" 0 "done $replica /f"$'\n'"$one" '' run first second archive plan
  alike "$replica isn't mounted: run"
  holds_true "$replica isn't mounted: the plan is carried out" test ! -e first/f -a ! -e second/f

  seen
  rm -r "$replica"
  mkdir "$replica"
  make_known archive "$replica"
  expect "$replica was emptied, but has .twosync" 0 "done $replica /f"$'\n'"$one" '' "${sync[@]}"
  seen
  rm -r first/.twosync second/.twosync "$replica/f"
  refused "neither has .twosync, and $replica was emptied" 9 "${sync[@]}"

  for kind in absent empty; do
    fresh
    printf a >first/f
    mkdir "$other/.twosync"
    [ "$kind" = absent ] || archive_of '' >archive
    expect "$replica has no .twosync, the archive is $kind" 0 $'done first /f\n'"$one" '' "${sync[@]}"
    alike "$replica has no .twosync, the archive is $kind"
  done
done

# ---- a refused command takes its own directory away again, and leaves one that was there
fresh
printf x >archive
refused 'an archive that is none, no .twosync' 6 "${sync[@]}"
fresh
mkfifo second/p
refused 'a fifo, no .twosync' 10 "${sync[@]}"
mkdir first/.twosync
refused 'a fifo, one .twosync' 10 "${sync[@]}"
fresh
printf b >first/b
refused 'no second folder, no .twosync' 9 sync first nowhere archive
printf 'twosync-plan 1\nend 0 00\n' >plan
refused 'no plan text, no .twosync' 6 run first second archive plan

# ---- a run that can't be reported is done all the same, and its status says that it wasn't reported
for words in 'sync first second archive' 'run first second archive plan'; do
  fresh
  printf a >first/f
  "$program" plan first second archive >plan
  # shellcheck disable=SC2086
  "$program" $words >/dev/full 2>err
  status=$?
  : >out
  answered "$words, no room for the report" 2 '' 'twosync: fault 5' "$status"
  alike "$words, no room for the report"
  expect "$words, no room for the report: again" 0 "$nothing" '' "${sync[@]}"
done

ended disk_edge
