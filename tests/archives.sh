#!/usr/bin/env bash
# What a replica knows of its archives: the text of its file `.twosync/archives`, and what `sync` refuses by it, which is a folder
# that has a `.twosync` of its own and isn't the one that the archive is about: an older copy of it, or the folder of another pair.
# Then what damages that file, and runs that are killed and whose calls fail while they write it (tests/archives.py).
# usage: tests/archives.sh [PROGRAM]
set -u
cd "$(dirname "$0")/.." || exit 1
tests=$PWD/tests
# In memory, since it makes some thousand runs, whose flushes would take long.
# shellcheck disable=SC2034
room=200
. tests/cases.sh
umask 022

nothing='total 0 done 0 skipped 0 failed 0 blocked 0'
one='total 1 done 1 skipped 0 failed 0 blocked 0'
# Digests of no archive that is here.
S1=$(printf one | sha256sum | cut -c1-64)
S2=$(printf two | sha256sum | cut -c1-64)
# pair_of ARCHIVE: how a line begins that is about the pair with this archive: by the machine, and by where the archive lies
pair_of() {
  printf 'pair:%s' "$({ cat /etc/machine-id 2>/dev/null && :; printf %s "$(realpath -m "$1")"; } | sha256sum | cut -c1-64)"
}
# Lines about the pair that most cases are about, and about another one.
ours=$(pair_of archive)
theirs=$(pair_of theirs)

# says NAME LINES REPLICA..: the file of these replicas has just these lines, and is for its owner alone
says() {
  local name=$1 lines=$2 replica
  shift 2
  for replica in "$@"; do
    if diff <(printf '%s\n' "$lines") "$replica/.twosync/archives" >differences 2>&1; then
      ok
    else
      bad "$name: $replica/.twosync/archives: $(head -n 4 differences | tr '\n' ' ')"
    fi
    holds_true "$name: the mode in $replica" test "$(stat -c '%A' "$replica/.twosync/archives" 2>&1)" = -rw-------
  done
}
# has_line FILE WORD: a line of this file, which is one and no pipe, has this word
has_line() { [ -f "$1" ] && [ -n "$2" ] && grep -qw "$2" "$1"; }
# knows NAME ARCHIVE REPLICA..: a line of their files has the digest of this archive
knows() {
  local name=$1 digest replica
  digest=$(digest_in "$2")
  shift 2
  for replica in "$@"; do
    holds_true "$name: $replica knows the archive" has_line "$replica/.twosync/archives" "$digest"
  done
}
# agree NAME ONE OTHER: two replicas hold the same
agree() { holds_true "$1: $2 and $3 hold the same" diff -r -x .twosync "$2" "$3"; }
# synced NAME [WORDS..]: `sync` does all that is to be done, and both replicas hold the same then
synced() {
  local name=$1 got
  shift
  [ "$#" != 0 ] || set -- first second archive
  timeout 20 "$program" sync "$@" >out 2>err
  got=$?
  holds_true "$name: status $got, $(tail -n 1 err)" test "$got" = 0 -a ! -s err
  agree "$name" "$1" "$2"
  holds_true "$name: what is left in .twosync" test -z "$(left_in "$1" "$2")"
}
# killed_at PLACE WORDS..: runs the program, and kills it right before something comes to this place, or leaves it
killed_at() {
  local place=$1
  shift
  { strace -qq -f -o /dev/null -e signal=none -P "$place" -e trace="$moving" -e inject="$moving:signal=KILL" \
    "$program" "$@" >/dev/null; } 2>/dev/null
  holds_true "a run is killed at $place" test "$?" -gt 128
}
# marks: which files these are, and when they were written
marks() { stat -c '%n %i %y %z' first/.twosync/archives second/.twosync/archives 2>&1; }

# ---- the text of the file
for mask in 022 077 000; do
  name="umask $mask"
  umask "$mask"
  fresh
  printf a | tee first/f first/h >second/g
  synced "$name: a first sync"
  was=$(digest_in archive)
  says "$name: a first sync" "$ours $was" first second
  written=$(marks)
  synced "$name: nothing to do"
  says "$name: nothing to do" "$ours $was" first second
  holds_true "$name: nothing to do: the files are the same" test "$(marks)" = "$written"

  printf b >first/f
  printf b >second/new
  synced "$name: changes"
  now=$(digest_in archive)
  says "$name: changes" "$ours $was $now" first second
  written=$(marks)
  for time in once twice; do
    synced "$name: nothing to do, $time"
    says "$name: nothing to do, $time" "$ours $was $now" first second
    holds_true "$name: nothing to do, $time: the files are the same" test "$(marks)" = "$written"
  done

  was=$now
  rm second/new
  "$program" plan first second archive >plan
  expect "$name: a plan" 0 $'done second /new\n'"$one" '' run first second archive plan
  rm plan
  now=$(digest_in archive)
  says "$name: a plan" "$ours $was $now" first second

  # where only conflicts are left the archive stays, and what is known of it, too
  printf c >first/g
  printf d >second/g
  written=$(marks)
  expect "$name: a conflict" 1 $'skip conflict /g\ntotal 1 done 0 skipped 1 failed 0 blocked 0' '' "${sync[@]}"
  says "$name: a conflict" "$ours $was $now" first second
  holds_true "$name: a conflict: the files are the same" test "$(marks)" = "$written"
  umask 022
done

fresh
synced 'nothing in either folder'
says 'nothing in either folder' "$ours $(digest_in archive)" first second
fresh
printf a >first/f
"$program" plan first second archive >plan
expect 'a first run of a plan' 0 $'done first /f\n'"$one" '' run first second archive plan
says 'a first run of a plan' "$ours $(digest_in archive)" first second

# ---- what a replica has from before
for odd in first second; do
  other=$([ "$odd" = first ] && echo second || echo first)
  # a .twosync that knows nothing, and one that was made for a run that never came so far
  for mode in 700 1700; do
    fresh
    printf a >first/f
    mkdir -m "$mode" "$odd/.twosync"
    synced "$odd has a .twosync of mode $mode, no archive"
    says "$odd has a .twosync of mode $mode, no archive" "$ours $(digest_in archive)" first second
  done

  # the file is lost, and the run after that has nothing to do
  name="the file in $odd is lost"
  fresh
  printf a >first/f
  synced "$name: before"
  rm "$odd/.twosync/archives"
  synced "$name, and nothing is to be done"
  says "$name, and nothing is to be done" "$ours $(digest_in archive)" first second
  # it has something to do, which is refused; a plan brings the pair back
  rm "$odd/.twosync/archives"
  printf b >"$odd/f"
  refused "$name, and there is a change" 9 "${sync[@]}"
  was=$(digest_in archive)
  "$program" plan first second archive >plan
  expect "$name, and a plan" 0 $'done '"$odd"$' /f\n'"$one" '' run first second archive plan
  rm plan
  says "$name, and a plan" "$ours $was $(digest_in archive)" first second
  printf c >"$other/f"
  was=$(digest_in archive)
  synced "$name, and later"
  says "$name, and later" "$ours $was $(digest_in archive)" first second
done
# lines of older versions: a digest, two of them, and the word `older` before them, which says nothing any more. They name no pair, and are
# replaced by the pair's own line, and other lines stay.
for older in '' $'older\n'; do
  for line in one two; do
    name="a line with $line ${older:+behind the word older}"
    fresh
    printf a | tee first/f >second/f
    archive_of "f /f 1 $SA" >archive
    was=$(digest_in archive)
    mkdir -m 700 first/.twosync second/.twosync
    for replica in first second; do
      if [ "$line" = one ]; then
        printf '%s' "$older$S1"$'\n'"$was"$'\n'"$theirs $S2"$'\n' >"$replica/.twosync/archives"
      else
        printf '%s' "$older$was $S2"$'\n'"$S1"$'\n' >"$replica/.twosync/archives"
      fi
    done
    printf b >second/f
    synced "$name"
    if [ "$line" = one ]; then
      says "$name" "$S1"$'\n'"$theirs $S2"$'\n'"$ours $was $(digest_in archive)" first second
    else
      says "$name" "$S1"$'\n'"$ours $was $(digest_in archive)" first second
    fi
  done
done

# ---- an older copy of a replica
# seen ODD TIMES: a pair that was synchronized, and so many times more; `copy` is the replica ODD as it was after the first time
seen() {
  other=$([ "$1" = first ] && echo second || echo first)
  fresh
  rm -rf copy right
  printf a | tee first/f first/kept >second/g
  "$program" "${sync[@]}" >/dev/null 2>&1
  cp -a "$1" copy
  rm "$other/f"
  printf b >"$other/new"
  "$program" "${sync[@]}" >/dev/null 2>&1
  [ "$2" = 1 ] || { printf c >"$1/later" && "$program" "${sync[@]}" >/dev/null 2>&1; }
}
# put_copy ODD: the older copy stands in the replica's place
put_copy() { mv "$1" right && mv copy "$1"; }
# refused_by_all NAME: each way to ask for a `sync` of the pair is refused
refused_by_all() {
  refused "$1" 9 "${sync[@]}"
  refused "$1, the other way round" 9 sync second first archive
  refused "$1, by one worker" 9 "${sync[@]}" --workers 1
  refused "$1, with checkpoints" 9 "${sync[@]}" --checkpoint 1
}
# only_looks NAME: what only looks at the pair is shown, and a preview ends as the sync would
only_looks() {
  "$program" plan first second archive >plan 2>err
  holds_true "$1: it can be planned" test "$?" = 0 -a ! -s err
  expect "$1: it can be checked" 0 valid '' check first second archive plan
  "$program" preview first second archive >out 2>err
  holds_true "$1: it can be previewed" test "$?" = 3 -a "$(cat err)" = 'twosync: fault 9' -a -s out
}
for odd in first second; do
  for times in 1 2; do
    name="an older copy of $odd, after $times more"
    seen "$odd" "$times"
    put_copy "$odd"
    refused_by_all "$name"
    expect "$name, explained" 3 '' \
      "$odd took no part in the last run with the archive archive, which names $("$program" show archive | wc -l) paths: is its disk mounted, and is this the right archive? See \`preview\`. If what it shows is right, use \`plan\` and \`run\`. If not, remove the archive: then nothing is deleted.
twosync: fault 9" "${sync[@]}" --explain
    state >state.before
    only_looks "$name"
    rm plan
    state >state.after
    holds_true "$name: a look changes nothing" cmp -s state.before state.after
    # it was emptied, too, and then the right one is back
    mv "$odd" copy
    mkdir "$odd"
    mv copy/.twosync "$odd"
    refused_by_all "$name, emptied"
    rm -r "$odd"
    mv right "$odd"
    synced "$name: the right one is back"
    expect "$name: the right one is back, and nothing is to be done" 0 "$nothing" '' "${sync[@]}"

    # who wants just that makes a plan
    seen "$odd" "$times"
    put_copy "$odd"
    was=$(digest_in archive)
    only_looks "$name, planned"
    timeout 20 "$program" run first second archive plan >out 2>err
    holds_true "$name, planned: it can be run" test "$?" = 0 -a ! -s err
    rm plan
    agree "$name, planned" first second
    holds_true "$name, planned: it is carried out" test -e "$other/f" -a ! -e "$odd/new"
    knows "$name, planned" archive first second
    synced "$name, planned: the next sync"
    printf d >"$odd/next"
    synced "$name, planned: the sync after a change"
    rm -rf right
  done

  # a copy of the last state is as good as the replica
  seen "$odd" 2
  rm -r copy
  cp -a "$odd" copy
  printf lost >"$odd/unseen"
  put_copy "$odd"
  printf d >"$other/d"
  synced "a copy of $odd after the last run"
  holds_true "a copy of $odd after the last run: nothing is lost" test -e "$odd/d" -a -e "$odd/later" -a -e "$other/new"
  rm -r right
done

# a stopped run isn't one that its older copy took part in: its archive was written meanwhile
if command -v strace >/dev/null; then
  for odd in first second; do
    seen "$odd" 1
    rm -r copy
    cp -a "$odd" copy
    cp archive archive.before
    printf a | tee "$other/p" >"$other/q"
    name="a copy of $odd from before a run that was stopped after a checkpoint"
    killed_at "$odd/q" "${sync[@]}" --workers 1 --checkpoint 1
    holds_true "$name: it is stopped in between" test -e "$odd/p" -a ! -e "$odd/q"
    holds_true "$name: the archive is another one" test "$(digest_in archive)" != "$(digest_in archive.before)"
    put_copy "$odd"
    # what it left in the other replica is cleaned up first
    expect "$name" 3 '' 'twosync: fault 9' "${sync[@]}"
    refused_by_all "$name, again"
    rm -r "$odd"
    mv right "$odd"
    synced "$name: the right one is back"
    holds_true "$name: all is there" test -e "$odd/p" -a -e "$odd/q"
    rm archive.before
  done
fi

# ---- a replica that isn't mounted, where the other one doesn't know the archive either. Only one of them has a `.twosync`, and
# what the archive names would be deleted in that one.
for odd in first second; do
  kept=$([ "$odd" = first ] && echo second || echo first)
  seen "$kept" 2
  put_copy "$kept"
  rm -r "$odd"
  mkdir "$odd"
  refused "$odd isn't mounted, and $kept is an older copy" 9 "${sync[@]}"
  rm -r right
  seen "$kept" 1
  cp archive archive.old
  for text in b c; do
    printf '%s' "$text" >"$kept/g"
    "$program" "${sync[@]}" >/dev/null 2>&1
  done
  mv archive.old archive
  rm -r "$odd"
  mkdir "$odd"
  refused "$odd isn't mounted, and the archive is one from two runs ago" 9 "${sync[@]}"
done
rm -rf copy right

# ---- the archive of another pair
# two_pairs: a and b were synchronized with x, a and c with y, and they hold other things since
two_pairs() {
  rm -rf a b c d x y z
  mkdir a b c d
  printf a | tee a/f >a/g
  "$program" sync a b x >/dev/null 2>&1
  printf b >a/new
  printf c >c/own
  rm a/g
  "$program" sync a c y >/dev/null 2>&1
  printf b >b/only
}
for role in 'first second' 'second first'; do
  # pair OF TWO: the two in this order, or in the other one
  pair() { if [ "$role" = 'first second' ]; then echo "$1 $2"; else echo "$2 $1"; fi; }
  two_pairs
  for wrong in 'a c x' 'b c x' 'a b y' 'b c y'; do
    read -r left right archive <<<"$wrong"
    # shellcheck disable=SC2046
    refused "the wrong archive: $(pair "$left" "$right") $archive" 9 sync $(pair "$left" "$right") "$archive"
  done
  # c knows that archive no more than the new folder d, but what it names would be deleted in c
  # shellcheck disable=SC2046
  refused "the wrong archive, and a new folder: $(pair c d) x" 9 sync $(pair c d) x
  for own in 'a b x' 'a c y'; do
    read -r left right archive <<<"$own"
    # shellcheck disable=SC2046
    synced "their own archive: $(pair "$left" "$right") $archive" $(pair "$left" "$right") "$archive"
  done
  # an archive that neither belongs to
  printf a >a/last
  # shellcheck disable=SC2046
  synced "their own archive, again: $(pair a b) x" $(pair a b) x
  printf d >d/other
  "$program" sync c d z >/dev/null 2>&1
  printf d >d/other
  # shellcheck disable=SC2046
  refused "an archive of neither: $(pair c d) x" 9 sync $(pair c d) x
  holds_true "an archive of neither: $(pair c d) x: what it doesn't name stays" test -e c/own -a -e d/other
done
rm -rf a b c d x y z

# ---- one replica of two pairs
# change PLACE: makes or deletes one of two files there. They have the same text wherever they are made, so there are no conflicts.
change() {
  local file=$1/f$((RANDOM % 2))
  if [ -e "$file" ]; then rm "$file"; else printf a >"$file"; fi
}
# ran NAME WORDS..: a run that isn't refused
ran() {
  local name=$1 got
  shift
  "$program" "$@" >out 2>err
  got=$?
  [ "$got" = 0 ] && [ ! -s err ] && diff -r -x .twosync "$2" "$3" >/dev/null && return
  bad "$name: status $got, $(tail -n 1 err)"
  return 1
}
# The same text comes again and again in both archives, so one digest may stand in several lines.
# walked NAME SEED STOP: changes and runs in an order that the seed gives; the run in the turn STOP is killed right before its archive
# comes to its place
walked() {
  local turn other archive
  RANDOM=$2
  rm -rf a b c x y
  mkdir a b c
  for turn in {1..40}; do
    case $((RANDOM % 4)) in
    0) change b ;;
    1) change c ;;
    2) change a ;;
    esac
    if [ $((RANDOM % 2)) = 0 ]; then read -r other archive <<<'b x'; else read -r other archive <<<'c y'; fi
    if [ "$turn" = "$3" ]; then
      killed_at "$archive.new" sync a "$other" "$archive" --allow-empty
    elif ! ran "$1, turn $turn" sync a "$other" "$archive" --allow-empty; then
      return
    fi
  done
  ok
}
two_archives() {
  rm -rf a b c x y
  mkdir a b c
  printf a >a/z
  ran "$1: b" sync a b x || return
  # what b has now, c will never have
  mv a/z a/d
  ran "$1: c" sync a c y || return
  printf a >a/e
  ran "$1: c with more" sync a c y || return
  # a comes to hold again what it held with c before
  rm a/e
  ran "$1: b is as c was" sync a b x || return
  printf a >a/f
  ran "$1: b goes on" sync a b x || return
  ran "$1: c comes later" sync a c y || return
  ran "$1: b comes later" sync a b x || return
  ok
}
two_archives 'two archives that were equal once'
# both begin equal, and one of them goes on alone for long
for start in '' file; do
  name="two archives that begin equal${start:+, with a file}"
  rm -rf a b c x y
  mkdir a b c
  [ -z "$start" ] || printf a >a/f
  synced "$name: x" a b x
  synced "$name: y" a c y
  for text in 1 2 3 4; do
    printf '%s' "$text" >a/g
    synced "$name: x goes on, $text" a b x
  done
  synced "$name: y comes later" a c y
  synced "$name: x comes later" a b x
done
for seed in {1..8}; do walked "one replica of two pairs, seed $seed" "$seed" none; done
if command -v strace >/dev/null; then
  for seed in {1..8}; do walked "one replica of two pairs, and a run is stopped, seed $seed" "$seed" 12; done
fi
rm -rf a b c x y

# ---- three replicas in a ring. One run is killed between the note and the rename, and another pair goes on: its line may end as that of
# the killed run does, which has the archive that is still there before it.
if command -v strace >/dev/null; then
  for role in 'a b x c z' 'b c y a x' 'c a z b y'; do
    read -r one two archive third other <<<"$role"
    name="a ring, and the run of $archive is killed"
    rm -rf a b c x y z
    mkdir a b c
    printf 0 | tee a/f >a/g
    synced "$name: x" a b x
    synced "$name: y" b c y
    synced "$name: z" c a z
    printf 1 >"$one/f"
    synced "$name: $archive goes on" "$one" "$two" "$archive"
    printf 2 >"$one/f"
    killed_at "$archive.new" sync "$one" "$two" "$archive"
    # recovery comes first, and then the pair of the first replica and the third one goes on
    for text in 2 3 4; do
      printf '%s' "$text" >"$one/g"
      synced "$name: $other comes to $text" "$third" "$one" "$other"
    done
    synced "$name: $archive comes later" "$one" "$two" "$archive"
    for pair in 'b c y' 'c a z' 'a b x'; do
      # shellcheck disable=SC2086
      synced "$name: $pair in the end" $pair
    done
  done
  # ring NAME SEED STOP: the same in an order that the seed gives; the run in the turn STOP is killed
  ring() {
    local turn pairs=('a b x' 'b c y' 'c a z') words
    RANDOM=$2
    rm -rf a b c x y z
    mkdir a b c
    for turn in {1..40}; do
      case $((RANDOM % 5)) in
      0) change a ;;
      1) change b ;;
      2) change c ;;
      esac
      read -ra words <<<"${pairs[RANDOM % 3]}"
      if [ "$turn" = "$3" ]; then
        killed_at "${words[2]}.new" sync "${words[@]}" --allow-empty
      elif ! ran "$1, turn $turn" sync "${words[@]}" --allow-empty; then
        return
      fi
    done
    ok
  }
  for seed in {1..12}; do ring "a ring, seed $seed" "$seed" $((10 + seed)); done
fi
rm -rf a b c x y z

# ---- more pairs than a replica remembers
# others COUNT: lines of so many pairs whose archives are lost
others() {
  local number
  for number in $(seq "$1"); do echo "pair:$(printf '%064x' "$number") $(printf '%064x' "$((number + 5000))")"; done
}
# crowded COUNT: hub was synchronized with other1, and then with so many others; `more` is another one
crowded() {
  rm -rf hub other1 archive1 more archive
  mkdir hub other1 more
  printf a | tee hub/f hub/g >hub/h
  "$program" sync hub other1 archive1 >/dev/null 2>&1
  others "$1" >>hub/.twosync/archives
  # so that the two archives aren't equal
  printf a >more/own
}
crowded 70
synced '70 pairs whose archives are lost, and one more' hub more archive
printf b >hub/f
synced '70 pairs whose archives are lost, and the first one' hub other1 archive1
crowded 1022
synced 'the 1,024th pair' hub more archive --explain
printf b >hub/f
synced 'the first pair of 1,024' hub other1 archive1
says 'the first pair of 1,024' "$(others 1022)
$ours $(digest_in archive)
$(pair_of archive1) $(tail -n 1 other1/.twosync/archives | cut -d ' ' -f 2) $(digest_in archive1)" hub
# one that is used moves to the end, also where nothing is to be done
crowded 1023
expect 'the first pair of 1,024 is used' 0 "$nothing" '' sync hub other1 archive1
says 'the first pair of 1,024 is used' "$(others 1023)
$(pair_of archive1) $(digest_in archive1)" hub
forgot='knows 1,024 archives: it has forgotten the one that was used longest ago. Where that is still in use, look at `preview`, and use `plan` and `run`.'
for role in 'hub more|first' 'more hub|second'; do
  IFS='|' read -r words side <<<"$role"
  crowded 1023
  # shellcheck disable=SC2086
  "$program" sync $words archive --explain >out 2>err
  got=$?
  holds_true "the 1,025th pair of the $side: status $got, $(cat err)" test "$got" = 0 -a "$(cat err)" = "The $side folder $forgot"
  says "the 1,025th pair of the $side" "$(others 1023)
$ours $(digest_in archive)" hub
  # the one that was forgotten is refused; a plan brings it back
  printf b >hub/f
  refused "the pair that the $side forgot" 9 sync hub other1 archive1
  "$program" plan hub other1 archive1 >plan
  "$program" run hub other1 archive1 plan >out 2>err
  holds_true "the pair that the $side forgot, and a plan" test "$?" = 0 -a ! -s err
  rm plan
  printf c >hub/f
  synced "the pair that the $side forgot, and came back" hub other1 archive1
  crowded 1023
  # shellcheck disable=SC2086
  "$program" sync $words archive >out 2>err
  holds_true "the 1,025th pair of the $side, without words" test "$?" = 0 -a ! -s err
done
rm -rf hub other1 archive1 more archive

# ---- the archive is moved, restored, or reached by a link
fresh
rm -rf elsewhere
printf a >first/f
"$program" "${sync[@]}" >/dev/null 2>&1
mkdir elsewhere
mv archive elsewhere/another
printf b >first/g
synced 'an archive that was moved' first second elsewhere/another
ln -s elsewhere/another link
printf b >second/h
was=$(digest_in link)
synced 'an archive by a link' first second link
says 'an archive by a link' "$(tail -n 2 first/.twosync/archives | head -n 1)
$(pair_of elsewhere/another) $was $(digest_in elsewhere/another)" first second
# it is the one from before the last run, and then the one before that
for change in f g; do
  cp elsewhere/another "kept.$change"
  printf changed >"first/$change"
  synced "before an archive is restored, $change" first second link
done
for change in g f; do
  name="an archive from $([ $change = g ] && echo 'before the last run' || echo 'two runs ago')"
  cp "kept.$change" elsewhere/another
  # that of before the last run may be one that a stopped run left
  if [ "$change" = g ]; then
    synced "$name" first second elsewhere/another
  else
    refused "$name" 9 sync first second elsewhere/another
    "$program" plan first second elsewhere/another >plan
    "$program" run first second elsewhere/another plan >out 2>err
    holds_true "$name: plan and run" test "$?" = 0 -a ! -s err
    rm plan
  fi
  knows "$name" elsewhere/another first second
  holds_true "$name: nothing is lost" test "$(cat first/f first/g first/h)" = changedchangedb
done
rm -r elsewhere link kept.*

# ---- a replica is moved, or copied whole
for odd in first second; do
  other=$([ "$odd" = first ] && echo second || echo first)
  for way in mv 'cp -a' link; do
    fresh
    rm -rf there
    printf a >first/f
    "$program" "${sync[@]}" >/dev/null 2>&1
    if [ "$way" = link ]; then ln -s "$odd" there; else $way "$odd" there; fi
    printf b >"$other/g"
    rm "$other/f"
    words=(there second archive)
    [ "$odd" = first ] || words=(first there archive)
    was=$(digest_in archive)
    synced "$odd by $way" "${words[@]}"
    says "$odd by $way" "$ours $was $(digest_in archive)" there "$other"
  done
  rm -rf there
done

# ---- a file that isn't what the program writes is refused
# text_of KIND: what stands in the file. It names other archives, so a replica that took it at its word would be refused.
text_of() {
  case $1 in
  garbage) echo 'my notes' ;;
  'no line') : ;;
  'an empty line') echo ;;
  'an empty line at the end') echo "$S1" && echo ;;
  'an empty line in between') echo "$S1" && echo && echo "$S2" ;;
  'upper-case digits') echo "${S1^^}" ;;
  'one digit that is none') echo "${S1:1}g" ;;
  'a digit less') echo "${S1:1}" ;;
  'a digit more') echo "${S1}0" ;;
  'no line feed') printf %s "$S1" ;;
  'no line feed after a good line') echo "$S2" && printf %s "$S1" ;;
  'a carriage return') printf '%s\r\n' "$S1" ;;
  'a space before') echo " $S1" ;;
  'a space behind') echo "$S1 " ;;
  'two spaces') echo "$S1  $S2" ;;
  'three digests') echo "$S1 $S2 $S1" ;;
  'a tab') printf '%s\t%s\n' "$S1" "$S2" ;;
  'a zero byte') printf '%s\0\n' "$S1" ;;
  'older at the end') echo "$S1" && echo older ;;
  'older twice') printf 'older\nolder\n' ;;
  'older with a digest') echo "older $S1" ;;
  'Older') printf 'Older\n%s\n' "$S1" ;;
  '1,025 lines') yes "$S1" | head -n 1025 ;;
  'older and 1,025 lines') echo older && yes "$S1" | head -n 1025 ;;
  'a pair alone') echo "$ours" ;;
  'a pair without a name') echo "pair: $S1" ;;
  'a pair with a short name') echo "pair:${S1:1} $S1" ;;
  'a pair of upper-case digits') echo "pair:${S1^^} $S1" ;;
  'a pair with three digests') echo "$ours $S1 $S2 $S1" ;;
  'a pair with two spaces') echo "$ours  $S1" ;;
  'another word than pair') echo "Pair:$S1 $S1" ;;
  'a million lines') yes "$S1" | head -n 1000000 ;;
  'one long line') yes "$S1" | head -n 1000000 | tr -d '\n' ;;
  esac
}
# known_pair: a pair that was synchronized, with a change on each side since; `was` is the digest of the archive
known_pair() {
  fresh
  rm -rf outside
  printf a | tee first/f first/g first/kept >first/h
  "$program" "${sync[@]}" >/dev/null 2>&1
  was=$(digest_in archive)
  printf b >first/new
  rm second/g
}
# nothing_lost NAME: after that both have what they have to have
nothing_lost() {
  holds_true "$1: nothing is lost" test "$(cd first && cat f h kept new)$(cd second && cat f h kept new)" = aaabaaab
}
limited() { (ulimit -v 4000000 && exec "$@"); }
for odd in first second; do
  other=$([ "$odd" = first ] && echo second || echo first)
  for kind in garbage 'no line' 'an empty line' 'an empty line at the end' 'an empty line in between' 'upper-case digits' \
    'one digit that is none' 'a digit less' 'a digit more' 'no line feed' 'no line feed after a good line' 'a carriage return' \
    'a space before' 'a space behind' 'two spaces' 'three digests' 'a tab' 'a zero byte' 'older at the end' 'older twice' \
    'older with a digest' Older '1,025 lines' 'older and 1,025 lines' 'a million lines' 'one long line' 'twenty gigabytes' \
    'a pair alone' 'a pair without a name' 'a pair with a short name' 'a pair of upper-case digits' 'a pair with three digests' \
    'a pair with two spaces' 'another word than pair'; do
    name="$kind in $odd"
    known_pair
    if [ "$kind" = 'twenty gigabytes' ]; then
      truncate -s 20G "$odd/.twosync/archives"
    else
      text_of "$kind" >"$odd/.twosync/archives"
    fi
    before=(limited)
    for words in sync preview; do
      expect "$name: $words" 3 '' 'twosync: fault 5 /.twosync/archives' "$words" first second archive
      expect "$name: $words, explained" 3 '' "$odd/.twosync/archives is malformed. Remove it, look at \`preview\`, and use \`plan\` and \`run\`.
twosync: fault 5 /.twosync/archives" "$words" first second archive --explain
    done
    before=()
    holds_true "$name: nothing is lost" test "$(cat first/f first/g first/new)$(cat second/f second/h)" = aabaa
    holds_true "$name: nothing is left" test -z "$(left_in first second)"
    # without it, a plan brings the pair back
    rm "$odd/.twosync/archives"
    "$program" plan first second archive >plan
    "$program" run first second archive plan >out 2>err
    holds_true "$name: plan and run" test "$?" = 0 -a ! -s err
    rm plan
    nothing_lost "$name"
    says "$name" "$ours $was $(digest_in archive)" first second
  done
  # what is well-formed says what it says: so many lines, and no other archive
  for kind in one 'with one before it' 'with a pair' 'with a pair, and one before it' '1,024' older; do
    known_pair
    case $kind in
    one) echo "$S1" ;;
    'with one before it') echo "$S1 $S2" ;;
    'with a pair') echo "$ours $S1" ;;
    'with a pair, and one before it') echo "$ours $S1 $S2" ;;
    1,024) yes "$S1 $S2" | head -n 1024 ;;
    older) echo older ;;
    esac >"$odd/.twosync/archives"
    refused "a file in $odd that names other archives, $kind" 9 "${sync[@]}"
  done
  # the digest of the archive among so many
  known_pair
  { echo older && others 1023 && echo "$was"; } >"$odd/.twosync/archives"
  synced "older and 1,024 lines in $odd"
  says "older and 1,024 lines in $odd" "$(others 1023)
$ours $was $(digest_in archive)" "$odd"
done

# ---- something else stands in the place of the file, or where it is written
# put KIND PLACE: puts it there, and makes what it leads to outside of both replicas
put() {
  mkdir outside
  printf 'older\n' >outside/file
  case $1 in
  'a link to a file') ln -s ../../outside/file "$2" ;;
  'a link to nothing') ln -s ../../outside/none "$2" ;;
  'a link to a folder') ln -s ../../outside "$2" ;;
  'a link to itself') ln -s "${2##*/}" "$2" ;;
  'a folder') mkdir "$2" ;;
  'a folder with a file') mkdir "$2" && printf theirs >"$2/file" ;;
  'a pipe') mkfifo "$2" ;;
  esac
  cp -a outside outside.before
}
# is_whole: both replicas have what they had, or what they are to have
is_whole() {
  local replica
  for replica in first second; do
    [ "$(cd "$replica" && cat f h kept)" = aaa ] || return 1
  done
  [ "$(cat first/new)" = b ] && { [ ! -e second/new ] || [ "$(cat second/new)" = b ]; }
}
for odd in first second; do
  for where in archives archives.new; do
    for kind in 'a link to a file' 'a link to nothing' 'a link to a folder' 'a link to itself' 'a folder' 'a folder with a file' 'a pipe'; do
      name="$kind as $where in $odd"
      known_pair
      cp "$odd/.twosync/archives" kept.archives
      rm -f "$odd/.twosync/$where"
      cp archive archive.before
      put "$kind" "$odd/.twosync/$where"
      for time in once twice; do
        timeout 10 "$program" "${sync[@]}" >out 2>err
        got=$?
        holds_true "$name, $time: status $got" test "$got" = 0 -o "$got" = 2 -o "$got" = 3
        holds_true "$name, $time: $(tail -n 1 err)" test "$([ -s err ] && echo told)" = "$([ "$got" = 0 ] || echo told)"
        holds_true "$name, $time: nothing outside has changed" diff -r outside.before outside
        holds_true "$name, $time: each file is whole" is_whole
        if [ "$got" = 0 ]; then
          knows "$name, $time" archive first second
        else
          holds_true "$name, $time: the archive isn't written" cmp -s archive.before archive
        fi
      done
      rm -rf "$odd/.twosync/$where"
      [ "$where" = archives.new ] || cp -p kept.archives "$odd/.twosync/archives"
      synced "$name, and then it is gone"
      nothing_lost "$name, and then it is gone"
      knows "$name, and then it is gone" archive first second
      rm -r archive.before outside.before kept.archives
    done
  done
done

# ---- what a run left that was killed while it wrote the file
for odd in first second; do
  for kind in 'no line' garbage 'no line feed'; do
    for change in '' change; do
      name="archives.new with $kind in $odd${change:+, and there is a change}"
      known_pair
      [ -n "$change" ] || "$program" "${sync[@]}" >/dev/null 2>&1
      text_of "$kind" >"$odd/.twosync/archives.new"
      synced "$name"
      nothing_lost "$name"
      knows "$name" archive first second
    done
  done
done

# ---- runs that are killed, and whose calls fail, while the file is written
if command -v strace >/dev/null; then
  fresh
  PYTHONPATH=$tests python3 -B "$tests/archives.py" "$program"
  add_counts 'the runs that are killed came to no end'
else
  echo 'skipped: strace is missing, so no run is killed while it writes the file'
fi

ended archives
