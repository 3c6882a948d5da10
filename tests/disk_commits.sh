#!/usr/bin/env bash
# Commits on a disk: what somebody saves while a commit is at work isn't lost, and files and folders get their modes.
# usage: tests/disk_commits.sh [PROGRAM]
set -u
cd "$(dirname "$0")/.." || exit 1
. tests/cases.sh
# Some cases delete a folder with all the files that there are.
sync+=(--allow-empty)
umask 022

one='total 1 done 1 skipped 0 failed 0 blocked 0'
lost='total 1 done 0 skipped 0 failed 1 blocked 0'
# The digest of the four bytes `old.`, by sha256sum.
S_OLD=$(printf old. | sha256sum | cut -c1-64)

# many PLACE COUNT: a folder of so many small files
many() { mkdir "$1" && seq "$2" | split -l 1 -a 3 - "$1/f"; }

# ---- edits while the new tree is written: the target, /f in the replica `to`, is edited when a part of the tree is there
# had KIND: what both replicas and the archive had, which both replicas know
had() {
  fresh
  case $1 in
  file)
    printf old. | tee first/f >second/f
    touch -d '2001-02-03 04:05:06' first/f second/f
    archive_of "f /f 4 $S_OLD" >archive
    ;;
  folder)
    mkdir first/f second/f
    for name in x y z; do printf old. | tee "first/f/$name" >"second/f/$name"; done
    touch -d '2001-02-03 04:05:06' first/f/* second/f/*
    archive_of "d /f
f /f/x 4 $S_OLD
f /f/y 4 $S_OLD
f /f/z 4 $S_OLD" >archive
    ;;
  below)
    mkdir first/d second/d
    printf old. | tee first/d/f >second/d/f
    touch -d '2001-02-03 04:05:06' first/d/f second/d/f
    archive_of "d /d
f /d/f 4 $S_OLD" >archive
    ;;
  nothing) archive_of '' >archive ;;
  esac
  make_known archive first second
  cp archive archive.before
}

# The edits. Each is made in the replica `to`, and what is saved has the text `mine` somewhere.
edit_other_length() { printf 'mine, longer' >"$to/f"; }
edit_same_length() { printf mine >"$to/f"; }
# The same length and the time that the file had, years ago: what tells is the time at which that was set.
edit_of_old_time() { printf mine >"$to/f" && touch -d '2001-02-03 04:05:06' "$to/f"; }
# The same length and the same time, which was just now: only a look at the bytes can tell.
edit_of_same_time() { touch -r "$to/f" stamp && printf mine >"$to/f" && touch -r stamp "$to/f"; }
edit_by_renaming() { printf mine >saved && mv saved "$to/f"; }
edit_to_folder() { rm "$to/f" && mkdir "$to/f" && printf mine >"$to/f/x"; }
edit_new_file() { printf mine >"$to/f"; }
edit_new_folder() { mkdir "$to/f" && printf mine >"$to/f/x"; }
edit_inside() { printf mine >"$to/f/y"; }
edit_inside_of_old_time() { printf mine >"$to/f/y" && touch -d '2001-02-03 04:05:06' "$to/f/y"; }
edit_added() { printf mine >"$to/f/w"; }
edit_removed() { rm "$to/f/y" && printf mine >"$to/f/z"; }
edit_added_below() { mkdir "$to/f/d" && printf mine >"$to/f/d/d"; }
edit_by_handle() { printf mine >&7; }
edit_by_handle_of_old_time() { printf mine >&7 && touch -d '2001-02-03 04:05:06' /proc/self/fd/7; }
# No edit of bytes: the file had the mode 644.
edit_mode() { chmod "$change" "$to/f"; }

# kept NAME: the replica is just what the edit left, and nothing is left of the commit
kept() {
  if diff -r -x .twosync "$to" wanted >differences; then
    ok
  else
    bad "$1: what was saved is gone: $(head -n 3 differences | cut -c1-120)"
  fi
  holds_true "$1: nothing is left in .twosync" test -z "$(left_in first second)"
  holds_true "$1: the archive is as it was" cmp -s archive archive.before
}
# edit_now EDIT: makes the edit, and keeps what it left to compare with
edit_now() {
  "$1"
  rm -rf wanted
  mkdir wanted
  [ ! -e "$to/f" ] || cp -a "$to/f" wanted/
}

# while_filling NAME EDIT: makes the edit while the new tree is being written
while_filling() {
  local name="$1, from $from" got
  "$program" "${sync[@]}" >out 2>err &
  child=$!
  until_there "$to/.twosync/stage-0"
  until_stopped
  got=$(find "$to/.twosync/stage-0" -type f 2>/dev/null | wc -l)
  holds_true "$name: it is stopped while it writes ($got files)" test -d "$to/.twosync/stage-0" -a "$got" -lt "$count"
  edit_now "$2"
  kill -CONT "$child" 2>/dev/null
  wait "$child"
  answered "$name" 2 "failed $from /f"$'\n'"$lost" 'twosync: fault 14 /f' "$?"
  kept "$name"
}
for role in 'first second' 'second first'; do
  read -r from to <<<"$role"
  for edit in other_length same_length of_old_time by_renaming to_folder; do
    count=1000
    [ "$edit" != other_length ] || count=3000
    had file
    rm "$from/f"
    many "$from/f" "$count"
    while_filling "a file edited meanwhile ($edit)" "edit_$edit"
  done
  had file
  rm "$from/f"
  many "$from/f" "$count"
  edit_gone() { rm "$to/f"; }
  while_filling 'a file deleted meanwhile' edit_gone
  for edit in new_folder new_file; do
    had nothing
    many "$from/f" "$count"
    while_filling "made meanwhile ($edit)" "edit_$edit"
  done
  # the next run finds both changes, and leaves them
  expect "the run after that, from $from" 1 $'skip conflict /f\ntotal 1 done 0 skipped 1 failed 0 blocked 0' '' "${sync[@]}"
  holds_true "the run after that, from $from: what was saved" test "$(cat "$to/f")" = mine
done

# ---- edits between the steps of a commit, which is held up at one of its calls
# What is looked for: the target is put aside; the new tree is put in its place.
aside() { echo "\"[^\"]*$to/[.]twosync/old-0\"[^\"]*\$"; }
place() { echo "new-0\".*\"[^\"]*$to/${1:-f}\"[^\"]*\$"; }

# held_at NAME PATTERN SIDE CONDITION EDIT: makes the edit while the run is held up before (enter) or after (exit) the call
# that has the pattern, when the condition holds
held_at() {
  local name="$1, from $from"
  held_status=none
  call_of "$2"
  if [ -z "${call:-}" ]; then
    bad "$name: no call of the run is like $2"
    return
  fi
  [ "$5" != edit_of_same_time ] || touch "$to/f"
  hold_up "$3" "$4"
  edit_now "$5"
  holds_true "$name: the edit comes in time" is_held
  let_go
}
# failed_with_14 NAME [KEPT]: the entry has failed, and where something is kept its place is reported
failed_with_14() {
  answered "$1, from $from" 2 "failed $from /f"$'\n'"$lost" \
    "twosync: fault 14 /f${2:+$'\n'twosync: kept /f as $to/.twosync/$2}" "$held_status"
}
# found NAME TEXT: a file of the replica has this text and nothing else
found() {
  if grep -rqsxF -- "$2" "$to"; then ok; else bad "$1, from $from: what was saved is gone"; fi
}
# left NAME: the only thing that is left in .twosync is one `left-N`, and it is the old file
left() {
  local all
  all=$(left_in "$to")
  if [[ $all =~ ^left-[0-9]+$ ]] && [ "$(cat "$to/.twosync/$all")" = old. ]; then
    ok
  else
    bad "$1, from $from: what was set aside isn't kept: $all"
  fi
}

# killed_after NAME EDIT: makes the edit right before the target is set aside, and kills the run right after it was: nobody has
# looked at what lies aside then. The run after that leaves what was saved where it was.
killed_after() {
  local name="$1, from $from" end
  side=enter
  call_of "$(aside)"
  : >log
  strace -D -qq -f -o log -e signal=none -e inject="$call:delay_enter=3000000:delay_exit=120000000:when=$number" \
    "$program" "${sync[@]}" --workers 1 >out 2>err &
  child=$!
  end=$((SECONDS + 60))
  until is_held || [ "$SECONDS" -ge "$end" ] || ! kill -0 "$child" 2>/dev/null; do sleep 0.005; done
  edit_now "$2"
  holds_true "$name: the edit comes in time" test ! -e "$to/.twosync/old-0"
  until_there "$to/.twosync/old-0"
  holds_true "$name: it is killed with the target aside" test -e "$to/.twosync/old-0" -a ! -e "$to/f"
  kill -KILL "$child" "$(awk '/^TracerPid:/ { print $2 }' "/proc/$child/status")" 2>/dev/null
  wait "$child" 2>/dev/null
  expect "$name: the run after that" 1 $'skip conflict /f\ntotal 1 done 0 skipped 1 failed 0 blocked 0' '' "${sync[@]}"
  holds_true "$name: what was saved is there" diff -r -x .twosync "$to" wanted
  holds_true "$name: nothing is left in .twosync" test -z "$(left_in first second)"
}

# changes KIND: what the source became: another file, a folder, nothing
changes() {
  rm -rf "$from/f"
  case $1 in
  file) printf 'theirs, new' >"$from/f" ;;
  folder) mkdir "$from/f" && printf 'theirs, new' >"$from/f/n" ;;
  nothing) : ;;
  esac
}

# changes_below KIND: what /d/f in the source became: another file, nothing
changes_below() {
  rm "$from/d/f"
  [ "$1" = nothing ] || printf 'theirs, new' >"$from/d/f"
}
# outside_has NAME..: a folder outside of both replicas has files of these names, and no others
outside_has() {
  local name
  rm -rf outside outside.before
  mkdir outside
  for name in "$@"; do printf outside >"outside/$name"; done
  cp -a outside outside.before
}
# outside_stays NAME: that folder is as it was
outside_stays() { holds_true "$1: what is outside" diff -r outside outside.before; }

if ! command -v strace >/dev/null; then
  echo 'skipped: strace is missing, so edits between the steps of a commit are not tried'
  roles=()
else
  roles=('first second' 'second first')
fi
for role in "${roles[@]}"; do
  read -r from to <<<"$role"
  for new in file folder nothing; do
    # after the target was compared and before it is set aside
    for edit in other_length same_length of_same_time of_old_time by_renaming to_folder; do
      had file
      changes $new
      held_at "a file, new $new, before it is set aside ($edit)" "$(aside)" enter true "edit_$edit"
      failed_with_14 "a file, new $new, before it is set aside ($edit)"
      kept "a file, new $new, before it is set aside ($edit), from $from"
    done
    # through a handle that was opened before, when the target is aside
    had file
    changes $new
    exec 7>>"$to/f"
    held_at "a file, new $new, by a handle when it is aside" "$(aside)" exit "[ ! -e $to/f ]" edit_by_handle
    exec 7>&-
    failed_with_14 "a file, new $new, by a handle when it is aside"
    found "a file, new $new, by a handle when it is aside" old.mine
    had file
    changes $new
    exec 7<>"$to/f"
    held_at "a file, new $new, by a handle when it is aside (of_old_time)" "$(aside)" exit "[ ! -e $to/f ]" \
      edit_by_handle_of_old_time
    exec 7>&-
    failed_with_14 "a file, new $new, by a handle when it is aside (of_old_time)"
    found "a file, new $new, by a handle when it is aside (of_old_time)" mine
  done
  # somebody sets the target's mode after it was read and before it is set aside: the new file has what was set last
  for change in '600 600' '640 640' 'u+x 744' '4711 711'; do
    read -r change mode <<<"$change"
    had file
    changes file
    held_at "a mode set before it is set aside ($change)" "$(aside)" enter true edit_mode
    answered "a mode set before it is set aside ($change), from $from" 0 "done $from /f"$'\n'"$one" '' "$held_status"
    holds_true "a mode set before it is set aside ($change), from $from: it is $(stat -c %a "$to/f")" \
      test "$(stat -c %a "$to/f")" = "$mode"
    holds_true "a mode set before it is set aside ($change), from $from: the content" test "$(cat "$to/f")" = 'theirs, new'
    alike "a mode set before it is set aside ($change), from $from"
  done
  for new in file nothing; do
    for edit in inside inside_of_old_time added removed added_below; do
      had folder
      changes $new
      held_at "a folder, new $new, before it is set aside ($edit)" "$(aside)" enter true "edit_$edit"
      failed_with_14 "a folder, new $new, before it is set aside ($edit)"
      kept "a folder, new $new, before it is set aside ($edit), from $from"
    done
  done
  for new in file folder; do
    for edit in new_file new_folder; do
      # between both renames: the target is aside, and something new is made in its place
      had file
      changes $new
      held_at "a file, new $new, while nothing is there ($edit)" "$(aside)" exit "[ ! -e $to/f ]" "edit_$edit"
      failed_with_14 "a file, new $new, while nothing is there ($edit)" left-0
      found "a file, new $new, while nothing is there ($edit)" mine
      holds_true "a file, new $new, while nothing is there ($edit), from $from: it stays in its place" \
        diff -r -x .twosync "$to" wanted
      left "a file, new $new, while nothing is there ($edit)"
      # the target was absent, and something is made just before the new tree is put there
      had nothing
      changes $new
      held_at "nothing, new $new, before it is put there ($edit)" "$(place)" enter true "edit_$edit"
      failed_with_14 "nothing, new $new, before it is put there ($edit)"
      kept "nothing, new $new, before it is put there ($edit), from $from"
    done
    # through a handle that was opened before, when the new tree is in its place and the old one isn't removed yet
    had file
    changes $new
    exec 7>>"$to/f"
    held_at "a file, new $new, by a handle when the new one is there" "$(place)" exit \
      "grep -qrs theirs $to/f" edit_by_handle
    exec 7>&-
    failed_with_14 "a file, new $new, by a handle when the new one is there"
    found "a file, new $new, by a handle when the new one is there" old.mine
    had file
    changes $new
    exec 7<>"$to/f"
    held_at "a file, new $new, by a handle when the new one is there (of_old_time)" "$(place)" exit \
      "grep -qrs theirs $to/f" edit_by_handle_of_old_time
    exec 7>&-
    failed_with_14 "a file, new $new, by a handle when the new one is there (of_old_time)"
    found "a file, new $new, by a handle when the new one is there (of_old_time)" mine
    # a second one that can't be put back gets a number of its own
    had file
    changes $new
    printf 'kept 0' >"$to/.twosync/left-0"
    printf 'kept 1' >"$to/.twosync/left-1"
    held_at "a file, new $new, beside others that are kept" "$(aside)" exit "[ ! -e $to/f ]" edit_new_file
    failed_with_14 "a file, new $new, beside others that are kept" left-2
    found "a file, new $new, beside others that are kept" mine
    for text in 'kept 0' 'kept 1' old.; do found "a file, new $new, beside others that are kept: $text" "$text"; done
  done
  # a deletion: what is made in the place of what was set aside stays there
  for edit in new_file new_folder; do
    had file
    changes nothing
    held_at "a deletion, while nothing is there ($edit)" "$(aside)" exit "[ ! -e $to/f ]" "edit_$edit"
    holds_true "a deletion, while nothing is there ($edit), from $from: it stays" diff -r -x .twosync "$to" wanted
  done
  for edit in by_renaming other_length of_old_time; do
    had file
    changes nothing
    killed_after "a deletion that is killed ($edit)" "edit_$edit"
  done
  had folder
  changes nothing
  killed_after 'the deletion of a folder that is killed' edit_inside
  # somebody who works in a deleted folder makes a file there while it is being removed
  had folder
  changes nothing
  calls=rmdir
  edit_aside() { printf mine >"$to/.twosync/old-0/new"; }
  held_at 'made in a deleted folder' 'old-0"' enter "[ ! -e $to/.twosync/old-0/x ]" edit_aside
  calls=$moving
  answered "made in a deleted folder, from $from" 0 "done $from /f"$'\n'"$one" \
    "twosync: kept /f as $to/.twosync/left-0" "$held_status"
  holds_true "made in a deleted folder, from $from: it stays" test "$(cat "$to/.twosync/left-0/new")" = mine
  expect "made in a deleted folder, from $from: the run after that" 0 'total 0 done 0 skipped 0 failed 0 blocked 0' '' "${sync[@]}"
  holds_true "made in a deleted folder, from $from: it still stays" test "$(cat "$to/.twosync/left-0/new")" = mine
  # a link to a folder outside takes the place of the target's folder between the look and the call, which follows it: a look
  # after the call notices that, and nothing outside has changed at the end
  edit_link() { mv "$to/d" "$to/was" && ln -s ../outside "$to/d"; }
  for new in file nothing; do
    had below
    changes_below $new
    outside_has f
    held_at "a link above, new $new, before it is set aside" "$(aside)" enter true edit_link
    answered "a link above, new $new, before it is set aside, from $from" 2 "failed $from /d/f"$'\n'"$lost" \
      'twosync: fault 14 /d/f' "$held_status"
    outside_stays "a link above, new $new, before it is set aside, from $from"
    holds_true "a link above, new $new, before it is set aside, from $from: the old file" test "$(cat "$to/was/f")" = old.
    holds_true "a link above, new $new, before it is set aside, from $from: .twosync" test -z "$(left_in "$to")"
  done
  had below
  changes_below file
  outside_has
  held_at 'a link above, before the new file is put there' "$(place d/f)" enter "[ ! -e $to/d/f ]" edit_link
  answered "a link above, before the new file is put there, from $from" 2 "failed $from /d/f"$'\n'"$lost" \
    "twosync: fault 8 /d/f
twosync: kept /d/f as $to/.twosync/left-0" "$held_status"
  outside_stays "a link above, before the new file is put there, from $from"
  left 'a link above, before the new file is put there'
done

# ---- modes
# own_mode NAME: the directory of the program is shut in both replicas
own_mode() {
  for replica in first second; do
    holds_true "$1: the mode of $replica/.twosync" test "$(stat -c %a "$replica/.twosync")" = 700
  done
}
# modes NAME REPLICA WANTED: the modes in a replica are these
modes() {
  if diff <(printf '%s\n' "$3") <(find "$2" -mindepth 1 -name .twosync -prune -o -mindepth 1 -printf '%P %m\n' | LC_ALL=C sort) \
    >differences; then
    ok
  else
    bad "$1: other modes in $2: $(grep '^[<>]' differences | head -n 6 | tr '\n' ' ')"
  fi
}
# a_tree PLACE: a tree of several modes, of which three have bits that aren't copied, and with a file of several pieces
a_tree() {
  local name
  mkdir "$1" "$1/closed" "$1/closed/in" "$1/group" "$1/sticky" "$1/shared"
  for name in open own run read closed/in/own group/open suid; do printf a >"$1/$name"; done
  head -c 2621440 /dev/zero >"$1/large"
  chmod 640 "$1/large"
  chmod 644 "$1/open" "$1/group/open"
  chmod 600 "$1/own" "$1/closed/in/own"
  chmod 755 "$1/run"
  chmod 444 "$1/read"
  chmod 6755 "$1/suid"
  chmod 1777 "$1/sticky"
  chmod 2775 "$1/shared"
  chmod 700 "$1/closed"
  chmod 750 "$1/group"
  chmod 755 "$1" "$1/closed/in"
}
# modes_of_tree NAME: the lines of such a tree, by hand
modes_of_tree() {
  printf '%s 755\n' "$1"
  sed "s|^|$1/|" <<'M'
closed 700
closed/in 755
closed/in/own 600
group 750
group/open 644
large 640
open 644
own 600
read 444
run 755
shared 775
sticky 777
suid 755
M
}
for mask in 022 077 000; do
  for role in 'first second' 'second first'; do
    read -r from to <<<"$role"
    name="umask $mask, from $from"
    # a new file and a new tree get their source's bits
    fresh
    chmod 755 first second
    a_tree "$from/tree"
    printf a >"$from/one"
    chmod 751 "$from/one"
    umask "$mask"
    expect "$name: a first sync" 0 "done $from /one"$'\n'"done $from /tree"$'\ntotal 2 done 2 skipped 0 failed 0 blocked 0' \
      '' "${sync[@]}"
    umask 022
    modes "$name: a first sync" "$to" "one 751
$(modes_of_tree tree)"
    own_mode "$name: a first sync"
    holds_true "$name: the mode of a new archive" test "$(stat -c %a archive)" = 600
    # a file that replaces one keeps that one's bits, and the archive keeps its own
    chmod 755 first/.twosync second/.twosync
    chmod 640 archive
    lines=
    for mode in 400 444 600 640 666 755 777; do
      printf a | tee "first/f$mode" >"second/f$mode"
    done
    "$program" "${sync[@]}" >/dev/null 2>&1
    holds_true "$name: the archive keeps its mode" test "$(stat -c %a archive)" = 640
    own_mode "$name: one that was open"
    for mode in 400 444 600 640 666 755 777; do
      printf b >"$from/f$mode"
      chmod 711 "$from/f$mode"
      chmod "$mode" "$to/f$mode"
      lines+="done $from /f$mode"$'\n'
    done
    umask "$mask"
    expect "$name: files replaced" 0 "${lines}total 7 done 7 skipped 0 failed 0 blocked 0" '' "${sync[@]}"
    umask 022
    modes "$name: files replaced" "$to" "f400 400
f444 444
f600 600
f640 640
f666 666
f755 755
f777 777
one 751
$(modes_of_tree tree)"
    alike "$name: files replaced"
    # what becomes of another kind gets its source's bits
    rm -r "$from/tree" "$from/one" "$from"/f[67]??
    printf b >"$from/tree"
    a_tree "$from/one"
    chmod 604 "$from/tree"
    umask "$mask"
    expect "$name: other kinds" 0 "done $from /f600
done $from /f640
done $from /f666
done $from /f755
done $from /f777
done $from /one
done $from /tree
total 7 done 7 skipped 0 failed 0 blocked 0" '' "${sync[@]}"
    umask 022
    modes "$name: other kinds" "$to" "f400 400
f444 444
$(modes_of_tree one)
tree 604"
    alike "$name: other kinds"
    # what is on its way can be read by nobody else: a file may have its source's bits by then, in folders that are shut
    fresh
    chmod 755 first second
    many "$from/f" 1000
    mkdir "$from/f/d"
    umask "$mask"
    "$program" "${sync[@]}" >out 2>err &
    child=$!
    umask 022
    until_there "$to/.twosync/stage-0/fabc"
    until_stopped
    got=$(find "$to/.twosync/stage-0" -type f | wc -l)
    holds_true "$name: stopped while it writes ($got files)" test -d "$to/.twosync/stage-0" -a "$got" -gt 0 -a "$got" -lt 1000
    holds_true "$name: the modes of staged files" test -z "$(find "$to/.twosync/stage-0" -type f ! -perm 600 ! -perm 644)"
    holds_true "$name: staged folders are shut" test -z "$(find "$to/.twosync/stage-0" -type d ! -perm 700)"
    own_mode "$name: while it writes"
    kill -CONT "$child" 2>/dev/null
    wait "$child"
    answered "$name: staged and put there" 0 "done $from /f"$'\n'"$one" '' "$?"
    holds_true "$name: the modes of what was staged" test -z "$(find "$to/f" -type f ! -perm 644 -o -type d ! -perm 755)"
  done
done
# ---- what pieces have stored is removed by somebody else before the commit: nothing incomplete is put in place
# nested PLACE COUNT: as many small files in folders of ten or less, fewer than a listing would be worth
nested() {
  local at
  mkdir "$1"
  for at in $(seq 100 $((99 + ($2 + 9) / 10))); do mkdir "$1/d$at" && seq 10 | (cd "$1/d$at" && split -l 1 -a 1 - f); done
}
declare -A waited=([many]=fabc [nested]=d150)
remove_a_file() { rm "$(find "$to/.twosync/stage-0" -type f | head -n 1)"; }
remove_a_folder() { rm -r "$(find "$to/.twosync/stage-0" -mindepth 1 -type d -not -empty | head -n 1)"; }
remove_the_stage() { rm -r "$to/.twosync/stage-0"; }
for role in 'first second' 'second first'; do
  read -r from to <<<"$role"
  for what in 'many a_file' 'many the_stage' 'nested a_file' 'nested a_folder' 'nested the_stage'; do
    read -r shape removed <<<"$what"
    name="from $from, $shape, $removed is removed"
    fresh
    "$shape" "$from/f" 1000
    "$program" "${sync[@]}" >out 2>err &
    child=$!
    until_there "$to/.twosync/stage-0/${waited[$shape]}"
    until_stopped
    got=$(find "$to/.twosync/stage-0" -type f | wc -l)
    holds_true "$name: stopped while it writes ($got files)" test -d "$to/.twosync/stage-0" -a "$got" -gt 0 -a "$got" -lt 1000
    "remove_$removed"
    kill -CONT "$child" 2>/dev/null
    wait "$child"
    answered "$name" 2 "failed $from /f"$'\n'"$lost" 'twosync: fault 8 /f' "$?"
    holds_true "$name: nothing is put in place" test ! -e "$to/f"
    expect "$name: the next run" 0 "done $from /f"$'\n'"$one" '' "${sync[@]}"
    alike "$name"
  done
done

# Folders that even their owner may not write to, by one who may not do everything.
if may_be_refused; then
  mkdir open
  chmod 777 open
  cd open || exit 1
  "${as[@]}" bash -c 'mkdir -p first/d/e second && printf a >first/d/e/f && chmod 400 first/d/e/f && chmod 555 first/d/e first/d'
  before=("${as[@]}")
  expect 'folders that are read only' 0 $'done first /d\n'"$one" '' "${sync[@]}"
  before=()
  modes 'folders that are read only' second $'d 555\nd/e 555\nd/e/f 400'
  cd ..
else
  echo 'skipped: no other user to run as, so folders that are read only are not tried'
fi

ended disk_commits
