#!/usr/bin/env bash
# A replica whose disk goes away while a run is at work: its path leads to the empty folder below the mount from then on. The run
# makes nothing there, and no archive says what became of it; once the disk is mounted again the next sync loses nothing.
# usage: tests/unmounted.sh [PROGRAM]
set -u
cd "$(dirname "$0")/.." || exit 1
. tests/cases.sh
umask 022

needs_strace unmounted 'no disk goes away in mid-run'

# The disk of the replica `lost` is mounted there, and once more at `keep`, where it stays.
mounted=()
mount_disk() {
  mkdir -p keep
  mount -t tmpfs -o size=1m,mode=755 tmpfs "$lost" && mounted=("$lost") && mount --bind "$lost" keep && mounted+=(keep)
}
# The run still has files open on it, so it is gone from its place at once, and altogether later.
unmount_disk() { umount -l "$lost" && mounted=(keep); }
mount_again() { mount --bind keep "$lost" && mounted=("$lost" keep); }
unmount_all() {
  local place
  for place in "${mounted[@]}"; do umount -l "$place"; done
  mounted=()
}
trap 'unmount_all; leave' EXIT
# can_mount: whether a small file system can be mounted here, at two places
can_mount() {
  local got
  lost=probe
  mkdir probe
  mount_disk 2>/dev/null
  got=${#mounted[@]}
  unmount_all
  [ "$got" = 2 ]
}

# Whether an older copy of the replica lies below the mount, as a run left it that came while nothing was mounted.
copy=
# had: what both replicas and the archive had, and what has become of it since: one file was deleted and one changed in the replica
# `from`, which has a new folder and a new file, too; the other replica has a new file
had() {
  local name
  unmount_all
  fresh
  if [ -n "$copy" ]; then
    # it knows the archive of that run, which was another one
    part_of "$SB" "$lost"
    for name in gone kept old; do printf a >"$lost/$name"; done
  fi
  rm -rf below
  cp -a "$lost" below
  mount_disk || bad "a disk at $lost"
  for name in gone kept old; do printf a | tee "first/$name" >"second/$name"; done
  archive_of "f /gone 1 $SA
f /kept 1 $SA
f /old 1 $SA" >archive
  part_of "$(digest_in archive)" first second
  cp archive archive.before
  rm "$from/gone"
  printf b >"$from/old"
  mkdir "$from/folder"
  printf b >"$from/folder/x"
  printf b >"$from/new"
  printf b >"$to/other"
}
# What both have to hold in the end.
mkdir -p wanted/folder
for name in folder/x new old other; do printf b >"wanted/$name"; done
printf a >wanted/kept
archive_of "d /folder
f /folder/x 1 $SB
f /kept 1 $SA
f /new 1 $SB
f /old 1 $SB
f /other 1 $SB" >wanted.archive

# last_flush BACK: finds the last flush of something that a replica holds before an archive came to its place, the last one or so
# many back; what the replicas know of it is flushed after that
last_flush() {
  read -r call number <<<"$(awk -v back="$1" '{
    name = $2
    sub(/[(].*/, "", name)
    count[name]++
    if (name ~ /^f(data)?sync$/ && /copy\/(first|second)[\/>]/ && !/[.]twosync/) last = name " " count[name]
    if (name ~ /^rename/ && /archive[.]new"/) before[++renames] = last
  }
  END { print before[renames - back] }' log)"
}
# last_rename BACK: finds the call by which that archive comes to its place
last_rename() {
  read -r call number <<<"$(awk -v back="$1" '{
    name = $2
    sub(/[(].*/, "", name)
    count[name]++
    if (name ~ /^rename/ && /archive[.]new"/) at[++renames] = name " " count[name]
  }
  END { print at[renames - back] }' log)"
}

# goes_away NAME SIDE CONDITION WORDS..: runs `sync` with these words, and the disk goes away while the run is held up before or
# after the call that was found
goes_away() {
  local name=$1 side=$2 condition=$3
  shift 3
  if [ -z "${call:-}" ]; then
    bad "$name: the run comes to no such call"
    return 1
  fi
  hold_up "$side" "$condition" "$@"
  cp archive archive.held
  cp archive.new archive.next 2>/dev/null || : >archive.next
  unmount_disk
  holds_true "$name: the disk goes away in time" is_held
  let_go
}
# ended_with_9 NAME: the run has failed since a replica was gone, and made nothing in its place. Entries may have failed, too: what
# has to lie at the target, or the source, isn't there, or has other bytes in the older copy.
ended_with_9() {
  holds_true "$1: its status is $held_status" test "$held_status" = 2
  holds_true "$1: it ends with fault 9, and not with $(tr '\n' ' ' <err)" \
    test "$(grep -vE '^twosync: fault (8|9|14|15) /' err)" = 'twosync: fault 9' -a "$(tail -n 1 err)" = 'twosync: fault 9'
  holds_true "$1: the archive isn't written any more" cmp -s archive archive.held
  nothing_below "$1"
}
nothing_below() {
  holds_true "$1: below the mount is $(find "$lost" -mindepth 1 | tr '\n' ' ')" diff -r "$lost" below
  holds_true "$1: no archive.new is left" test ! -e archive.new
}
# saved NAME: a sync is refused before the disk is there again, and then brings all to its end and loses nothing
saved() {
  refused "$1: a sync before the disk is there again" 9 "${sync[@]}"
  mount_again
  "$program" "${sync[@]}" >out 2>err
  holds_true "$1: the next sync ends with status $?" test "$?" = 0
  for replica in first second; do
    if diff -r -x .twosync wanted "$replica" >differences; then
      ok
    else
      bad "$1: after the next sync $replica differs: $(head -n 4 differences | tr '\n' ' ')"
    fi
  done
  alike "$1: the next sync"
  holds_true "$1: the archive of the next sync" cmp -s archive wanted.archive
}

if ! can_mount; then
  echo 'skipped: nothing can be mounted here, so no disk goes away in mid-run'
  ended unmounted
  exit
fi
for role in 'first second' 'second first'; do
  read -r from to <<<"$role"
  for lost in "$from" "$to"; do
    # entries in the order of their paths: 0 /folder, 1 /gone, 2 /new, 3 /old, 4 /other
    for step in "before the first piece is stored|mkdir.*stage-0\"|enter|true" \
      "before the first commit|new-0\".*\"[^\"]*$to/folder\"|enter|true" \
      "before a deletion|\"[^\"]*$to/gone\".*old-1\"|enter|true" \
      "before a new file is put in place|new-2\".*\"[^\"]*$to/new\"|enter|true" \
      "before a file is set aside|\"[^\"]*$to/old\".*old-3\"|enter|true" \
      "while a file is aside|\"[^\"]*$to/old\".*old-3\"|exit|[ ! -e $to/old ]" \
      "when the new file is there|new-3\".*\"[^\"]*$to/old\"|exit|[ -e $to/old ]" \
      "before the other way's commit|new-4\".*\"[^\"]*$from/other\"|enter|true" \
      "after the last commit|new-4\".*\"[^\"]*$from/other\"|exit|[ -e $from/other ]"; do
      IFS='|' read -r what pattern side condition <<<"$step"
      # without other archives than the last one, with one after each action, and with an older copy below the mount
      for every in '' 1 copy; do
        name="$lost goes away $what, from $from${every:+, with ${every/1/checkpoints}}"
        copy=
        [ "$every" != copy ] || copy=1 every=
        words=()
        [ -z "$every" ] || words=(--checkpoint "$every")
        had
        calls=$moving,mkdir,mkdirat
        call_of "$pattern" "${words[@]}"
        goes_away "$name" "$side" "$condition" "${words[@]}"
        ended_with_9 "$name"
        [ -n "$every" ] || holds_true "$name: no archive was written" cmp -s archive archive.before
        saved "$name"
      done
    done
    # while the replica notes the archive that is to be written
    noted="$lost/[.]twosync/archives"
    for step in "before archives.new is made|${noted}[.]new\".*O_CREAT|enter|true" \
      "before archives.new takes its place|${noted}[.]new\".*${noted}\"|enter|true" \
      "when archives.new has taken its place|${noted}[.]new\".*${noted}\"|exit|[ ! -e $lost/.twosync/archives.new ]"; do
      IFS='|' read -r what pattern side condition <<<"$step"
      for copy in '' 1; do
        name="$lost goes away $what, from $from${copy:+, with a copy}"
        had
        calls=$moving,open,openat
        call_of "$pattern"
        goes_away "$name" "$side" "$condition" || continue
        holds_true "$name: its status is $held_status" test "$held_status" = 2
        holds_true "$name: the archive isn't written any more" cmp -s archive archive.held
        nothing_below "$name"
        saved "$name"
      done
    done
    copy=
    # after all was flushed, and before the archive is written: the last one, and one that a run writes meanwhile
    for back in 0 1 3; do
      words=()
      [ "$back" = 0 ] || words=(--checkpoint 1)
      name="$lost goes away after the last flush before archive $back from the end, from $from"
      had
      calls=$moving,fsync,fdatasync
      trace_copy "${words[@]}"
      last_flush "$back"
      goes_away "$name" exit true "${words[@]}"
      ended_with_9 "$name"
      saved "$name"
      # At the very call there is no way back. All that this archive says is on the disk, so it may come to its place; and then
      # nothing more.
      name="$lost goes away when archive $back from the end comes to its place, from $from"
      had
      trace_copy "${words[@]}"
      last_rename "$back"
      goes_away "$name" enter true "${words[@]}"
      holds_true "$name: the archive is the one that was to come" cmp -s archive archive.next
      nothing_below "$name"
      saved "$name"
    done
  done
done

ended unmounted
