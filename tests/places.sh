#!/usr/bin/env bash
# Places that take nothing: mounts inside a replica, and paths that are too long for the system.
# usage: tests/places.sh [PROGRAM]
set -u
cd "$(dirname "$0")/.." || exit 1
. tests/cases.sh

one='total 1 done 1 skipped 0 failed 0 blocked 0'

# ---- paths that are too long for the system, by roots that are spelled with needless steps
# spelled REPLICA BYTES: the replica by a path of so many bytes
spelled() {
  local steps
  steps=$(printf "%$((($2 - ${#1}) / 2))s" '')
  echo "${steps// /.\/}$1"
}
name=$(printf '%080d' 0)
for role in 'first second' 'second first'; do
  read -r from to <<<"$role"
  # the root has 4,006 bytes or one less, of the 4,095 that the system takes
  words=(sync first "$(spelled second 4006)" archive)
  [ "$to" = second ] || words=(sync "$(spelled first 4006)" second archive)
  fresh
  printf a >"$from/$name"
  expect "a path that fits, from $from" 0 "done $from /$name"$'\n'"$one" '' "${words[@]}"
  alike "a path that fits, from $from"
  # in a new folder it fits at its place, and not where the folder is staged
  fresh
  mkdir "$from/d"
  printf a >"$from/d/$name"
  refused "a path that fits, and not while it is staged, from $from" "4 /d/$name" "${words[@]}"
  expect "the same by a short root, from $from" 0 "done $from /d"$'\n'"$one" '' "${sync[@]}"
  alike "the same by a short root, from $from"
  # moved aside it doesn't fit either
  rm -r "$from/d"
  expect "a path that fits, and not aside, from $from" 3 '' "twosync: fault 4 /d/$name" "${words[@]}"
  holds_true "a path that fits, and not aside, from $from: it is still there" test -e "$to/d/$name"
  # what isn't copied doesn't matter
  fresh
  mkdir first/d second/d
  printf a | tee "first/d/$name" >"second/d/$name"
  expect "a path that isn't copied, from $from" 0 "done dir /d"$'\n'"done same /d/$name"$'\n''total 2 done 2 skipped 0 failed 0 blocked 0' '' "${words[@]}"
  # too long at its place, in the source and in the target
  for replica in "$from" "$to"; do
    fresh
    mkdir "$replica/d"
    printf a >"$replica/d/$name$name"
    refused "a path that doesn't fit, in $replica, from $from" "4 /d/$name$name" "${words[@]}"
  done
done

# ---- another file system in a replica
mounted=
unmount() {
  [ -z "$mounted" ] || umount "$mounted" 2>/dev/null
  mounted=
}
trap 'unmount; leave' EXIT
# can_mount: whether a small file system can be mounted here
can_mount() {
  mkdir -p probe
  mount -t tmpfs -o size=64k tmpfs probe 2>/dev/null && umount probe
}
if can_mount; then
  for role in 'first second' 'second first'; do
    read -r from to <<<"$role"
    fresh
    mkdir first/m second/m
    printf a | tee first/m/kept >second/m/kept
    "$program" "${sync[@]}" >/dev/null 2>&1
    mount -t tmpfs -o size=1m tmpfs "$to/m" && mounted=$to/m
    printf a >"$to/m/kept"
    # what is in it can be read and compared; nothing can be put there, which is said once
    printf new >"$from/m/x"
    mkdir "$from/m/y"
    printf new >"$from/m/y/z"
    printf b >"$from/m/kept"
    printf b >"$from/other"
    for time in 'the first time' 'again'; do
      other="done $from /other"$'\n'
      totals='total 4 done 1 skipped 0 failed 3 blocked 0'
      [ "$time" = 'the first time' ] || { other=; totals='total 3 done 0 skipped 0 failed 3 blocked 0'; }
      expect "a mount, from $from, $time" 2 "failed $from /m/kept
failed $from /m/x
failed $from /m/y
$other$totals" "twosync: fault 8 /m/kept
twosync: fault 8 /m/x
twosync: fault 8 /m/y
twosync: mount /m" "${sync[@]}"
      holds_true "a mount, from $from, $time: what is in it" test "$(cd "$to/m" && grep -r .)" = kept:a
      holds_true "a mount, from $from, $time: .twosync" test -z "$(left_in first second)"
    done
    # from it, all can be copied
    unmount
    # below a folder that is deleted: the folder is kept with it, and what comes to it later stays
    fresh
    mkdir -p "$to/d/m"
    mount -t tmpfs -o size=1m tmpfs "$to/d/m" && mounted=$to/d/m
    printf new >"$to/d/m/x"
    "$program" "${sync[@]}" >/dev/null 2>&1
    rm -r "${from:?}/d"
    expect "a mount in a deleted folder, from $from" 0 "done $from /d"$'\n'"$one" \
      "twosync: kept /d as $to/.twosync/left-0" "${sync[@]}"
    mounted=$to/.twosync/left-0/m
    printf later >"$mounted/y"
    expect "a mount in a deleted folder, from $from: the run after that" 0 'total 0 done 0 skipped 0 failed 0 blocked 0' '' "${sync[@]}"
    holds_true "a mount in a deleted folder, from $from: what came to it later" test "$(cat "$mounted/y")" = later
    unmount
    fresh
    mkdir "$from/m"
    mount -t tmpfs -o size=1m tmpfs "$from/m" && mounted=$from/m
    printf new >"$from/m/x"
    expect "out of a mount, from $from" 0 "done $from /m"$'\n'"$one" '' "${sync[@]}"
    alike "out of a mount, from $from"
    unmount
  done
else
  echo 'skipped: nothing can be mounted here, so mounts inside a replica are not tried'
fi

ended places
