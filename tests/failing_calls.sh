#!/usr/bin/env bash
# Calls that fail: strace fails the program's calls that open or change something, many of them in turn, once or from then
# on, and a file system is really full. After each such run nothing may be torn or lost, its status and what it said have to
# be true, and the next run has to bring all to the one right end.
# usage: tests/failing_calls.sh [PROGRAM]; FAILURES=all for every call with every error, LARGE=BYTES for another size of the
# large file
set -u
cd "$(dirname "$0")/.." || exit 1
tests=$PWD/tests
. tests/cases.sh
umask 022

# File systems of its own, which go with the script.
mounts=()
unmount() {
  local place
  for place in "${mounts[@]}"; do umount "$place" 2>/dev/null || umount -l "$place"; done
  mounts=()
}
leave_all() {
  cd /
  unmount
  leave
}
trap leave_all EXIT
# small PLACE OPTIONS: a new file system in memory at a new folder
small() {
  mkdir "$1"
  [ "$(id -u)" = 0 ] && mount -t tmpfs -o "$2" tmpfs "$1" 2>/dev/null || return 1
  mounts+=("$PWD/$1")
}
# grown PLACE OPTIONS: the same file system with more room
grown() { mount -o "remount,$2" "$1"; }

ordinary=()
if [ "$(id -u)" = 0 ]; then
  if may_be_refused; then
    ordinary=("${as[@]}")
  else
    echo 'skipped: no other user to run as, so all runs are those of who may do everything'
  fi
fi

# ---- calls that fail by strace
# can_inject: whether strace is there and can fail a call
can_inject() {
  command -v strace >/dev/null || return 1
  strace -qq -o injected -e trace=mkdir,mkdirat -e inject=mkdir,mkdirat:error=EIO mkdir made 2>/dev/null
  grep -qs INJECTED injected
}
if can_inject; then
  # in memory where that can be, as nothing there is to be waited for
  small runs mode=755
  cd runs || exit 1
  PYTHONPATH=$tests python3 -B "$tests/failing_calls.py" "$program" "${ordinary[@]}"
  add_counts 'the failing calls came to no end'
  cd "$work" || exit 1
  unmount
else
  echo 'skipped: strace is missing, or may fail no call here, so no call fails by it'
fi

# ---- file systems that are full
# gone: none of them is there any more
gone() {
  unmount
  rm -rf first second archive archive.new full
}
# fill FOLDER: takes all the room that is left where a folder is
fill() { dd if=/dev/zero of="$1/filler" bs=4096 2>/dev/null; }
# bytes SEED COUNT: so many bytes, the same each time
bytes() { yes "$1" | head -c "$2"; }
# row PATH FILE: an archive's row for a file
row() { echo "f $1 $(stat -c %s "$2") $(sha256sum <"$2" | cut -c1-64)"; }
# tidy NAME: nothing of a run is left where it worked
tidy() {
  holds_true "$1: nothing is left of the run" \
    test -z "$(left_in first second)" -a ! -e archive.new
}
# told NAME STATUS REPORT FAULTS WORDS..: the run has this status, and says this; what it leaves is tidy
told() {
  expect "$@"
  tidy "$1"
}

# One after the other: what doesn't fit takes no room from the others once it has failed.
sync+=(--workers 1)
mkdir rooms
chmod 777 rooms
cd rooms || exit 1
if ! small first size=128k; then
  echo 'skipped: no file system can be mounted here, so none is full'
  rm -rf first
  ended failing_calls
  exit
fi
gone

users=(root)
[ "${#ordinary[@]}" = 0 ] || users+=(nobody)
for user in "${users[@]}"; do
  before=()
  owner=uid=0,gid=0,mode=755
  if [ "$user" = nobody ]; then
    before=("${ordinary[@]}")
    owner=uid=65534,gid=65534,mode=755
  fi
  # own FILES..: what was made here belongs to who runs the program
  own() { [ "$user" = root ] || chown -R 65534:65534 "$@"; }

  for to in second first; do
    from=$([ "$to" = second ] && echo first || echo second)
    name="$to is full, by $user"
    # one new file doesn't fit, the others do
    small "$to" "$owner,size=128k"
    mkdir "$from"
    printf a >"$from/a"
    printf b >"$to/b"
    bytes large 300000 >"$from/large"
    printf z >"$from/z"
    own first second
    told "$name" 2 "$(printf 'done %s /a\ndone %s /b\nfailed %s /large\ndone %s /z\n' "$from" "$to" "$from" "$from")
total 4 done 3 skipped 0 failed 1 blocked 0" 'twosync: fault 8 /large' "${sync[@]}"
    holds_true "$name: the others are there" test "$(cat "$to/a" "$to/b" "$to/z" "$from/b")" = abzb -a ! -e "$to/large"
    holds_true "$name: the source" cmp -s "$from/large" <(bytes large 300000)
    holds_true "$name: the archive" cmp -s archive <(archive_of "$(row /a "$from/a")
$(row /b "$from/b")
$(row /z "$from/z")")
    grown "$to" size=1m
    told "$name, and then grows" 0 "done $from /large"$'\ntotal 1 done 1 skipped 0 failed 0 blocked 0' '' "${sync[@]}"
    alike "$name, and then grows"
    # one that replaces another: the old one stays whole, also a folder that one is to take the place of
    grown "$to" size=512k
    bytes larger 350000 >"$from/large"
    rm "$from/z"
    mkdir "$from/z"
    bytes in 250000 >"$from/z/in"
    own "$from"
    told "$name, replaced" 2 "$(printf 'failed %s /large\nfailed %s /z\n' "$from" "$from")
total 2 done 0 skipped 0 failed 2 blocked 0" $'twosync: fault 8 /large\ntwosync: fault 8 /z' "${sync[@]}"
    holds_true "$name, replaced: the old one" cmp -s "$to/large" <(bytes large 300000)
    holds_true "$name, replaced: the other old one" test "$(cat "$to/z")" = z
    grown "$to" size=2m
    told "$name, replaced, and then grows" 0 "$(printf 'done %s /large\ndone %s /z\n' "$from" "$from")
total 2 done 2 skipped 0 failed 0 blocked 0" '' "${sync[@]}"
    alike "$name, replaced, and then grows"
    gone

    # not even the plan fits
    name="there is no room for the plan in $to, by $user"
    small full "$owner,size=128k"
    mkdir "$from" "full/$to"
    ln -s "full/$to" "$to"
    printf a >"$from/a"
    fill full
    own "$from" "full/$to"
    refused "$name" 5 "${sync[@]}"
    rm full/filler
    told "$name, and then there is" 0 "done $from /a"$'\ntotal 1 done 1 skipped 0 failed 0 blocked 0' '' "${sync[@]}"
    alike "$name, and then there is"
    gone

    # there are no more files to be had
    name="$to has room for few files, by $user"
    small "$to" "$owner,size=128k,nr_inodes=12"
    mkdir "$from" "$from/many"
    printf a >"$from/a"
    for k in 1 2 3 4 5 6 7 8 9; do printf '%s' "$k" >"$from/many/$k"; done
    own "$from"
    told "$name" 2 "$(printf 'done %s /a\nfailed %s /many\n' "$from" "$from")
total 2 done 1 skipped 0 failed 1 blocked 0" 'twosync: fault 8 /many' "${sync[@]}"
    holds_true "$name: nothing of it is there" test ! -e "$to/many" -a "$(cat "$to/a")" = a
    grown "$to" nr_inodes=100
    told "$name, and then for more" 0 "done $from /many"$'\ntotal 1 done 1 skipped 0 failed 0 blocked 0' '' "${sync[@]}"
    alike "$name, and then for more"
    gone
  done

  # both are full: what is in one doesn't fit into the other
  name="both are full, by $user"
  small first "$owner,size=128k"
  small second "$owner,size=128k"
  bytes x 70000 >first/x
  bytes y 70000 >second/y
  own first second
  told "$name" 2 $'failed first /x\nfailed second /y\ntotal 2 done 0 skipped 0 failed 2 blocked 0' \
    $'twosync: fault 8 /x\ntwosync: fault 8 /y' "${sync[@]}"
  holds_true "$name: nothing of it is there" test ! -e first/y -a ! -e second/x
  grown first size=512k
  grown second size=512k
  told "$name, and then grow" 0 $'done first /x\ndone second /y\ntotal 2 done 2 skipped 0 failed 0 blocked 0' '' "${sync[@]}"
  alike "$name, and then grow"
  gone

  # there is no room for the new archive: the replicas are alike, and the old archive stays
  name="there is no room for the archive, by $user"
  small full "$owner,size=64k"
  mkdir first second
  printf a >first/a
  own first second
  expect "$name: a first one" 0 $'done first /a\ntotal 1 done 1 skipped 0 failed 0 blocked 0' '' sync first second full/archive
  cp full/archive archive.before
  printf b >first/b
  rm first/a
  own first
  fill full
  expect "$name" 2 $'done first /a\ndone first /b\ntotal 2 done 2 skipped 0 failed 0 blocked 0' 'twosync: fault 5' \
    sync first second full/archive
  tidy "$name"
  alike "$name"
  holds_true "$name: the old one stays" cmp -s full/archive archive.before
  holds_true "$name: nothing lies beside it" test "$(cd full && echo *)" = 'archive filler'
  holds_true "$name: what was done" test "$(cd second && echo *)" = b
  grown full size=256k
  expect "$name, and then there is" 0 $'done same /a\ndone same /b\ntotal 2 done 2 skipped 0 failed 0 blocked 0' '' \
    sync first second full/archive
  holds_true "$name, and then there is: the new one" cmp -s full/archive <(archive_of "$(row /b first/b)")
  expect "$name, and then there is: once more" 0 'total 0 done 0 skipped 0 failed 0 blocked 0' '' sync first second full/archive
  rm archive.before
  gone
done

ended failing_calls
