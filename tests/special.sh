#!/usr/bin/env bash
# Has the program synchronize folders with links, devices, names that aren't UTF-8 and what else can't be synchronized, while
# `--hold-special` holds these: 80 folders that are generated and change twice (tests/special.py), and each kind in each place.
# What is held is looked at before and after by `find` and `readlink`. Where this user may read everything, what must not be read
# is tried as nobody.
# usage: tests/special.sh [PROGRAM]
set -u
cd "$(dirname "$0")/.." || exit 1
top=$PWD
. tests/cases.sh
held=(sync first second archive --hold-special)
U=$'\xef\xbf\xbd'

mkdir generated
cd generated || exit 1
PYTHONDONTWRITEBYTECODE=1 python3 "$top/tests/special.py" "$program"
cd .. || exit 1
[ ! -e generated/counts ] || mv generated/counts .
add_counts 'tests/special.py ended early'

# look PLACE..: inode, kind, mode, time and target of what lies at these places and below
look() { find "$@" -printf '%p %i %y %m %T@ %l\n' | sort; }
# untouched NAME: what `before` says still holds of `kept`
untouched() { if [ "$(look "${kept[@]}")" = "$before_run" ]; then ok; else bad "$1: something special was touched"; fi; }

# ---- each kind, at the top
kinds=(link pipe socket device folder-link replica)
make() {
  case $1 in
    link) ln -s nowhere "$2" ;;
    pipe) mkfifo "$2" ;;
    socket) python3 -c 'import os, socket, sys; os.chdir(os.path.dirname(sys.argv[1])); socket.socket(socket.AF_UNIX).bind(os.path.basename(sys.argv[1]))' "$2" ;;
    device) mknod "$2" c 1 3 ;;
    folder-link) ln -s /etc "$2" ;;
    replica) mkdir -p "$2/.twosync" && printf x >"$2/x" ;;
  esac
}
for kind in "${kinds[@]}"; do
  for side in first second; do
    fresh
    if ! make "$kind" "$PWD/$side/it" 2>/dev/null; then
      echo "skipped: no $kind can be made here"
      continue 2
    fi
    printf a >first/a
    printf b >second/b
    at='' && [ "$kind" != replica ] || at=' /it'
    refused "$kind in $side, without the option" "10$at" "${sync[@]}"
    kept=("$side/it") && before_run=$(look "${kept[@]}")
    expect "$kind in $side" 1 'done first /a
done second /b
skip held /it
total 3 done 2 skipped 1 failed 0 blocked 0' '' "${held[@]}"
    untouched "$kind in $side"
    holds_true "$kind in $side: all else is synchronized" test "$(cat first/b second/a)" = ba
    expect "$kind in $side: what both have in common" 0 "f /a 1 $SA
f /b 1 $SB" '' show archive
    expect "$kind in $side, once more" 1 'skip held /it
total 1 done 0 skipped 1 failed 0 blocked 0' '' "${held[@]}"
  done
done

# ---- in a folder on both sides, in a new one, and in one that the other side deleted
fresh
mkdir first/both second/both first/gone
printf a >first/gone/a
"$program" "${sync[@]}" >out
ln -s /etc first/both/link
printf b >first/both/b
mkdir -p first/new/below
printf a >first/new/a
ln -s /etc first/new/below/link
ln -s a first/gone/link
rm -r second/gone
kept=(first/both/link first/new first/gone) && before_run=$(look "${kept[@]}")
refused 'links in three folders, without the option' '10 /both' "${sync[@]}"
expect 'links in three folders, shown' 1 'what       change                    files             bytes  path
to second  new                           1                 1  /both/b
held       -                             -                 -  /both/link (first new, second unchanged)
conflict   -                             -                 -  /gone (first changed, second deleted)
held       -                             -                 -  /new (first new, second unchanged)
total 4: to first 0, to second 1, agreed 0, conflicts 1, held 2; files lost in first 0, in second 0' '' \
  preview first second archive --hold-special
expect 'links in three folders' 1 'done first /both/b
skip held /both/link
skip conflict /gone
skip held /new
total 4 done 1 skipped 3 failed 0 blocked 0' '' "${held[@]}"
untouched 'links in three folders'
holds_true 'the new folder stays on its side' test ! -e second/new -a ! -e second/gone
rm first/gone/link first/new/below/link
expect 'without the links' 1 'skip held /both/link
done second /gone
done first /new
total 3 done 2 skipped 1 failed 0 blocked 0' '' "${held[@]}"

# ---- a link in place of a file that both had, and of one that the other side changed
fresh
printf a >first/a
printf b >first/b
"$program" "${sync[@]}" >out
rm first/a first/b
ln -s elsewhere first/a
ln -s elsewhere first/b
printf bb >second/b
kept=(first second/a second/b) && before_run=$(look "${kept[@]}" | grep -v '^first ')
expect 'links in place of files' 1 'skip held /a
skip conflict /b
total 2 done 0 skipped 2 failed 0 blocked 0' '' "${held[@]}"
holds_true 'links in place of files: nothing is touched' \
  test "$(look "${kept[@]}" | grep -v -e '^first ' -e '\.twosync')" = "$(grep -v '\.twosync' <<<"$before_run")"

# ---- links on both sides look alike, whatever they say; a file beside one is held with it
fresh
ln -s one first/it
ln -s two second/it
kept=(first/it second/it) && before_run=$(look "${kept[@]}")
expect 'links on both sides' 0 'done same /it
total 1 done 1 skipped 0 failed 0 blocked 0' '' "${held[@]}"
untouched 'links on both sides'
expect 'links on both sides, once more' 0 'total 0 done 0 skipped 0 failed 0 blocked 0' '' "${held[@]}"
rm first/it
printf a >first/it
kept=(first/it second/it) && before_run=$(look "${kept[@]}")
expect 'a file for one of them' 1 'skip held /it
total 1 done 0 skipped 1 failed 0 blocked 0' '' "${held[@]}"
untouched 'a file for one of them'
rm second/it
expect 'and nothing for the other' 1 'skip conflict /it
total 1 done 0 skipped 1 failed 0 blocked 0' '' "${held[@]}"

# ---- an empty file isn't what stands for a link
fresh
ln -s one first/it
: >second/it
kept=(first/it second/it) && before_run=$(look "${kept[@]}")
expect 'an empty file beside a link' 1 'skip conflict /it
total 1 done 0 skipped 1 failed 0 blocked 0' '' "${held[@]}"
untouched 'an empty file beside a link'
rm first/it
expect 'the link is gone' 0 'done second /it
total 1 done 1 skipped 0 failed 0 blocked 0' '' "${held[@]}"
holds_true 'the empty file stands on both sides' test -f first/it -a -f second/it

# ---- names that aren't UTF-8: one stand-in for all that are reported alike, also for a file that has its name
fresh
mkdir first/names
printf a >$'first/names/x\xff'
printf b >$'first/names/x\xfe'
ln -s a $'first/names/y\xff'
printf c >"first/names/y$U"
printf d >first/names/z
mkdir second/names
kept=($'first/names/x\xff' $'first/names/x\xfe' $'first/names/y\xff' "first/names/y$U") && before_run=$(look "${kept[@]}")
refused 'names that are not UTF-8, without the option' '10 /names' "${sync[@]}"
expect 'names that are not UTF-8' 1 "done dir /names
skip held /names/x$U
skip held /names/y$U
done first /names/z
total 4 done 2 skipped 2 failed 0 blocked 0" '' "${held[@]}"
untouched 'names that are not UTF-8'
holds_true 'of the names only the lawful one came over' test "$(ls second/names)" = z
long=$(printf '\xff%.0s' {1..200})
fresh
printf a >"first/$long"
expect 'a long name that is not UTF-8' 1 "skip held /$(printf "$U%.0s" {1..85})
total 1 done 0 skipped 1 failed 0 blocked 0" '' "${held[@]}"

# ---- too deep, and too long
fresh
deep=$(printf '/d%.0s' {1..64})
mkdir -p "first$deep" "second${deep%/d}"
printf a >"first$deep/a"
printf a >first/a
kept=("first$deep") && before_run=$(look "${kept[@]}")
refused 'a path that is too deep, without the option' "4 $deep" "${sync[@]}"
expect 'a path that is too deep' 1 "done first /a
$(for n in {1..63}; do echo "done dir $(printf '/d%.0s' $(seq "$n"))"; done)
skip held $deep
total 65 done 64 skipped 1 failed 0 blocked 0" '' "${held[@]}"
untouched 'a path that is too deep'
fresh
name=$(printf 'n%.0s' {1..250})
(cd first && for _ in {1..17}; do mkdir "$name" && cd -P "$name" || exit 1; done && printf a >a)
printf a >first/a
expect 'a path that is too long' 1 "done first /a
skip held /$name
total 2 done 1 skipped 1 failed 0 blocked 0" '' "${held[@]}"

# ---- more than there may be rules
fresh
(cd first && seq -f 'l%04.0f' 4097 | xargs -I{} ln -s x {})
refused 'more links than rules' '10 /l4097' "${held[@]}"
rm first/l4097
expect 'as many links as rules' 1 "$(seq -f 'skip held /l%04.0f' 4096)
total 4096 done 0 skipped 4096 failed 0 blocked 0" '' "${held[@]}"
echo 'name *.o' >holds
refused 'as many links as rules, and a rule' '10 /l4096' "${held[@]}" --holds holds
rm first/l4096
printf a >first/a.o
expect 'rules of both kinds' 1 "skip held /a.o
$(seq -f 'skip held /l%04.0f' 4095)
total 4096 done 0 skipped 4096 failed 0 blocked 0" '' "${held[@]}" --holds holds
ln -s x second/l0001
ln -s x second/l5000
refused 'the replicas count together' '10 /l5000' "${held[@]}" --holds holds

# ---- plans
fresh
ln -s x first/link
printf a >first/a
"$program" plan first second archive --hold-special >plan 2>err
holds_true 'a plan that holds a link' grep -qx 'entry held /link' plan
expect 'a plan that is checked' 0 valid '' check first second archive plan --hold-special
refused 'a plan that is checked without the option' 10 check first second archive plan
refused 'a plan that is run without the option' 10 run first second archive plan
rm first/link
expect 'a plan for a link that is gone' 3 'refused 3 1' '' check first second archive plan --hold-special
ln -s x first/link
expect 'a plan that is run' 1 'done first /a
skip held /link
total 2 done 1 skipped 1 failed 0 blocked 0' '' run first second archive plan --hold-special
holds_true 'a plan that is run: the link stays' test "$(readlink first/link)" = x -a ! -e second/link

# ---- where nothing is special the option changes nothing; the root may be a link; what is wrong with it is reported as ever
fresh
printf a >first/a
ln -s first link
expect 'a root that is a link' 0 'done first /a
total 1 done 1 skipped 0 failed 0 blocked 0' '' sync link second archive --hold-special
rm link
refused 'no first folder' 9 sync nowhere second archive --hold-special
refused 'a file for a folder' 9 plan first/a second archive --hold-special
mkfifo pipe
refused 'a pipe for a folder' 10 plan pipe second archive --hold-special
rm pipe
expect 'an option of no scan' 3 '' "$("$program" scan first --hold-special 2>&1 >/dev/null)" scan first --hold-special

# ---- what must not be read
if may_be_refused; then
  mkdir open && chmod 777 open && cd open || exit 1
  own() { "${as[@]}" bash -c "$1"; }
  own 'mkdir first second first/shut second/d first/d && printf a >first/shut/a && printf a >first/d/no && printf a >first/d/yes && chmod 000 first/shut first/d/no'
  before=("${as[@]}")
  kept=(first/d/no) && before_run=$(look "${kept[@]}")
  expect 'what must not be read, without the option' 3 '' 'twosync: fault 8 /d/no' plan first second archive
  expect 'what must not be read' 1 'done dir /d
skip held /d/no
done first /d/yes
skip held /shut
total 4 done 2 skipped 2 failed 0 blocked 0' '' "${held[@]}"
  untouched 'what must not be read'
  holds_true 'what must not be read stays on its side' test "$(ls second second/d)" = "second:
d

second/d:
yes"
  own 'chmod 755 first/shut first/d/no'
  expect 'what may be read by now' 0 'done first /d/no
done first /shut
total 2 done 2 skipped 0 failed 0 blocked 0' '' "${sync[@]}"
  before=()
  cd .. || exit 1
else
  echo 'skipped: no other user to run as, so what must not be read is not tried'
fi
ended special
