#!/usr/bin/env bash
# What the program refuses, and that it changes nothing then: archives that can't be read, the order of refusals, trees
# that can't be scanned, and what must not be read or written.
# usage: tests/refusals.sh [PROGRAM]
set -u
cd "$(dirname "$0")/.." || exit 1
. tests/cases.sh

# ---- the order of refusals, and archives that can't be read
fresh
printf a >first/a
archive_of "f /a 1 $SA" >archive
head -c 80 archive >cut
expect 'a cut archive' 3 '' 'twosync: fault 6' sync first second cut
sed 's/^f .a 1/f \/a 2/' archive >changed
expect 'a changed archive' 3 '' 'twosync: fault 7' sync first second changed
(cat archive && printf x) >longer
expect 'a byte after the archive' 3 '' 'twosync: fault 6' show longer
expect 'no archive to show' 3 '' 'twosync: fault 9' show nowhere
expect 'a folder as archive' 3 '' 'twosync: fault 5' sync first second first
expect 'no first folder' 3 '' 'twosync: fault 9' sync nowhere second archive
expect 'the archive comes first' 3 '' 'twosync: fault 6' sync nowhere second cut --holds nowhere
expect 'the rules come next' 3 '' 'twosync: fault 9' check nowhere second archive nowhere --holds nowhere
printf x >bad
mkfifo first/p
for workers in 1 8; do
  by=(--workers "$workers")
  expect "the archive before the rules and the folders, by $workers" 3 '' 'twosync: fault 7' plan first nowhere changed --holds bad "${by[@]}"
  expect "the archive before the plan and the folders, by $workers" 3 '' 'twosync: fault 7' check first nowhere changed bad "${by[@]}"
  expect "the archive before the folders, by $workers" 3 '' 'twosync: fault 7' preview first second changed "${by[@]}"
  expect "the rules before the plan and the folders, by $workers" 3 '' 'twosync: fault 11' check first second archive bad --holds bad "${by[@]}"
  expect "the plan before the folders, by $workers" 3 '' 'twosync: fault 6' check first second archive bad "${by[@]}"
  expect "the folders at last, by $workers" 3 '' 'twosync: fault 10' sync first second archive "${by[@]}"
done
rm first/p
holds_true 'refusals change nothing' test ! -e second/a
fresh
printf b >first/b
printf c >second/c
archive_of "f /a 1 $SA" >archive
make_known archive first second
expect 'the archive of another pair' 0 $'done same /a\ndone first /b\ndone second /c\ntotal 3 done 3 skipped 0 failed 0 blocked 0' '' "${sync[@]}"
alike 'the archive of another pair'

# ---- rules are read up to their limits, and no further
before=(timeout 10)
expect 'rules without an end, in one line' 3 '' 'twosync: fault 5' "${sync[@]}" --holds /dev/zero
tr '\0' a </dev/zero | head -c 20000 >holds
expect 'a rule that is longer than a line' 3 '' 'twosync: fault 11' "${sync[@]}" --holds holds
seq -f 'path /p%.0f' 4096 >holds
expect 'as many rules as there may be' 0 "$(printf 'total 0 done 0 skipped 0 failed 0 blocked 0')" '' "${sync[@]}" --holds holds
echo 'path /p4097' >>holds
expect 'one rule more' 3 '' 'twosync: fault 11' "${sync[@]}" --holds holds
# 20 GB of rules: the first bad line ends it, and no more is read than that takes
truncate -s 20G holds
bounded() { (ulimit -v 8000000 && timeout 10 "$program" "$@"); }
bounded "${sync[@]}" --holds holds >out 2>err
answered 'a file of rules that is larger than memory' 3 '' 'twosync: fault 11' "$?"
before=()
rm holds

# ---- what can't be scanned
fresh
mkfifo first/p
printf a >first/a
expect 'a fifo' 3 '' 'twosync: fault 10' "${sync[@]}"
rm first/p
mkdir first/d
ln -s ../a first/d/l
expect 'a link' 3 '' 'twosync: fault 10 /d' "${sync[@]}"

# ---- what must not be read or written; who may do everything runs this part as nobody
if may_be_refused; then
  mkdir open
  chmod 777 open
  cd open || exit 1
  own() { "${as[@]}" bash -c "$1"; }
  own 'mkdir first second && printf a >first/ok && printf a >first/shut && chmod 000 first/shut'
  "${as[@]}" "$program" "${sync[@]}" >../out 2>../err
  got=$?
  if [ "$got" = 3 ] && [ "$(cat ../err)" = 'twosync: fault 8 /shut' ] && [ ! -s ../out ] && [ ! -e second/ok ]; then
    ok
  else
    bad "an unreadable file: status $got, $(cat ../err)"
  fi
  own 'rm -f first/shut && mkdir first/d second/d && printf a >first/d/x && chmod 555 second/d'
  "${as[@]}" "$program" "${sync[@]}" >../out 2>../err
  got=$?
  if [ "$got" = 2 ] && [ "$(cat ../err)" = 'twosync: fault 8 /d/x' ] && [ "$(cat ../out)" = "done dir /d
failed first /d/x
done first /ok
total 3 done 2 skipped 0 failed 1 blocked 0" ] && [ "$(cat second/ok)" = a ]; then
    ok
  else
    bad "a folder that must not be written: status $got, $(cat ../err), $(cat ../out)"
  fi
  own 'chmod 755 second/d && mkdir shut && chmod 555 shut && rm -rf first/.twosync second/.twosync'
  "${as[@]}" "$program" sync first second shut/archive >../out 2>../err
  got=$?
  if [ "$got" = 3 ] && [ "$(cat ../err)" = 'twosync: fault 5' ] && [ ! -s ../out ] && [ ! -e second/d/x ] && [ ! -e second/.twosync ]; then
    ok
  else
    bad "an archive that can't be written: status $got, $(cat ../err)"
  fi
  # a .twosync that another user made keeps this one out, and so does a folder in which none can be made: the path says why
  own 'mkdir closed && chmod 555 closed'
  others=(closed)
  [ "$(id -u)" != 0 ] || { mkdir -m 700 second/.twosync && others+=(second); }
  for other in "${others[@]}"; do
    "${as[@]}" "$program" sync first $other archive >../out 2>../err
    got=$?
    if [ "$got" = 3 ] && [ "$(cat ../err)" = 'twosync: fault 5 /.twosync' ] && [ ! -s ../out ] && [ ! -e first/.twosync ] && [ ! -e second/d/x ]; then
      ok
    else
      bad ".twosync can't be used in $other: status $got, $(cat ../err)"
    fi
  done
  cd ..
else
  echo 'skipped: no other user to run as, so what must not be read or written is not tried'
fi

ended refusals
