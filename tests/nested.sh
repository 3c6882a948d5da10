#!/usr/bin/env bash
# Places that lie where they mustn't: an archive or a folder inside a folder or inside a .twosync. Every command on a pair refuses
# them as a mistake in its words, says which lies in which, and changes nothing; what only looks so isn't refused.
# usage: tests/nested.sh [PROGRAM]
set -u
cd "$(dirname "$0")/.." || exit 1
. tests/cases.sh

# laid_out: two folders with files, another one beside them, and links to them
laid_out() {
  fresh
  rm -rf other link far chain ring
  mkdir -p first/sub second/sub other
  printf a | tee first/f second/sub/g >other/h
  ln -s first link
  # archives that aren't there yet, and lie where the links lead to
  ln -s ../first/later other/near
  ln -s "$PWD/second/later" far
  ln -s other/near chain
  ln -s ring ring
}
laid_out

# wrong NAME SAID FIRST SECOND ARCHIVE: every command on this pair, in the folder `here`, says this and changes nothing. Neither
# rules nor a plan are read before: they aren't there.
here=.
wrong() {
  local name=$1 said=$2 command words
  shift 2
  for command in preview plan check run sync; do
    words=("$command" "$@" --holds nowhere)
    case $command in check | run) words+=(nowhere) ;; esac
    state >state.before
    before=(timeout 10 env -C "$here")
    expect "$name: $command" 3 '' "error: $said"$'\n''twosync: fault 16' "${words[@]}"
    before=()
    state >state.after
    holds_true "$name: $command: nothing has changed" cmp -s state.before state.after
  done
}
out='keep it outside both folders'
apart='neither may contain the other'
of_own='is part of a .twosync, which twosync keeps for itself: choose another place'
in_first() { wrong "$1" "the archive $4 lies inside the first folder $2: $out" "$2" "$3" "$4"; }
in_second() { wrong "$1" "the archive $4 lies inside the second folder $3: $out" "$2" "$3" "$4"; }

# ---- the archive is inside a folder
in_first 'an archive in the first folder' first second first/archive
in_second 'an archive in the second folder' first second second/archive
in_first 'an archive deep in the first folder' first second first/sub/archive
in_second 'an archive deep in the second folder' first second second/sub/archive
in_first 'an archive that is a file of the first folder' first second first/f
in_second 'an archive that is a file of the second folder' first second second/sub/g
in_second 'an archive in a folder that is still to be made' first second second/new/deep/archive
in_first 'an archive in one folder that is given twice' first first first/archive
in_first 'an archive in a folder that is not there' nowhere second nowhere/archive
in_second 'an archive in the second folder, and the first one is not there' nowhere second second/archive
in_first 'whole paths' "$PWD/first" "$PWD/second" "$PWD/first/archive"
in_first 'a whole path of the archive' first second "$PWD/first/archive"
in_second 'a whole path of the folder' first "$PWD/second" second/archive
in_first 'an archive by a parent' first second second/../first/archive
in_second 'an archive by its own parents' first second second/sub/../../second/archive
in_first 'a folder by a parent' other/../first second first/archive
in_second 'needless steps' ./first ././second .//second/./archive
in_first 'slashes at the end' first// second/ first//archive
in_second 'a step at the end' first/. second/. second/archive
in_first 'an archive with a slash at the end' first second first/new/
in_first 'the folder is named by a link' link second first/archive
in_first 'the archive is named by a link to the folder' first second link/archive
in_first 'the archive is named by a link to the folder, deep' first second link/sub/new/archive
in_second 'the archive is a link into the second folder' first second far
in_first 'the archive is a link into the first folder' first second other/near
in_first 'the archive is a link to a link into the first folder' first second chain
in_first 'the archive is a link, by a parent' first second second/../other/near
wrong 'a name that must not reach a terminal as it is' "the archive first/%1B[31m lies inside the first folder first: $out" \
  first second first/$'\e[31m'
# from the folder itself, and from one in it
here=first
wrong 'the folder at hand' "the archive archive lies inside the first folder .: $out" . ../second archive
wrong 'the folder at hand by its name' "the archive archive lies inside the first folder ../first: $out" ../first ../second archive
here=second/sub
wrong 'the folder above' "the archive ../archive lies inside the second folder ..: $out" ../../first .. ../archive
here=.

# ---- a folder is inside the other one
second_in_first() { wrong "$1" "the second folder $3 lies inside the first folder $2: $apart" "$2" "$3" "$4"; }
first_in_second() { wrong "$1" "the first folder $2 lies inside the second folder $3: $apart" "$2" "$3" "$4"; }
second_in_first 'the second folder in the first' first first/sub archive
first_in_second 'the first folder in the second' second/sub second archive
second_in_first 'the second folder in the first, by a parent' first second/../first/sub archive
first_in_second 'the first folder in the second, and slashes at the end' second/sub/ second// archive
second_in_first 'the first folder by a link' link first/sub archive
second_in_first 'the second folder by a link' first link/sub archive
second_in_first 'a second folder that is not there' first first/nowhere archive
first_in_second 'a first folder that is not there, in a folder that is not there' second/no/where second archive
second_in_first 'the folders before the archive' first first/sub first/archive
second_in_first 'the whole system as the first folder' / second archive
first_in_second 'the whole system as the second folder' first / archive
second_in_first 'the whole system by a parent' /../ second archive
in_first 'the whole system as both folders' / / archive
here=first/sub
second_in_first 'the folder above' .. . ../../archive
here=.

# ---- something is inside a .twosync
for place in .twosync/archive first/.twosync/archive other/.twosync/new/archive second/sub/.twosync/archive .twosync; do
  wrong "the archive is $place" "the archive $place $of_own" first second "$place"
done
for replica in .twosync other/.twosync/a .twosync/new-0/deep first/.twosync first/sub/.twosync; do
  wrong "the first folder is $replica" "the first folder $replica $of_own" "$replica" second archive
  wrong "the second folder is $replica" "the second folder $replica $of_own" second "$replica" archive
done
mkdir -m 700 other/.twosync
mkdir other/.twosync/a
ln -s other/.twosync own
wrong 'an archive by a link to a .twosync' "the archive own/archive $of_own" first second own/archive
wrong 'a folder by a link to a .twosync' "the first folder own $of_own" own second archive
wrong 'a folder in a .twosync by a link' "the second folder own/a $of_own" first own/a archive
here=other/.twosync
wrong 'an archive at hand, in a .twosync' "the archive archive $of_own" ../../first ../../second archive
wrong 'a folder at hand, in a .twosync' "the first folder a $of_own" a ../../second ../../archive
here=.
rm own

# ---- what isn't refused so
# fine NAME WORDS..: a sync of these places
fine() {
  local name=$1 got
  shift
  "$program" sync "$@" >out 2>err
  got=$?
  holds_true "$name: status $got, $(tail -n 1 err)" test "$got" = 0 -a ! -s err -a -f "$3"
}
laid_out
rm -rf first-more a.twosync .twosynced
cp -a second first-more
fine 'a folder whose name begins as that of the other one' first first-more archive
fine 'an archive whose name begins as that of a folder' first first-more first.archive
fine 'an archive whose name is nearly .twosync' first first-more .twosync.archive
mkdir -p a.twosync/first .twosynced/second
fine 'folders whose names are nearly .twosync' a.twosync/first .twosynced/second a.twosync/archive
fine 'an archive beside the folders, by a parent' first first-more first/../beside
fine 'a folder by a link' link first-more linked
ln -s ../led-to other/out
fine 'an archive by a link' first first-more other/out
holds_true 'an archive by a link: where it leads to' test -f led-to -a ! -L led-to
echo 'name none' >first/rules
fine 'rules in a folder' first first-more ruled --holds first/rules
# what counts is where a link leads to, and the link itself is something that can't be synchronized
ln -s ../led-to first/out
refused 'an archive by a link in a folder, which leads out of it' 10 sync first first-more first/out
rm first/out
refused 'one folder given twice' 8 sync first first archive
refused 'one folder given twice, by a link' 8 sync first link archive
refused 'an archive by a link in a circle' 5 sync first second ring
refused 'an archive in a folder that is not there' 5 sync first second nowhere/archive
refused 'a folder that is not there' 9 sync nowhere second new
cp archive first/copy
expect 'an archive in a folder is shown' 0 "$("$program" show archive)" '' show first/copy
if may_be_refused; then
  mkdir -m 777 open
  mkdir open/shut
  cp archive open/shut
  chmod 000 open/shut
  cp -r other open
  chmod -R a+rwX open/other
  before=("${as[@]}")
  refused 'an archive in a folder that must not be entered' 5 sync open/other open/third open/shut/archive
  before=()
  chmod 755 open/shut
  rm -r open
else
  echo 'skipped: no other user to run as, so a folder that must not be entered is not tried'
fi

ended nested
