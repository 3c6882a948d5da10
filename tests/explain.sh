#!/usr/bin/env bash
# Provokes most faults that a command may be refused by, and one that a run reports, and looks at its sentence and its line on
# standard error: both with --explain, the line alone without it, and both again on a terminal. What stands on standard output
# and the exit status are the same each time. Then names with characters that must not reach a terminal.
# usage: tests/explain.sh [PROGRAM]
set -u
cd "$(dirname "$0")/.." || exit 1
top=$PWD
. tests/cases.sh
UNREAD=": something in it is neither a file nor a folder or has a name that isn't UTF-8, or it can't be read."
ALONE=' It can be left alone with --hold-special.'

# told NAME STATUS OUT SENTENCE LINE WORDS..: these words print this line on standard error, and with --explain the sentence
# before it
told() {
  local name=$1 status=$2 out=$3 sentence=$4 line=$5
  shift 5
  expect "$name" "$status" "$out" "$line" "$@"
  expect "$name, explained" "$status" "$out" "$sentence"$'\n'"$line" "$@" --explain
}

# ---- files that aren't there, or aren't what they should be
fresh
printf a >first/a
told 'no archive to show' 3 '' "The archive notes.archive isn't there: \`show\` needs one that exists." 'twosync: fault 9' show notes.archive
told 'no hold rules' 3 '' "The file of hold rules my.rules isn't there." 'twosync: fault 9' plan first second archive --holds my.rules
told 'no plan' 3 '' "The plan my.plan isn't there." 'twosync: fault 9' run first second archive my.plan
told 'no plan to check' 3 '' "The plan my.plan isn't there." 'twosync: fault 9' check first second archive my.plan
told 'no first folder' 3 '' "sticks/one isn't there." 'twosync: fault 9' plan sticks/one second archive
told 'no second folder' 3 '' "sticks/two isn't there." 'twosync: fault 9' plan first sticks/two archive
told 'no folder to scan' 3 '' "sticks/two isn't there." 'twosync: fault 9' scan sticks/two
told 'a folder as archive' 3 '' "The archive first isn't a file." 'twosync: fault 5' show first
told 'a folder as hold rules' 3 '' "The file of hold rules second isn't a file." 'twosync: fault 5' sync first second archive --holds second
told 'a folder as plan' 3 '' "The plan second isn't a file." 'twosync: fault 5' check first second archive second
archive_of "f /a 1 $SA" >kept
head -c 80 kept >cut
MALFORMED=" is malformed: was it cut short, or changed by hand?"
told 'a cut archive' 3 '' "The archive cut$MALFORMED" 'twosync: fault 6' sync first second cut
sed 's/^f .a 1/f \/a 2/' kept >changed
told 'a changed archive' 3 '' "The archive changed was cut short, or changed by hand: its last line doesn't fit those before it." \
  'twosync: fault 7' show changed
"$program" plan first second archive >plan
head -c 40 plan >half
told 'half a plan' 3 '' "The plan half$MALFORMED" 'twosync: fault 6' check first second archive half

# ---- hold rules
printf 'path /a\nname *.o\nnam x\n' >my.rules
FORM=' is malformed: write `path /A/PATH` or `name PATTERN`, and a line feed.'
told 'a bad rule' 3 '' "Line 3 of my.rules$FORM" 'twosync: fault 11' plan first second archive --holds my.rules
printf 'path /a' >my.rules
told 'a rule without its end' 3 '' "Line 1 of my.rules$FORM" 'twosync: fault 11' plan first second archive --holds my.rules
seq -f 'path /p%.0f' 4097 >my.rules
told 'a rule too many' 3 '' 'The file of hold rules my.rules has more than 4,096 lines.' 'twosync: fault 11' plan first second archive --holds my.rules

# ---- a disk that isn't mounted
fresh
printf a >first/a
mkdir first/d
"$program" "${sync[@]}" >out
rm -r second
mkdir second
NO_PART='second took no part in the last run with the archive archive, which names 2 paths: is its disk mounted, and is this the right archive? See `preview`. If what it shows is right, use `plan` and `run`. If not, remove the archive: then nothing is deleted.'
told 'a replica that is new' 3 '' "$NO_PART" 'twosync: fault 9' "${sync[@]}"
told 'the other one is new' 3 '' "$NO_PART" 'twosync: fault 9' sync second first archive

# ---- plans that aren't valid; the line that refuses them stands on standard output
fresh
printf a >first/a
printf b >first/b
"$program" plan first second archive >plan
INVALID="The plan plan isn't valid for what is there: "
# broken NAME RULE PLACE SENTENCE: the plan in `plan` breaks this rule, for `check` and for `run`
broken() {
  local command
  for command in check run; do
    expect "$1: $command" 3 "refused $2 $3" '' "$command" first second archive plan
    expect "$1: $command, explained" 3 "refused $2 $3" "$INVALID$4" "$command" first second archive plan --explain
  done
}
expect 'a valid plan' 0 valid '' check first second archive plan --explain
cp plan whole
rm first/a
broken 'nothing is to be done' 3 0 'nothing is to be done at a path, or something else (entry 0).'
printf a >first/a
printf c >first/c
broken 'a path is left out' 4 2 'a path that differs is left out (before entry 2).'
rm first/c

# ---- what can't be scanned
fresh
mkdir first/d
mkfifo first/d/p
told 'a fifo' 3 '' "first/d$UNREAD$ALONE" 'twosync: fault 10 /d' "${sync[@]}"
told 'a fifo in the other folder' 3 '' "first/d$UNREAD$ALONE" 'twosync: fault 10 /d' plan second first archive
told 'a fifo in the folder itself' 3 '' "first/d$UNREAD$ALONE" 'twosync: fault 10' sync first/d second archive
told 'a fifo where a folder is scanned' 3 '' "first/d$UNREAD" 'twosync: fault 10 /d' scan first
rm first/d/p
name=$(printf 'n%.0s' {1..250})
(cd first && for _ in {1..17}; do mkdir "$name" && cd "$name" || exit 1; done)
"$program" scan first >out 2>err
holds_true 'a path that is too long is fault 4' grep -q '^twosync: fault 4' err
"$program" scan first --explain >out 2>err
holds_true 'a path that is too long, explained' grep -q "^first/.* is too long or too deep, or something in it\.$" err
"$program" plan second first archive --explain >out 2>err
holds_true 'it can be left alone' grep -q "^first/.* is too long or too deep, or something in it\. What is too deep can be left alone with --hold-special\.$" err
expect 'which is so' 1 "done second /d
skip held /$name
total 2 done 1 skipped 1 failed 0 blocked 0" '' sync second first archive --hold-special
rm -r first

# ---- another run
fresh
printf a >first/a
mkdir -p first/.twosync second/.twosync
chmod 700 first/.twosync second/.twosync
# held FILE WORDS..: runs the program with these words while another one holds the lock on this file
held() {
  local file=$1
  shift
  flock -x "$file" "$@"
}
if command -v flock >/dev/null; then
  before=(held second/.twosync/lock)
  told 'the second folder is in use' 3 '' 'second is in use by another run.' 'twosync: fault 8' "${sync[@]}"
  mkdir -p second/.twosync
  mkdir -p first/.twosync && chmod 700 first/.twosync second/.twosync
  before=(held first/.twosync/lock)
  told 'the first folder is in use' 3 '' 'first is in use by another run.' 'twosync: fault 8' "${sync[@]}"
  archive_of '' >archive.new
  before=(held archive.new)
  told 'the archive is in use' 3 '' 'The archive archive is in use by another run.' 'twosync: fault 8' "${sync[@]}"
  before=()
  rm archive.new
else
  echo 'skipped: there is no flock, so what another run holds is not tried'
fi

# ---- what is skipped, and why
# skips NAME OUT SENTENCE WORDS..: these words skip this, with this sentence where it is asked for
skips() {
  local name=$1 out=$2 sentence=$3
  shift 3
  expect "$name" 1 "$out" '' "$@"
  expect "$name, explained" 1 "$out" "$sentence" "$@" --explain
}
fresh
printf a >first/f
printf a >first/g
mkdir first/d
printf a >first/d/x
"$program" "${sync[@]}" >out
printf bb >first/f
printf ccc >second/f
skips 'a file that was changed in both' $'skip conflict /f\ntotal 1 done 0 skipped 1 failed 0 blocked 0' '/f is a conflict: changed in first, changed in second.' "${sync[@]}"
"$program" plan first second archive >plan
skips 'the same of a plan' $'skip conflict /f\ntotal 1 done 0 skipped 1 failed 0 blocked 0' '/f is a conflict: changed in first, changed in second.' run first second archive plan
rm second/f
skips 'a file that was changed and deleted' $'skip conflict /f\ntotal 1 done 0 skipped 1 failed 0 blocked 0' '/f is a conflict: changed in first, deleted in second.' "${sync[@]}"
skips 'the other way round' $'skip conflict /f\ntotal 1 done 0 skipped 1 failed 0 blocked 0' '/f is a conflict: deleted in second, changed in first.' sync second first archive
mkdir second/f
skips 'a file that became a folder' $'skip conflict /f\ntotal 1 done 0 skipped 1 failed 0 blocked 0' '/f is a conflict: changed in first, file becomes directory in second.' "${sync[@]}"
rm -r second/f
printf bb >second/f
"$program" "${sync[@]}" >out
printf a >first/n
printf b >second/n
skips 'files that are new in both' $'skip conflict /n\ntotal 1 done 0 skipped 1 failed 0 blocked 0' '/n is a conflict: new in first, new in second.' "${sync[@]}"
rm first/n second/n
printf 'path /g\n' >my.rules
printf bb >first/g
skips 'a path that a rule names' $'skip held /g\ntotal 1 done 0 skipped 1 failed 0 blocked 0' '/g is held: a rule or --hold-special holds /g.' "${sync[@]}" --holds my.rules
printf a >first/g
printf 'path /d\n' >my.rules
printf bb >first/d/x
skips 'a path below one that a rule names' $'skip held /d/x\ntotal 1 done 0 skipped 1 failed 0 blocked 0' '/d/x is held: a rule or --hold-special holds /d.' "${sync[@]}" --holds my.rules
printf a >first/d/x
printf 'name *.o\n' >my.rules
mkdir first/e
printf a >first/e/x.o
skips 'a path above one that a rule names' $'skip held /e\ntotal 1 done 0 skipped 1 failed 0 blocked 0' '/e is held: a rule or --hold-special holds /e/x.o.' "${sync[@]}" --holds my.rules
rm -r first/e
ln -s a first/l
skips 'a link' $'skip held /l\ntotal 1 done 0 skipped 1 failed 0 blocked 0' '/l is held: a rule or --hold-special holds /l.' "${sync[@]}" --hold-special
rm first/l

# ---- what lies in .twosync that no plan explains
fresh
mkdir -m 700 second/.twosync
printf x >second/.twosync/old-0
told 'what a stopped run left' 3 '' "second: its device failed, or what a stopped run left can't be finished." 'twosync: fault 8' "${sync[@]}"

# ---- a run that was stopped and isn't brought to its end yet, for commands that only look
fresh
printf a >first/a
"$program" plan first second archive >plan
sums="what       change                    files             bytes  path
to second  new                           1                 1  /a
total 1: to first 0, to second 1, agreed 0, conflicts 0, held 0; files lost in first 0, in second 0"
PENDING=': a run was stopped there, or still works. The next `run` or `sync` brings it to an end first.'
# looks NAME SENTENCES: plan, check and preview say this, where it is asked for, and print what they print anyway
looks() {
  expect "$1: plan" 0 "$(cat plan)" '' plan first second archive
  expect "$1: plan, explained" 0 "$(cat plan)" "$2" plan first second archive --explain
  expect "$1: check" 0 valid '' check first second archive plan
  expect "$1: check, explained" 0 valid "$2" check first second archive plan --explain
  expect "$1: preview" 0 "$sums" '' preview first second archive
  expect "$1: preview, explained" 0 "$sums" "$2" preview first second archive --explain
}
looks 'no run was stopped' ''
mkdir -m 700 first/.twosync second/.twosync
looks 'no run has left anything' ''
cp plan second/.twosync/plan
looks 'a plan is left in the second folder' "second$PENDING"
cp plan first/.twosync/plan
looks 'a plan is left in both' "first$PENDING"$'\n'"second$PENDING"
rm second/.twosync/plan
looks 'a plan is left in the first folder' "first$PENDING"
rm first/.twosync/plan
printf x >second/.twosync/old-0
looks 'something lies aside in the second folder' "second$PENDING"
holds_true 'it is still there' test "$(cat second/.twosync/old-0)" = x
rm second/.twosync/old-0
cp plan second/.twosync/plan
expect 'a run brings it to its end, and says nothing of it' 0 $'done first /a\ntotal 1 done 1 skipped 0 failed 0 blocked 0' '' "${sync[@]}" --explain
rm first/a
mkfifo first/p
cp plan second/.twosync/plan
expect 'a command that is refused says it first' 3 '' "second$PENDING
first$UNREAD$ALONE
twosync: fault 10" plan first second archive --explain

# ---- what must not be read or written; who may do everything runs this part as nobody
if may_be_refused; then
  mkdir open
  chmod 777 open
  cd open || exit 1
  own() { "${as[@]}" bash -c "$1"; }
  own 'mkdir first second closed shut && printf a >first/a && printf x >secret && chmod 000 secret && chmod 555 closed shut'
  before=("${as[@]}")
  told 'an archive that must not be read' 3 '' "The archive secret can't be opened: the system doesn't allow it." 'twosync: fault 5' show secret
  told 'a plan that must not be read' 3 '' "The plan secret can't be opened: the system doesn't allow it." 'twosync: fault 5' check first second archive secret
  told 'a folder that must not be written' 3 '' "closed/.twosync can't be made or used: permission denied." 'twosync: fault 5 /.twosync' sync first closed archive
  told 'it is the first one' 3 '' "closed/.twosync can't be made or used: permission denied." 'twosync: fault 5 /.twosync' sync closed first archive
  told 'an archive that must not be written' 3 '' \
    "The archive shut/archive can't be written: permission denied." 'twosync: fault 5' sync first second shut/archive
  own 'mkdir refused sealed refused/in sealed/in && printf a >refused/in/x && printf a >sealed/in/x && chmod 000 refused/in/x sealed/in'
  told 'a file that must not be read' 3 '' "refused/in/x can't be read: permission denied.$ALONE" 'twosync: fault 8 /in/x' plan refused second archive
  told 'it is in the second folder' 3 '' "refused/in/x can't be read: permission denied.$ALONE" 'twosync: fault 8 /in/x' preview first refused archive
  told 'it is in a folder that is scanned' 3 '' "refused/in/x can't be read: permission denied." 'twosync: fault 8 /in/x' scan refused
  told 'a folder that must not be listed' 3 '' "sealed/in can't be read: permission denied.$ALONE" 'twosync: fault 10 /in' sync first sealed archive
  told 'a scan of one that has it' 3 '' "sealed/in can't be read: permission denied." 'twosync: fault 10 /in' scan sealed
  own 'chmod 755 sealed/in'
  own 'chmod 755 shut && mkdir second/d first/d && printf a >first/d/x && chmod 555 second/d'
  "${as[@]}" "$program" sync first second archive >../out 2>../err
  holds_true 'a file that must not be written, by its line' test "$(cat ../err)" = 'twosync: fault 8 /d/x'
  "${as[@]}" "$program" sync first second archive --explain >../out 2>../err
  holds_true 'and in words' test "$(cat ../err)" = "/d/x isn't synchronized: permission denied."$'\n''twosync: fault 8 /d/x'
  before=()
  cd ..
else
  echo 'skipped: no other user to run as, so what must not be read or written is not tried'
fi

# ---- what the system says of an archive, and where a call of it fails
fresh
printf a >first/a
mkdir kept.d
told 'a folder in the place of the archive' 3 '' "The archive kept.d can't be written: it is a folder." 'twosync: fault 5' sync first second kept.d
told 'an archive in a folder that is not there' 3 '' "The archive none/archive can't be written: no such file or folder." \
  'twosync: fault 5' sync first second none/archive
ln -s circle circle
told 'an archive that is a link to itself' 3 '' "The archive circle can't be written: too many links." 'twosync: fault 5' sync first second circle
# fails CALL ERROR: the words that run a program of which each call of this name fails with this error
fails() {
  before=(strace -f -qq -o trace -e "trace=$1" -e "inject=$1:error=$2")
}
if command -v strace >/dev/null; then
  fails fsync ENOSPC
  told 'a full disk' 3 '' "first can't be written: no space left on the device." 'twosync: fault 5' "${sync[@]}"
  fails fsync EIO
  told 'a disk that fails' 3 '' "first can't be written: input/output error." 'twosync: fault 5' "${sync[@]}"
  fails mkdir EROFS
  told 'a disk that is read-only' 3 '' "first/.twosync can't be made or used: the file system is read-only." 'twosync: fault 5 /.twosync' "${sync[@]}"
  fails rename EDQUOT
  told 'a quota that is used up' 3 '' "first can't be written: the disk quota is used up." 'twosync: fault 5' "${sync[@]}"
  fails getdents64 EIO
  told 'a .twosync that cannot be listed' 3 '' "first: its device failed, or what a stopped run left can't be finished: input/output error." \
    'twosync: fault 8' "${sync[@]}"
  # middle FILE: each read of it but the first one fails
  middle() {
    before=(strace -f -qq -o trace -P "$(realpath "$1")" -e trace=read,pread64 -e inject=read,pread64:error=EIO:when=2+)
  }
  head -c 3000000 /dev/zero >first/b
  middle first/b
  told 'a file that fails in the middle' 3 '' "first/b can't be read: input/output error." 'twosync: fault 8 /b' scan first
  before=()
  rm first/b
  seq -f 'first/%.0f' 1000 | xargs touch
  "$program" scan first >long
  "$program" plan first second archive >long.plan
  seq -f 'path /%.0f' 4000 >long.rules
  middle long
  told 'an archive that fails in the middle' 3 '' "The archive long can't be read: input/output error." 'twosync: fault 5' show long
  middle long.plan
  told 'a plan that fails in the middle' 3 '' "The plan long.plan can't be read: input/output error." 'twosync: fault 5' check first second archive long.plan
  middle long.rules
  told 'hold rules that fail in the middle' 3 '' "The file of hold rules long.rules can't be read: input/output error." 'twosync: fault 5' \
    plan first second archive --holds long.rules
  before=()
else
  echo 'skipped: strace is missing, so what the system says of a failed call is not tried'
fi

# ---- what the system says of an action that fails: its file is larger than any that the program may write
fresh
head -c 5000 /dev/zero >first/large
printf a >first/small
# limited: runs a command that may write 2,048 bytes to a file, and no more
limited() {
  (trap '' XFSZ && ulimit -f 2 && exec "$@")
}
before=(limited)
expect 'a file that is too large' 2 $'failed first /large\ndone first /small\ntotal 2 done 1 skipped 0 failed 1 blocked 0' 'twosync: fault 8 /large' "${sync[@]}"
expect 'a file that is too large, explained' 2 $'failed first /large\ntotal 1 done 0 skipped 0 failed 1 blocked 0' \
  $'/large isn\'t synchronized: too large for the file system.\ntwosync: fault 8 /large' "${sync[@]}" --explain
before=()

# ---- input that can't be read
fresh
"$program" trial <first >out 2>err
status=$?
holds_true 'a bundle that cannot be read' test "$status" = 3
holds_true 'its answer is empty' test ! -s out
holds_true 'its line' test "$(cat err)" = 'twosync: fault 5'
"$program" trial --explain <first >out 2>err
status=$?
holds_true 'a bundle that cannot be read, explained' test "$status" = 3
holds_true 'its sentence and its line' test "$(cat err)" = "Standard input can't be read: it is a folder."$'\n''twosync: fault 5'

# ---- output that can't be written
if [ -e /dev/full ]; then
  fresh
  archive_of "f /a 1 $SA" >archive
  make_known archive first second
  "$program" show archive >/dev/full 2>err
  plain=$(cat err)
  "$program" show archive --explain >/dev/full 2>err
  holds_true 'a full disk at standard output: its line' test "$plain" = 'twosync: fault 5'
  holds_true 'and its sentence' test "$(cat err)" = "Standard output can't be written: no space left on the device."$'\n''twosync: fault 5'
  printf a >first/a
  "$program" "${sync[@]}" --explain >/dev/full 2>err
  status=$?
  holds_true 'a report that cannot be written' test "$status" = 2
  holds_true 'it is said why' test "$(cat err)" = "Standard output can't be written: no space left on the device."$'\n''twosync: fault 5'
  # long NAME STATUS WORDS..: the answer to these words is longer than what is written at once, so it fails in the middle
  long() {
    local name=$1 wanted=$2 status
    shift 2
    "$program" "$@" >/dev/full 2>err
    status=$?
    holds_true "$name, its status" test "$status" = "$wanted"
    holds_true "$name, its line" test "$(cat err)" = 'twosync: fault 5'
  }
  # long_explained NAME STATUS WORDS..: the same, and the sentence before its line
  long_explained() {
    local name=$1 wanted=$2 status
    shift 2
    "$program" "$@" --explain >/dev/full 2>err
    status=$?
    holds_true "$name, explained, its status" test "$status" = "$wanted"
    holds_true "$name, explained, its sentence and its line" \
      test "$(cat err)" = "Standard output can't be written: no space left on the device."$'\n''twosync: fault 5'
  }
  fresh
  seq -f 'first/%.0f' 2000 | xargs touch
  "$program" scan first >many
  "$program" plan first second archive >plan
  # a bundle of two equal replicas and their archive
  files() { seq -f $'f /f%04.0f 1\nx 61' 2000; }
  {
    printf 'twosync-bundle 1\narchive\n'
    seq -f "f /f%04.0f 1 $SA" 2000
    printf 'first\n' && files
    printf 'second\n' && files
    printf 'holds\nplan\ntwosync-plan 1\nend 0 0\n'
  } >bundle
  "$program" trial <bundle >answer
  for file in many plan answer; do
    holds_true "what is printed is long: $file" test "$(wc -c <"$file")" -gt 65536
  done
  for case in long long_explained; do
    "$case" 'a long archive that is shown' 3 show many
    "$case" 'a long archive that is scanned' 3 scan first
    "$case" 'a long plan' 3 plan first second archive
    "$case" 'a long answer to a bundle' 3 trial <bundle
    "$case" 'a long preview' 3 preview first second archive
    "$case" 'a long report' 2 "${sync[@]}"
    holds_true 'all was done before it' diff -r -x .twosync first second
    rm -r second archive
    mkdir second
    "$case" 'a long report of a plan' 2 run first second archive plan
    rm -r second archive
    mkdir second
  done
fi

# ---- names that must not reach a terminal as they are
fresh
control=$'an\001archive\177\n'
told 'control characters in a name' 3 '' "The archive an%01archive%7F%0A isn't there: \`show\` needs one that exists." 'twosync: fault 9' show "$control"
direction=$'a\u202eb\u2066c\u200ed\u0085e'
told 'marks that turn the direction of writing' 3 '' \
  "The archive a%E2%80%AEb%E2%81%A6c%E2%80%8Ed%C2%85e isn't there: \`show\` needs one that exists." 'twosync: fault 9' show "$direction"
mkdir "first/x"$'\u202e'"y"$'\001'
mkfifo "first/x"$'\u202e'"y"$'\001/p'
expect 'such a path, explained' 3 '' "first/x%E2%80%AEy%01$UNREAD$ALONE
twosync: fault 10 /x"$'\u202e'"y%01" "${sync[@]}" --explain

# ---- on a terminal, and without one
python3 "$top/tests/terminal.py" "$program" show notes.archive >said
status=$?
holds_true 'a terminal gets the sentence' test "$(cat said)" = "The archive notes.archive isn't there: \`show\` needs one that exists."$'\n''twosync: fault 9'
holds_true 'the status is the same' test "$status" = 3
python3 "$top/tests/terminal.py" "$program" show notes.archive --explain >said
holds_true 'a terminal gets it once' test "$(wc -l <said)" = 2
expect 'a file gets the line alone' 3 '' 'twosync: fault 9' show notes.archive
ended explain
