#!/usr/bin/env bash
# Has the built program scan real folders, with what a test in Rattle can't make among it: a fifo, a name that isn't UTF-8, a
# folder that must not be listed, a file that must not be read. Wanted digests are those of `sha256sum`.
# usage: tests/folders.sh [PROGRAM]
set -u
umask 022
cd "$(dirname "$0")/.." || exit 1
. tests/program.sh
. tests/counts.sh
program=$(program_of twosync "${1:-}") || exit 1
work=$(mktemp -d)
trap 'chmod -R u+rwx "$work"; rm -rf "$work"' EXIT
chmod 755 "$work"
cp "$program" "$work/twosync" && chmod 755 "$work/twosync"

# Who may do everything may list every folder, so such a user runs the program as nobody.
as=(env)
may_be_refused=1
if [ "$(id -u)" = 0 ]; then
  if command -v setpriv >/dev/null; then
    as=(setpriv --reuid=65534 --regid=65534 --clear-groups)
  else
    may_be_refused=0
    echo 'skipped: what must not be listed or read, since this user may do everything and setpriv is missing'
  fi
fi

# expect_scan ANSWER STATUS FOLDER: what the program says of a folder, with 1, 2 and 64 workers, and its exit status
expect_scan() {
  local workers got
  for workers in 1 2 64; do
    got=$("${as[@]}" "$work/twosync" scan "$work/$3" --workers "$workers" 2>&1; echo "status $?")
    if [ "$got" = "$1"$'\n'"status $2" ]; then
      ok
    else
      bad "scan $3 by $workers"
      diff <(echo "$1"; echo "status $2") <(echo "$got") | head -n 5
    fi
  done
}

# The line of a file: its path in the folder, and where it stands
file_line() {
  local digest
  digest=$(sha256sum <"$2")
  echo "f $1 $(stat -c %s "$2") ${digest%% *}"
}

# A folder in which all is lawful, in path order
good=$work/good
mkdir -p "$good/.twosync" "$good/d/e/f" "$good/many"
printf own >"$good/.twosync/plan"
printf tab >"$good/d/a"$'\t'
printf feed >"$good/d/a"$'\n'
printf space >"$good/d/a b"
printf percent >"$good/d/a%"
printf letter >"$good/d/ä"
: >"$good/empty"
head -c 2097153 /dev/zero | tr '\0' 'z' >"$good/large"
wanted() {
  echo 'd /d'
  file_line '/d/a%09' "$good/d/a"$'\t'
  file_line '/d/a%0A' "$good/d/a"$'\n'
  file_line '/d/a%20b' "$good/d/a b"
  file_line '/d/a%25' "$good/d/a%"
  echo 'd /d/e'
  echo 'd /d/e/f'
  file_line '/d/ä' "$good/d/ä"
  file_line '/empty' "$good/empty"
  file_line '/large' "$good/large"
  echo 'd /many'
  local number
  for number in $(seq 100 399); do
    seq "$number" >"$good/many/$number"
    file_line "/many/$number" "$good/many/$number"
  done
}
# The archive's text: its header, the lines, how many these are, and the digest of all before
archive() {
  local lines text digest
  lines=$(wanted)
  text="twosync-archive 1"$'\n'"$lines"$'\n'
  digest=$(printf %s "$text" | sha256sum)
  printf '%send %s %s\n' "$text" "$(wc -l <<<"$lines")" "${digest%% *}"
}
all=$(archive)
expect_scan "$all" 0 good
expect_scan 'twosync: fault 9' 3 nowhere

# refused NAME ANSWER PATH_OF_FAULT: the folder NAME, in which only what is at /x isn't lawful; it is readable up to there
refused() {
  mkdir -p "$work/$1/a" "$work/$1/x"
  : >"$work/$1/a/b"
  "make_$1" "$work/$1/x"
  expect_scan "twosync: fault $2 $3" 3 "$1"
}
make_fifo() { mkfifo "$1/p"; }
make_bytes() { : >"$1/$(printf 'a\377')"; }
make_link() { ln -s ../a "$1/to_a"; }
make_broken_link() { ln -s nowhere "$1/to_nothing"; }
make_own() { mkdir "$1/.twosync"; }
refused fifo 10 /x
refused bytes 10 /x
refused link 10 /x
refused broken_link 10 /x
refused own 10 /x
# The folder itself may be reached by a link.
ln -s good "$work/good_by_link"
expect_scan "$all" 0 good_by_link

if [ "$may_be_refused" = 1 ]; then
  make_shut() { mkdir "$1/shut"; chmod 000 "$1/shut"; }
  make_secret() { printf x >"$1/secret"; chmod 000 "$1/secret"; }
  make_closed() { mkdir "$1/shut"; : >"$1/shut/file"; chmod 644 "$1/shut"; }
  refused shut 10 /x/shut
  refused secret 8 /x/secret
  # its names may be read, but what they name may not be looked at
  refused closed 10 /x/shut
fi
ended folders
