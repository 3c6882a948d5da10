#!/usr/bin/env bash
# Runs whose standard input, output or error is closed: no file gets its number, so nothing that is said is written into one.
# usage: tests/descriptors.sh [PROGRAM]
set -u
cd "$(dirname "$0")/.." || exit 1
. tests/cases.sh

# closing NUMBERS WORDS..: runs the program on these words with these descriptors closed. Its status is in `got`, and `out` and
# `err` have what it wrote to the others.
closing() {
  local numbers=$1
  shift
  (
    exec >out 2>err </dev/null
    [[ $numbers != *0* ]] || exec 0<&-
    [[ $numbers != *1* ]] || exec 1>&-
    [[ $numbers != *2* ]] || exec 2>&-
    exec "$program" "$@"
  )
  got=$?
}

unwritten="Standard output can't be written: is its disk full or read-only, or its folder not there?"$'\n''twosync: fault 5'
total='total 2 done 1 skipped 1 failed 0 blocked 0'
body="f /f 1 $SA"
for numbers in 0 1 2 01 02 12 012; do
  name="descriptors $numbers are closed"
  # ---- one entry is copied, and of a conflict something is said on standard error
  for command in sync run; do
    fresh
    printf a >first/f
    printf a >first/g
    printf b >second/g
    words=("$command" first second archive)
    if [ "$command" = run ]; then
      "$program" plan first second archive >plan
      words+=(plan)
    fi
    closing "$numbers" "${words[@]}" --explain
    err='/g is a conflict: new in first, new in second.'
    status=1
    # what couldn't be reported is a failure, also where it couldn't be said either
    if [[ $numbers == *1* ]]; then err+=$'\n'$unwritten; fi
    if [[ $numbers == *[12]* ]]; then status=2; fi
    out=$'done first /f\nskip conflict /g\n'$total
    [[ $numbers != *1* ]] || out=
    [[ $numbers != *2* ]] || err=
    answered "$name: $command" "$status" "$out" "$err" "$got"
    holds_true "$name: $command: both folders" test "$(cat first/f second/f first/g second/g)" = aaab
    holds_true "$name: $command: the archive" cmp -s archive <(archive_of "$body")
    holds_true "$name: $command: nothing is left" test -z "$(left_in first second)" -a ! -e archive.new
    for replica in first second; do
      holds_true "$name: $command: what $replica belongs to" \
        test "$(grep -cxE "pair:[0-9a-f]{64} $(digest_in archive)" "$replica/.twosync/archives")" = 1 -a "$(wc -l <"$replica/.twosync/archives")" = 1
    done
    expect "$name: $command: the archive is shown" 0 "$body" '' show archive
    rm second/g
    cp first/g second/g
    expect "$name: $command: the next sync" 0 $'done same /g\ntotal 1 done 1 skipped 0 failed 0 blocked 0' '' "${sync[@]}"
    alike "$name: $command: the next sync"
  done
  # ---- a fault is said on standard error, and nothing changes
  ln -s f first/link
  state >state.before
  closing "$numbers" "${sync[@]}"
  err='twosync: fault 10'
  [[ $numbers != *2* ]] || err=
  answered "$name: a refusal" 3 '' "$err" "$got"
  state >state.after
  holds_true "$name: a refusal: nothing has changed" cmp -s state.before state.after
  rm first/link
  # ---- what only prints fails where it can't
  for words in 'show archive' 'scan first' 'plan first second archive' 'preview first second archive'; do
    # shellcheck disable=SC2086
    "$program" $words >wanted
    # shellcheck disable=SC2086
    closing "$numbers" $words
    status=0 out=$(cat wanted) err=''
    if [[ $numbers == *1* ]]; then status=3 out='' err='twosync: fault 5'; fi
    [[ $numbers != *2* ]] || err=
    answered "$name: ${words%% *}" "$status" "$out" "$err" "$got"
    rm wanted
  done
  # ---- a bundle is read from standard input
  if [[ $numbers == *0* ]]; then
    closing "$numbers" trial
    err='twosync: fault 5'
    [[ $numbers != *2* ]] || err=
    answered "$name: trial" 3 '' "$err" "$got"
  fi
done

# ---- the numbers can't be taken
# They are three, so with room for no further file one of them is missing; and each of the calls can fail.
fresh
printf a >first/f
state >state.before
(ulimit -n 5 && exec "$program" "${sync[@]}") >out 2>err
answered 'room for five descriptors' 3 '' 'twosync: fault 5' "$?"
if command -v strace >/dev/null; then
  for which in 1 2 3; do
    strace -qq -f -o log -P / -e trace=openat -e inject=openat:error=EACCES:when="$which" "$program" "${sync[@]}" >out 2>err
    answered "call $which for a number fails" 3 '' 'twosync: fault 5' "$?"
  done
  rm log
else
  echo "skipped: strace is missing, so no call for a number fails"
fi
state >state.after
holds_true "the numbers can't be taken: nothing has changed" cmp -s state.before state.after

ended descriptors
