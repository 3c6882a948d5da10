#!/usr/bin/env bash
# Checkpoints: a run that is stopped after one keeps what it had finished, and the next run knows that. One whose calls fail
# is left out, and the run ends as without it. Another run on the same archive is refused before and after one.
# usage: tests/checkpoints.sh [PROGRAM]
set -u
cd "$(dirname "$0")/.." || exit 1
tests=$PWD/tests
. tests/cases.sh

needs_strace checkpoints 'no run is stopped after a checkpoint'

fresh
printf a >first/a
strace -qq -f -e trace=rename,renameat,renameat2 -o log "$program" sync first second archive --workers 1 --checkpoint 1 >out 2>err
holds_true 'a checkpoint after each of three actions' test "$(grep -c 'archive\.new' log)" = 4
alike 'one file'

PYTHONPATH=$tests python3 -B "$tests/checkpoints.py" "$program"
add_counts 'the checkpoints came to no end'
ended checkpoints
