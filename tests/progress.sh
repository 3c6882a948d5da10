#!/usr/bin/env bash
# What commands draw on a terminal while they work: lines appear, each within the width and of printable characters alone, no
# number of them falls, and nothing is left of them in the end; with --quiet and without a terminal nothing is drawn. What is left
# is what the same command writes elsewhere (tests/progress.py).
# usage: tests/progress.sh [PROGRAM]
set -u
cd "$(dirname "$0")/.." || exit 1
top=$PWD
# shellcheck disable=SC2034
room=1500
. tests/cases.sh

PYTHONDONTWRITEBYTECODE=1 python3 "$top/tests/progress.py" "$program"
add_counts 'tests/progress.py ended early'
ended progress
