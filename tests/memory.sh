#!/usr/bin/env bash
# How much memory a sync holds, whatever the size of what it copies and for every number of workers (tests/memory.py).
# usage: tests/memory.sh [PROGRAM]
set -u
cd "$(dirname "$0")/.." || exit 1
top=$PWD
# shellcheck disable=SC2034
room=2500
. tests/cases.sh

PYTHONDONTWRITEBYTECODE=1 python3 "$top/tests/memory.py" "$program"
add_counts 'tests/memory.py ended early'
ended memory
