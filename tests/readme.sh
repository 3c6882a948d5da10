#!/usr/bin/env bash
# Goes through README's tour, and compares what each command prints on a terminal with what the page shows (tests/readme.py).
# usage: tests/readme.sh [PROGRAM]
set -u
cd "$(dirname "$0")/.." || exit 1
top=$PWD
. tests/cases.sh

PYTHONDONTWRITEBYTECODE=1 python3 "$top/tests/readme.py" "$program" "$top/README.md"
add_counts 'tests/readme.py ended early'
ended readme
