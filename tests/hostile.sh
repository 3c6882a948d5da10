#!/usr/bin/env bash
# Hostile inputs for the built program: random words, and texts that are as large as may be, or say that they are. The decoders
# alone are tried with many more texts by tests/generated_cases.sh.
# usage: tests/hostile.sh [PROGRAM]; LINES_OF_ARCHIVE=NUMBER for another length of the long archive
set -u
cd "$(dirname "$0")/.." || exit 1
tests=$PWD/tests
. tests/cases.sh

PYTHONPATH=$tests python3 -B "$tests/hostile.py" "$program"
add_counts 'the inputs came to no end'
ended hostile
