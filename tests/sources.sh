#!/usr/bin/env bash
# Sources that change while they are read: a file grows, shrinks, goes, is replaced, or gets another byte, while a run has
# read a part of it, when it scans the file and when it copies it. What is then at the target is never torn: it is what it was
# before, or the file as it was before or after its change. What the run says is true, and the next run makes both alike.
# usage: tests/sources.sh [PROGRAM]
set -u
cd "$(dirname "$0")/.." || exit 1
tests=$PWD/tests
. tests/cases.sh

needs_strace sources 'no run is held while it reads'
PYTHONPATH=$tests python3 -B "$tests/sources.py" "$program"
add_counts 'the runs came to no end'
ended sources
