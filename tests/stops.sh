#!/usr/bin/env bash
# Runs that are ended by a signal: the program is killed before one of its calls that change something, for many of them in
# turn. After each stop nothing may be half done, and the next run has to bring all to the one right end. Small pairs are
# stopped at each such call, and then the run that goes on is stopped, too.
# usage: tests/stops.sh [PROGRAM]; STOPS=all for every such call and every two of them, LARGE=BYTES for another size of the
# large file
set -u
cd "$(dirname "$0")/.." || exit 1
tests=$PWD/tests
. tests/cases.sh

needs_strace stops 'no run is stopped at its calls'
PYTHONPATH=$tests python3 -B "$tests/stops.py" "$program"
add_counts 'the stops came to no end'
ended stops
