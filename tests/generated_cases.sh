#!/usr/bin/env bash
# Generated cases for the checker, the planner and the decoders: they are drawn and judged in Python, by another reading of the
# rules, the reasons and the formats, and the program `cases` has to answer each as it is judged.
# usage: tests/generated_cases.sh [PROGRAM]; HOSTILE_TEXTS=NUMBER for another number of hostile texts than 20,000, SEED=NUMBER for
# other plans for the checker
set -u
cd "$(dirname "$0")/.." || exit 1
tests=$PWD/tests
. tests/program.sh
. tests/counts.sh
program=$(program_of cases "${1:-}") || exit 1
programs=("$program")
# The gate has two compilers build the program, the second one after the first. Both have to answer alike.
second=$program.by-rattle
if [ -z "${1:-}" ] && [ -x "$second" ] && [ ! "$second" -ot "$program" ]; then programs+=("$second"); fi
work=$(mktemp -d) || exit 1
trap 'rm -rf "$work"' EXIT
cd "$work" || exit 1

# try SCRIPT WORDS..: lets a script compare its cases, and adds what it counted
try() {
  local script=$1
  shift
  PYTHONPATH=$tests python3 -B "$tests/$script.py" "$program" "$@"
  add_counts "tests/$script.py came to no end"
}

for program in "${programs[@]}"; do
  [ "${#programs[@]}" = 1 ] || echo "-- $(basename "$program")"
  try checked_cases ${SEED:+"$SEED"}
  try planned_cases
  try hostile_cases "${HOSTILE_TEXTS:-20000}"
done
ended 'generated cases'
