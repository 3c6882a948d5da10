#!/usr/bin/env bash
# Measures how long large texts take to write and to read, and how much memory what was read takes: an archive of
# 50,000 and of 200,000 paths, and a plan of 262,144 and of 1,048,576 actions with four predecessors each. The last
# column has each time divided by the one at a quarter of the size: near 4 where time is linear.
# Then measures the planner and the checker over two replicas of 50,000, 200,000 and 800,000 paths, of which one in a hundred
# changed: the last columns have each time divided by the one at a quarter of the size. And over 200,000 paths without hold
# rules and with 4,096 of them, the most that there may be: of all kinds in turn, and of each kind alone, by where their stars
# are. The last columns have each time divided by the one without rules.
# Then measures the checker alone, on plans that copy 65,536 and 262,144 new files of two pieces, by one processor and by all: the
# last columns have the time by all divided by the one by one, and by the one at a quarter of the size.
# Then measures how long 1, 2 and 4 workers take to copy 262,144 new files in memory, with the speed-up over 1 worker, and
# how much of it came after the last actions had begun: the end of the workers, the sweep and the outcome. Each is the
# least of five runs, taken in turn.
# usage: tests/benchmarks.sh [PROGRAM]
set -u
cd "$(dirname "$0")/.."
. tests/program.sh
program=$(program_of benchmarks "${1:-}") || exit 1

# Runs the program five times at a size with so many lines for each path or action, and prints a row of numbers:
# size, lines, bytes, least milliseconds of writing and of reading, KiB
measure() {
  for _ in 1 2 3 4 5; do "$program" text "$1" "$2"; done | awk -v size="$2" -v quarters="$3" '
    /alike$/ { bytes = $2 }
    /^written/ { if (!runs++ || $3 < written) written = $3; if (runs == 1 || $7 < read) read = $7 }
    /^held/ { held = $2 }
    END { print size, int(size * quarters / 4), bytes, written, read, held }'
}

# A table row of a size, from its numbers and those of a quarter of the size
row() {
  echo "$1 $2 $3" | awk '
    function rate(lines, ms) { return ms > 0 ? int(lines * 1000 / ms) : 0 }
    function ratio(large, small) { return small > 0 ? sprintf("%.1f", large / small) : "-" }
    {
      printf "%-8s %8d %9d bytes  write %6d ms %9d lines/s  read %6d ms %9d lines/s  %4d bytes held for each", $1, $2, $4, $5, rate($3, $5), $6, rate($3, $6), $7 * 1024 / $2
      if (NF > 7) printf "  times: %s, %s", ratio($5, $11), ratio($6, $12)
      print ""
    }'
}

# Measures both sizes of a text; the lines for each path or action are counted in quarters.
both() {
  local small large
  small=$(measure "$1" "$2" "$4")
  large=$(measure "$1" "$3" "$4")
  row "$1" "$small" ""
  row "$1" "$large" "$small"
}

both archive 50000 200000 4
both plan 262144 1048576 21

# Plans for so many paths by so many hold rules, perhaps of one kind, and checks the plan, five times: the least milliseconds
# of each
planned() {
  for _ in 1 2 3 4 5; do "$program" plan "$@"; done | awk '
    /^planned/ { if (!runs++ || $3 < planned) planned = $3; if (runs == 1 || $7 < checked) checked = $7 }
    END { print planned, checked }'
}

quarter=''
for paths in 50000 200000 800000; do
  times=$(planned "$paths" 2)
  echo "$paths $times $quarter" | awk '{
    printf "%7d paths  plan %5d ms  check %5d ms", $1, $2, $3
    if (NF > 3 && $4 > 0 && $5 > 0) printf "  times: %.1f, %.1f", $2 / $4, $3 / $5
    print ""
  }'
  quarter=$times
done
without=$(planned 200000 0)
echo "200000 paths, no rules: $(echo "$without" | awk '{ print "plan " $1 " ms, check " $2 " ms" }')"
for kind in '' path name front end middle both; do
  echo "${kind:-all} $(planned 200000 4096 ${kind:+"$kind"}) $without" | awk '{
    printf "200000 paths, 4096 rules, %-7s  plan %4d ms  check %4d ms", $1 ":", $2, $3
    if ($4 > 0 && $5 > 0) printf "  times: %.1f, %.1f", $2 / $4, $3 / $5
    print ""
  }'
done

# checked FILES COMMAND..: the least milliseconds of five checks of a plan that copies so many files, by a program that this runs
checked() {
  local files=$1
  shift
  for _ in 1 2 3 4 5; do "$@" "$program" check wide "$files"; done | awk '
    /^checked/ { if (!runs++ || $3 < least) least = $3 }
    END { print least }'
}
if command -v taskset >/dev/null; then
  quarter=''
  for files in 65536 262144; do
    alone=$(checked "$files" taskset -c 0)
    all=$(checked "$files")
    echo "$files $alone $all $quarter" | awk '{
      printf "%7d files  check by one processor %5d ms  by all %5d ms  times: %.2f", $1, $2, $3, $3 / $2
      if (NF > 3 && $4 > 0) printf ", %.1f", $3 / $4
      print ""
    }'
    quarter=$all
  done
else
  echo 'skipped: taskset is missing, so the checker is not measured by one processor'
fi

for _ in 1 2 3 4 5; do
  for workers in 1 2 4; do "$program" run 262144 "$workers"; done
done | awk '
  /actions, done$/ { actions = $1 }
  /^by/ { if (!($2 in least) || $5 < least[$2]) { least[$2] = $5; after[$2] = $7 } }
  END {
    for (n = 1; n <= 4; n *= 2)
      if (least[n] > 0)
        printf "run %d actions  %d workers %6d ms %9.0f actions/s  speed-up %.2f  %.1f%% of it after the last began\n",
          actions, n, least[n] / 1000, actions * 1000000 / least[n], least[1] / least[n], after[n] * 100 / least[n]
  }'
