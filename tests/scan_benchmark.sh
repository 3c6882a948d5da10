#!/usr/bin/env bash
# Measures the scan of 20,000 files of 1 to 8 KiB in 200 directories, and of 8 files of 64 MiB, with 1, 2 and 4 workers,
# beside `sha256sum` run by 4 processes over the same files. Each number is the least of five runs, taken in turn. Each row
# has files, bytes, milliseconds, bytes and files a second, how often faster than 1 worker, how often longer than
# `sha256sum`, and the most memory held.
# usage: tests/scan_benchmark.sh [PROGRAM]
set -u
cd "$(dirname "$0")/.."
. tests/program.sh
program=$(program_of benchmarks "${1:-}") || exit 1
top=$(mktemp -d)
trap 'rm -rf "$top"' EXIT
echo "processors: $(nproc), load before: $(cut -d' ' -f1 /proc/loadavg)"

# The files are made of a fixed pattern, so that each run scans the same bytes. Those of a directory have one size.
make_small() {
  local number size folder
  for number in $(seq 0 199); do
    folder=$top/small/$((number + 1000))
    mkdir -p "$folder"
    size=$((1024 + number * 36))
    head -c $((size * 100)) "$top/pattern" | split -b "$size" -d -a 3 - "$folder/"
  done
}
make_large() {
  local number
  mkdir "$top/large"
  for number in $(seq 1 8); do
    { echo "$number"; head -c $((67108864 - 2)) "$top/pattern"; } >"$top/large/$number"
  done
}

sums() { find "$1" -type f -print0 | xargs -0 -P4 -n "$2" sha256sum; }

# Runs a command, and prints a word and how many milliseconds the command took
clock() {
  local word=$1 start end
  shift
  start=$(date +%s%N)
  "$@" >"$top/said"
  end=$(date +%s%N)
  echo "$word $(((end - start) / 1000000))"
}

# measure FOLDER N: `sha256sum` gets N files at once
measure() {
  local folder=$1 at_once=$2 workers
  sums "$folder" "$at_once" >"$top/said"
  for _ in 1 2 3 4 5; do
    clock sums sums "$folder" "$at_once"
    for workers in 1 2 4; do
      clock "$workers" "$program" scan "$folder" "$workers"
      sed "s/^/said $workers /" "$top/said"
    done
  done | awk -v name="$(basename "$folder")" '
    $1 == "said" && $3 == "files" { files = $4; bytes = $6 }
    $1 == "said" && $3 == "held" { if ($4 > held[$2]) held[$2] = $4 }
    $1 != "said" { if (!($1 in least) || $2 < least[$1]) least[$1] = $2 }
    END {
      printf "%s: %d files, %d bytes; sha256sum by 4 processes %d ms\n", name, files, bytes, least["sums"]
      for (n = 1; n <= 4; n *= 2) {
        ms = least[n] > 0 ? least[n] : 1
        printf "  %d workers: %d ms  %.0f MB/s  %.0f files/s  speed-up %.2f  %.2f times sha256sum  %d KiB held\n",
          n, ms, bytes / ms / 1000, files * 1000 / ms, least[1] / ms, ms / least["sums"], held[n]
      }
    }'
}

openssl enc -aes-128-ctr -pass pass:scan -nosalt -pbkdf2 </dev/zero 2>/dev/null | head -c 67108864 >"$top/pattern"
# without openssl a text does as well
[ -s "$top/pattern" ] || yes 'a pattern of bytes' | head -c 67108864 >"$top/pattern"
make_small
make_large
measure "$top/small" 100
measure "$top/large" 1
