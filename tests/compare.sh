#!/usr/bin/env bash
# Times `twosync sync` beside unison (with full content checks), rclone bisync and rsync, each on folders of its own: a first
# sync of 20,000 files of 1 to 8 KiB into an empty folder, one with nothing to do, one after a single file changed, and one
# after 1% of the files changed on each side; and the first two for as many files in one new directory, for 8 files of 128 MiB,
# and for the sets that show whether memory grows with what is copied: one file of 1 GiB, 64 files of 16 MiB as one new
# directory and at the top, 2,048 files of 512 KiB and 100,000 of 1 KiB as one new directory. rsync copies in one direction and
# looks at sizes and times alone, so it shows what copying costs. Each number is the median of three runs, taken in turn;
# beside it stands how often longer it is than twosync's; the last column is the most memory that one of its processes held.
# A tool that isn't installed is left out, with a line that says so. After each run both folders are compared; only where
# they differ that is said.
# usage: [RUNS=N] [SMALL=FILES] [LARGE=FILES] [SETS='small flat large file directory top halves crowd'] tests/compare.sh [PROGRAM]
set -u
cd "$(dirname "$0")/.."
. tests/program.sh
program=$(program_of twosync "${1:-}") || exit 1
runs=${RUNS:-3}
small=${SMALL:-20000}
large=${LARGE:-8}
sets=${SETS:-small flat large file directory top halves crowd}
top=$(mktemp -d)
trap 'rm -rf "$top"' EXIT
cd "$top" || exit 1

tools=(twosync)
for tool in unison rclone rsync; do
  if command -v "$tool" >/dev/null; then
    tools+=("$tool")
  else
    echo "skipped: $tool, which isn't installed"
  fi
done
may_tell_memory=1
[ -x /usr/bin/time ] || { may_tell_memory=0; echo 'skipped: memory, since /usr/bin/time is missing'; }

# make_small COUNT FOLDER BETWEEN: files of which a hundred each have one size, and no two are alike: a hundred in a directory
# where a slash stands between their two numbers, or all in one
make_small() {
  local count=$1 number size
  mkdir -p "$2"
  for number in $(seq 0 $(((count + 99) / 100 - 1))); do
    [ "$3" != / ] || mkdir "$2/$((number + 1000))"
    size=$((1024 + number * 36 % 7168))
    tail -c +$((number + 1)) pattern | head -c $((size * 100)) | split -b "$size" -d -a 3 - "$2/$((number + 1000))$3"
  done
}
make_large() {
  local number
  mkdir -p "$2"
  for number in $(seq 1 "$1"); do
    { echo "$number"; cat pattern pattern; } >"$2/$number"
  done
}

# make_equal FOLDER COUNT SIZE: so many files of so many bytes, no two of them alike
make_equal() {
  local number
  mkdir -p "$1"
  for number in $(seq 1 "$2"); do
    { printf '%020d' "$number"; head -c $(($3 - 20)) pattern; } >"$1/$number"
  done
}

# make_crowd FOLDER COUNT SIZE: the same, for files that are too many to start a program for each
make_crowd() {
  mkdir -p "$1"
  { cat pattern; tail -c +2 pattern; } | head -c $(($2 * $3)) | split -b "$3" -d -a 6 - "$1/"
}

# words TOOL: the command that makes `first` and `second` alike, in the array `words`
words() {
  case $1 in
    twosync) words=("$program" sync first second state/archive) ;;
    unison) words=(unison first second -batch -silent -ui text -fastcheck=false -confirmbigdel=false) ;;
    rclone)
      words=(rclone bisync "$PWD/first" "$PWD/second" --checksum --workdir "$PWD/state/rclone")
      [ -e state/rclone ] || words+=(--resync)
      ;;
    rsync) words=(rsync -a --delete first/ second/) ;;
  esac
}

# clock TOOL STEP: runs the tool, and prints both words, the milliseconds and the KiB
clock() {
  local start end held=0
  words "$1"
  [ "$may_tell_memory" = 0 ] || words=(/usr/bin/time -o held -f %M "${words[@]}")
  start=$(date +%s%N)
  UNISON=$PWD/state RCLONE_CONFIG=$PWD/state/rclone.conf "${words[@]}" >said 2>&1 || echo "$1 $2: status $?, $(tail -n 1 said)" >&2
  end=$(date +%s%N)
  [ "$may_tell_memory" = 0 ] || held=$(tail -n 1 held)
  echo "$1 $2 $(((end - start) / 1000000)) $held"
  diff -rq -x .twosync first second >differences || echo "$1 $2: $(wc -l <differences) differences are left" >&2
}

# change SIDE EVERY: a byte more in one of so many files, of those that the other side leaves
change() {
  find "$1" -path '*/.twosync' -prune -o -type f -print | sort |
    awk -v every="$2" -v first="$([ "$1" = first ] && echo 1 || echo 2)" 'NR % every == first % every' |
    while read -r file; do printf x >>"$file"; done
}

# round KIND TOOL: one run of the tool through all steps
round() {
  rm -rf first second state
  mkdir second state
  cp -a set first
  sync
  clock "$2" first
  clock "$2" nothing
  [ "$1" = small ] || return
  change first 1000000
  clock "$2" one
  change first 100
  # what goes in one direction is reported for one side only
  [ "$2" = rsync ] || change second 100
  clock "$2" hundredth
}

# table KIND TITLE
table() {
  echo "$2"
  for _ in $(seq "$runs"); do
    for tool in "${tools[@]}"; do round "$1" "$tool"; done
  done | sort -k1,1 -k2,2 -k3,3n | awk -v tools="${tools[*]}" '
    { times[$1, $2] = times[$1, $2] " " $3; if ($4 > held[$1]) held[$1] = $4 }
    function median(list, parts, count) { count = split(list, parts, " "); return parts[int((count + 1) / 2)] }
    function cell(tool, step, ms, own) {
      if (!((tool, step) in times)) return "-"
      ms = median(times[tool, step]); own = median(times["twosync", step])
      return sprintf("%d ms (%.2f)", ms, own > 0 ? ms / own : 0)
    }
    END {
      printf "  %-8s %18s %18s %18s %18s %12s\n", "", "first sync", "nothing to do", "one file", "1% on each side", "KiB held"
      count = split(tools, names, " ")
      for (n = 1; n <= count; n++)
        printf "  %-8s %18s %18s %18s %18s %12d\n", names[n], cell(names[n], "first"), cell(names[n], "nothing"), cell(names[n], "one"), cell(names[n], "hundredth"), held[names[n]]
    }'
}

echo "processors: $(nproc), load before: $(cut -d' ' -f1 /proc/loadavg)"
openssl enc -aes-128-ctr -pass pass:compare -nosalt -pbkdf2 </dev/zero 2>/dev/null | head -c 67108864 >pattern
# without openssl a text does as well
[ -s pattern ] || yes 'a pattern of bytes' | head -c 67108864 >pattern
# show SET: makes it, and times it
show() {
  case $1 in
    small) make_small "$small" set /; table small "$small files of 1 to 8 KiB" ;;
    flat) make_small "$small" set/new -; table flat "$small files of 1 to 8 KiB in one new directory" ;;
    large) make_large "$large" set; table large "$large files of 128 MiB" ;;
    file) make_equal set 1 67108864; for _ in $(seq 15); do cat pattern >>set/1; done; table file 'one file of 1 GiB' ;;
    directory) make_equal set/new 64 16777216; table directory '64 files of 16 MiB in one new directory' ;;
    top) make_equal set 64 16777216; table top '64 files of 16 MiB at the top' ;;
    halves) make_equal set/new 2048 524288; table halves '2,048 files of 512 KiB in one new directory' ;;
    crowd) make_crowd set/new 100000 1024; table crowd '100,000 files of 1 KiB in one new directory' ;;
  esac
  rm -rf set
}
for set in $sets; do show "$set"; done
