# What the scripts that run the program `twosync` share. It is sourced, from the repository's root, with the script's own
# words: the first one names the program. After it the script is in an empty folder of its own, which goes when it ends.
# shellcheck shell=bash
. tests/program.sh
. tests/counts.sh
program=$(program_of twosync "${1:-}") || exit 1
# A script that writes much says before how many MiB: it works in memory where as much is free.
if [ -n "${room:-}" ] && [ -w /dev/shm ] && [ "$(df --output=avail -m /dev/shm | tail -n 1)" -gt "$room" ]; then
  export TMPDIR=/dev/shm
fi
work=$(mktemp -d) || exit 1
# What was started here and still runs is ended with the script, also where it is stopped.
leave() {
  local job
  for job in $(jobs -pr); do kill -KILL "$job" 2>/dev/null; done
  chmod -R u+rwx "$work"
  rm -rf "$work"
}
trap leave EXIT
chmod 755 "$work"
cd "$work" || exit 1
# What was started last by a script that stops it and lets it go on.
child=
# The digests of the one-byte files `a` and `b`.
# shellcheck disable=SC2034
SA=ca978112ca1bbdcafac231b39a23dc4da786eff8147c4e72b9807785afee48bb
# shellcheck disable=SC2034
SB=3e23e8160039594a33894f6564e1b1348bbd7a0088d42c4acb73eeaed59c009d
# The command that most cases run.
# shellcheck disable=SC2034
sync=(sync first second archive)

# needs_strace NAME WHY: ends the script of this name here where strace is missing, and says what isn't tried then
needs_strace() {
  command -v strace >/dev/null && return
  echo "skipped: strace is missing, so $2"
  ended "$1"
  exit
}

# fresh: empty replicas, no archive
fresh() {
  chmod -R u+rwx first second 2>/dev/null
  rm -rf first second archive archive.new plan holds
  mkdir first second
}

# expect NAME STATUS OUT ERR WORDS..: what the program prints for these words, and its status
expect() {
  local name=$1 status=$2 out=$3 err=$4 got
  shift 4
  "${before[@]}" "$program" "$@" >out 2>err
  got=$?
  answered "$name" "$status" "$out" "$err" "$got"
}

# answered NAME STATUS OUT ERR GOT: what the program has printed to the files `out` and `err`, and its status GOT
answered() {
  if [ "$5" = "$2" ] && [ "$(cat out)" = "$3" ] && [ "$(cat err)" = "$4" ]; then
    ok
  else
    bad "$1: status $5, wanted $2"
    diff <(printf '%s' "$3") <(printf '%s' "$(cat out)") | head -n 8
    diff <(printf '%s' "$4") <(printf '%s' "$(cat err)") | head -n 8
  fi
}
# What `expect` puts before the program: a limit of time, or another user.
before=()

# holds_true NAME COMMAND..: the command succeeds
holds_true() {
  local name=$1
  shift
  if "$@"; then ok; else bad "$name"; fi
}

# left_in REPLICA..: the names of what lies in `.twosync` of these replicas, but for the file `archives`, which stays there
left_in() {
  local replica
  for replica in "$@"; do
    find "$replica/.twosync" -mindepth 1 -maxdepth 1 ! \( -name archives -type f -perm 600 \) -printf '%P\n' 2>/dev/null
  done
}

# alike NAME: both replicas hold the same, and nothing of a run is left in them
alike() {
  local name=$1
  if ! diff -r -x .twosync first second >differences; then
    bad "$name: the replicas differ: $(head -n 3 differences)"
  elif [ -n "$(left_in first second)" ]; then
    bad "$name: something is left in .twosync"
  elif [ -e archive.new ]; then
    bad "$name: archive.new is left"
  else
    ok
  fi
}

# archive_of BODY: an archive file with this body, by sha256sum
archive_of() {
  local lines=0
  [ -z "$1" ] || lines=$(printf '%s\n' "$1" | wc -l)
  {
    echo 'twosync-archive 1'
    [ -z "$1" ] || printf '%s\n' "$1"
  } >front
  cat front
  echo "end $lines $(sha256sum <front | cut -c1-64)"
}

# digest_in ARCHIVE: the digest in an archive's last line, by which replicas know it
digest_in() { tail -n 1 "$1" | cut -d ' ' -f 3; }

# part_of DIGEST REPLICA..: makes `.twosync` in these replicas as a run leaves it that wrote the archive with this digest
part_of() {
  local digest=$1 replica
  shift
  for replica in "$@"; do
    [ -d "$replica/.twosync" ] || mkdir -m 700 "$replica/.twosync"
    (umask 077 && echo "$digest" >"$replica/.twosync/archives")
  done
}

# make_known ARCHIVE REPLICA..: these replicas know this archive, which no run wrote, as if a run of both had written it
make_known() {
  local digest
  digest=$(digest_in "$1")
  shift
  part_of "$digest" "$@"
}

# state: all that lies in this folder but what these scripts write themselves: kinds, modes, links, times of files, contents.
# The mode of .twosync is left out, and so are times of folders: a run may set them and change nothing.
state() {
  local own=(-path ./out -o -path ./err -o -path ./front -o -path ./differences -o -path './state.*')
  find . \( "${own[@]}" \) -prune -o -type d -name .twosync -printf '%p %y\n' -o -type f -printf '%p %y %m %T@\n' \
    -o -printf '%p %y %m %l\n' | sort
  find . \( "${own[@]}" \) -prune -o -type f -exec sha256sum {} + | sort
}

# refused NAME FAULT WORDS..: the program refuses these words at once, by a fault of this number, and changes nothing
refused() {
  local name=$1 fault=$2 outer=("${before[@]}")
  shift 2
  state >state.before
  before=(timeout 10 "${outer[@]}")
  expect "$name" 3 '' "twosync: fault $fault" "$@"
  before=("${outer[@]}")
  state >state.after
  if cmp -s state.before state.after; then
    ok
  else
    bad "$name: something has changed"
    diff state.before state.after | grep '^[<>]' | cut -c1-150 | head -n 6
  fi
}

# until_there PLACE: waits, a minute at most, until something stands there or the run that was started last has ended
until_there() {
  local end=$((SECONDS + 60))
  until [ -e "$1" ] || [ "$SECONDS" -ge "$end" ] || ! kill -0 "$child" 2>/dev/null; do :; done
}

# until_stopped: stops the run that was started last, and waits until all its threads stand
until_stopped() {
  kill -STOP "$child" 2>/dev/null
  while [ -n "$(grep -L '^State:.[TZ]' /proc/"$child"/task/*/status 2>/dev/null)" ]; do sleep 0.001; done
}

# until_plan: waits until the run that was started last has written its plan to both replicas, and stops it there
until_plan() {
  until_there second/.twosync/plan
  until_stopped
}

# ---- a run that is held up at one of its system calls
# The calls by which things move. `calls` are those among which one is looked for.
moving=rename,renameat,renameat2,link,linkat
calls=$moving

# trace_copy WORDS..: runs `sync` by one worker on a copy of the pair as it stands, with these words behind it; its calls are in `log`
trace_copy() {
  rm -rf copy
  mkdir copy
  cp -a first second archive copy
  (cd copy && strace -qq -f -y -o ../log -e trace="$calls" "$program" "${sync[@]}" --workers 1 "$@" >/dev/null 2>&1)
  rm -rf copy
}
# find_call PATTERN: finds the first call in `log` that has this pattern: its name, and which one of that name it is
find_call() {
  read -r call number <<<"$(awk -v pattern="$1" '{
    name = $2
    sub(/[(].*/, "", name)
    count[name]++
    if ($0 ~ pattern) { print name, count[name]; exit }
  }' log)"
}
# call_of PATTERN WORDS..: finds the call of a whole run that has this pattern
call_of() {
  local pattern=$1
  shift
  trace_copy "$@"
  find_call "$pattern"
}

# is_held: that call is the run's last one, and has no result yet where the run is held up before it
is_held() {
  local last
  [ "$(grep -cs " $call(" log)" = "$number" ] || return 1
  last=$(tail -n 1 log)
  [[ $last = *" $call("* ]] && { [ "$side" = exit ] || [[ $last != *' = '* ]]; }
}

# hold_up SIDE CONDITION WORDS..: starts the run that was tried on a copy, and waits, a minute at most, until it is held up
# before (enter) or after (exit) the call that was found, and the condition holds. It stands until `let_go`, and not for a
# time, in which a slow machine might not come to what is done meanwhile.
hold_up() {
  local condition=$2 end
  side=$1
  shift 2
  : >log
  strace -D -qq -f -o log -e signal=none -e inject="$call:delay_$side=120000000:when=$number" \
    "$program" "${sync[@]}" --workers 1 "$@" >out 2>err &
  child=$!
  end=$((SECONDS + 60))
  until { is_held && eval "$condition"; } || [ "$SECONDS" -ge "$end" ] || ! kill -0 "$child" 2>/dev/null; do sleep 0.005; done
}
# let_go: ends the tracer of that run, so that it goes on, and waits for its end; its status is in `held_status`
let_go() {
  local tracer
  tracer=$(awk '/^TracerPid:/ { print $2 }' "/proc/$child/status")
  [ "${tracer:-0}" = 0 ] || kill -KILL "$tracer"
  wait "$child"
  # shellcheck disable=SC2034
  held_status=$?
}

# Who may do everything may read and write everything, so what must be refused runs as nobody.
as=(env)
# shellcheck disable=SC2034
[ "$(id -u)" != 0 ] || as=(setpriv --reuid=65534 --regid=65534 --clear-groups)
# may_be_refused: whether there is such a user, who can run the program
may_be_refused() { "${as[@]}" true 2>/dev/null && "${as[@]}" "$program" --version >/dev/null 2>&1; }
