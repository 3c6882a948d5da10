#!/usr/bin/env bash
# A race: while a sync replaces 60 files, an editor saves them, about one each millisecond. Nothing that the editor has saved
# may be gone in the end. strace holds each rename of the sync up for a while, so that saves fall between them.
# usage: tests/editors.sh [PROGRAM]; RUNS=200 for a longer race
set -u
cd "$(dirname "$0")/.." || exit 1
. tests/cases.sh
runs=${RUNS:-10}

if ! command -v strace >/dev/null; then
  echo 'skipped: strace is missing, so no editor races a sync'
  ended editors
  exit
fi

# The editor: saves random files of the folder until the file `stop` is there, and then tells what it saved last in each.
# It begins when the file BEGIN is there. Half of its saves rewrite the file in place, half rename a new file over it.
cat >editor.py <<'E'
import json, os, random, sys, time
folder, begin, seed, told = sys.argv[1:]
rng = random.Random(int(seed))
last, count = {}, 0
print("ready", flush=True)
while not os.path.lexists(begin) and not os.path.exists("stop"):
    pass
while not os.path.exists("stop"):
    name = "f%02d" % rng.randrange(60)
    place = os.path.join(folder, name)
    count += 1
    text = "save %06d of %s " % (count, name)
    # as long as what both replicas had, or not
    text = text.ljust(40 if rng.random() < 0.5 else rng.randrange(30, 3000), ".")
    if rng.random() < 0.5:
        with open(place, "w") as file:
            file.write(text)
    else:
        with open("saved", "w") as file:
            file.write(text)
        os.rename("saved", place)
    last[name] = text
    time.sleep(0.001)
with open(told, "w") as file:
    json.dump({"count": count, "last": last}, file)
E
# What the files hold after a race: what the editor saved last, or, where it saved nothing, what was there or what is new.
cat >look.py <<'E'
import json, os, sys
folder, told = sys.argv[1:]
saved = json.load(open(told))
wrong = []
for k in range(60):
    name = "f%02d" % k
    try:
        there = open(os.path.join(folder, name)).read()
    except FileNotFoundError:
        there = None
    wanted = [saved["last"][name]] if name in saved["last"] else [open(os.path.join(d, name)).read() for d in ("old", "new")]
    if there not in wanted:
        wrong.append("%s has %r, saved was %r" % (name, there and there[:24], wanted[0][:24]))
print(saved["count"], len(saved["last"]), len(wrong))
for line in wrong[:3]:
    print(line)
E
python=$(python3 -c 'import sys; print(sys.executable)')

# look NAME: nothing that was saved is gone
look() {
  "$python" look.py second told >looked
  read -r saves files wrong <looked
  if [ "${wrong:-}" = 0 ]; then
    ok
  else
    bad "$1: ${wrong:-all} of 60 files are wrong after $saves saves of $files files: $(sed 1d looked | paste -sd';')"
  fi
}

# What both replicas have at first, and what one of them changes all files to: half of them keep their length.
mkdir old new
for k in $(seq -w 0 59); do
  printf '%-40s' "old $k" >"old/f$k"
  if [ $((10#$k % 2)) = 0 ]; then printf '%-40s' "new $k"; else printf '%-90s' "new $k"; fi >"new/f$k"
done

all_saves=0
met=0
for run in $(seq "$runs"); do
  fresh
  cp old/* first
  cp old/* second
  rm -f told stop
  # All files change in `first` and are edited in `second`; every other run takes these as its second and first replica.
  words=("${sync[@]}")
  [ $((run % 2)) = 1 ] || words=(sync second first archive)
  "$program" "${words[@]}" >/dev/null 2>&1
  cp new/* first
  # Every other pair of runs begins with the editor at work already while both replicas are scanned.
  if [ $((run / 2 % 2)) = 0 ]; then begin=second/.twosync/plan; else begin=second/.twosync/lock; fi
  "$python" editor.py second "$begin" "$run" told >ready &
  editor=$!
  until [ -s ready ] || ! kill -0 "$editor" 2>/dev/null; do sleep 0.01; done
  strace -qq -f -o /dev/null -e signal=none -e trace=rename,renameat,renameat2 \
    -e inject=rename,renameat,renameat2:delay_enter=2000:delay_exit=2000 "$program" "${words[@]}" >out 2>err
  got=$?
  : >stop
  wait "$editor"
  holds_true "run $run: the sync ends by itself ($got)" test "$got" -le 2
  look "run $run"
  holds_true "run $run: the editor was at work ($saves saves)" test "$saves" -ge 30
  all_saves=$((all_saves + saves))
  met=$((met + $(grep -c '^twosync: fault 14 ' err)))
  # what failed was changed, and what couldn't go back is kept
  holds_true "run $run: what is said of it" \
    test -z "$(grep -vE '^twosync: (fault 14 /f[0-9]{2}|kept /f[0-9]{2} as second/[.]twosync/left-[0-9]+)$' err)"
  # and once more without the editor, until nothing fails
  for _ in 1 2 3 4 5; do
    "$program" "${words[@]}" >out 2>err
    got=$?
    [ "$got" -ge 2 ] || break
  done
  holds_true "run $run: the runs after it" test "$got" -le 1
  look "run $run, and those after it"
  # where they are apart it is reported as a conflict, and nothing else
  diff -rq -x .twosync first second | sed -n 's/^Files first\(.*\) and .*/skip conflict \1/p' >apart
  holds_true "run $run: what is apart is a conflict" diff apart <(grep '^skip' out)
done
holds_true "the saves met the sync's commits ($all_saves saves, $met faults)" test "$met" -gt 0

ended editors
