#!/usr/bin/env bash
# The order of flushes, for the day when the power fails: what the archive newly says is on the disk in both replicas before it
# says so, and the plan is there before the first target is touched. It is read from a trace of the program's calls.
# usage: tests/flushes.sh [PROGRAM]
set -u
cd "$(dirname "$0")/.." || exit 1
. tests/cases.sh

needs_strace flushes 'the order of flushes is not looked at'

# Reads a trace, and tells for each thing that has to hold whether it does: `ok WHAT`, or `bad WHAT: WHERE`. The words are
# the folder of the run, and the targets that the run has to touch.
# A thing is a file or a folder, by whatever names it goes. It is dirty from a change of its bytes or its names to its next
# flush; a flush counts for what was changed before it began. What was there before the run was changed just before: so what an
# archive says of it, and the archive before didn't, needs a flush, too, on whichever side it is. Each archive is read from the
# calls that write it.
cat >judge.py <<'E'
import os, re, sys

log, work, *targets = sys.argv[1:]
REPLICAS = [work + "/first", work + "/second"]
ARCHIVE = work + "/archive"
FLUSHES = {"fsync", "fdatasync"}
WRITES = {"write", "writev", "pwrite64", "pwritev", "pwritev2", "ftruncate", "sendfile", "copy_file_range", "splice"}
TEXT = re.compile(r'"((?:[^"\\]|\\.)*)"')
NEW = ARCHIVE + ".new"


class Thing:
    def __init__(self, folder):
        self.folder = folder
        self.changed = -1  # when its bytes or names were changed last, by the number of the call
        self.flushed = -1  # when its last flush began


things = {}  # by place


def thing(place, folder=False):
    found = things.setdefault(place, Thing(folder))
    found.folder = found.folder or folder
    return found


def parent(place):
    return place.rsplit("/", 1)[0] or "/"


def is_dirty(place):
    return place in things and things[place].changed > things[place].flushed


def below(place):
    return [p for p in things if p == place or p.startswith(place + "/")]


def root_of(place):
    return next((r for r in REPLICAS if place.startswith(r + "/")), None)


def is_target(place):
    root = root_of(place)
    return root is not None and not (place + "/").startswith(root + "/.twosync/")


failures = {}
seen = {}


def hold(what, true, where=""):
    seen[what] = True
    if not true:
        failures.setdefault(what, where)


def places(rest):
    """The places that a call names, whole: each text, below the folder that stands before it."""
    found = []
    for match in TEXT.finditer(rest):
        text = match.group(1)
        if not text.startswith("/"):
            base = re.search(r"(?:AT_FDCWD|\d+)<([^>]*)>, $", rest[: match.start()])
            text = (base.group(1) if base else work) + "/" + text
        parts = []
        for part in text.split("/"):
            if part == ".." and parts:
                parts.pop()
            elif part not in ("", ".", ".."):
                parts.append(part)
        found.append("/" + "/".join(parts))
    return found


def calls():
    """Each call that succeeded: its name, what stands after it, and when it began and ended."""
    begun = {}
    for number, line in enumerate(open(log, errors="replace"), 1):
        match = re.match(r"(\d+)\s+(.*)", line.rstrip("\n"))
        if not match:
            continue
        thread, rest = match.groups()
        if rest.endswith("<unfinished ...>"):
            begun[thread] = (number, rest[: -len("<unfinished ...>")])
            continue
        start = number
        resumed = re.match(r"<\.\.\. \w+ resumed>(.*)", rest)
        if resumed:
            start, front = begun.pop(thread)
            rest = front.rstrip() + resumed.group(1)
        match = re.match(r"(\w+)\((.*)\)\s+= (-?\d+|\?)(.*)", rest)
        if match and not match.group(3).startswith("-") and match.group(3) != "?":
            yield match.group(1), match.group(2), match.group(4), start, number


def rows(text):
    """The lines of an archive by the paths that they name, or None where the text is no whole archive."""
    lines = text.split("\n")
    if len(lines) < 3 or lines[0] != "twosync-archive 1" or not lines[-2].startswith("end %d " % (len(lines) - 3)):
        return None
    return {line.split(" ")[1]: line for line in lines[1:-2]}


def above(path):
    return path.rsplit("/", 1)[0]


def news(old, new):
    """What a new archive says that the one before it didn't: the paths of its own, and the folders in which something came, changed
    or went. The top has no line."""
    own = [path for path in new if new[path] != old.get(path)]
    gone = [path for path in old if path not in new]
    folders = {above(path) for path in own + gone}
    return own, sorted(path for path in folders if path == "" or new.get(path, "").startswith("d "))


def all_flushed(paths, kind=None, named=None):
    """Whether these paths were flushed in both replicas, of those that an archive names alone the ones of a kind; and the places
    that weren't."""
    places = [r + path for r in REPLICAS for path in paths if kind is None or named[path].startswith(kind)]
    missing = [place for place in places if not synced and (place not in things or things[place].flushed < 0)]
    return not missing, " ".join(missing[:6])


def text_of(rest):
    """What a call writes, as strace spells it."""
    return TEXT.search(rest).group(1).encode("ascii").decode("unicode_escape")


synced = False  # all was flushed at once
written = ""  # the text of the archive that is being written
vouched = rows(open(work + "/archive.before").read()) if os.path.exists(work + "/archive.before") else {}
plan_at = {r: 0 for r in REPLICAS}  # 0: not there, 1: renamed, 2: and flushed
archive_at = None
touched = set()
for name, rest, result, start, end in calls():
    descriptor = re.match(r"\d+<([^>]*)>", rest)
    if name in ("open", "openat", "creat"):
        place = places(rest)[0]
        if name == "creat" or "O_CREAT" in rest:
            if place not in things:
                thing(place).changed = end
                thing(parent(place), True).changed = end
        elif "O_TRUNC" in rest:
            thing(place).changed = end
        if place == NEW and "O_CREAT" in rest:
            written = ""
    elif name in ("mkdir", "mkdirat"):
        place = places(rest)[0]
        thing(place, True).changed = end
        thing(parent(place), True).changed = end
    elif name in WRITES and descriptor:
        # what is written to comes last for two of these
        at = re.findall(r"\d+<([^>]*)>", rest)[-1 if name in ("copy_file_range", "splice") else 0]
        if at.startswith("/"):
            thing(at).changed = end
        if at == NEW:
            written = written + text_of(rest) if name == "write" else ""
    elif name in FLUSHES and descriptor:
        flushed = thing(descriptor.group(1))
        flushed.flushed = max(flushed.flushed, start)
        for root in REPLICAS:
            if descriptor.group(1) == root + "/.twosync" and plan_at[root] == 1:
                plan_at[root] = 2
    elif name in ("sync", "syncfs"):
        synced = True
        for each in things.values():
            each.flushed = max(each.flushed, start)
        plan_at = {r: 2 if at else 0 for r, at in plan_at.items()}
    elif name in ("unlink", "rmdir", "unlinkat"):
        place = places(rest)[0]
        root = root_of(place)
        if root and place == root + "/.twosync/plan":
            plan_at[root] = 0
            spots = [p for p in things if re.match(re.escape(root) + r"/\.twosync/(new|old)-\d+$", p)]
            hold("the plan is removed last", not spots, " ".join(spots))
        things.pop(place, None)
        thing(parent(place), True).changed = end
    elif name.startswith(("rename", "link")):
        old, new = places(rest)[:2]
        for root in REPLICAS:
            if new == root + "/.twosync/plan":
                hold("the plan is written beside its place", old == root + "/.twosync/plan.new", old)
                hold("the plan is flushed before it is renamed", old in things and not is_dirty(old), old)
        if (is_target(old) or is_target(new)) and not touched:
            for root in REPLICAS:
                hold("both plans are in place before a target is touched", plan_at[root] > 0, root)
                hold("their folders are flushed before a target is touched", plan_at[root] == 2, root)
        for place in (old, new):
            if is_target(place):
                touched.add(place)
        if new == ARCHIVE:
            hold("the archive is written beside its place", old == ARCHIVE + ".new", old)
            hold("the archive is flushed before it is renamed", old in things and not is_dirty(old), old)
            dirty = sorted(p for p in things if is_target(p) and is_dirty(p))
            files = [p for p in dirty if not things[p].folder]
            inner = [p for p in dirty if things[p].folder]
            tops = [r for r in REPLICAS if is_dirty(r)]
            hold("files are flushed before the archive is renamed", not files, " ".join(files[:3]))
            hold("folders are flushed before the archive is renamed", not inner, " ".join(inner[:3]))
            hold("the replicas' own folders are flushed before the archive is renamed", not tops, " ".join(tops))
            new_rows = rows(written)
            hold("the text of the archive is seen", new_rows is not None, written[:60])
            own, folders = news(vouched, new_rows or {})
            hold("the files that it newly names are flushed before, in both replicas", *all_flushed(own, "f", new_rows))
            hold("the folders that it newly names are flushed before, in both replicas", *all_flushed(own, "d", new_rows))
            hold("the folders that newly have or lack something are flushed before, in both replicas", *all_flushed(folders))
            vouched = new_rows or {}
            archive_at = end
        if name.startswith("rename"):
            for place in below(new):
                things.pop(place)
            for place in below(old):
                things[new + place[len(old):]] = things.pop(place)
        elif old in things:
            things[new] = things[old]
        thing(parent(old), True).changed = end
        thing(parent(new), True).changed = end
        if new in (r + "/.twosync/plan" for r in REPLICAS):
            plan_at[root_of(new)] = 1

hold("the run puts the archive in place", archive_at is not None)
hold("its folder is flushed afterwards", archive_at is not None and not is_dirty(work), work)
missing = [t for t in targets if work + "/" + t not in touched]
hold("each target is touched", not missing, " ".join(missing))
WANTED = [
    "the plan is written beside its place", "the plan is flushed before it is renamed", "the plan is removed last",
    "both plans are in place before a target is touched", "their folders are flushed before a target is touched",
    "the archive is written beside its place", "the archive is flushed before it is renamed",
    "files are flushed before the archive is renamed", "folders are flushed before the archive is renamed",
    "the replicas' own folders are flushed before the archive is renamed", "the text of the archive is seen",
    "the files that it newly names are flushed before, in both replicas",
    "the folders that it newly names are flushed before, in both replicas",
    "the folders that newly have or lack something are flushed before, in both replicas",
]
for what in WANTED:
    hold(what, what in seen, "it never comes to that")
for what in seen:
    print("bad %s: %s" % (what, failures[what].replace(work + "/", "")) if what in failures else "ok " + what)
E

calls=open,openat,creat,mkdir,mkdirat,write,writev,pwrite64,pwritev,ftruncate,sendfile,copy_file_range,splice
calls+=,rename,renameat,renameat2,link,linkat,unlink,unlinkat,rmdir,fsync,fdatasync,sync,syncfs

# judged NAME WORKERS STATUS TARGETS..: runs the program on the pair as it stands, by so many workers and with what stands
# behind that, and looks at its trace
judged() {
  local name=$1 status=$3 got verdict what workers
  read -ra workers <<<"$2"
  shift 3
  rm -f archive.before
  [ ! -e archive ] || cp archive archive.before
  strace -qq -f -y -s 8192 -e signal=none -e trace="$calls" -o log "$program" "${sync[@]}" --workers "${workers[@]}" >out 2>err
  got=$?
  holds_true "$name: its status is $got" test "$got" = "$status" -a ! -s err
  python3 judge.py log "$(pwd -P)" "$@" >judged
  while read -r verdict what; do
    if [ "$verdict" = ok ]; then ok; else bad "$name: $what"; fi
  done <judged
  holds_true "$name: the trace was judged" test "$(wc -l <judged)" = 17
}

# each checkpoint of one worker's run is judged as the last archive is
for workers in 1 4 '1 --checkpoint 1'; do
  fresh
  mkdir -p first/d/e/f first/d/g second/h/i first/both second/both
  : >first/d/empty
  printf a >first/d/e/one
  head -c 65536 /dev/urandom >first/d/e/f/piece
  head -c 3145729 /dev/urandom >first/large
  printf b >first/both/x
  printf c >second/h/i/c
  head -c 70000 /dev/urandom >second/both/y
  : >second/nothing
  # what both have already isn't copied, and is new to the archive all the same
  for replica in first second; do
    mkdir -p "$replica/same/in" "$replica/gone/in"
    for name in top same/x same/empty same/in/y gone/x gone/in/y; do printf '%s' "$name" >"$replica/$name"; done
    : >"$replica/same/empty"
  done
  judged "a first sync by $workers" "$workers" 0 second/d second/large second/both/x first/h first/both/y first/nothing
  alike "a first sync by $workers"
  printf changed >first/d/e/one
  rm first/d/empty
  rm -r first/d/g
  rm first/large
  mkdir first/large
  printf a >first/large/x
  printf changed >second/both/y
  rm -r second/h
  printf file >second/h
  printf new >second/new
  rm second/both/x
  # both change alike, lose the same, and make of it the same of another kind
  for replica in first second; do
    printf changed >"$replica/same/x"
    rm -r "$replica/gone" "$replica/top" "$replica/same/in" "$replica/same/empty"
    mkdir -p "$replica/top/in"
    printf y >"$replica/top/in/y"
    printf in >"$replica/same/in"
  done
  judged "changes by $workers" "$workers" 0 second/d/e/one second/d/empty second/d/g second/large \
    first/both/y first/h first/new first/both/x
  alike "changes by $workers"
done

# Sources that can't be flushed. What the archive is to name lies in /d of the first replica: a new file, and one in a new folder.
# unflushed NAME ERROR PLACE STATUS OUT ERR: runs while each flush of that place fails with that error
unflushed() {
  local name="$1, $2"
  fresh
  mkdir -p first/d/new second/d
  printf a | tee first/d/a >first/d/new/x
  archive_of 'd /d' >archive
  make_known archive first second
  strace -qq -f -o /dev/null -e signal=none -P "$(pwd -P)/$3" -e trace=fsync -e inject="fsync:error=$2" \
    "$program" "${sync[@]}" >out 2>err
  answered "$name" "$4" "$5" "$6" "$?"
}
both=$'done first /d/a\ndone first /d/new\ntotal 2 done 2 skipped 0 failed 0 blocked 0'
# a file system that knows no flush, as one that nothing is ever written to, has nothing to flush
for place in d d/a d/new d/new/x; do
  unflushed "a source that knows no flush: $place" EINVAL "first/$place" 0 "$both" ''
  alike "a source that knows no flush: $place"
done
# a device that fails is another thing: what may not be there isn't named
unflushed 'a file that the device loses' EIO first/d/a 2 \
  $'failed first /d/a\ndone first /d/new\ntotal 2 done 1 skipped 0 failed 1 blocked 0' 'twosync: fault 8 /d/a'
for place in d/new d/new/x; do
  unflushed "what is in a folder that the device loses: $place" EIO "first/$place" 2 \
    $'done first /d/a\nfailed first /d/new\ntotal 2 done 1 skipped 0 failed 1 blocked 0' 'twosync: fault 8 /d/new'
  holds_true "what is in a folder that the device loses: $place: the archive" test -z "$("$program" show archive | grep new)"
  expect "what is in a folder that the device loses: $place, and later" 0 \
    $'done first /d/new\ntotal 1 done 1 skipped 0 failed 0 blocked 0' '' "${sync[@]}"
done
unflushed 'the folder that a source stands in' EIO first/d 2 "$both" 'twosync: fault 5'
holds_true 'the folder that a source stands in: the archive' test "$("$program" show archive)" = 'd /d'

# A file that hasn't changed for a day isn't flushed again: the system has long written it. When a file was changed can't be set but on a
# disk that isn't mounted, so both replicas are made on one: in each `/d/old` and `/old` were changed in 2020, and the rest just now.
trap 'umount disk 2>/dev/null; leave' EXIT
# aged_disk: makes that disk, and mounts it
aged_disk() {
  local replica path
  fresh
  command -v mke2fs >/dev/null && command -v debugfs >/dev/null || return
  for replica in first second; do
    mkdir -p "made/$replica/d" "made/$replica/e"
    for path in d/old old e/new new; do printf '%s' "$path" >"made/$replica/$path"; done
  done
  mke2fs -q -F -t ext4 -d made disk.image 8M >/dev/null 2>&1 || return
  for replica in first second; do
    for path in d/old old; do echo "set_inode_field /$replica/$path ctime 20200101000000"; done
  done >aging
  mkdir disk
  debugfs -w -f aging disk.image >/dev/null 2>&1 && mount -o loop disk.image disk 2>/dev/null
}
six='total 6 done 6 skipped 0 failed 0 blocked 0'
if aged_disk; then
  holds_true 'old files: they are old' test "$(stat -c %z disk/first/old disk/second/d/old | cut -c1-4 | sort -u)" = 2020
  strace -qq -f -y -e signal=none -e trace=fsync,fdatasync -o log "$program" sync disk/first disk/second archive --workers 1 >out 2>err
  answered 'old files' 0 $'done dir /d\ndone same /d/old\ndone dir /e\ndone same /e/new\ndone same /new\ndone same /old\n'"$six" '' "$?"
  holds_true 'old files: the archive names them' test "$("$program" show archive | grep -c old)" = 2
  for place in first/d first/e first/e/new first/new second/d second/e second/e/new second/new; do
    holds_true "old files: $place is flushed" grep -q "<[^>]*/disk/$place>" log
  done
  for place in first/d/old first/old second/d/old second/old; do
    holds_true "old files: $place isn't flushed" test -z "$(grep "<[^>]*/disk/$place>" log)"
  done
  umount disk
else
  echo "skipped: no disk can be made and mounted here, so what is flushed of old files isn't looked at"
fi

ended flushes
