#!/usr/bin/env bash
# Runs `preview` on real folders, and compares both of its forms with what a program in Python makes of the same folders, archive
# and rules (tests/preview.py), and with the report of the `sync` that follows: 60 folders that are generated and change twice,
# 100 names of odd widths, and names with characters that must not reach a terminal. Then README's tour, refusals, and that
# nothing is made or locked.
# usage: tests/preview.sh [PROGRAM]
set -u
cd "$(dirname "$0")/.." || exit 1
top=$PWD
. tests/cases.sh
preview=(preview first second archive)
HEAD='what       change                    files             bytes  path'

mkdir generated
cd generated || exit 1
PYTHONDONTWRITEBYTECODE=1 PYTHONIOENCODING=utf-8 python3 "$top/tests/preview.py" "$program"
cd .. || exit 1
[ ! -e generated/counts ] || mv generated/counts .
add_counts 'tests/preview.py ended early'

# ---- README's tour
fresh
mkdir first/ideas
printf 'Hello.\n' >first/ideas/one.txt
printf '9 bytes.\n' >first/list.txt
printf 'to do it\n' >second/todo.txt
expect 'a first look' 0 "$HEAD
to second  new                           1                 7  /ideas
to second  new                           1                 9  /list.txt
to first   new                           1                 9  /todo.txt
total 3: to first 1, to second 2, agreed 0, conflicts 0, held 0; files lost in first 0, in second 0" '' "${preview[@]}"
holds_true 'a preview makes no archive' test ! -e archive
holds_true 'a preview makes no folder' test ! -e first/.twosync -a ! -e second/.twosync
"$program" "${sync[@]}" >out
printf 'changed.\n' >first/list.txt
printf 'changed too\n' >second/list.txt
rm second/todo.txt
expect 'a conflict and a deletion' 1 "$HEAD
conflict   -                             -                 -  /list.txt (first changed, second changed)
to first   deleted                       1                 9  /todo.txt
total 2: to first 1, to second 0, agreed 0, conflicts 1, held 0; files lost in first 1, in second 0" '' "${preview[@]}"
# the example of docs/FORMATS.md
sed -n '/^## Previews/,/^## Results/p' "$top/docs/FORMATS.md" | sed -n '/^{"text":/,/^```/p' | grep '^{' >example
expect 'the example of FORMATS' 1 "$(cat example)" '' "${preview[@]}" --json
expect 'by one worker' 1 "$(cat example)" '' "${preview[@]}" --workers 1 --json

# ---- a file that became a folder, and the reverse; held paths; what both sides did alike
fresh
printf a >first/file
mkdir -p first/folder/below
printf b >first/folder/one
printf b >first/folder/below/two
printf c >first/held.tmp
"$program" "${sync[@]}" >out
rm second/file && mkdir second/file && printf aa >second/file/in
rm -r first/folder && printf ccc >first/folder
printf d >first/held.tmp
printf e >first/same && cp first/same second/same
mkdir first/new second/new
echo 'name *.tmp' >holds
expect 'kinds' 1 "$HEAD
to first   file becomes directory        1                 2  /file
to second  directory becomes file        1                 3  /folder
held       -                             -                 -  /held.tmp (first changed, second unchanged)
agreed     new                           -                 -  /new
agreed     new                           -                 -  /same
total 5: to first 1, to second 1, agreed 2, conflicts 0, held 1; files lost in first 1, in second 2" '' "${preview[@]}" --holds holds

# ---- refusals are those of plan
refused 'a folder that is not there' 9 preview nowhere second archive
refused 'rules that are not there' 9 "${preview[@]}" --holds nothing
printf damaged >archive
refused 'a damaged archive' 6 "${preview[@]}"
expect 'no words' 3 '' "$("$program" preview 2>&1 >/dev/null)" preview

# ---- colours, where standard output is a terminal that has them
fresh
printf a >first/deleted
printf a >first/conflict
printf a >first/held.tmp
"$program" "${sync[@]}" >out
rm second/deleted
printf bb >first/conflict && printf ccc >second/conflict
printf bb >first/held.tmp
printf n >first/new
printf s >first/same && cp first/same second/same
echo 'name *.tmp' >holds
# coloured VARIABLE=VALUE..: what a preview writes where standard output is a terminal, with these in its environment
coloured() {
  env -u NO_COLOR -u TERM "$@" python3 "$top/tests/terminal.py" --stdout "$program" "${preview[@]}" --holds holds
}
RED=$'\e[31m' GREEN=$'\e[32m' YELLOW=$'\e[33m' CYAN=$'\e[36m' PLAIN=$'\e[0m'
lines="$HEAD
${YELLOW}conflict   ${PLAIN}-                             -                 -  /conflict (first changed, second changed)
${RED}to first   ${PLAIN}deleted                       1                 1  /deleted
${CYAN}held       ${PLAIN}-                             -                 -  /held.tmp (first changed, second unchanged)
${GREEN}to second  ${PLAIN}new                           1                 1  /new
agreed     ${PLAIN}new                           -                 -  /same
total 5: to first 1, to second 1, agreed 1, conflicts 1, held 1; files lost in first 1, in second 0"
plain=$("$program" "${preview[@]}" --holds holds)
holds_true 'colours on a terminal' test "$(coloured TERM=xterm)" = "$lines"
holds_true 'an empty NO_COLOR asks for nothing' test "$(coloured TERM=xterm NO_COLOR=)" = "$lines"
holds_true 'no colours where NO_COLOR is set' test "$(coloured TERM=xterm NO_COLOR=1)" = "$plain"
holds_true 'no colours on a terminal without any' test "$(coloured TERM=dumb)" = "$plain"
holds_true 'no colours where no terminal is named' test "$(coloured)" = "$plain"
holds_true 'but for colours it is the same' test "$(coloured TERM=xterm | sed $'s/\e\\[[0-9]*m//g')" = "$plain"
holds_true 'JSON has none' test "$(TERM=xterm python3 "$top/tests/terminal.py" --stdout "$program" "${preview[@]}" --json)" = "$("$program" "${preview[@]}" --json)"
ended preview
