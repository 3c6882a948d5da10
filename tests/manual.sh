#!/usr/bin/env bash
# Compares the manual page and the completions with what the program's help names: commands, options, places, faults and
# statuses; and completes a few words in bash.
# usage: tests/manual.sh [PROGRAM]
set -u
cd "$(dirname "$0")/.." || exit 1
top=$PWD
. tests/cases.sh

# unset_page: the manual page without its typesetting, each title behind a `#`
unset_page() { sed -E 's/^\.SH /# /; s/^\.[A-Z]+ ?//; s/\\-/-/g; s/\\f[A-Z]//g; s/"//g' "$top/docs/twosync.1"; }
# help_of WORDS..: what help is printed for these words
help_of() { "$program" "$@" --help; }
# options_in: the long options that a help names
options_in() { grep -oE -- '--[a-z]+(-[a-z]+)*' | sort -u; }

# section TITLE: the lines of a section of the page
section() { awk -v title="$1" '/^# / { inside = $0 == "# " title; next } inside' page; }

unset_page >page
help_of >help || bad 'help is not printed'
mapfile -t commands < <(sed -n '/^Commands:/,/^$/p' help | sed -nE 's/^  ([a-z]+) .*/\1/p')
holds_true 'the help names the eight commands' test "${commands[*]}" = 'trial scan show plan check preview run sync'

for name in "${commands[@]}"; do
  help_of "$name" >"help of $name" || bad "$name: help is not printed"
  holds_true "$name: its help fits a screen" test "$(wc -l <"help of $name")" -le 24
  holds_true "$name: its help has an example" grep -q "^  twosync $name" "help of $name"
  section SYNOPSIS | awk -v name="twosync $name" '/^twosync/ { inside = $0 == name } inside' >synopsis
  holds_true "$name: it is in the page's synopsis" test -s synopsis
  holds_true "$name: the page explains it" grep -qx "$name" <(section COMMANDS)
  mapfile -t places < <(sed -n '/^Arguments:/,/^$/p' "help of $name" | grep -oE '<[A-Z]+>' | tr -d '<>')
  for place in "${places[@]}"; do holds_true "$name: the page has $place" grep -qw "$place" synopsis; done
  for option in $(options_in <"help of $name"); do
    [ "$option" = --help ] || holds_true "$name: the page's synopsis has $option" grep -qw -- "$option" synopsis
    holds_true "$name: the page explains $option" grep -qE -- "(^|[ ,])$option( |\$)" <(section OPTIONS)
    for shell in twosync.bash _twosync twosync.fish; do
      spelled=$option
      [ "$shell" != twosync.fish ] || spelled="-l ${option#--}"
      holds_true "$name: $shell completes $option" grep -qF -- "$spelled" "$top/completions/$shell"
    done
  done
  for shell in twosync.bash _twosync twosync.fish; do
    holds_true "$name: $shell completes it" grep -qw "$name" "$top/completions/$shell"
  done
done

for option in $(options_in <help); do
  holds_true "the page explains $option" grep -qE -- "(^|[ ,])$option( |\$)" <(section OPTIONS)
done

# numbered TITLE: the numbers that a section of the page explains
numbered() { section "$1" | grep -E '^[0-9]+$' | tr '\n' ' '; }
# the help has `Exit status: 0 all is done, 1 ..` and `Faults are reported by number: 1 out of memory, ..`, over several lines
tr '\n' ' ' <help >line
holds_true 'the page has the statuses of the help' \
  test "$(grep -oE 'Exit status: .*Faults' line | grep -oE '\b[0-9]+\b' | tr '\n' ' ')" = "$(numbered 'EXIT STATUS')"
holds_true 'the page has the faults of the help' \
  test "$(grep -oE 'Faults are .*' line | grep -oE '\b[0-9]+\b' | tr '\n' ' ')" = "$(numbered FAULTS)"
if command -v man >/dev/null; then
  holds_true 'the page can be set' test -z "$(LC_ALL=C.UTF-8 MANWIDTH=100 man --warnings -E UTF-8 -l "$top/docs/twosync.1" 2>&1 >/dev/null)"
fi

# completed WANTED WORDS..: what bash offers for the last word
completed() {
  local wanted=$1 got
  shift
  got=$(bash -c '. "$1"; shift; COMP_WORDS=("$@"); COMP_CWORD=$(($# - 1)); _twosync; echo "${COMPREPLY[*]}"' bash \
    "$top/completions/twosync.bash" "$@")
  if [ "$got" = "$wanted" ]; then ok; else bad "bash completes '$*' by '$got', wanted '$wanted'"; fi
}
mkdir folder
completed 'scan show sync' twosync s
completed '--allow-empty --holds --hold-special --workers --checkpoint --explain --quiet --help' twosync sync --
completed '--holds --hold-special' twosync run --hold
completed '--workers --explain --quiet --help' twosync scan --
completed '--explain --help' twosync show --
completed '--json --allow-empty --holds --hold-special --workers --explain --quiet --help' twosync preview --
completed folder twosync sync fol
completed '1 16' twosync sync --workers 1
for shell in zsh fish; do
  file=$top/completions/twosync.fish
  [ "$shell" = fish ] || file=$top/completions/_twosync
  if command -v "$shell" >/dev/null; then holds_true "$shell reads its file" "$shell" -n "$file"; fi
done
ended manual
