# Which program a script runs. It is sourced, from the repository's root, by every script that runs a built one.
# shellcheck shell=bash

# program_of CRATE [PROGRAM]: prints the whole path of PROGRAM, which the user chose, or else of the one that was built of
# CRATE. It fails, and says why, where that one isn't there, or is older than a source of any crate: what it does would say
# nothing of the code that stands here. Must-fail edits, tests and documents aren't sources, since no program is made of them.
program_of() {
  local built=crates/$1/out/$1 name newer
  local program=${2:-$built}
  name=$(basename "$0")
  if [ ! -f "$program" ] || [ ! -x "$program" ]; then
    if [ -n "${2:-}" ]; then
      echo "$name: there is no program $program" >&2
    else
      echo "$name: there is no program $program: build it (tools/build.py $1, then rt run in crates/$1)" >&2
    fi
    return 1
  fi
  if [ -z "${2:-}" ]; then
    newer=$(find crates.txt crates/*/src crates/*/specs crates/*/proofs -type f -newer "$program" -print -quit)
    if [ -n "$newer" ]; then
      echo "$name: $program is older than $newer: build it again (rt run in crates/$1)" >&2
      return 1
    fi
  fi
  realpath "$program"
}
