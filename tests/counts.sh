# How scripts count what passed and what failed. It is sourced, from the repository's root.
# shellcheck shell=bash
passed=0
failed=0

ok() { passed=$((passed + 1)); }
bad() {
  failed=$((failed + 1))
  echo "FAILED: $*"
}

# add_counts WHAT: takes over what a part in Python has counted (`write_counts` of runs.py); WHAT went wrong where it left nothing
add_counts() {
  local more less
  if [ -e counts ]; then
    read -r more less <counts
    passed=$((passed + more))
    failed=$((failed + less))
    rm counts
  else
    bad "$1"
  fi
}

# ended NAME: the script's last line, and its status
ended() {
  echo "$1: $passed passed, $failed failed"
  [ "$failed" = 0 ]
}
