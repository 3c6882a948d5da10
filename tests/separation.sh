#!/usr/bin/env bash
# What stands on what. The checker and the planner share no code above tables and hold rules: neither lists a crate of the
# other, near or far. And docs/DESIGN.md names, for each crate, just what crates.txt lists, lower crates first.
set -eu
cd "$(dirname "$0")/.."

# all crates that a crate stands on
below() {
  local crate dep
  for crate in "$@"; do
    for dep in $(sed -n "s/^$crate\( [^:]*\)\?:\(.*\)/\2/p" crates.txt); do
      echo "$dep"
      below "$dep"
    done
  done
}

planner=(ts_dirty ts_recon ts_plan ts_plan_build)
checker=(ts_need ts_check)
passed=0
failed=0
refuse() { # CRATE FORBIDDEN..
  local crate=$1 all found=0
  shift
  all=$(below "$crate" | sort -u)
  for other in "$@"; do
    if grep -qx "$other" <<<"$all"; then echo "$crate stands on $other"; found=1; fi
  done
  failed=$((failed + found))
  passed=$((passed + 1 - found))
}
for crate in "${checker[@]}"; do refuse "$crate" "${planner[@]}"; done
for crate in "${planner[@]}"; do refuse "$crate" "${checker[@]}"; done

# Both as lines `CRATE LOWER`, and a line `CRATE` for the crate itself. Other libraries are the kit's.
from_crates() {
  awk '{ sub(/#.*/, "") }
    /:/ { split($0, part, ":"); split(part[1], word, " "); uses[word[1]] = part[2] }
    END {
      for (crate in uses) {
        print crate
        count = split(uses[crate], lower, " ")
        for (i = 1; i <= count; i++) if (lower[i] in uses) print crate, lower[i]
      }
    }' crates.txt
}
# From the rows of the tables `| Crate | What it is | Stands on |`, and their order
from_design() {
  awk -F ' *[|] *' '
    /^\|/ { if (!within) { within = 1; counts = $2 == "Crate" } }
    !/^\|/ { within = 0 }
    within && counts && $2 ~ /^`/ {
      gsub(/[`,]/, "")
      print $2
      count = split($4, lower, " ")
      for (i = 1; i <= count; i++) print $2, lower[i], (lower[i] in above) ? "" : "(its row is not above)"
      above[$2]
    }' docs/DESIGN.md | sed 's/ *$//'
}
listed=$(from_crates)
drawn=$(from_design)
# of_crate LINES: those of the crate, in order
of_crate() { grep -E "^$crate( |\$)" <<<"$1" | sort; }
for crate in $(sed 's/ .*//' <<<"$listed"$'\n'"$drawn" | sort -u); do
  if difference=$(diff <(of_crate "$listed") <(of_crate "$drawn")); then
    passed=$((passed + 1))
  else
    failed=$((failed + 1))
    echo "FAILED: $crate in crates.txt (<) and in docs/DESIGN.md (>)"
    grep '^[<>]' <<<"$difference"
  fi
done
echo "separation: $passed passed, $failed failed"
[ "$failed" = 0 ]
