# What the checks in bash have in common: they count what they try, and show what differs. A check sources this, with
# `root`, the folder of the repository.
# shellcheck shell=bash
passed=0 failed=0

# The names of the programs, in the order of the list.
listed_programs() {
  sed '1d; s/,.*//' "$root/check/programs.csv"
}

# Writes for check/named what is compared, and the lines that led there, where PLACES names a file.
note() {
  local line lines=
  [ -n "${PLACES:-}" ] && [ "${BASH_SOURCE[2]##*/}" = "${0##*/}" ] || return 0
  for line in "${BASH_LINENO[@]:1}"; do [ "$line" = 0 ] || lines+=" check/${0##*/}:$line"; done
  printf 'check/%s\t%s\t%s\n' "${0##*/}" "${lines# }" "${1%%$'\n'*}" >> "$PLACES"
}

# Counts what was tried: WHAT EXPECTED CAME, and shows where they differ.
compare() {
  note "$1"
  [ "$2" = "$3" ] && passed=$((passed + 1)) && return
  failed=$((failed + 1))
  printf 'FAILED: %s\n' "$1"
  head -n 60 <<< "$2" | sed 's/^/  expected: /'
  head -n 60 <<< "$3" | sed 's/^/  came:     /'
}

# Prints the counts. Its status says whether all passed.
end_trials() {
  echo "$passed passed, $failed failed"
  [ "$failed" = 0 ]
}

# One text that differs is told, and one that does not is not.
compare 'two texts that differ' one other > /dev/null
compare 'two texts that are one' one one
[ "$passed $failed" = '1 1' ] || { printf '%s\n' 'FAILED: the comparison of texts' '0 passed, 1 failed' && exit 1; }
passed=0 failed=0
