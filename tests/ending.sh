# shellcheck shell=bash
# For a script that sources this: $here is a folder that goes away at its end, and with it all that
# the script has begun and that still runs. Its rows are counted.
here=$(mktemp -d)
trap 'for child in $(jobs -pr); do end "$child"; done; rm -rf "$here"' EXIT
trap 'exit 143' HUP INT TERM
passed=0
failed=0

# Ends a process and all below it.
end() {
  local child children
  children=$(cat "/proc/$1/task/"*/children 2>/dev/null)
  kill "$1" 2>/dev/null
  for child in $children; do end "$child"; done
}

# A row: what it is, and a command that says whether it is so.
row() {
  local name=$1
  shift
  if "$@" >"$here/said" 2>&1; then
    passed=$((passed + 1))
  else
    failed=$((failed + 1))
    echo "$name: FAILED"
    head -n 20 "$here/said"
  fi
}

counted() {
  echo "$passed passed, $failed failed"
  [ "$failed" = 0 ]
}
