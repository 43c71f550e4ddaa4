#!/bin/sh
# Compares the programs with the outside: the shipped ones where they are made of the checkout's sources, else those that
# are built here. The last line counts the parts that passed, failed and were skipped, since something is missing on this
# machine. Ends with 1 where one failed, and under CI_STRICT=1 also where one was skipped.
# Usage: tools/test.sh
set -u
top=$(dirname -- "$(dirname -- "$(readlink -f -- "$0")")")
. "$top/tools/lib/programs.sh"

log=$(mktemp) || exit 1
trap 'rm -f "$log"' EXIT
trap 'exit 1' INT TERM
passed=0
failed=0
skipped=0

count() {
  grep -c "^$1: " "$log"
}

# Runs a check, and counts the lines by which its parts end.
check_by() {
  interpreter=$1
  check=$2
  echo "== tools/$check"
  if ! command -v "$interpreter" >/dev/null 2>&1; then
    echo "skipped: $check: there is no $interpreter" | tee "$log"
  else
    "$interpreter" "$top/tools/$check" >"$log" 2>&1 </dev/null
    status=$?
    parts=$(($(count passed) + $(count failed) + $(count skipped)))
    if [ "$parts" -eq 0 ] || { [ "$status" -ne 0 ] && [ "$(count failed)" -eq 0 ]; }; then
      echo "failed: $check: it ended with $status, and $parts parts of it said how" >>"$log"
    fi
    cat "$log"
  fi
  passed=$((passed + $(count passed)))
  failed=$((failed + $(count failed)))
  skipped=$((skipped + $(count skipped)))
}

# Those that have to be built are built here, since that takes long and tells how far it is.
for name in $shipped; do
  path=$("$top/tools/built.sh" "$name") && echo "$name: ${path#"$top"/}"
done

check_by sh check-shipped.sh
check_by node check-launcher.mjs
check_by node check-with-node.mjs
check_by node check-refusals.mjs
check_by python3 check-shared-store.py
check_by node check-ranges.mjs
check_by python3 check-yaml.py

echo "$passed passed, $failed failed, $skipped skipped"
[ "$failed" -eq 0 ] && { [ "$skipped" -eq 0 ] || [ "${CI_STRICT:-}" != 1 ]; }
