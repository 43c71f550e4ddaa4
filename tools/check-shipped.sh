#!/bin/sh
# Compares the shipped programs with the checkout: they have to be made of its sources, and where they are built here of
# these by the kit that dist/made-of.txt names, to be the same byte for byte. BUILT_BY_GATE=1 says that they have to be.
# Usage: tools/check-shipped.sh
set -u
top=$(dirname -- "$(dirname -- "$(readlink -f -- "$0")")")
. "$top/tools/lib/programs.sh"

made_by=$(recorded kit)
status=0
for name in $shipped; do
  path=$(shipped_path "$name")
  short=${path#"$top"/}
  if ! sources=$("$top/tools/sources.sh" "$name") || [ "$(recorded "$name")" != "$sources" ] || [ ! -x "$path" ]; then
    echo "failed: $short isn't made of these sources: tools/ship.sh renews it"
    status=1
  elif ! is_built "$name" "$made_by" "$sources"; then
    if [ "${BUILT_BY_GATE:-}" = 1 ] && [ "$(kit)" = "$made_by" ]; then
      echo "failed: $short: the gate has built no program of these sources to compare it with"
      status=1
    else
      echo "passed: $short is made of these sources; it isn't built here by $made_by, so its bytes aren't compared"
    fi
  elif cmp -- "$path" "$(built_path "$name")"; then
    echo "passed: $short is made of these sources, and has the bytes of crates/$name/out/$name"
  else
    echo "failed: $short has other bytes than crates/$name/out/$name, which is built of the same sources by the same kit"
    status=1
  fi
done
exit $status
