#!/bin/sh
# Renews dist/: the programs as they are built of this checkout's sources, by the kit on the path, and what they are made
# of. After .ci/run it takes those that the gate has built.
# Usage: tools/ship.sh
set -eu
top=$(dirname -- "$(dirname -- "$(readlink -f -- "$0")")")
. "$top/tools/lib/programs.sh"

kit=$(kit)
if [ -z "$kit" ]; then
  echo "ship: the kit's command rt isn't on the path" >&2
  exit 127
fi
mkdir -p "$top/dist"
made=$(mktemp -d "$top/dist/.making-XXXXXX")
trap 'rm -rf "$made"' EXIT
trap 'exit 1' INT TERM

echo "kit: $kit" >"$made/made-of.txt"
for name in $shipped; do
  program=$("$top/tools/built.sh" --own "$name")
  install -m 755 "$program" "$made/$(basename -- "$(shipped_path "$name")")"
  sources=$("$top/tools/sources.sh" "$name")
  echo "$name: $sources" >>"$made/made-of.txt"
  echo "ship: $name, $(wc -c <"$program") bytes, of $sources"
done
chmod 644 "$made/made-of.txt"
for file in "$made"/*; do mv -f "$file" "$top/dist/"; done
