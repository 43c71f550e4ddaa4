#!/bin/sh
# Prints the SHA-256 of the sources that a program is made of: its crate's line of crates.txt and the files in its src/,
# specs/ and proofs/, and those of each crate below it.
# Usage: tools/sources.sh NAME
set -eu
export LC_ALL=C
name=${1:?the name of a program}
cd -- "$(dirname -- "$(dirname -- "$(readlink -f -- "$0")")")"

# The lines of crates.txt of a crate and of all crates below it, in order of their names.
lines_of() {
  awk -v wanted="$1" '
    function visit(name, words, count, i) {
      if (!(name in line) || name in seen) return
      seen[name] = 1
      count = split(below[name], words, /[ \t,]+/)
      for (i = 1; i <= count; i++) visit(words[i])
    }
    {
      sub(/[ \t]*(#.*)?$/, "")
      if ($0 == "") next
      colon = index($0, ":")
      split(colon ? substr($0, 1, colon - 1) : $0, head, /[ \t]+/)
      below[head[1]] = colon ? substr($0, colon + 1) : ""
      line[head[1]] = $0
    }
    END {
      visit(wanted)
      for (name in seen) print line[name]
    }' crates.txt | sort
}

folders_of() {
  printf '%s\n' "$1" | sed 's/[ :].*//' | while read -r crate; do
    for part in src specs proofs; do
      if [ -d "crates/$crate/$part" ]; then echo "crates/$crate/$part"; fi
    done
  done
}

lines=$(lines_of "$name")
if [ -z "$lines" ] || [ ! -d "crates/$name/src" ]; then
  echo "sources: crates.txt names no program $name" >&2
  exit 1
fi
folders=$(folders_of "$lines")
# (no name of a source has a blank)
# shellcheck disable=SC2086
{
  printf '%s\n' "$lines"
  find $folders -type f | sort | tr '\n' '\0' | xargs -0 sha256sum
} | sha256sum | cut -d ' ' -f 1
