#!/bin/sh
# Prints the path of a program of this repository: the shipped one where it is made of the checkout's sources, else one
# that is built here. The kit's rt builds it where that isn't done yet, a source has changed, or the kit has.
# Ends with 127 where rt is missing, and with 1 where the program can't be built.
# Usage: tools/built.sh [--own] NAME
#   --own  takes no shipped program
set -u
top=$(dirname -- "$(dirname -- "$(readlink -f -- "$0")")")
. "$top/tools/lib/programs.sh"

own=''
if [ "${1:-}" = --own ]; then
  own=$1
  shift
fi
name=${1:?the name of a program}

sources=$("$top/tools/sources.sh" "$name") || exit 1
if [ -z "$own" ] && is_shipped "$name" "$sources"; then
  shipped_path "$name"
  exit
fi
kit=$(kit)
if ! is_built "$name" "$kit" "$sources"; then
  if [ -n "$kit" ]; then
    python3 "$top/tools/lib/build.py" "$name" "$kit" >&2 && status=0 || status=1
  else
    echo "$name: the program has to be built, and the kit's command rt isn't on the path" >&2
    status=127
  fi
  if [ "$status" -ne 0 ]; then
    cat >&2 <<WHY
$name: either
  - take the sources that the shipped programs are made of (git stash, or a fresh clone): these need no kit, but Linux on
    x86-64 with glibc 2.34 or newer; or
  - build with the kit that has made these: $(recorded kit)
WHY
    exit "$status"
  fi
fi
built_path "$name"
