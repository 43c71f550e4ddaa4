#!/bin/sh
# Prints how long `pnpm-rs install` takes for a project that reaches 1,000 packages of 10 files of 4 KB each, and how
# long `cp -r` takes for the same files: medians of five runs each, in turns, into fresh folders.
# Usage: tools/bench.sh [PROGRAM]
set -eu

top=$(dirname -- "$(dirname -- "$(readlink -f -- "$0")")")
title=bench
program=${1:-$("$top/tools/built.sh" pnpm_rs)}
packages=1000
files=10
runs=5
. "$top/tools/lib/measure.sh"

# The dependencies of package $1, ten of them: with those of the project each package is reached.
dependencies() {
  first=$(($1 * 10 + 10))
  [ "$first" -lt "$packages" ] || return 0
  separator=''
  for name in $(seq "$first" $((first + 9))); do
    printf '%s"p%s": "1.0.0"' "$separator" "$name"
    separator=', '
  done
}

# Package $1, with files that all differ.
make_package() {
  folder=$work/registry/p$1/1.0.0
  mkdir -p "$folder"
  printf '{"name": "p%s", "version": "1.0.0", "dependencies": {%s}}\n' "$1" "$(dependencies "$1")" >"$folder/package.json"
  for file in $(seq "$files"); do
    printf '%-4095s\n' "// file $file of package $1" >"$folder/file-$file.js"
  done
}

make_all() {
  for name in $(seq 0 $((packages - 1))); do make_package "$name"; done
  mkdir "$work/empty"
  printf '{"dependencies": {%s}}\n' "$(dependencies -1)" >"$work/empty/package.json"
}

fresh_install() {
  cp -r "$work/empty" "$work/project"
  (time_of install_in "$work/project" "$work/registry") >>"$work/installs"
  rm -rf "$work/last"
  mv "$work/project" "$work/last"
}

fresh_copy() {
  time_of cp -r "$work/registry" "$work/copy" >>"$work/copies"
  rm -rf "$work/copy"
}

make_all
for _ in $(seq "$runs"); do
  fresh_install
  fresh_copy
done

wanted=$((packages * (files + 1)))
found=$(find "$work/last/node_modules/.pnpm" -type f | wc -l)
[ "$found" -eq "$wanted" ] || fail "$found files were installed, not $wanted"

install=$(median_of "$work/installs")
copy=$(median_of "$work/copies")
echo "bench: $program, $packages packages, $wanted files, in $work"
echo "install: $install ms"
echo "cp -r:   $copy ms"
awk -v a="$install" -v b="$copy" 'BEGIN { printf "ratio:   %.2f\n", a / b }'
