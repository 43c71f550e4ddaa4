#!/bin/sh
# Prints how long `pnpm-rs install` takes for a project that reaches each package of a registry by ranges, and how long
# `cp -r` takes for the files that it has made, for a quarter, a half and all of that many packages: medians of three runs
# each, in turns, into fresh folders. A time that grows fourfold where the packages double shows a quadratic step.
#
# Each package has VERSIONS published versions, of which its range and tags choose one; that one has a package.json with
# dependencies and a file, the others are empty folders. 16,384 packages, the most that are installed, with 64 versions
# each are a million folders: some 4 GB of a disk, or 1 GB of memory and a few minutes to make.
# Usage: tools/bench-install.sh [PROGRAM [PACKAGES [VERSIONS]]]   (2,000 packages of 64 versions)
set -eu

top=$(dirname -- "$(dirname -- "$(readlink -f -- "$0")")")
title=bench-install
program=${1:-$("$top/tools/built.sh" pnpm_rs)}
most=${2:-2000}
versions=${3:-64}
runs=3
. "$top/tools/lib/measure.sh"

if [ "$most" -lt 40 ] || [ "$versions" -lt 2 ]; then fail 'it takes 40 packages of 2 versions at least'; fi

# Registries of these numbers of packages, each beside a project: a quarter, a half, all. Package i asks for packages
# 10 i + 10 to 10 i + 19, with which each is reached, and for five others that are met long before or after. Where i is
# even, the version is that of a tag; where it is odd, the greatest that satisfies the range.
make_all() {
  awk -v work="$work" -v counts="$((most / 4)) $((most / 2)) $most" -v versions="$versions" '
    function specifier(i) { return i % 3 == 0 ? "^1.0.0" : i % 3 == 1 ? "1.x || >=3.0.0 <4.0.0" : "npm:p" i "@~1" }
    function dependency(i) { return (i % 3 == 2 ? "\"alias-of-" : "\"p") i "\": \"" specifier(i) "\"" }
    function dependencies(i, count,   j, text) {
      for (j = 10 * i + 10; j < 10 * i + 20 && j < count; j++) text = text ", " dependency(j)
      for (j = 1; i >= 0 && j <= 5; j++) text = text ", " dependency((7 * i + j * j * 13) % count)
      return substr(text, 3)
    }
    function folder(path) { print path | "xargs mkdir -p" }
    function chosen(i) { return "1." (i % 2 == 0 ? int(versions / 2) : versions - 1) ".0" }
    function package(registry, i, count,   home) {
      home = registry "/p" i "/" chosen(i)
      printf "{\"name\": \"p%d\", \"version\": \"%s\", \"dependencies\": {%s}}\n", i, chosen(i), dependencies(i, count) > (home "/package.json")
      printf "// package %d\n", i > (home "/index.js")
      close(home "/package.json")
      close(home "/index.js")
      if (i % 2 == 0) {
        printf "{\"latest\": \"%s\", \"next\": \"1.0.0\"}\n", chosen(i) > (registry "/p" i "/tags.json")
        close(registry "/p" i "/tags.json")
      }
    }
    BEGIN {
      sizes = split(counts, size, " ")
      for (s = 1; s <= sizes; s++) {
        folder(work "/project-" size[s])
        for (i = 0; i < size[s]; i++) for (v = 0; v < versions; v++) folder(work "/registry-" size[s] "/p" i "/1." v ".0")
      }
      close("xargs mkdir -p")
      for (s = 1; s <= sizes; s++) {
        printf "{\"dependencies\": {%s}}\n", dependencies(-1, size[s]) > (work "/project-" size[s] "/package.json")
        for (i = 0; i < size[s]; i++) package(work "/registry-" size[s], i, size[s])
      }
    }'
}

# An install of the project of $1 packages, and a copy of what it has made.
turn() {
  rm -rf "$work/project" "$work/copy"
  cp -r "$work/project-$1" "$work/project"
  (time_of install_in "$work/project" "$work/registry-$1") >>"$work/installs-$1"
  grep -qx "packages $1" "$work/printed" || fail "not $1 packages: $(cat "$work/printed")"
  (time_of cp -r "$work/project/node_modules" "$work/copy") >>"$work/copies-$1"
}

make_all
echo "bench-install: $program, $versions versions of each package, in $work"
for count in $((most / 4)) $((most / 2)) "$most"; do
  for _ in $(seq "$runs"); do turn "$count"; done
  echo "$count packages: install $(median_of "$work/installs-$count") ms, cp -r $(median_of "$work/copies-$count") ms"
done
