#!/bin/sh
# Prints how fast a lockfile of some 5 MB is read and printed, and how fast python's yaml library reads it, where it is
# there.
# Usage: tools/bench-lock.sh [PATH OF lock_bench]
set -eu

top=$(dirname -- "$(dirname -- "$(readlink -f -- "$0")")")
program=${1:-$("$top/tools/built.sh" lock_bench)}

fail() {
  echo "bench-lock: $1" >&2
  exit 1
}

[ -x "$program" ] || fail "there is no $program"

work=$(mktemp -d)
trap 'rm -rf "$work"' EXIT
trap 'exit 1' INT TERM

text=$work/pnpm-lock.yaml
"$program" text >"$text"
[ "$(head -n 1 "$text")" = "lockfileVersion: '9.0'" ] || fail "$program prints no lockfile: $(head -n 1 "$text")"
echo "bench-lock: $program, a lockfile of $(wc -c <"$text") bytes"

"$program" bench || fail "$program doesn't read its lockfile, or prints other bytes of it"

if ! python3 -c 'import yaml' 2>/dev/null; then
  echo "python's yaml library: skipped, it is missing"
  exit 0
fi
python3 - "$text" <<'PYTHON'
import sys, time, yaml
loader = getattr(yaml, "CBaseLoader", yaml.BaseLoader)
with open(sys.argv[1], "rb") as file:
    text = file.read()
if loader is yaml.BaseLoader:
    text = text[:len(text) // 20].rsplit(b"\n\n", 1)[0]
start = time.perf_counter()
yaml.load(text, Loader=loader)
print(f"python's {loader.__name__}: {len(text) / (time.perf_counter() - start) / 1e6:.1f} MB/s")
PYTHON
