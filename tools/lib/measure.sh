# What the measurements of installs share: read by them with `.`, after they have set `title`, their own name, `program`
# and the number of `runs`. It makes the temporary folder `work`, in memory where it can.

fail() {
  echo "$title: $1" >&2
  exit 1
}

program=$(readlink -f -- "$program")
[ -x "$program" ] || fail "there is no $program"

in_memory=''
if [ -d /dev/shm ] && [ -w /dev/shm ]; then in_memory=/dev/shm; fi
work=$(mktemp -d -p "${in_memory:-${TMPDIR:-/tmp}}" pnpm-rs-bench-XXXXXX)
trap 'rm -rf "$work"' EXIT
trap 'exit 1' INT TERM

# The milliseconds that a command takes, whose output goes to the file `printed`.
time_of() {
  began=$(date +%s%N)
  "$@" >"$work/printed" || fail "$* ended with $?"
  ended=$(date +%s%N)
  echo $(((ended - began) / 1000000))
}

# Installs the project in the folder $1 from the registry $2.
install_in() {
  cd "$1"
  PNPM_RS_REGISTRY=$2 "$program" install
}

# Of the times of all runs.
median_of() {
  sort -n "$1" | sed -n "$(((runs + 1) / 2))p"
}
