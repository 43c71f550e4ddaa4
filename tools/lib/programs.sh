# What the tools know of the programs: read by them with `.`, after they have set `top`, the checkout's folder.

# The programs that are shipped.
shipped='pnpm_rs find_check range_check yaml_check'

# What they are made of: the kit's line, and for each program a line `NAME: SHA-256 of its sources`.
record=$top/dist/made-of.txt

shipped_path() {
  case $1 in
    pnpm_rs) echo "$top/dist/pnpm-rs" ;;
    *) echo "$top/dist/$1" ;;
  esac
}

recorded() {
  [ ! -f "$record" ] || sed -n "s/^$1: //p" "$record"
}

# Whether this machine can run the shipped programs: Linux on x86-64, with glibc 2.34 or a newer one.
can_run_shipped() {
  [ "$(uname -sm)" = 'Linux x86_64' ] && getconf GNU_LIBC_VERSION 2>/dev/null | awk '
    { split($2, number, "."); is_new = $1 == "glibc" && (number[1] > 2 || number[1] == 2 && number[2] >= 34) }
    END { exit !is_new }'
}

# Whether the shipped program is made of these sources, and can be run.
is_shipped() {
  [ -n "$2" ] && [ "$(recorded "$1")" = "$2" ] && [ -x "$(shipped_path "$1")" ] && can_run_shipped
}

# The kit's line; nothing where there is no kit.
kit() {
  if command -v rt >/dev/null 2>&1; then rt version; fi
}

# A program that is built here has a file beside it that says what it is made of.
built_path() {
  echo "$top/crates/$1/out/$1"
}

made_of() {
  printf 'kit: %s\n%s: %s\n' "$2" "$1" "$3"
}

# Whether the program that stands in out/ is built of these sources, by this kit where there is one.
is_built() {
  program=$(built_path "$1")
  [ -x "$program" ] && [ -f "$program.made-of" ] || return 1
  said=$(cat "$program.made-of")
  [ "$said" = "$(made_of "$1" "${2:-$(printf '%s\n' "$said" | sed -n 's/^kit: //p')}" "$3")" ]
}
