#!/usr/bin/env bash
# launch.sh NAME WORDS..: runs a program of this repository with these words: that of dist/, where it was made from the sources
# here, else one that is built here, which is first proved and built where there is none for these sources yet. With
# MOORINGAKEE_BUILD=here it is always one that is built here. With --help or -h among the words it prints the program's usage, a
# file of docs/; where words are refused, it says why on standard error. The status is the program's, or 70 where there is none.
set -u
export PATH
top=$(cd "$(dirname "${BASH_SOURCE[0]}")/.." && pwd)
. "$top/crates/sources.sh"
. "$top/crates/words.sh"
name=$1
shift
case $name in
  mooringakee) crate=mooringakee usage=$top/docs/usage.txt refusal=$'words refused\n' ;;
  mooringakee-stress) crate=stress usage=$top/docs/stress_usage.txt refusal= ;;
esac
out=$top/crates/$crate/out
dist=$top/dist/x86_64-linux

# Ends with the status that stands for a program that there is not.
give_up() {
  printf '%s\n' "$name: $1" >&2
  exit 70
}

# What is said on standard error of words that are refused.
tell_refusal() {
  local fault
  if fault=$(fault_in "$crate" "$@"); then
    printf '%s\n' "$name: $fault" >&2
  fi
  head -n 2 "$usage" >&2
}

# is_listed FILE WORDS..: whether the file has a line that begins with these words
is_listed() {
  local words
  while read -ra words; do
    [ "${words[*]:0:$#-1}" != "${*:2}" ] || return 0
  done <"$1"
  return 1
} 2>/dev/null

# Runs a command beside the launcher: what ends the launcher ends it too, and the launcher then ends as it does.
beside() {
  local signal
  caught=
  "$@" <&0 &
  child=$!
  for signal in HUP INT TERM; do
    trap "caught=$signal; kill -TERM $child 2>/dev/null" "$signal"
  done
  wait "$child"
  status=$?
  if [ -n "$caught" ]; then
    wait "$child"
    trap - "$caught"
    kill -s "$caught" $$
  fi
  trap - HUP INT TERM
}

for word; do
  case $word in
    --help | -h) exec cat "$usage" ;;
  esac
done
case ${MOORINGAKEE_BUILD-} in
  '' | here) ;;
  *) give_up 'MOORINGAKEE_BUILD can be here, or is left out' ;;
esac

sources=$(sources_of "$crate")
if [ -z "${MOORINGAKEE_BUILD-}" ] && [ "$(uname -sm)" = 'Linux x86_64' ] && is_listed "$dist/built-from" "$name" "$sources"; then
  program=$dist/$name
  [ -f "$program" ] || give_up "dist/x86_64-linux/$name is not there; MOORINGAKEE_BUILD=here proves and builds it"
  sum=$(sha256sum <"$program")
  is_listed "$dist/SHA256SUMS" "${sum%% *}" "$name" ||
    give_up "dist/x86_64-linux/$name is not what SHA256SUMS there says, so it is not run; MOORINGAKEE_BUILD=here proves and builds it"
else
  program=$out/$crate
  if [ ! -x "$program" ] || ! is_listed "$out/built-from" "$sources"; then
    if fault_in "$crate" "$@" >/dev/null; then
      printf '%s' "$refusal"
      tell_refusal "$@"
      exit 2
    fi
    for command in rt python3; do
      command -v "$command" >/dev/null || give_up "$command is needed to prove and build the program, and is not there"
    done
    beside python3 "$top/crates/build.py" "$name" "$crate" </dev/null
    [ "$status" = 0 ] || exit 70
    printf '%s\n' "$sources" >"$out/built-from"
  fi
fi

beside "$program" "$@"
if [ "$status" -gt 128 ]; then
  kill -s "$((status - 128))" $$
elif [ "$status" = 2 ]; then
  tell_refusal "$@"
fi
exit "$status"
