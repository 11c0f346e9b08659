# Sourced by the benches: builds the program that one times, and times commands.
#
# The gate takes no .rt file outside a crate, so a bench's main.txt is built as a crate of a copy of this repository. Where
# BENCH_BUILT names a folder, the program is kept there and taken from there. Where BENCH_ONLY_BUILD is set too, the script ends
# once it has its program, so that a row of benches can be built before the first one begins.
set -euo pipefail
shopt -s inherit_errexit
here=$(cd "$(dirname "${BASH_SOURCE[1]}")" && pwd)
room=$(mktemp -d)
rooms=("$room")
trap 'rm -rf "${rooms[@]}"' EXIT

# program NAME MAIN LIBRARIES [TEXT=FILE..] [-- WORD..] builds $here/MAIN as the crate NAME over these libraries, with each TEXT as
# that FILE of the crate, by a run with these words; `built` is its path then.
program() {
  local name=$1 main=$2 libraries=$3 crate=$room/crates/$1 given
  shift 3
  built=${BENCH_BUILT:-$room}/$name
  if [ ! -x "$built" ]; then
    cp -r "$here/../../crates" "$here/../../crates.txt" "$here/../../HANDLES" "$room/"
    mkdir -p "$crate/src"
    cp "$here/$main" "$crate/src/main.rt"
    echo "$name: $libraries" >>"$room/crates.txt"
    while [ $# -gt 0 ] && [ "$1" != -- ]; do
      given=$crate/${1#*=}
      mkdir -p "$(dirname "$given")"
      cp "$here/${1%%=*}" "$given"
      shift
    done
    # Some programs end with another status where they are given no work: what counts is that they are built.
    (cd "$crate" && rt run "$@") >"$room/log" 2>&1 || true
    [ -x "$crate/out/$name" ] || { cat "$room/log" >&2; exit 1; }
    cp "$crate/out/$name" "$built"
  fi
  if [ -n "${BENCH_ONLY_BUILD:-}" ]; then exit; fi
}

# libraries NAME: the libraries that this crate stands on.
libraries() {
  sed -n "s/^$1: //p" "$here/../../crates.txt"
}

# folder PLACE: a new folder there, which is removed at the end.
folder() {
  made=$(mktemp -d -p "$(cd "$1" && pwd)")
  rooms+=("$made")
}

# millis COMMAND: how many milliseconds it took. What it prints is in $room/said.
millis() {
  local from
  from=$(date +%s%N)
  "$@" >"$room/said"
  echo $((($(date +%s%N) - from) / 1000000))
}

# least ROUNDS ONE -- OTHER: sets `one` and `other` to the least milliseconds of both commands, which run in turn.
least() {
  local rounds=$1 first=() turn took
  shift
  while [ "$1" != -- ]; do
    first+=("$1")
    shift
  done
  shift
  for ((turn = 1; turn <= rounds; turn++)); do
    took=$(millis "${first[@]}")
    if [ "$turn" = 1 ] || [ "$took" -lt "$one" ]; then one=$took; fi
    took=$(millis "$@")
    if [ "$turn" = 1 ] || [ "$took" -lt "$other" ]; then other=$took; fi
  done
}
