#!/usr/bin/env bash
# Replays a script by the proved program, which is proved and built first where that is still to be done. The program's own exit status tells
# none of the cases below apart, so this gives one, by what the program wrote and said. That is why its output goes to a file first.
set -euo pipefail
top=$(cd "$(dirname "$0")" && pwd)

usage() {
  cat <<'END'
usage: replay.sh [FILE]

Replays the script in FILE, or on standard input, and writes what it gives to standard output.
The first run proves the program and all that it stands on. That takes some minutes, with a line
on standard error for each crate that was proved.

exit status:
  0   the script was replayed
  1   the script could not be read, the output not written, or the program not proved
  2   the script is bad: the output says at which place
  3   the start was refused: the output has the answer's number
  64  wrong use
END
}

wrong_use() { # WHY
  echo "replay.sh: $1; --help says how it is used" >&2
  exit 64
}

# Passes on a line for each crate that was proved now, as it comes, and keeps all that rt says. To prove and build the program rt has to run it
# too: on a script of no bytes.
prove() { # LOG
  local sources crate=
  sources=$("$top/.ci/proved" sources)
  (cd "$top/crates/replay" && rt run) < /dev/null 2>&1 > /dev/null | while IFS= read -r line; do
    printf '%s\n' "$line" >&3
    case $line in
      "rt: chose --jobs "*" for "*) crate=${line##* } ;;
      "logic=proved "*) echo "$crate proved" >&2 ;;
    esac
  done 3> "$1" && "$top/.ci/proved" note "$sources"
}

[ $# -le 1 ] || wrong_use "more than one argument"
case ${1-} in
  --help) usage; exit ;;
  -*) wrong_use "no such option: $1" ;;
esac

work=$(mktemp -d)
trap 'rm -rf "$work"' EXIT
if ! "$top/.ci/proved" && ! prove "$work/log"; then
  tail -n 5 "$work/log" >&2
  mkdir -p "$top/target"
  cp "$work/log" "$top/target/replay.log"
  echo "replay.sh: the program is not proved; target/replay.log has all that was said" >&2
  exit 1
fi

# Nothing that went wrong is left unsaid by the program, and it says nothing else.
"$top/.ci/program" replay "$@" > "$work/wrote" 2> "$work/said" || echo "replay.sh: the program ended with status $?" >> "$work/said"
if [ -s "$work/said" ]; then
  cat "$work/said" >&2
  exit 1
fi
cat "$work/wrote" || exit 1
read -r first < "$work/wrote"
case $first in
  "start 0 "*) exit 0 ;;
  "bad "*) exit 2 ;;
  *) exit 3 ;;
esac
