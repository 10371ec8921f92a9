#!/usr/bin/env bash
# Shows that the replay of the fixed list can fail: ten must-fail edits of the port's code are put into a copy, one at a time, and the
# list must then differ; on the copy as it stands it must not. The copies are run without proof. No Rust is needed.
# usage: ten_faults.sh
set -euo pipefail
root=$(cd "$(dirname "$0")/.." && pwd)
# Not below the top, where `rt ci` refuses every .rt file that is no crate's.
copy=$(mktemp -d)
trap 'rm -rf "$copy"' EXIT
program=test_fixed_list

faults="link_tables/ignored_marked_taken sys_moves/sent_not_saved link_tables/command_ignored sys_reacts/ack_left_out
sys_deliver/equal_number_handed link_rows/first_acked sys_timeout/idle_timer_stays sys_act/crash_keeps_timers
sys_deliver/crashed_hears net_rows/count_not_raised"

copy_sources() {
  local folder
  cp "$root/crates.txt" "$copy"
  for folder in "$root"/crates/*/; do
    mkdir -p "$copy/crates/$(basename "$folder")"
    cp -R "$folder/src" "$copy/crates/$(basename "$folder")"
  done
  cp -R "$root/crates/$program/data" "$copy/crates/$program"
}

# What came of a run: `agrees`, `differs` or `not run`. What the program wrote stands in the file `wrote`.
outcome() {
  (cd "$copy/crates/$program" && rt try --data list.bin=data/list.bin -- list.bin < /dev/null) > "$copy/wrote" 2> "$copy/said" || true
  if cmp -s "$copy/wrote" "$root/crates/$program/stdout"; then
    echo agrees
  elif grep -q "^[0-9]* scripts, [0-9]* differ, first number [0-9]*$" "$copy/wrote"; then
    echo differs
  else
    echo "not run"
  fi
}

# Puts an edit in: the text behind `old:` must stand once in the file.
edit() {
  OLD=$(sed -n 's/^old: //p' "$2") NEW=$(sed -n 's/^new: //p' "$2") awk '
    { text = text $0 "\n" }
    END {
      old = ENVIRON["OLD"]
      at = index(text, old)
      rest = substr(text, at + length(old))
      if (!at || index(rest, old)) exit 1
      printf "%s%s%s", substr(text, 1, at - 1), ENVIRON["NEW"], rest
    }' "$1" > "$copy/edited" || { echo "$2 does not fit the code" >&2; exit 1; }
  mv "$copy/edited" "$1"
}

copy_sources
missed=0
result=$(outcome)
echo "as it stands: $result"
if [ "$result" != agrees ]; then cat "$copy/wrote" "$copy/said"; exit 1; fi
for fault in $faults; do
  crate=${fault%/*}
  edit "$copy/crates/$crate/src/lib.rt" "$root/crates/$crate/must-fail/${fault#*/}.edit"
  case $(outcome) in
    differs) echo "$fault: found ($(grep -o '[0-9]* differ, first number [0-9]*' "$copy/wrote"))" ;;
    *) echo "$fault: NOT FOUND"; missed=$((missed + 1)) ;;
  esac
  cp "$root/crates/$crate/src/lib.rt" "$copy/crates/$crate/src/lib.rt"
done
if [ "$missed" -gt 0 ]; then echo "$missed not found" >&2; exit 1; fi
echo "all ten found"
