#!/usr/bin/env bash
# Has each PROGRAM replay every sample, from the file that its argument names, and compares with the stored output. A file that is
# missing, and a folder, must be said on standard error and give no output.
# usage: test.sh PROGRAM...
set -euo pipefail
samples=$(cd "$(dirname "$0")" && pwd)
wrote=$(mktemp) said=$(mktemp)
trap 'rm -f "$wrote" "$said"' EXIT
[ $# -gt 0 ] || { echo "usage: test.sh PROGRAM..." >&2; exit 2; }

for program; do
  count=0
  for script in "$samples"/*.bin; do
    "$program" "$script" > "$wrote"
    cmp "$wrote" "${script%.bin}.out" || { echo "$program: another output for $script" >&2; exit 1; }
    count=$((count + 1))
  done
  for unreadable in "$samples/missing" "$samples"; do
    "$program" "$unreadable" > "$wrote" 2> "$said" || true
    [ ! -s "$wrote" ] && [ -s "$said" ] || { echo "$program: not refused: $unreadable" >&2; exit 1; }
  done
  echo "$program: $count samples as stored"
done
