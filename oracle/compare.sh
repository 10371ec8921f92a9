#!/usr/bin/env bash
# Runs a replay program beside the oracle on the scripts of COUNT seeds, and tells each seed on which they differ.
# The program reads a script on standard input and writes its output.
# usage: compare.sh PROGRAM [FIRST [COUNT]]
set -euo pipefail
here=$(cd "$(dirname "$0")" && pwd)
program=$(command -v "$1") || { echo "no program: $1" >&2; exit 1; }
"$here/build.sh"
exec "$here/../target/oracle/build/release/oracle" compare "$program" "${2:-0}" "${3:-1000}"
