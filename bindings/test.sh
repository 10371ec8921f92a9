#!/usr/bin/env bash
# Builds the static library and both examples, and has each replay the samples. What is made goes to target/bindings.
set -euo pipefail
cd "$(dirname "$0")/.."
PATH=${RATTLE_HOME:+$RATTLE_HOME/bin:}$PATH
out=target/bindings
mkdir -p "$out"

(cd crates/replay_c && rt lib)
made=crates/replay_c/out
gcc -O2 -Wall -Wextra -Werror -o "$out/example_c" bindings/example.c "$made/libreplay_c.a"
rustc --edition 2021 -O -D warnings -o "$out/example_rust" bindings/example.rs -L "native=$made" -l static=replay_c
crates/replay/samples/test.sh "$out/example_c" "$out/example_rust"
