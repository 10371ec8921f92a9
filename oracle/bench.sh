#!/usr/bin/env bash
# The benchmark in one command: proves and builds the port, builds the oracle with it, and prints the tables of docs/BENCH.md.
set -euo pipefail
cd "$(dirname "$0")/.."
mkdir -p target
(cd crates/test_states && rt lib) >target/bench.log
PORT_ARCHIVE=$PWD/crates/test_states/out oracle/build.sh >>target/bench.log
target/oracle/build/release/oracle bench
