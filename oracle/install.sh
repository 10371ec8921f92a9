#!/usr/bin/env bash
# Installs what the oracle's build needs besides cargo: three crates that the supplied Rust names, as Debian packages.
set -euo pipefail
apt-get update
apt-get install -y librust-ahash-dev librust-serde-dev librust-serde-derive-dev
