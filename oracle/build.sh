#!/usr/bin/env bash
# Builds the oracle: copies the supplied Rust into target/oracle, compares the copies byte for byte with the originals and
# with supplied.sha256, lays our stand-ins beside them and compiles. The argument is the folder of the supplied files.
# Where PORT_ARCHIVE names the folder of libtest_states.a, the port is linked in, and the oracle has the command `agree`.
set -euo pipefail
here=$(cd "$(dirname "$0")" && pwd)
supplied=$(cd "${1:-$here/../../shared/docs/src}" && pwd)
registry=${DEBIAN_CRATES:-/usr/share/cargo/registry}
out=$here/../target/oracle
crate=$out/stateright

files="src/lib.rs src/util.rs src/actor.rs src/actor/network.rs src/actor/timers.rs src/actor/ordered_reliable_link.rs src/actor/model.rs"

mkdir -p "$out"
rm -rf "$crate" "$out/choice" "$out/program"
cp -Rp "$here/stand-ins/stateright" "$here/stand-ins/choice" "$here/program" "$out/"
cp -p "$here/Cargo.toml" "$out/"
for file in $files; do
  if [ -e "$crate/$file" ]; then echo "a stand-in hides the supplied $file" >&2; exit 1; fi
  cp -p "$supplied/$file" "$crate/$file"
  cmp "$supplied/$file" "$crate/$file"
done
(cd "$crate" && sha256sum --check --quiet "$here/supplied.sha256")
chmod -R u+w "$crate"

# The crates come from Debian's folder, not from the network.
cd "$out"
features=()
if [ -n "${PORT_ARCHIVE:-}" ]; then features=(--features ours); fi
cargo build --release --offline -j1 --quiet "${features[@]}" \
  --config 'source.crates-io.replace-with="debian"' \
  --config "source.debian.directory=\"$registry\"" \
  --target-dir "$out/build"
echo "built target/oracle/build/release/oracle"
