#!/bin/sh
# Builds the oracle from the given Rust sources: build.sh SOURCES OUT makes OUT/oracle.
# Copied there unchanged but for one line that adds our probe below process.rs.
# Needs cargo and Debian's librust-thiserror-dev, librust-lazy-static-dev, librust-maplit-dev.
set -eu
if [ $# -ne 2 ]; then
    echo "usage: build.sh SOURCES OUT" >&2
    exit 2
fi
ours=$(cd "$(dirname "$0")" && pwd)/rust
mkdir -p "$2"
given=$(cd "$1" && pwd)
out=$(cd "$2" && pwd)

rm -rf "$out/src"
mkdir "$out/src"
cp -R "$given/corewars-core/src/." "$given/corewars-sim/src/." "$out/src/"
chmod -R u+w "$out/src"
mkdir "$out/src/core/process"
cp "$ours/Cargo.toml" "$out/"
cp "$ours/lib.rs" "$ours/main.rs" "$ours/reading.rs" "$ours/words.rs" "$out/src/"
cp "$ours/probe.rs" "$out/src/core/process/"
echo 'mod probe;' >> "$out/src/core/process.rs"

cd "$out"
cargo build --release --offline --quiet --target-dir target \
    --config 'source.crates-io.replace-with = "debian"' \
    --config 'source.debian.directory = "/usr/share/cargo/registry"'
cp target/release/oracle oracle
