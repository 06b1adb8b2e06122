#!/usr/bin/env bash
# The Rust wrapper's own tests, over the proved archive, its sentences against the header's, and its example with threads. No crate of a registry is used;
# without cargo there is nothing to test.
set -eu
cd "$(dirname "$0")/.."
if ! command -v cargo > /dev/null; then echo "not tested: the Rust wrapper, since there is no cargo here"; exit 0; fi
. host/machine.sh
if [ "$native" = no ]; then echo "not tested: the Rust wrapper, since the archive is for x86-64"; exit 0; fi
bash host/archive.sh
cargo test --quiet --offline --locked --manifest-path host/rust/Cargo.toml --target-dir target/rust
said=$(cargo run --quiet --offline --manifest-path host/rust/Cargo.toml --target-dir target/rust --example threads)
case $said in
*" pages of 6 projects while 3 threads made 3000 relinks: each page added up to 46500 MiB") ;;
*) echo "rust: the example with threads says '$said'"; exit 1 ;;
esac
echo "rust: the wrapper's tests; its names and sentences are the header's; three threads relink while each page adds up"
