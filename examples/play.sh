#!/usr/bin/env bash
# Builds the library, proofs first, and plays the examples of examples/c and, where rustc is there, examples/rust.
set -euo pipefail
cd "$(dirname "$0")/.."
bash tools/library.sh wavenet
library=crates/wavenet/out/libwavenet.a
mkdir -p target/examples
echo "== from C"
gcc -O2 -Wall -Wextra -Iinclude examples/c/play.c $library -o target/examples/play
target/examples/play
echo "== from Rust"
command -v rustc >/dev/null || { echo "skipped: there is no rustc"; exit 0; }
rustc --edition 2021 -O -C link-arg=$library examples/rust/play.rs -o target/examples/play_rust
target/examples/play_rust
