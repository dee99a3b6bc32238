#!/usr/bin/env bash
# Builds crate NAME as a static library, proofs first: crates/NAME/out/libNAME.a. Where no source is younger it is left as it is.
#   tools/library.sh NAME     wavenet or conv_call
set -euo pipefail
cd "$(dirname "$0")/.."
name=${1:?usage: tools/library.sh NAME}
archive=crates/$name/out/lib$name.a
[ ! -f "$archive" ] || [ -n "$(find crates.txt crates/*/src -newer "$archive" | head -1)" ] || exit 0
echo "proving and building lib$name.a (some minutes the first time)" >&2
mkdir -p target
(cd "crates/$name" && rt lib) >"target/lib$name.log" 2>&1 && [ -f "$archive" ] || { tail -20 "target/lib$name.log" >&2; exit 1; }
