#!/bin/sh
# Compares `conv` with the Rust original: first that outputs, histories and places are equal bit for bit, then how long both take.
# Usage: tools/bench_conv/run.sh [DIR]     DIR: the folder with the original's src/wavenet/conv.rs (default: ../shared/docs/src)
# Writes docs/conv-speed.md. Needs rt and rustc. Not part of the gate.
set -eu
root=$(cd "$(dirname "$0")/../.." && pwd)
cd "$root"
dir=${1:-../shared/docs/src}
original=$dir/src/wavenet/conv.rs
if [ ! -f "$original" ]; then
    echo "bench_conv: no $original. Give the folder that holds the original's src/wavenet/conv.rs: tools/bench_conv/run.sh DIR" >&2
    exit 2
fi
build=$root/target/bench_conv
mkdir -p "$build" docs
# the original is read where it lies: the build names it through this link, and nothing of it is copied
ln -sfn "$(cd "$(dirname "$original")" && pwd)/conv.rs" "$build/original.rs"
bash tools/library.sh conv_call
rustc --edition 2021 -C opt-level=3 -C target-cpu=x86-64-v2 tools/bench_conv/main.rs -L native="$root/crates/conv_call/out" -o "$build/bench_conv"
"$build/bench_conv" >"$build/table.md"
{
    echo "# Speed of the convolution"
    echo
    echo "Written by \`tools/bench_conv/run.sh\`; $(rustc --version | cut -d' ' -f1,2), $(rt version | head -1)."
    echo "Processor: $(sed -n 's/^model name[^:]*: //p' /proc/cpuinfo | head -1), used as an x86-64-v2 by both."
    echo
    cat "$build/table.md"
} >docs/conv-speed.md
cat docs/conv-speed.md
