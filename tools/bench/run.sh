#!/usr/bin/env bash
# One benchmark: our column and block calls against the Rust's process_sample and process_block, in one process, same inputs, release builds for the same
# processor, x86-64-v2; the Rust once with our exp and tanh and once with its own. Prints a table and writes docs/speed.md, docs/figures/speed.svg and
# docs/figures/growth.svg. Needs rt and rustc. Not part of the gate.
#   tools/bench/run.sh [DIR]     DIR holds the original's src/ (default: ../shared/docs/src)
set -euo pipefail
cd "$(dirname "$0")/../.."
. tools/compare/build.sh
dir=${1:-../shared/docs/src}
[ -f "$dir/src/wavenet/array.rs" ] || { echo "skipped: the benchmark, for there is no $dir/src/wavenet"; exit 0; }
prepare "$dir"
program bench
$build/bench docs/figures | tee $build/speed.md
{
    echo "# Speed against the Rust"
    echo
    echo "Written by \`tools/bench/run.sh\`; $(rustc --version | cut -d' ' -f1,2), $(rt version | head -1)."
    echo "Processor: $(sed -n 's/^model name[^:]*: //p' /proc/cpuinfo | head -1), used as an x86-64-v2 by both."
    echo
    echo "![the Rust's time / ours](figures/speed.svg)"
    echo
    echo "![time a column as the description grows, in nanoseconds](figures/growth.svg)"
    echo
    cat $build/speed.md
} >docs/speed.md
