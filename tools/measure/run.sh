#!/usr/bin/env bash
# Measures the proved exp and tanh (see measure.c). usage: tools/measure/run.sh STRIDE    1: every pattern; then docs/exp-tanh.md and its figure are
# written anew. Needs rt, gcc, and MPFR's library (libmpfr6); its header is not needed.
set -euo pipefail
cd "$(dirname "$0")/../.."
stride=${1:?usage: tools/measure/run.sh STRIDE (1: every pattern)}
bash tools/library.sh wavenet
mkdir -p target/measure
mpfr=(-l:libmpfr.so.6)
if echo '#include <mpfr.h>' | gcc -E - >/dev/null 2>&1; then mpfr=(-DHAS_MPFR_H -lmpfr); fi
gcc -O2 -pthread tools/measure/measure.c crates/wavenet/out/libwavenet.a "${mpfr[@]}" -lm -o target/measure/measure
target/measure/measure "$stride" | tee target/measure/result.txt
if [ "$stride" = 1 ]; then python3 tools/measure/write.py target/measure/result.txt; fi
