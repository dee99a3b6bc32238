#!/usr/bin/env bash
# Holds our exported library, the original Rust and a plain recurrence written from docs/RULES.md against each other: outputs, histories and positions,
# bit for bit with all NaNs as one. In the Rust only tanh, exp and ReLU's max are replaced, by ours.
#   tools/compare/run.sh [PLAYS] [SEED] [DIR]     4000 plays in about a minute; DIR holds the original's src/ (default: ../shared/docs/src)
#   tools/compare/run.sh --one SEED INDEX         one play of a run again
#   tools/compare/run.sh --tiny [SEED]            every short description (tiny.rs), some minutes
#   tools/compare/run.sh --sample OUT [SEED]      files for the program `ampline` and what it has to print, into OUT
# Without the Rust ours is held to the recurrence alone. Needs rt and rustc.
set -euo pipefail
cd "$(dirname "$0")/../.."
. tools/compare/build.sh
case ${1:-} in
--*) dir=../shared/docs/src ;;
*) dir=${3:-../shared/docs/src} ;;
esac
prepare "$dir"
program compare
start compare "${@:1:3}"
