#!/usr/bin/env bash
# All tests: `rt ci` first (every crate proved, every must-fail edit refused, every test and program run), then the quick checks over the static library
# of what it proved. The last line is rt's 'N passed, M failed'; any failure ends the run before it. A must-fail edit that no longer reads fails too.
set -euo pipefail
cd "$(dirname "$0")/.."

need() { # the packages that the quick checks are built with
    local missing=()
    for p in "$@"; do dpkg -s "$p" >/dev/null 2>&1 || missing+=("$p"); done
    [ ${#missing[@]} -eq 0 ] && return
    echo "installing ${missing[*]}"
    apt-get install -y -qq "${missing[@]}" >/dev/null 2>&1 || { apt-get update -qq >/dev/null 2>&1 && apt-get install -y -qq "${missing[@]}" >/dev/null 2>&1; } ||
        { echo "cannot install ${missing[*]}: install them by hand and run this again" >&2; exit 1; }
}

verdict=$(mktemp)
trap 'rm -f "$verdict"' EXIT
echo "== rt ci: proofs, must-fail edits, tests, programs"
rt ci 2>&1 | tee "$verdict"
ok=$(grep '^rt: ok' "$verdict") || { echo "rt ci did not say that all is ok"; exit 1; }
if grep -qE ', [1-9][0-9]* bad' <<<"$ok"; then
    echo "must-fail edits that cannot be applied or read any more (BAD EDIT, above) show nothing: mend them"
    exit 1
fi

need gcc libmpfr6
echo "== the examples, held to what they should print"
bash examples/play.sh >/dev/null
target/examples/play | diff examples/c/expected.txt -
if command -v rustc >/dev/null; then target/examples/play_rust | diff examples/rust/expected.txt -; fi

echo "== the proved exp and tanh against MPFR, a sample of patterns"
bash tools/measure/run.sh 20011

echo "== the library, the original Rust and a plain recurrence, bit for bit"
bash tools/compare/run.sh

echo "== bad input at scale: right numbers, nothing touched"
bash tools/faults/run.sh

grep -E '^[0-9]+ passed, [0-9]+ failed' "$verdict" | tail -n 1
