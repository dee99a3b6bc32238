#!/usr/bin/env bash
# Bad input at scale, through the exported functions: every refusal number alone and with others, lengths off by one, enormous n, plans that break each
# rule. Right number (by the plain recurrence's own tests), and every buffer and the zones around it untouched.
#   tools/faults/run.sh [CALLS] [SEED]      200,000 calls by default
set -euo pipefail
cd "$(dirname "$0")/../.."
. tools/compare/build.sh
prepare
program faults
start faults "$@"
