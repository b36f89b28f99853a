#!/usr/bin/env bash
# Runs the gate and writes its lines, each behind the time at which it came, to the file OUT:
#
#     bench/gate.sh OUT [--anew]
#
# The last lines tell the time by the clock and that of the processors.
set -u
cd "$(dirname "$0")/.." || exit 1
out=$1
shift
{ time rt ci "$@"; } 2>&1 | while IFS= read -r line; do printf '%(%T)T %s\n' -1 "$line"; done >"$out"
