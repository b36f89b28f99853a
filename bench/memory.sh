#!/usr/bin/env bash
# The peak of memory of `check` against the length of the file, for modules that are large in one way each. The program is the one that `rt ci` or
# `make demo` leaves. What the program takes for the smallest module stands beside each peak, and is counted in it.
set -u
cd "$(dirname "$0")/.." || exit 1
program=crates/dxil_cli/out/dxil_cli
[ -x "$program" ] || { echo "no program: run 'make demo' first"; exit 1; }
folder=$(mktemp -d)
trap 'rm -rf "$folder"' EXIT

# peak KIND NUMBERS...: the peak in KB, with the line that the program says in $folder/said
peak() {
  python3 bench/modules.py "$@" "$folder/in.spv" || exit 1
  { /usr/bin/time -q -f "%M" "$program" check "$folder/in.spv" >"$folder/said"; } 2>&1
}

least=$(peak bare 1)
echo "the smallest module: $least KB"
while read -r kind; do
  # shellcheck disable=SC2086
  most=$(peak $kind)
  awk -v kind="$kind" -v bytes="$(stat -c %s "$folder/in.spv")" -v peak="$most" -v least="$least" -v said="$(cat "$folder/said")" \
    'BEGIN { printf "%s: %d bytes, %d KB, %.1f times, %.1f beyond the smallest (%s)\n", kind, bytes, peak, peak * 1024 / bytes, (peak - least) * 1024 / bytes, said }'
done <<'KINDS'
bare 100000
bare 1398000
path 100000
path 1040000
chain 50000 0
chain 50000 32
loops 33000
switches 6 16383
fans 100 16383
picks 100000 0
picks 1000000 0
picks 100000 1
nested 1023
constants 4194000
names 2390000
strays 100000
strays 800000
labels 150000
labels 4190000
functions 100000
functions 4190000
marks 100000
marks 4190000
merges 100000
merges 4190000
returns 300000
returns 16777000
loads 100000
loads 4194000
KINDS
