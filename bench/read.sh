#!/usr/bin/env bash
# Times `show` and llvm-bcanalyzer on the same bitcode, a million records with and without an abbreviation. The program is the one that `rt ci` or `make demo` leaves.
set -u
cd "$(dirname "$0")/.." || exit 1
program=crates/dxil_cli/out/dxil_cli
[ -x "$program" ] || { echo "no program: run 'make demo' first"; exit 1; }
peer=$(command -v llvm-bcanalyzer-14 || command -v llvm-bcanalyzer)
folder=$(mktemp -d)
trap 'rm -rf "$folder"' EXIT
for kind in plain abbreviated; do
  python3 bench/records.py "$kind" 1000000 "$folder/in.dxbc" --bitcode "$folder/in.bc" || exit 1
  for _ in 1 2 3; do
    /usr/bin/time -f "$kind: show %e s, %M KB" "$program" show "$folder/in.dxbc" >"$folder/out.txt" || exit 1
    [ -n "$peer" ] && /usr/bin/time -f "$kind: llvm-bcanalyzer %e s, %M KB" "$peer" -dump "$folder/in.bc" >"$folder/dump.txt"
  done
done
python3 bench/records.py big "$folder/in.dxbc" || exit 1
/usr/bin/time -f "2^26 bytes: show %e s, %M KB" "$program" show "$folder/in.dxbc" >"$folder/out.txt"
for count in 250000 500000 1000000; do
  python3 bench/records.py blocks "$count" "$folder/in.dxbc" || exit 1
  /usr/bin/time -f "$count blocks under 1,000 abbreviations: show %e s, %M KB" "$program" show "$folder/in.dxbc" >"$folder/out.txt"
done
