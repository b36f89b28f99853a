#!/usr/bin/env bash
# Times `check` and spirv-val on the same words. The program is the one that `rt ci` or `make demo` leaves.
set -u
cd "$(dirname "$0")/.." || exit 1
program=crates/dxil_cli/out/dxil_cli
[ -x "$program" ] || { echo "no program: run 'make demo' first"; exit 1; }
folder=$(mktemp -d)
trap 'rm -rf "$folder"' EXIT

# compare TIMES NAME KIND NUMBERS...
compare() {
  local times=$1 name=$2
  shift 2
  python3 bench/modules.py "$@" "$folder/in.spv" || exit 1
  echo "$name: $(stat -c %s "$folder/in.spv") bytes"
  for _ in $(seq "$times"); do
    /usr/bin/time -f "  check %e s, %M KB" "$program" check "$folder/in.spv" >/dev/null || exit 1
    if command -v spirv-val >/dev/null 2>&1; then
      /usr/bin/time -f "  spirv-val %e s, %M KB" spirv-val --target-env vulkan1.3 "$folder/in.spv" >/dev/null || echo "  spirv-val refuses it"
    fi
  done
}

compare 3 "5,000 selections of 32 additions" chain 5000 32
compare 3 "5,000 selections without additions" chain 5000 0
compare 3 "3,000 loops" loops 3000
compare 3 "200 nested selections" nested 200
compare 3 "5 switches of 16,383 cases" switches 5 16383
compare 1 "25,000 selections of 32 additions" chain 25000 32
for kind in "chain 12500 32" "chain 25000 32" "chain 50000 32" "chain 12500 0" "chain 25000 0" "chain 50000 0" "loops 8250" "loops 16500" "loops 33000" "switches 2 16383" "switches 4 16383" "switches 8 16383" "nested 255" "nested 511" "nested 1023" "constants 1048000" "constants 2096000" "constants 4192000"; do
  # shellcheck disable=SC2086
  python3 bench/modules.py $kind "$folder/in.spv" || exit 1
  /usr/bin/time -f "$kind: $(stat -c %s "$folder/in.spv") bytes, check %e s, %U s of them its own, %M KB" "$program" check "$folder/in.spv" >/dev/null
done
