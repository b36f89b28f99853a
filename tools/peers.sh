#!/usr/bin/env bash
# What other programs say of this one's files. Each check is skipped where its tool is missing.
#
# spirv-val (Debian's spirv-tools) must accept the words of the sample shader, small modules that `check` accepts, and the modules of the programs of
# lower_tests. llvm-bcanalyzer (Debian's llvm-14) must count as many fields in each record of the sample's bitcode as `show` does.
set -u
cd "$(dirname "$0")/.." || exit 1
program=crates/dxil_cli/out/dxil_cli
sample=crates/dxil_cli/data/e.dxbc
if [ ! -x "$program" ]; then
  echo "peers: skipped, there is no program"
  exit 0
fi
folder=$(mktemp -d)
trap 'rm -rf "$folder"' EXIT

if command -v spirv-val >/dev/null 2>&1; then
  "$program" translate "$sample" "$folder/e.spv" || exit 1
  spirv-val --target-env vulkan1.3 "$folder/e.spv" || exit 1
  echo "spirv-val: accepts the sample's words"
  if command -v python3 >/dev/null 2>&1; then
    for kind in "chain 3 2" "nested 4" "loops 3" "switches 2 3" "fans 2 3" "path 4" "constants 3" "names 3"; do
      # shellcheck disable=SC2086
      python3 bench/modules.py $kind "$folder/m.spv" || exit 1
      "$program" check "$folder/m.spv" >/dev/null || exit 1
      spirv-val --target-env vulkan1.3 "$folder/m.spv" || exit 1
    done
    echo "spirv-val: accepts the modules that check accepts"
    lowered=crates/lower_tests/out/lower_tests
    if [ -x "$lowered" ]; then
      mkdir "$folder/lowered" || exit 1
      "$lowered" words | python3 tools/write_modules.py "$folder/lowered" || exit 1
      for module in "$folder"/lowered/*-1.6-*.spv; do
        spirv-val --target-env vulkan1.3 "$module" || exit 1
      done
      for module in "$folder"/lowered/*-1.3-*.spv; do
        spirv-val --target-env vulkan1.1 "$module" || exit 1
      done
      echo "spirv-val: accepts the modules of lower_tests, $(ls "$folder/lowered" | wc -l) of them"
    fi
  fi
else
  echo "spirv-val: skipped"
fi

analyzer=$(command -v llvm-bcanalyzer-14 || command -v llvm-bcanalyzer)
if [ -n "$analyzer" ]; then
  # the sample's bitcode stands behind its first 68 bytes
  tail -c +69 "$sample" >"$folder/e.bc"
  "$program" show "$sample" | awk '/^record/ { print $4 }' >"$folder/ours"
  "$analyzer" -dump "$folder/e.bc" | awk '/\/>/ { print gsub(/op[0-9]+=/, "") }' >"$folder/theirs"
  cmp "$folder/ours" "$folder/theirs" || exit 1
  echo "llvm-bcanalyzer: reads the sample's records as show does"
else
  echo "llvm-bcanalyzer: skipped"
fi
