#!/usr/bin/env bash
# Times the linked graph and the regions of branch graphs. The program is the one that `rt ci`, or `rt run` in its folder, leaves.
# A time is that of the program itself for one call, out of as many as take a third of a second.
set -u
cd "$(dirname "$0")/.." || exit 1
program=crates/region_bench/out/region_bench
[ -x "$program" ] || { echo "no program: run 'rt run' in crates/region_bench first"; exit 1; }
folder=$(mktemp -d)
trap 'rm -rf "$folder"' EXIT
TIMEFORMAT=%U

# seconds WORK TIMES SHAPE N: the processor time of one run, with what it says in $folder/said
seconds() {
  python3 bench/graphs.py "$@" >"$folder/in" || exit 1
  { time "$program" <"$folder/in" >"$folder/said"; } 2>&1
}

# each WORK LEAST SHAPE N: the milliseconds of one call of WORK beyond those of LEAST, or beyond none of WORK where LEAST is -
each() {
  local work=$1 least=$2 times=1 took beyond
  shift 2
  while took=$(seconds "$work" "$times" "$@"); awk -v took="$took" -v times="$times" 'BEGIN { exit !(took < 0.33 && times < 100000) }'; do
    times=$((times * 4))
  done
  if [ "$least" = - ]; then beyond=$(seconds "$work" 0 "$@"); else beyond=$(seconds "$least" "$times" "$@"); fi
  seconds "$work" 1 "$@" >/dev/null
  awk -v took="$took" -v beyond="$beyond" -v times="$times" 'BEGIN { printf "%.3g", (took - beyond) * 1000 / times }'
}

echo "milliseconds of start and build: 100, 200, 400 blocks, and what the last one gives"
for shape in chain ladder diamonds selves rings fan dense sparse grid back entrances exits; do
  echo "$shape: $(each build - "$shape" 100), $(each build - "$shape" 200), $(each build - "$shape" 400); $(cat "$folder/said")"
done
echo "complete, 64, 128, 256 blocks: $(each build - complete 64), $(each build - complete 128), $(each build - complete 256); $(cat "$folder/said")"

echo "milliseconds of all: 2048, 4096, 8192 blocks"
for shape in chain ladder rings fan sparse grid back entrances; do
  echo "$shape: $(each all - "$shape" 2048), $(each all - "$shape" 4096), $(each all - "$shape" 8192); $(cat "$folder/said")"
done

echo "milliseconds of making the linked graph, and of reducing it: 400, 2048, 8192 blocks"
for shape in chain ladder rings fan sparse; do
  for blocks in 400 2048 8192; do
    echo "$shape, $blocks: $(each graph - "$shape" "$blocks"), $(each reduce graph "$shape" "$blocks"); $(cat "$folder/said")"
  done
done
