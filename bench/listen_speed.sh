#!/usr/bin/env bash
# `dabplan listen` on five files of 1,000,000 FIBs, each against md5sum, and against a plain loop that only checks the
# CRCs (count_fibs.c), on the same file in the same run: the best of twenty runs each, alternating. Each stream has a limit
# relative to md5sum; and at most 4 MB resident.
#   sample     the stream of another multiplexer, repeated
#   full       the pages of 64 sub-channels, 64 services and 64 packet components, one after another
#   sixteen    those of 30 services with SIds 16 apart
#   scattered  those of 60 services with scattered SIds
#   swaps      those of two alternating configurations of 30 services, with a swap every 300 frames
#   bench/listen_speed.sh [FOLDER of real_fic.fib]
. "$(dirname "$0")/common.sh"

program=$(release/make --program)
failed=0

# measure NAME FILE WANTED: the ratio in thousandths, and the memory
measure() {
  local name=$1 file=$2 wanted=$3 listen md5 beside loop ratio resident
  local hear=("$program" listen "$file") digest=(md5sum "$file") plain=("$work/count_fibs" "$file")
  read -r listen md5 < <(best_of_both 20 hear digest)
  read -r beside loop < <(best_of_both 20 hear plain)
  /usr/bin/time -f '%M' "$program" listen "$file" 2>"$work/resident" >/dev/null
  resident=$(tail -n 1 "$work/resident")
  ratio=$((listen * 1000 / md5))
  echo "listen $name: $((listen / 1000)) ms for 1,000,000 FIBs, md5sum $((md5 / 1000)) ms: $(thousandths "$ratio") times (at most $(thousandths "$wanted")), $resident KB resident"
  echo "listen $name: $(thousandths $((beside * 1000 / loop))) times a plain loop ($((loop / 1000)) ms)"
  if [ "$ratio" -gt "$wanted" ] || [ "$resident" -gt 4096 ]; then failed=1; fi
}

cc -O2 -o "$work/count_fibs" bench/count_fibs.c
stream "$work/stream" "$@"
measure sample "$work/stream" 1000
for kind in full:1000 sixteen:1000 scattered:1000 swaps:1500; do
  python3 bench/fib_streams.py "${kind%:*}" 1000000 "$work/stream"
  measure "${kind%:*}" "$work/stream" "${kind#*:}"
done
if [ "$failed" -ne 0 ]; then
  echo "listen: over what is wanted"
  exit 1
fi
